/* Checks, runs and normalises the running sum from its sheet file and prints the answers.
 * Usage: main SHEET, as main examples/01-running-sum.sheet. Assumes an input list of the three values 5, -2 and 4. */
#include <inttypes.h>
#include <stdio.h>

#include "okelizanshu.h"

#define MOST_BYTES 65536
#define MOST_ELEMENTS 4096

static uint8_t sheet[MOST_BYTES + 1];
static uint8_t normal[MOST_BYTES];
static uint8_t codes[MOST_ELEMENTS];
static int32_t values[MOST_ELEMENTS];

/* Prints an answer after its call's name; 1 where it is accepted. */
static int accepted(const char *call, uint64_t answer)
{
    uint32_t number = OKELIZANSHU_UPPER(answer);
    uint32_t rest = OKELIZANSHU_LOWER(answer);
    if (number != OKELIZANSHU_ACCEPTED) {
        printf("%s: refused %" PRIu32 " at %" PRIu32 "\n", call, number, rest);
        return 0;
    }
    printf("%s: %" PRIu32 "\n", call, rest);
    return 1;
}

int main(int count, char **words)
{
    const int32_t inputs[3] = {5, -2, 4};
    const int64_t point[1] = {3};
    if (count != 2) {
        fprintf(stderr, "usage: main SHEET\n");
        return 2;
    }
    FILE *file = fopen(words[1], "rb");
    if (file == NULL) {
        perror(words[1]);
        return 2;
    }
    size_t length = fread(sheet, 1, sizeof sheet, file);
    fclose(file);

    if (!accepted("check", okelizanshu_check(sheet, length))) {
        return 1;
    }
    uint64_t ran = okelizanshu_run(sheet, length, inputs, 3, codes, MOST_ELEMENTS, values, MOST_ELEMENTS);
    if (!accepted("run", ran)) {
        return 1;
    }
    for (uint32_t e = 0; e < OKELIZANSHU_LOWER(ran); e++) {
        printf("  element %" PRIu32 ": code %u value %" PRId32 "\n", e, (unsigned)codes[e], values[e]);
    }
    if (!accepted("element", okelizanshu_element(sheet, length, 1, point, 1))) {
        return 1;
    }
    uint64_t body = okelizanshu_body(sheet, length, 1);
    printf("body: %" PRIu32 " bytes from %" PRIu32 "\n", OKELIZANSHU_LOWER(body), OKELIZANSHU_UPPER(body));
    uint64_t written = okelizanshu_normalise(sheet, length, normal, MOST_BYTES);
    if (!accepted("normalise", written)) {
        return 1;
    }
    accepted("check of the normal form", okelizanshu_check(normal, OKELIZANSHU_LOWER(written)));
    return 0;
}
