//! Changes by fields of eight bytes, since a change of single bytes seldom
//! leaves a sheet; every third time the fuzzer's own.

use second::rng::Rng;

const FIELD: usize = 8;

extern "C" {
    fn LLVMFuzzerMutate(data: *mut u8, size: usize, most: usize) -> usize;
}

/// A number as sheets have them: mostly small, now and then at an edge.
fn field(rng: &mut Rng) -> [u8; FIELD] {
    let edges = [i64::MAX, i64::MIN, 1 << 40, -(1 << 40), 1 << 31, 32768, -32768, 4096, 65536];
    let number = match rng.below(10) {
        0 => edges[rng.below(edges.len())],
        1 => rng.range(-70, 70),
        2 => rng.bits() as i64,
        _ => rng.range(-2, 9),
    };
    number.to_le_bytes()
}

/// One change: a field set, copied over another, taken out or put in, or a
/// stretch of fields doubled.
fn change(rng: &mut Rng, sheet: &mut Vec<u8>, most: usize) {
    let fields = sheet.len() / FIELD;
    let at = FIELD * rng.below(fields);
    let other = FIELD * rng.below(fields);
    let one = field(rng);
    match rng.below(6) {
        _ if fields == 0 => sheet.extend(one),
        0 | 1 => sheet[at..at + FIELD].copy_from_slice(&one),
        2 => sheet.copy_within(other..other + FIELD, at),
        3 => drop(sheet.drain(at..at + FIELD)),
        4 => drop(sheet.splice(at..at, one)),
        _ => {
            let end = (at + FIELD * (1 + rng.below(12))).min(FIELD * fields);
            let part = sheet[at..end].to_vec();
            drop(sheet.splice(other..other, part));
        }
    }
    sheet.truncate(most);
}

/// # Safety
/// `data` is the start of `most` bytes, of which `size` are the input.
#[no_mangle]
pub unsafe extern "C" fn LLVMFuzzerCustomMutator(
    data: *mut u8,
    size: usize,
    most: usize,
    seed: u32,
) -> usize {
    let mut rng = Rng::new(u64::from(seed));
    if rng.below(3) == 0 {
        return LLVMFuzzerMutate(data, size, most);
    }
    let mut sheet = std::slice::from_raw_parts(data, size).to_vec();
    for _ in 0..1 + rng.below(3) {
        change(&mut rng, &mut sheet, most);
    }
    std::ptr::copy_nonoverlapping(sheet.as_ptr(), data, sheet.len());
    sheet.len()
}
