//! Holds the definitions of crate alpha against the second program: writes crates of theorems, one for each generated case, that say
//! that every call's definition answers what the second program answers. `rt all check` then has to prove them by computing.
//!
//! definitions SEED COUNT CRATES DIR: COUNT small cases in CRATES crates below DIR/crates, and DIR/crates.txt. Prints how often each
//! refusal and each outcome occurs, and fails where a refusal 1 to 15 or an outcome 0 to 4 is missing.

use second::make::{small_cases, Case};
use second::Refusal;
use std::collections::BTreeMap;
use std::fmt::Write;
use std::{env, fs, path::Path, process};

const COMPARE: &str = include_str!("../Compare.antt.in");

/// What the second program answers to a case.
struct Answers {
    check: Result<u64, Refusal>,
    run: Result<(Vec<u8>, Vec<i32>), Refusal>,
    normal: Result<Vec<u8>, Refusal>,
    element: Result<u64, Refusal>,
    body: (usize, usize),
    printed: Vec<u8>,
}

fn answers(case: &Case) -> Answers {
    let mut codes = vec![0; case.codes];
    let mut values = vec![0; case.values];
    let mut out = vec![0; case.out];
    let ran = second::run(&case.sheet, &case.inputs, &mut codes, &mut values);
    let written = second::normalise(&case.sheet, &mut out);
    Answers {
        check: second::check(&case.sheet),
        run: ran.map(|total| {
            let n = total as usize;
            (codes[..n].to_vec(), values[..n].to_vec())
        }),
        normal: written.map(|length| out[..length as usize].to_vec()),
        element: second::element(&case.sheet, case.variable, &case.point),
        body: second::body(&case.sheet, case.body),
        printed: second::program(&case.stdin),
    }
}

/// A list of antt from its entries.
fn list<T>(entries: &[T], one: impl Fn(&T) -> String) -> String {
    let mut text = String::from("(");
    for entry in entries {
        let _ = write!(text, "{} ∷ ", one(entry));
    }
    text + "[])"
}

fn whole(x: i64) -> String {
    if x < 0 {
        format!("negsuc {}", -(x as i128) - 1)
    } else {
        format!("pos {x}")
    }
}

/// Bytes as numbers of eight bytes each, then what is left.
fn spelt(bytes: &[u8]) -> String {
    let chunks = bytes.chunks_exact(8);
    let tail = list(chunks.remainder(), |b| b.to_string());
    let words: Vec<u64> = chunks.map(|c| u64::from_le_bytes(c.try_into().unwrap())).collect();
    format!("(spelt {} {tail})", list(&words, |w| w.to_string()))
}

fn answer<T>(answer: &Result<T, Refusal>, one: impl Fn(&T) -> String) -> String {
    match answer {
        Ok(value) => format!("accepted {}", one(value)),
        Err(refusal) => format!("refused {} {}", refusal.number, refusal.place),
    }
}

fn tables(tables: &(Vec<u8>, Vec<i32>)) -> String {
    let codes = list(&tables.0, |c| c.to_string());
    let values = list(&tables.1, |&v| whole(v as i64));
    format!("(record {{ codes = {codes}; values = {values} }})")
}

fn text(bytes: &[u8]) -> String {
    String::from_utf8_lossy(bytes).replace('\n', "\\n")
}

/// Whether every call of a case is compared, and not only the program and the normaliser: of each sixth, and where a refusal is meant
/// that these two cannot give.
fn all_calls(index: usize, case: &Case) -> bool {
    index % 6 == 0 || case.name == "near-room" || case.name == "near-ask"
}

/// The theorem of one case.
fn theorem(index: usize, case: &Case, answers: &Answers) -> String {
    let fields = [
        ("all", all_calls(index, case).to_string()),
        ("sheet", spelt(&case.sheet)),
        ("ins", list(&case.inputs, |&x| whole(x as i64))),
        ("codes", case.codes.to_string()),
        ("values", case.values.to_string()),
        ("out", case.out.to_string()),
        ("variable", case.variable.to_string()),
        ("point", list(&case.point, |&x| whole(x))),
        ("body", case.body.to_string()),
        ("stdin", spelt(&case.stdin)),
        ("checked", answer(&answers.check, u64::to_string)),
        ("ran", answer(&answers.run, tables)),
        ("normal", answer(&answers.normal, |bytes| spelt(bytes))),
        ("element", answer(&answers.element, u64::to_string)),
        ("part", format!("record {{ start = {}; len = {} }}", answers.body.0, answers.body.1)),
        ("printed", format!("\"{}\"", text(&answers.printed))),
    ];
    let fields: Vec<String> = fields.iter().map(|(name, value)| format!("    {name} = {value}")).collect();
    format!(
        "-- {}\ncase-{index} : Case\ncase-{index} = record {{\n{} }}\n\nagrees-{index} : differing case-{index} ≡ []\nunfolding differing case-{index}\nagrees-{index} = refl\n\n",
        case.name,
        fields.join(";\n")
    )
}

/// The file of a crate's theorems.
fn theorems(name: &str, cases: &[(usize, &Case, Answers)]) -> String {
    let mut file = format!(
        "-- Generated cases: what the second program answers is what the definitions answer.\n-- Assumes nothing.\n\
         use Rattle.std.specs.Prelude.{{◌≡◌, refl, true, false, [], ◌∷◌, pos, negsuc}}\n\
         use Rattle.alpha.specs.Answer.{{accepted, refused}}\nuse Rattle.{name}.specs.Compare.{{Case, spelt, differing}}\n\n"
    );
    for (index, case, answers) in cases {
        file += &theorem(*index, case, answers);
    }
    file
}

fn write(path: &Path, text: &str) {
    fs::create_dir_all(path.parent().unwrap()).unwrap();
    fs::write(path, text).unwrap();
}

/// One crate: the comparison and its theorems, with no function of its own.
fn write_crate(dir: &Path, name: &str, cases: &[(usize, &Case, Answers)]) {
    let root = dir.join("crates").join(name);
    write(&root.join("src/lib.rt"), "// Theorems only: specs/.\n#![tactic(auto)]\n");
    write(&root.join("specs/Lib.antt"), "-- The comparison, and its cases.\npub mod Compare\npub mod Cases\n");
    write(&root.join("specs/Compare.antt"), COMPARE);
    write(&root.join("specs/Cases.antt"), &theorems(name, cases));
}

/// Counts the refusals of every call and the outcomes of every run, and says what is missing.
fn covered(all: &[(usize, &Case, Answers)]) -> bool {
    let mut refusals: BTreeMap<u32, usize> = (1..=15).map(|n| (n, 0)).collect();
    let mut outcomes: BTreeMap<u8, usize> = (0..=4).map(|n| (n, 0)).collect();
    for (_, _, answers) in all {
        let mut seen: Vec<u32> = Vec::new();
        seen.extend(answers.check.as_ref().err().map(|r| r.number));
        seen.extend(answers.run.as_ref().err().map(|r| r.number));
        seen.extend(answers.normal.as_ref().err().map(|r| r.number));
        seen.extend(answers.element.as_ref().err().map(|r| r.number));
        if answers.printed.starts_with(b"refused 1 ") {
            seen.push(1);
        }
        seen.sort_unstable();
        seen.dedup();
        for number in seen {
            *refusals.entry(number).or_default() += 1;
        }
        for code in answers.run.iter().flat_map(|tables| &tables.0) {
            *outcomes.entry(*code).or_default() += 1;
        }
    }
    println!("definitions: cases with each refusal {refusals:?}");
    println!("definitions: elements with each outcome {outcomes:?}");
    refusals.values().chain(outcomes.values()).all(|&n| n > 0)
}

fn main() {
    let args: Vec<String> = env::args().collect();
    if args.len() != 5 {
        eprintln!("usage: definitions SEED COUNT CRATES DIR");
        process::exit(2);
    }
    let (seed, count): (u64, usize) = (args[1].parse().unwrap(), args[2].parse().unwrap());
    let (crates, dir): (usize, &Path) = (args[3].parse().unwrap(), Path::new(&args[4]));
    let cases = small_cases(seed, count);
    let mut all: Vec<_> = cases.iter().enumerate().map(|(i, case)| (i, case, answers(case))).collect();
    println!("definitions: seed {seed}, {count} cases in {crates} crates");
    let complete = covered(&all);
    let mut lines = String::from("alpha:\n");
    for k in 0..crates {
        let name = format!("compared{k}");
        let share = count * (k + 1) / crates - count * k / crates;
        let rest = all.split_off(share.min(all.len()));
        write_crate(dir, &name, &all);
        all = rest;
        lines += &format!("{name}: alpha\n");
    }
    write(&dir.join("crates.txt"), &lines);
    if !complete {
        println!("definitions: a refusal or an outcome does not occur");
        process::exit(1);
    }
}
