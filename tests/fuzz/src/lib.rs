//! What libFuzzer calls: each input is a sheet, all five calls are held
//! against the second program on it, and whatever differs ends the process. The
//! questions beside the sheet are drawn from a number made of its bytes, so
//! that an input alone says what was asked.

#[path = "../../library/src/compare.rs"]
mod compare;
#[path = "../../library/src/lent.rs"]
mod lent;
mod mutate;

use compare::Tally;
use second::rng::Rng;
use second::Case;

/// FNV-1a.
fn number(bytes: &[u8]) -> u64 {
    bytes
        .iter()
        .fold(0xcbf2_9ce4_8422_2325, |h, b| (h ^ u64::from(*b)).wrapping_mul(0x100_0000_01b3))
}

/// Input lists that fit the sheet most times.
fn inputs(rng: &mut Rng, sheet: &[u8]) -> Vec<i32> {
    let needed = second::check::accept(sheet).map_or(3, |a| second::run::inputs_needed(&a));
    let count = if rng.chance(95) { needed } else { rng.below(2 * needed + 2) };
    let small = rng.chance(50);
    (0..count).map(|_| if small { rng.below(2) as i32 } else { rng.bits() as i32 }).collect()
}

fn question(sheet: &[u8]) -> Case {
    let mut rng = Rng::new(number(sheet));
    let inputs = inputs(&mut rng, sheet);
    let dimension = rng.below(6);
    Case {
        name: String::new(),
        sheet: sheet.to_vec(),
        inputs,
        codes: rng.below(64),
        values: rng.below(64),
        out: rng.below(2048),
        variable: rng.below(33) as u64,
        point: (0..dimension).map(|_| rng.range(-4, 9)).collect(),
        body: rng.below(33) as u64,
        stdin: Vec::new(),
    }
}

/// # Safety
/// `data` is the start of `size` bytes.
#[no_mangle]
pub unsafe extern "C" fn LLVMFuzzerTestOneInput(data: *const u8, size: usize) -> i32 {
    let sheet = if size == 0 { &[] } else { std::slice::from_raw_parts(data, size) };
    let mut tally = Tally::default();
    tally.case(&question(sheet));
    for line in &tally.wrong {
        eprintln!("fuzz: {line}");
    }
    assert!(tally.wrong.is_empty(), "an answer differs");
    0
}
