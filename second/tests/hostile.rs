//! The hostile sheets get exactly these answers from checker and normaliser.

use second::hostile::hostile;
use second::{check, normalise, Refusal};

/// A number, or a refusal and its place.
type Answer = Result<u64, (u32, u64)>;

const ANSWERS: [(&str, Answer, Answer); 54] = [
    ("box-of-2-to-64", Err((3, 8)), Err((3, 8))),
    ("box-of-2-to-48", Err((3, 8)), Err((3, 8))),
    ("box-of-4096", Ok(4096), Ok(152)),
    ("box-of-4097", Err((3, 8)), Err((3, 8))),
    ("boxes-of-4096", Ok(4096), Ok(280)),
    ("boxes-of-4097", Err((3, 56)), Err((3, 56))),
    ("box-of-8-to-the-4", Ok(4096), Ok(200)),
    ("reach-product-past-64-bits", Err((9, 0)), Err((9, 0))),
    ("reach-product-negative", Err((9, 0)), Err((9, 0))),
    ("coefficient-least", Err((5, 144)), Err((5, 144))),
    ("coefficient-past-2-to-40", Err((5, 144)), Err((5, 144))),
    ("reach-falls-again", Ok(1), Ok(176)),
    ("reach-full-then-limit", Ok(1), Ok(176)),
    ("reach-one-past", Err((9, 0)), Err((9, 0))),
    ("constraint-sum-past-64-bits", Err((9, 0)), Err((9, 0))),
    ("reverse-chain-of-4096-deep-bodies", Ok(4096), Ok(728)),
    ("doubled-chain-of-4000", Ok(4000), Ok(352)),
    ("cycle-of-4096", Ok(4096), Ok(296)),
    ("thousand-leaves", Ok(3600), Err((13, 0))),
    ("mapped-leaves", Ok(3700), Ok(56352)),
    ("nested-cases", Ok(4096), Err((13, 0))),
    ("nested-in-first", Ok(1024), Err((13, 0))),
    ("all-elements-of-input", Ok(4096), Ok(192)),
    ("body-32-deep", Ok(1), Err((13, 0))),
    ("body-33-deep", Err((7, 0)), Err((7, 0))),
    ("body-2000-deep", Err((7, 0)), Err((7, 0))),
    ("normal-form-32-deep", Ok(1), Ok(584)),
    ("normal-form-33-deep", Ok(1), Err((13, 0))),
    ("sheet-of-65536", Ok(1), Err((13, 0))),
    ("sheet-of-65537", Err((1, 0)), Err((1, 0))),
    ("sheet-of-65535", Err((2, 65528)), Err((2, 65528))),
    ("tail-up-to-65536", Err((6, 72)), Err((6, 72))),
    ("case-product-tower", Ok(2), Err((13, 1))),
    ("case-product-nested", Ok(2), Err((13, 1))),
    ("case-product-128", Ok(2), Err((13, 1))),
    ("case-product-many", Ok(2), Err((13, 1))),
    ("branches-64", Ok(2), Ok(7888)),
    ("branches-65", Ok(2), Err((13, 1))),
    ("branches-64-spliced", Ok(2), Ok(4304)),
    ("branches-65-spliced", Ok(2), Err((13, 1))),
    ("constraints-64", Ok(1), Ok(1216)),
    ("constraints-65", Ok(1), Err((13, 0))),
    ("constraints-64-nested", Ok(1), Ok(1160)),
    ("constraints-65-nested", Ok(1), Err((13, 0))),
    ("nodes-2048", Ok(1), Ok(38288)),
    ("nodes-2049", Ok(1), Err((13, 0))),
    ("bytes-65536", Ok(31), Ok(65536)),
    ("bytes-past-65536", Ok(31), Err((13, 30))),
    ("first-body-wide-at-second", Ok(2), Err((13, 1))),
    ("unreached-clash", Ok(1), Ok(296)),
    ("all-branches-hold", Err((11, 0)), Err((11, 0))),
    ("no-branch-holds", Err((10, 0)), Err((10, 0))),
    ("last-branch-holds", Ok(10), Err((13, 1))),
    ("stairs-below-deep-bodies", Ok(9), Err((13, 2))),
];

fn plain(answer: Result<u64, Refusal>) -> Answer {
    answer.map_err(|refusal| (refusal.number, refusal.place))
}

#[test]
fn hostile_sheets_get_their_answers() {
    let list = hostile();
    for (name, checked, normal) in ANSWERS {
        let case = list.iter().find(|case| case.name == name).expect(name);
        assert_eq!(plain(check(&case.sheet)), checked, "{name}");
        let mut out = vec![0; 65_536];
        assert_eq!(plain(normalise(&case.sheet, &mut out)), normal, "{name}");
    }
    assert_eq!(list.len(), ANSWERS.len());
}
