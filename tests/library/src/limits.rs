//! The normal form's limits, each at the limit and one past it, by the names
//! of the second program's hostile sheets.

use okelizanshu::{Answer, Refusal};
use second::Case;

const AT: [&str; 7] = [
    "branches-64",
    "branches-64-spliced",
    "constraints-64",
    "constraints-64-nested",
    "normal-form-32-deep",
    "nodes-2048",
    "bytes-65536",
];

const PAST: [&str; 7] = [
    "branches-65",
    "branches-65-spliced",
    "constraints-65",
    "constraints-65-nested",
    "normal-form-33-deep",
    "nodes-2049",
    "bytes-past-65536",
];

fn normalised(list: &[Case], name: &str) -> Answer {
    let case = list.iter().find(|c| c.name == name).expect(name);
    assert!(okelizanshu::check(&case.sheet).accepted().is_some(), "{name} is not accepted");
    okelizanshu::normalise(&case.sheet, &mut vec![0; 65_536])
}

/// What is not as it should be at the limits.
pub fn wrong(hostile: &[Case]) -> Vec<String> {
    let mut list = Vec::new();
    for name in AT {
        let answer = normalised(hostile, name);
        if answer.accepted().is_none()
            || name == "bytes-65536" && answer != Answer::Accepted(65_536)
        {
            list.push(format!("{name}: {answer}"));
        }
    }
    for name in PAST {
        let answer = normalised(hostile, name);
        if !matches!(answer, Answer::Refused(Refusal::Wide, _)) {
            list.push(format!("{name}: {answer}"));
        }
    }
    list
}
