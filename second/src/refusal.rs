//! The fifteen refusals of document 01: their numbers, names and words.

/// A refusal: its number in document 01's table and its place.
#[derive(Clone, Copy, Debug, PartialEq, Eq)]
pub struct Refusal {
    pub number: u32,
    pub place: u64,
}

pub const LONG: u32 = 1;
pub const CUT: u32 = 2;
pub const COUNT: u32 = 3;
pub const NAME: u32 = 4;
pub const NUMBER: u32 = 5;
pub const TAIL: u32 = 6;
pub const SHAPE: u32 = 7;
pub const TYPE: u32 = 8;
pub const REACH: u32 = 9;
pub const GAP: u32 = 10;
pub const CLASH: u32 = 11;
pub const INPUT: u32 = 12;
pub const WIDE: u32 = 13;
pub const ROOM: u32 = 14;
pub const ASK: u32 = 15;

/// Name and meaning of each refusal, in the order of their numbers.
const TABLE: [(&str, &str); 15] = [
    ("LONG", "the sheet has over 65,536 bytes"),
    ("CUT", "fewer than 8 bytes remain for the field at this offset"),
    ("COUNT", "a count is off its limits, or the boxes hold too many points, at this offset"),
    ("NAME", "the name at this offset is ill formed or taken"),
    ("NUMBER", "the number at this offset is off its values"),
    ("TAIL", "bytes follow the last section from this offset"),
    ("SHAPE", "the nodes make no body of the right depth and dimension for this variable"),
    ("TYPE", "a type rule is broken in the body of this variable"),
    ("REACH", "a sum passes 2^40 at this variable"),
    ("GAP", "the body does not hold at this element"),
    ("CLASH", "a case has two branches that hold at this element"),
    ("INPUT", "the input list has not this length, or its entry here is no boolean"),
    ("WIDE", "the normal form passes a limit at this variable"),
    ("ROOM", "a lent output is shorter than this length"),
    ("ASK", "no such variable, or no such point of its box"),
];

impl Refusal {
    /// A refusal whose place is an offset, a number or a length in memory.
    pub fn at(number: u32, place: usize) -> Refusal {
        Refusal { number, place: place as u64 }
    }

    /// The refusal's name in document 01.
    pub fn name(&self) -> &'static str {
        self.entry().0
    }

    /// The refusal in words, on one line without its end.
    pub fn words(&self) -> String {
        let (name, meaning) = self.entry();
        format!("refused {} place {}: {}, {}", self.number, self.place, name, meaning)
    }

    fn entry(&self) -> (&'static str, &'static str) {
        let index = (self.number as usize).wrapping_sub(1);
        TABLE.get(index).copied().unwrap_or(("?", "no such refusal"))
    }
}
