//! The five calls over ALPHA sheets, safe: [`check`], [`run`], [`normalise`],
//! [`element`] and [`body`]. They are the static library's, linked by build.rs;
//! nothing is allocated, and 1 MiB of stack is enough. Assumes of the library
//! what include/okelizanshu.h says of it.

#![warn(missing_docs)]

use std::fmt;

mod linked {
    extern "C" {
        pub fn okelizanshu_check(sheet: *const u8, sheet_length: usize) -> u64;
        pub fn okelizanshu_run(
            sheet: *const u8,
            sheet_length: usize,
            inputs: *const i32,
            inputs_length: usize,
            codes: *mut u8,
            codes_length: usize,
            values: *mut i32,
            values_length: usize,
        ) -> u64;
        pub fn okelizanshu_normalise(
            sheet: *const u8,
            sheet_length: usize,
            out: *mut u8,
            out_length: usize,
        ) -> u64;
        pub fn okelizanshu_element(
            sheet: *const u8,
            sheet_length: usize,
            variable: u64,
            point: *const i64,
            point_length: usize,
        ) -> u64;
        pub fn okelizanshu_body(sheet: *const u8, sheet_length: usize, variable: u64) -> u64;
    }
}

/// Why a call refused, by document 01's numbers.
#[derive(Clone, Copy, Debug, PartialEq, Eq, Hash)]
#[repr(u32)]
pub enum Refusal {
    /// The sheet has over 65,536 bytes. The place is 0.
    Long = 1,
    /// Fewer than 8 bytes remain for a field. The place is its offset.
    Cut = 2,
    /// A count is off its limits, or the boxes hold over 4,096 points. The place is an offset.
    Count = 3,
    /// A name is ill formed or taken. The place is its offset.
    Name = 4,
    /// Any other number is off its values. The place is its offset.
    Number = 5,
    /// Bytes follow the last section. The place is their offset.
    Tail = 6,
    /// A body is no tree of its dimension and at most 32 deep, or nodes are left over. The place is a
    /// variable's number, or the number of variables.
    Shape = 7,
    /// A type rule is broken. The place is the variable's number.
    Type = 8,
    /// A bound passes 2^40. The place is the variable's number.
    Reach = 9,
    /// A body does not hold at an element. The place is the element's number.
    Gap = 10,
    /// Two branches of a case hold at an element. The place is the element's number.
    Clash = 11,
    /// The input list has the wrong length, and the place is the right one; or a boolean entry is not
    /// 0 or 1, and the place is its index.
    Input = 12,
    /// The normal form passes a limit. The place is the number of the variable where it does.
    Wide = 13,
    /// A lent output is too short. The place is the length needed.
    Room = 14,
    /// There is no such variable or no such point. The place is 0.
    Ask = 15,
}

const REFUSALS: [Refusal; 15] = [
    Refusal::Long,
    Refusal::Cut,
    Refusal::Count,
    Refusal::Name,
    Refusal::Number,
    Refusal::Tail,
    Refusal::Shape,
    Refusal::Type,
    Refusal::Reach,
    Refusal::Gap,
    Refusal::Clash,
    Refusal::Input,
    Refusal::Wide,
    Refusal::Room,
    Refusal::Ask,
];

/// What a call answers.
#[derive(Clone, Copy, Debug, PartialEq, Eq, Hash)]
pub enum Answer {
    /// An element total, a length written or an element's number.
    Accepted(u32),
    /// The refusal and its place.
    Refused(Refusal, u32),
}

impl Answer {
    /// The answer's number where it is accepted.
    pub fn accepted(self) -> Option<u32> {
        match self {
            Answer::Accepted(number) => Some(number),
            Answer::Refused(..) => None,
        }
    }

    fn unpack(packed: u64) -> Answer {
        let (upper, lower) = halves(packed);
        match upper {
            0 => Answer::Accepted(lower),
            number => Answer::Refused(REFUSALS[number as usize - 1], lower),
        }
    }
}

impl fmt::Display for Answer {
    fn fmt(&self, f: &mut fmt::Formatter) -> fmt::Result {
        match self {
            Answer::Accepted(number) => write!(f, "{number}"),
            Answer::Refused(why, place) => write!(f, "refused {} at {place}", *why as u32),
        }
    }
}

fn halves(packed: u64) -> (u32, u32) {
    ((packed >> 32) as u32, packed as u32)
}

/// Checks a sheet: its element total, or refusal 1 to 11.
pub fn check(sheet: &[u8]) -> Answer {
    // Safety: the pointer and the length are a slice's.
    Answer::unpack(unsafe { linked::okelizanshu_check(sheet.as_ptr(), sheet.len()) })
}

/// Runs a sheet over an input list: the element total, with so many entries of
/// both tables written; or refusal 1 to 11, Input or Room, with neither changed.
/// The codes are 0 outside, 1 a value, 2 divided by zero, 3 overflow, 4 a loop.
pub fn run(sheet: &[u8], inputs: &[i32], codes: &mut [u8], values: &mut [i32]) -> Answer {
    // Safety: each pointer and length are a slice's, and the two that are written are borrowed alone.
    Answer::unpack(unsafe {
        linked::okelizanshu_run(
            sheet.as_ptr(),
            sheet.len(),
            inputs.as_ptr(),
            inputs.len(),
            codes.as_mut_ptr(),
            codes.len(),
            values.as_mut_ptr(),
            values.len(),
        )
    })
}

/// Writes a sheet's normal form: its length, with so many bytes of `out`
/// written; or refusal 1 to 11, Wide or Room, with nothing changed.
pub fn normalise(sheet: &[u8], out: &mut [u8]) -> Answer {
    // Safety: each pointer and length are a slice's, and the one that is written is borrowed alone.
    Answer::unpack(unsafe {
        linked::okelizanshu_normalise(sheet.as_ptr(), sheet.len(), out.as_mut_ptr(), out.len())
    })
}

/// The number of a variable's element at a point; or refusal 1 to 11, or Ask.
pub fn element(sheet: &[u8], variable: u64, point: &[i64]) -> Answer {
    // Safety: each pointer and length are a slice's.
    Answer::unpack(unsafe {
        linked::okelizanshu_element(
            sheet.as_ptr(),
            sheet.len(),
            variable,
            point.as_ptr(),
            point.len(),
        )
    })
}

/// The bytes of the sheet that a variable's body occupies, with where they
/// start; empty, at 0, for an input, an unknown variable or a refused sheet.
pub fn body(sheet: &[u8], variable: u64) -> (usize, &[u8]) {
    // Safety: the pointer and the length are a slice's.
    let packed = unsafe { linked::okelizanshu_body(sheet.as_ptr(), sheet.len(), variable) };
    let (start, length) = halves(packed);
    let (start, length) = (start as usize, length as usize);
    (start, &sheet[start..start + length])
}
