//! Document 01 once more: sheets decoded to owned trees and calculated in
//! exact wide integers. Written from the document alone, to be compared with
//! another program answer by answer.

#![forbid(unsafe_code)]

pub mod affine;
pub mod ask;
pub mod build;
pub mod check;
pub mod domain;
pub mod eval;
pub mod examples;
pub mod field;
pub mod hostile;
pub mod list;
pub mod make;
pub mod near;
pub mod normal;
pub mod program;
pub mod reach;
pub mod read;
pub mod refusal;
pub mod rng;
pub mod run;
pub mod tree;
pub mod types;
pub mod world;

pub use ask::{body, element};
pub use check::check;
pub use hostile::hostile;
pub use list::list;
pub use make::{cases, small_cases, Case};
pub use normal::normalise;
pub use program::program;
pub use refusal::Refusal;
pub use run::run;
