//! The refusals of 01: a number, a place, and for number 11 a flag.

pub const SHORT: u8 = 1;
pub const KIND: u8 = 2;
pub const LENGTH: u8 = 3;
pub const COUNT: u8 = 4;
pub const MANY: u8 = 5;
pub const SEGMENT: u8 = 6;
pub const SPAN: u8 = 7;
pub const ORDER: u8 = 8;
pub const DEPTH: u8 = 9;
pub const TRAILING: u8 = 10;
pub const COVER: u8 = 11;
pub const ELEMENT: u8 = 12;
pub const BEFORE: u8 = 13;
pub const FAR: u8 = 14;
pub const WINDOW: u8 = 15;
pub const FOREIGN: u8 = 16;
pub const BUFFER: u8 = 17;
pub const ROOM: u8 = 18;

pub const NO_FLAG: u8 = 0;
pub const HOLE: u8 = 1;
pub const OVERLAP: u8 = 2;

/// The word of each flag, as a listing has it.
pub const FLAGS: [&str; 3] = ["", " hole", " overlap"];

/// What stands in 01's table under each number; number 0 is an accepted call.
pub const NAMES: [&str; 19] = [
    "accepted",
    "SHORT",
    "KIND",
    "LENGTH",
    "COUNT",
    "MANY",
    "SEGMENT",
    "SPAN",
    "ORDER",
    "DEPTH",
    "TRAILING",
    "HOLE or OVERLAP",
    "ELEMENT",
    "BEFORE",
    "FAR",
    "WINDOW",
    "FOREIGN",
    "BUFFER",
    "ROOM",
];

#[derive(Clone, Copy, Debug, PartialEq, Eq)]
pub struct Refusal {
    pub number: u8,
    pub place: u64,
    pub flag: u8,
}

impl Refusal {
    /// A refusal without a flag: of 1 to 10 at a place of the sheet, of 12 to 18 at the place that 01's table gives.
    pub fn at(number: u8, place: usize) -> Refusal {
        Refusal { number, place: place as u64, flag: NO_FLAG }
    }
}
