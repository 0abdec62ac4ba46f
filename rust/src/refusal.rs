//! Why a call was refused.

use std::error::Error;
use std::fmt;

/// A refusal: the number the library gave, with the sentence that belongs to it.
///
/// A refused call has changed nothing.
#[derive(Clone, Copy, Debug, PartialEq, Eq, Hash)]
pub struct Refusal {
    number: u32,
}

const SENTENCES: [(u32, &str); 18] = [
    (
        1,
        "the record is none that a start could give, or its rows done exceed the rows due",
    ),
    (2, "a frame side lies outside 1 to 4096"),
    (
        3,
        "the sheet's length is not its height times the bytes of a row",
    ),
    (
        4,
        "the element's side is not 1, 3, 5 or 7, or its length is not the side squared",
    ),
    (5, "an element byte is above 1"),
    (6, "the element's centre is 0"),
    (7, "the element's centre is its only point"),
    (
        8,
        "a size, a cap or a size of a map lies outside its range, or a level is above the maximum",
    ),
    (9, "a canvas side exceeds 4096"),
    (
        10,
        "the length of the levels, of a map or of a work buffer is wrong",
    ),
    (
        11,
        "the length of an output or a table is wrong, or there is too little room for what is written",
    ),
    (12, "the allowance exceeds 8192"),
    (13, "a picture was asked of a run with rows still due"),
    (14, "a spectrum was asked of a sheet without foreground"),
    (21, "the file doesn't begin with P4"),
    (22, "the file's header is broken"),
    (23, "the file's raster is short"),
    (24, "the file has bytes after the raster"),
];

impl Refusal {
    /// The number, as `docs/RULES.md` lists it.
    #[must_use]
    pub fn number(self) -> u32 {
        self.number
    }

    /// The sentence that belongs to the number.
    #[must_use]
    pub fn sentence(self) -> &'static str {
        SENTENCES
            .iter()
            .find(|(number, _)| *number == self.number)
            .map_or("a refusal this crate doesn't know", |(_, sentence)| {
                sentence
            })
    }

    /// 0 is acceptance; every other number is a refusal.
    pub(crate) fn check(number: u32) -> Result<(), Refusal> {
        match number {
            0 => Ok(()),
            number => Err(Refusal { number }),
        }
    }
}

impl fmt::Display for Refusal {
    fn fmt(&self, formatter: &mut fmt::Formatter<'_>) -> fmt::Result {
        write!(formatter, "refused {}: {}", self.number, self.sentence())
    }
}

impl Error for Refusal {}
