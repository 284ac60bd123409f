//! Why a sheet is refused, by the refusal's number.

use std::fmt;

#[derive(Clone, Copy, PartialEq, Eq, Debug)]
pub enum Refusal {
    ImageLockBits = 2,
    ImageCounter = 3,
    RowTooLong = 4,
    NoSuchTag = 5,
    SheetTooLong = 12,
    LineTooLong = 13,
    UnknownWord = 14,
    FieldCount = 15,
    FieldForm = 16,
    TagAfterCall = 17,
    NoSuchPage = 18,
}

impl fmt::Display for Refusal {
    fn fmt(&self, f: &mut fmt::Formatter) -> fmt::Result {
        f.write_str(match self {
            Refusal::ImageLockBits => "lock bits that no new tag has",
            Refusal::ImageCounter => "a counter above its end",
            Refusal::RowTooLong => "more than 32 tags in a row",
            Refusal::NoSuchTag => "no such tag",
            Refusal::SheetTooLong => "a sheet of more than 65536 bytes",
            Refusal::LineTooLong => "no line end among 80 bytes",
            Refusal::UnknownWord => "unknown word",
            Refusal::FieldCount => "wrong number of fields",
            Refusal::FieldForm => "a field that is not written as its place asks",
            Refusal::TagAfterCall => "a tag or page line after a call",
            Refusal::NoSuchPage => "no such tag or page",
        })
    }
}

/// The line that a run stopped at, 0 for the sheet as a whole, and why.
#[derive(Clone, Copy, PartialEq, Eq, Debug)]
pub struct Stop {
    pub line: usize,
    pub why: Refusal,
}
