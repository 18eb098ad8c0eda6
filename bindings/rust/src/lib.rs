//! The keyboard seat, called from Rust: key events become bytes of the kitty keyboard protocol, or frames.
//!
//! The work is done by the library that is proved in this repository (docs/BINDING.md). What is here only hands
//! numbers and slices to it.

mod events;
mod numbered;
pub mod raw;
mod reading;
mod seats;

pub use events::{Event, Key, Leds, Modifiers, RawEvent};
pub use numbered::{Named, Place};
pub use reading::{read, Report, Request, Requests, Sequence};
pub use seats::{encode, PageSeat, Seat};

use std::fmt;

#[repr(u32)]
#[derive(Clone, Copy, Debug, PartialEq, Eq)]
pub enum Layout {
    Us = 0,
    Bare = 1,
}

#[repr(u32)]
#[derive(Clone, Copy, Debug, PartialEq, Eq)]
pub enum Dialect {
    Kitty = 0,
    Frames = 1,
}

/// A refusal: its number, and the place of the fault in the bytes given, 0 where there is none.
#[derive(Clone, Copy, Debug, PartialEq, Eq)]
pub struct Error {
    pub number: usize,
    pub place: usize,
}

impl fmt::Display for Error {
    fn fmt(&self, f: &mut fmt::Formatter<'_>) -> fmt::Result {
        let meaning = match self.number {
            1 => "not UTF-8",
            5 => "a character that stands for another key",
            6 => "a key number out of range, or a bit without a name",
            7 => "more than 32 characters",
            8 => "a report longer than what is free",
            9 => "settings above 31",
            10 => "a count of zero, an unknown mode, or a screen above 1",
            11 => "the bytes only begin a report",
            12 => "no report, or no request, goes on so",
            13 => "no room for the text",
            25 => "no state of a seat",
            26 => "a number that stands for nothing",
            _ => "refused",
        };
        write!(f, "refused {} at {}, {meaning}", self.number, self.place)
    }
}

impl std::error::Error for Error {}

impl raw::Answer {
    pub(crate) fn counted(self) -> Result<usize, Error> {
        match self.refusal {
            0 => Ok(self.value),
            number => Err(Error {
                number,
                place: self.value,
            }),
        }
    }
}
