//! Why a call or an order was refused.

use core::error::Error;
use core::fmt;

/// A code of the library other than 0, with its number.
#[derive(Debug, Clone, Copy, PartialEq, Eq, Hash)]
#[repr(u64)]
pub enum Refusal {
    OutOfRange = 1,
    NoZeroth = 2,
    TooFew = 3,
    Full = 4,
    Malformed = 5,
    WrongSize = 6,
    NotSound = 7,
    ShortOutput = 8,
    PartOrder = 9,
    TooLong = 10,
    LeafLacks = 11,
}

impl Refusal {
    /// Each of them, by number.
    pub const ALL: [Refusal; 11] = [
        Refusal::OutOfRange,
        Refusal::NoZeroth,
        Refusal::TooFew,
        Refusal::Full,
        Refusal::Malformed,
        Refusal::WrongSize,
        Refusal::NotSound,
        Refusal::ShortOutput,
        Refusal::PartOrder,
        Refusal::TooLong,
        Refusal::LeafLacks,
    ];

    /// Its number, 1 to 11.
    pub const fn number(self) -> u64 {
        self as u64
    }

    /// The refusal of a number; none for 0 and for numbers above 11.
    pub fn of(number: u64) -> Option<Refusal> {
        Refusal::ALL.into_iter().find(|refusal| refusal.number() == number)
    }

    /// What it means, in plain words.
    pub const fn text(self) -> &'static str {
        match self {
            Refusal::OutOfRange => "the index or the end is past the last mark",
            Refusal::NoZeroth => "select counts from 1, and k is 0",
            Refusal::TooFew => "there are fewer than k such marks",
            Refusal::Full => "the pool has no room: nothing was put in, and nothing was dropped",
            Refusal::Malformed => "no order has this number, or its second or third word is not one that it takes",
            Refusal::WrongSize => "the pool is not 6 (N + 1) words with N from 1 to 1,023",
            Refusal::NotSound => "the pool is not well-formed",
            Refusal::ShortOutput => "the output has too few words",
            Refusal::PartOrder => "the orders are not a multiple of three words",
            Refusal::TooLong => "the words given hold fewer marks than the length says",
            Refusal::LeafLacks => "the leaf that select led to lacks the mark, which no call and no order tells",
        }
    }
}

impl fmt::Display for Refusal {
    fn fmt(&self, out: &mut fmt::Formatter<'_>) -> fmt::Result {
        write!(out, "{} ({})", self.text(), self.number())
    }
}

impl Error for Refusal {}
