//! The refusals.

use core::error::Error;
use core::fmt;

/// Why a call was refused; each has its number, [`Refusal::number`].
#[derive(Clone, Copy, Debug, PartialEq, Eq, Hash)]
#[repr(u8)]
#[non_exhaustive]
pub enum Refusal {
    /// 1: the text has more than [`TEXT_MAX`](crate::TEXT_MAX) bytes.
    TextTooLong = 1,
    /// 2: the text is not UTF-8.
    TextNotUtf8 = 2,
    /// 3: no `[` stands at the position, or the position is past the end.
    NoBracket = 3,
    /// 4: the bracket is escaped: an odd run of backslashes stands just before it.
    BracketEscaped = 4,
    /// 5: there is no group at this bracket.
    NoGroup = 5,
    /// 6: the mode is not 0 or 1.
    BadMode = 6,
    /// 7: the pool breaks its layout.
    BadPool = 7,
    /// 8: the pool has no entry of this number, or there is no pool.
    NoEntry = 8,
    /// 9: index or bracket records are fewer than the text's bytes.
    IndexTooShort = 9,
    /// 10: the answer is longer than its area, or the labels have more than [`LABELS_MAX`](crate::LABELS_MAX) bytes.
    AreaTooShort = 10,
}

// The number of an answer that is no refusal.
const ACCEPTED: u32 = 0;

impl Refusal {
    /// All of them, in the order of their numbers, which need not follow each other without a gap.
    pub const ALL: &'static [Refusal] = &[
        Refusal::TextTooLong,
        Refusal::TextNotUtf8,
        Refusal::NoBracket,
        Refusal::BracketEscaped,
        Refusal::NoGroup,
        Refusal::BadMode,
        Refusal::BadPool,
        Refusal::NoEntry,
        Refusal::IndexTooShort,
        Refusal::AreaTooShort,
    ];

    /// The number, from 1.
    pub fn number(self) -> u8 {
        self as u8
    }

    /// The refusal of a number; none for 0, which is accepted.
    ///
    /// # Panics
    ///
    /// Where the number is no other one that the library answers. An answer that was not given
    /// ([`NO_ANSWER`](crate::raw::NO_ANSWER)) is none either.
    pub(crate) fn of(number: u32) -> Option<Refusal> {
        if number == ACCEPTED {
            return None;
        }
        let refusal = Self::ALL.iter().find(|refusal| u32::from(refusal.number()) == number);
        Some(*refusal.unwrap_or_else(|| panic!("no number of an answer: {number}")))
    }
}

impl fmt::Display for Refusal {
    fn fmt(&self, f: &mut fmt::Formatter<'_>) -> fmt::Result {
        f.write_str(match self {
            Refusal::TextTooLong => "the text has more than 65,535 bytes",
            Refusal::TextNotUtf8 => "the text is not UTF-8",
            Refusal::NoBracket => "no opening bracket stands at the position",
            Refusal::BracketEscaped => "the bracket is escaped",
            Refusal::NoGroup => "there is no group at this bracket",
            Refusal::BadMode => "the mode is not 0 or 1",
            Refusal::BadPool => "the pool breaks its layout",
            Refusal::NoEntry => "the pool has no entry of this number, or there is no pool",
            Refusal::IndexTooShort => "the index or the bracket records are fewer than the text's bytes",
            Refusal::AreaTooShort => "the answer is longer than its area, or the labels have more than 65,535 bytes",
        })
    }
}

impl Error for Refusal {}

/// A refused look-up or annotation: why, and the note for the next call on the text.
#[derive(Clone, Copy, Debug, PartialEq, Eq, Hash)]
pub struct Refused {
    /// Why.
    pub refusal: Refusal,
    /// The note that was given, or [`BUILT`](crate::BUILT) where an index was built on the way.
    pub note: u8,
}

impl fmt::Display for Refused {
    fn fmt(&self, f: &mut fmt::Formatter<'_>) -> fmt::Result {
        self.refusal.fmt(f)
    }
}

impl Error for Refused {}

impl From<Refused> for Refusal {
    fn from(refused: Refused) -> Refusal {
        refused.refusal
    }
}
