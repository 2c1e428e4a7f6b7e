//! The numbers that come back.

use core::fmt;

/// Why a call was refused. A refusal writes nothing and changes nothing. The numbers are 01's, and that
/// of [`Ledger`](Refusal::Ledger) is 02's.
#[derive(Clone, Copy, Debug, PartialEq, Eq, Hash)]
#[repr(u8)]
pub enum Refusal {
    /// An event's output is under [`OUT`](crate::OUT) bytes. No function here answers it, since an
    /// [`Output`](crate::Output) has as many.
    Room = 1,
    /// A byte came while a SET_CONFIG waits or runs.
    Stall = 2,
    /// A radio outcome came that doesn't fit what the radio does.
    Place = 3,
    /// The destination is too small.
    Short = 4,
    /// The source is no COBS encoding.
    Stuff = 5,
    /// The source is too long, or a body is outside 5 to 280 bytes.
    Length = 6,
    /// The check value differs.
    Check = 7,
    /// The tag is zero and must not be, or the other way round.
    Tag = 8,
    /// The message is of another type.
    Type = 9,
    /// The payload is not of that message's layout or values.
    Form = 10,
    /// All lines of the ledger are open.
    Ledger = 11,
}

impl Refusal {
    /// All refusals, in the order of their numbers.
    pub const ALL: [Refusal; 11] = [
        Refusal::Room,
        Refusal::Stall,
        Refusal::Place,
        Refusal::Short,
        Refusal::Stuff,
        Refusal::Length,
        Refusal::Check,
        Refusal::Tag,
        Refusal::Type,
        Refusal::Form,
        Refusal::Ledger,
    ];

    /// Its number, 1 to 11.
    #[must_use]
    pub const fn number(self) -> u8 {
        self as u8
    }

    /// The refusal with this number, if there is one.
    #[must_use]
    pub fn from_number(number: u8) -> Option<Refusal> {
        let index = usize::from(number).checked_sub(1)?;
        Refusal::ALL.get(index).copied()
    }

    /// What the library's number means: taken, or a refusal. The library answers 0 to 11. A number
    /// over that would be no success either.
    pub(crate) fn check(number: u64) -> Result<(), Refusal> {
        match u8::try_from(number) {
            Ok(0) => Ok(()),
            Ok(number) => Err(Refusal::from_number(number).unwrap_or(Refusal::Form)),
            Err(_) => Err(Refusal::Form),
        }
    }
}

impl From<Refusal> for u8 {
    fn from(refusal: Refusal) -> u8 {
        refusal.number()
    }
}

impl fmt::Display for Refusal {
    fn fmt(&self, f: &mut fmt::Formatter<'_>) -> fmt::Result {
        f.write_str(match self {
            Refusal::Room => "the output is under 283 bytes",
            Refusal::Stall => "a byte came while a SET_CONFIG waits or runs",
            Refusal::Place => "the radio outcome doesn't fit what the radio does",
            Refusal::Short => "the destination is too small",
            Refusal::Stuff => "the source is no COBS encoding",
            Refusal::Length => "the source is too long, or the body is outside 5 to 280 bytes",
            Refusal::Check => "the check value differs",
            Refusal::Tag => "the tag is zero and must not be, or the other way round",
            Refusal::Type => "the message is of another type",
            Refusal::Form => "the payload is not of the message's layout or values",
            Refusal::Ledger => "all lines of the ledger are open",
        })
    }
}

impl std::error::Error for Refusal {}
