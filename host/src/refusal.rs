//! Why a call is turned down.

use std::error::Error;
use std::fmt;

/// Why a call was turned down. A refused call changes nothing that was lent to it.
#[derive(Clone, Copy, Debug, PartialEq, Eq, Hash)]
#[repr(u8)]
pub enum Refusal {
    /// 1: a setting handed in is outside its limits.
    BadSetting = 1,
    /// 2: a lent string breaks the string rule, or has another bit count than at opening.
    BadString = 2,
    /// 3: the call is out of turn, or the state is unsound.
    OutOfTurn = 3,
    /// 4: the message ends inside its kind, a field or its bits.
    Truncated = 4,
    /// 5: a number in the message is not in its shortest form, or is 2^32 or more.
    BadNumber = 5,
    /// 6: the message's kind is unknown, or not the one awaited.
    BadKind = 6,
    /// 7: bytes follow the message's last field or its bits.
    TrailingBytes = 7,
    /// 8: a value is outside its range.
    OutOfRange = 8,
    /// 9: a lent buffer or sheet is too short.
    BufferTooShort = 9,
    /// 10: the number of columns in a burst question is not 2 to 32.
    BadBurst = 10,
    /// 14: a list buffer has fewer entries than there are strings.
    ListTooShort = 14,
    /// 15: a marker's message has another bit count than its word takes.
    MessageLength = 15,
}

impl Refusal {
    /// All refusals, in the order of their numbers.
    pub const ALL: [Refusal; 12] = [
        Refusal::BadSetting,
        Refusal::BadString,
        Refusal::OutOfTurn,
        Refusal::Truncated,
        Refusal::BadNumber,
        Refusal::BadKind,
        Refusal::TrailingBytes,
        Refusal::OutOfRange,
        Refusal::BufferTooShort,
        Refusal::BadBurst,
        Refusal::ListTooShort,
        Refusal::MessageLength,
    ];

    /// The refusal's number, 1 to 10, 14 or 15.
    pub const fn number(self) -> u8 {
        self as u8
    }

    /// The refusal of a number, if it has one.
    pub fn from_number(number: u8) -> Option<Refusal> {
        Refusal::ALL
            .into_iter()
            .find(|refusal| refusal.number() == number)
    }
}

impl fmt::Display for Refusal {
    fn fmt(&self, f: &mut fmt::Formatter<'_>) -> fmt::Result {
        let reason = match self {
            Refusal::BadSetting => "a setting is outside its limits",
            Refusal::BadString => {
                "a string breaks the string rule or has another bit count than at opening"
            }
            Refusal::OutOfTurn => "the call is out of turn or the state is unsound",
            Refusal::Truncated => "the message ends inside its kind, a field or its bits",
            Refusal::BadNumber => {
                "a number in the message is not in its shortest form or too large"
            }
            Refusal::BadKind => "the message's kind is unknown or not the one awaited",
            Refusal::TrailingBytes => "bytes follow the end of the message",
            Refusal::OutOfRange => "a value is outside its range",
            Refusal::BufferTooShort => "a buffer or the sheet is too short",
            Refusal::BadBurst => "the number of columns in a burst question is not 2 to 32",
            Refusal::ListTooShort => "the list buffer has fewer entries than there are strings",
            Refusal::MessageLength => "the message has another bit count than the marker takes",
        };
        write!(f, "refusal {}: {reason}", self.number())
    }
}

impl Error for Refusal {}
