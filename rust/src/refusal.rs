// A refusal: its number on document 01's refusal sheet and the value beside it, with a line for people.

use crate::Cause;
use std::error::Error;
use std::fmt::{self, Display, Formatter};

/// Why a call is refused: a number from 1 to 14, and the value returned beside it. Where only the space for a text is short (cause 9), the value is the bytes needed, and `entries` the seeds or slices that enough space would have given; otherwise `entries` is 0.
#[derive(Clone, Copy, Debug, PartialEq, Eq)]
pub struct Refusal {
    pub number: usize,
    pub value: usize,
    pub entries: usize,
}

impl Refusal {
    /// A refusal with no entries beside it.
    pub const fn new(number: usize, value: usize) -> Refusal {
        Refusal {
            number,
            value,
            entries: 0,
        }
    }

    /// The refusal of a number and value, or none where the number is 0.
    pub(crate) fn unless_accepted(number: usize, value: usize) -> Result<(), Refusal> {
        match number {
            0 => Ok(()),
            _ => Err(Refusal::new(number, value)),
        }
    }

    /// Whether a call is refused for a cause.
    pub fn is(&self, cause: Cause) -> bool {
        self.number == cause as usize
    }

    /// The whole cause, in the words of the refusal sheet.
    pub fn cause(&self) -> &'static str {
        Cause::of(self.number).map_or("a number that is not on the refusal sheet", Cause::text)
    }
}

impl Display for Refusal {
    fn fmt(&self, f: &mut Formatter<'_>) -> fmt::Result {
        let Refusal { number, value, .. } = self;
        write!(f, "refused={number} at={value}: {}", self.cause())
    }
}

impl Error for Refusal {}
