//! A run kept over a restart of the host.

use std::error::Error;
use std::fmt;

use crate::{Refusal, QUESTION_BYTES, REBUILDER_BYTES};

/// What a host keeps of a [`Rebuilder`](crate::Rebuilder), beside the copy, to go on with its run
/// later.
#[derive(Clone, Debug, PartialEq, Eq)]
pub struct Saved {
    /// The state's bytes.
    pub state: [u8; REBUILDER_BYTES],
    /// The string's bytes as far as it is rebuilt.
    pub string: Vec<u8>,
    /// The sheet's bytes.
    pub sheet: Vec<u8>,
    /// The question that waits; empty when finished.
    pub question: Vec<u8>,
}

/// Why [`Rebuilder::resume`](crate::Rebuilder::resume) does not go on with a saved run.
#[derive(Clone, Copy, Debug, PartialEq, Eq, Hash)]
pub enum ResumeError {
    /// The library turned down the saved state with this copy: [`Refusal::BadString`] if the copy
    /// has another bit count than the run's, [`Refusal::OutOfTurn`] if the state is unsound.
    Refused(Refusal),
    /// The saved question has so many bytes: none, or more than 8, though the state waits for an
    /// answer; or some though the run is finished.
    Question {
        /// Bytes of the saved question.
        bytes: usize,
        /// Whether the run is finished.
        finished: bool,
    },
    /// The saved string has fewer bytes than the run needs.
    StringTooShort {
        /// Bytes of the saved string.
        bytes: usize,
        /// Bytes that the run needs.
        needed: usize,
    },
    /// The saved string breaks the string rule: a spare bit is set.
    BadString,
    /// The saved sheet has fewer bytes than the run needs.
    SheetTooShort {
        /// Bytes of the saved sheet.
        bytes: usize,
        /// Bytes that the run needs.
        needed: usize,
    },
    /// A used row of the saved sheet is none that a run writes: its how is not 1 to 6, or its range
    /// is empty or past X's end.
    BadRow {
        /// The row's index in the sheet.
        index: usize,
    },
}

impl fmt::Display for ResumeError {
    fn fmt(&self, f: &mut fmt::Formatter<'_>) -> fmt::Result {
        match self {
            ResumeError::Refused(refusal) => {
                write!(f, "the saved state is turned down with this copy: {refusal}")
            }
            ResumeError::Question {
                bytes,
                finished: true,
            } => write!(
                f,
                "the saved question has {bytes} bytes, but the run is finished"
            ),
            ResumeError::Question { bytes, .. } => write!(
                f,
                "the saved question has {bytes} bytes, a question that waits has 1 to {QUESTION_BYTES}"
            ),
            ResumeError::StringTooShort { bytes, needed } => {
                write!(f, "the saved string has {bytes} bytes, the run needs {needed}")
            }
            ResumeError::BadString => write!(f, "the saved string breaks the string rule"),
            ResumeError::SheetTooShort { bytes, needed } => {
                write!(f, "the saved sheet has {bytes} bytes, the run needs {needed}")
            }
            ResumeError::BadRow { index } => {
                write!(f, "row {index} of the saved sheet is none that a run writes")
            }
        }
    }
}

impl Error for ResumeError {}
