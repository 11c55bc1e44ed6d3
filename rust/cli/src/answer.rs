//! What a command gives: an answer to be written, or the fault that prevents it.

use std::fmt::{self, Display, Formatter};
use std::path::PathBuf;

/// What is written once a command has succeeded.
#[derive(Debug, Default)]
pub struct Answer {
    pub bytes: Vec<u8>,
    /// Where to; standard output if none is named.
    pub file: Option<PathBuf>,
    /// Whether nothing was refused; the exit status says so.
    pub accepted: bool,
    /// What standard error gets beside it.
    pub complaint: String,
}

impl Answer {
    /// A text on standard output.
    pub fn text(text: String) -> Self {
        Answer { bytes: text.into_bytes(), accepted: true, ..Answer::default() }
    }

    /// Bytes for a file; `-` is standard output.
    pub fn to(file: Option<PathBuf>, bytes: Vec<u8>) -> Self {
        let file = file.filter(|file| file.as_os_str() != "-");
        Answer { bytes, file, accepted: true, ..Answer::default() }
    }

    /// The refusal as the answer, where it is what was asked for.
    pub fn refusal(told: String) -> Self {
        Answer { bytes: told.into_bytes(), ..Answer::default() }
    }
}

/// Why a command gives no answer.
#[derive(Debug)]
pub enum Fault {
    /// Wrong usage.
    Usage(String),
    /// A file that cannot be read or written.
    File(String),
    /// A text that is in fault, each place in a line.
    Text(String),
    /// A refusal with its explanation.
    Refused(String),
}

impl Fault {
    /// The exit status: 1 for what a file says, 2 for all else.
    pub fn status(&self) -> u8 {
        match self {
            Fault::Text(_) | Fault::Refused(_) => 1,
            Fault::Usage(_) | Fault::File(_) => 2,
        }
    }
}

impl Display for Fault {
    fn fmt(&self, f: &mut Formatter) -> fmt::Result {
        match self {
            Fault::Usage(told) | Fault::File(told) | Fault::Text(told) | Fault::Refused(told) => {
                f.write_str(told)
            }
        }
    }
}
