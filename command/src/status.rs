//! How a call went, as the exit status tells it.

use serde::{Serialize, Serializer};
use std::process::ExitCode;

/// Of several the worst is told, which is the last here.
#[derive(Clone, Copy, Debug, PartialEq, Eq, PartialOrd, Ord)]
#[repr(u8)]
pub enum Status {
    /// A result.
    Result = 0,
    /// Something is refused.
    Refused = 1,
    /// Usage, or a file that can't be read.
    Unread = 2,
    /// Output that wasn't written.
    Unwritten = 3,
}

impl From<Status> for ExitCode {
    fn from(status: Status) -> ExitCode {
        ExitCode::from(status as u8)
    }
}

impl Serialize for Status {
    fn serialize<S: Serializer>(&self, serializer: S) -> Result<S::Ok, S::Error> {
        serializer.serialize_u8(*self as u8)
    }
}
