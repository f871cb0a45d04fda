//! Why a call gives nothing.

use crate::raw;
use std::{ffi::CStr, fmt};

/// Why a call gives nothing: the statuses of kifzaro.h.
#[derive(Clone, Copy, Debug, PartialEq, Eq)]
#[non_exhaustive]
pub enum Error {
    /// Memory ran out.
    Memory,
    /// The text isn't a key file.
    BadKeys,
    /// It hasn't that key, or not of the kind that is due.
    NoKey,
    /// A body isn't whole words of 4 bytes, is over 262,144 bytes, or begins with a constructor of the session layer.
    BadBody,
    /// There is no such call.
    NoCall,
    /// The client has 65,536 calls.
    TooManyCalls,
    /// The client has ended.
    Ended,
    /// The client has learnt nothing of its session, or has ended.
    NotOpen,
    /// The call isn't sent.
    NotSent,
    /// The call has no reply, or not yet.
    NoReply,
    /// There may be too few numbers left in this session.
    Spent,
    /// A request that was handed out waits for its answer.
    Busy,
    /// No request was handed out.
    NotAsked,
    /// A reply isn't whole words of 4 bytes, or is over 262,144 bytes.
    BadReply,
    /// The packet doesn't open. Only the moment has changed.
    Refused(Refusal),
    /// Another status of kifzaro.h.
    Other(u32),
}

/// Why a packet doesn't open.
#[derive(Clone, Copy, Debug, PartialEq, Eq)]
pub enum Refusal {
    /// Its size.
    Size,
    /// No key that is good has its identifier.
    Key,
    /// Its message key isn't that of its text.
    MessageKey,
    /// Its body has no such length.
    Length,
    /// Its padding is too short or too long.
    Padding,
}

pub(crate) const TOO_SHORT: u32 = 4;

// Each error that isn't `Other`, with its status.
const STATUSES: [(u32, Error); 19] = [
    (1, Error::Memory),
    (5, Error::BadKeys),
    (6, Error::NoKey),
    (8, Error::BadBody),
    (9, Error::NoCall),
    (10, Error::TooManyCalls),
    (11, Error::Ended),
    (12, Error::NotOpen),
    (13, Error::NotSent),
    (14, Error::NoReply),
    (15, Error::Spent),
    (16, Error::Busy),
    (17, Error::NotAsked),
    (18, Error::BadReply),
    (19, Error::Refused(Refusal::Size)),
    (20, Error::Refused(Refusal::Key)),
    (21, Error::Refused(Refusal::MessageKey)),
    (22, Error::Refused(Refusal::Length)),
    (23, Error::Refused(Refusal::Padding)),
];

impl Error {
    /// Its number in kifzaro.h.
    pub fn status(self) -> u32 {
        match self {
            Error::Other(status) => status,
            error => STATUSES.iter().find(|(_, each)| *each == error).map_or(0, |(status, _)| *status),
        }
    }
}

/// What a status tells.
pub(crate) fn must(status: u32) -> Result<(), Error> {
    if status == 0 {
        return Ok(());
    }
    let known = STATUSES.iter().find(|(number, _)| *number == status);
    Err(known.map_or(Error::Other(status), |(_, error)| *error))
}

impl fmt::Display for Error {
    fn fmt(&self, f: &mut fmt::Formatter<'_>) -> fmt::Result {
        // It is a static text that ends in 0.
        f.write_str(&unsafe { CStr::from_ptr(raw::kf_status_text(self.status())) }.to_string_lossy())
    }
}

impl std::error::Error for Error {}

impl fmt::Display for Refusal {
    fn fmt(&self, f: &mut fmt::Formatter<'_>) -> fmt::Result {
        Error::Refused(*self).fmt(f)
    }
}
