//! Why a call was refused.

use std::fmt;
use zumelivon_sys as sys;

/// Why a call was refused. A call that is refused has changed nothing, but where its comment says what.
#[derive(Clone, Debug, PartialEq, Eq)]
#[non_exhaustive]
pub enum Error {
    /// There is no memory. The call may be made again.
    NoMemory,
    /// The machine has ended.
    Ended,
    /// The machine's numbers are used up: it can number no further event or message.
    Exhausted,
    /// The moment is 2^63 or later.
    BadMoment,
    /// The description has no such name, or no such number.
    NoSuchName,
    /// The id names no machine of this table, or one that was removed, or one of the other family.
    NoSuchMachine,
    /// The table's ids are used up.
    Full,
    /// A stop has another action than a reply, or an enter call one that it may not have.
    Invalid,
    /// The description ignores such a start.
    Ignored,
    /// The start stops, for this reason: there is no machine.
    Stopped(u32),
    /// The description has faults: these.
    Faulty(String),
    /// The table has no such description.
    NoSuchDescription,
    /// The library is of another version than this crate.
    WrongVersion,
    /// The library answered what this crate has no name for.
    Unknown(u32),
}

/// The error of an answer that is not `ZUMELIVON_DONE`, where it says no more than its number.
pub(crate) fn error_of(answer: u32) -> Error {
    match answer {
        sys::ZUMELIVON_NO_MEMORY => Error::NoMemory,
        sys::ZUMELIVON_ENDED => Error::Ended,
        sys::ZUMELIVON_EXHAUSTED => Error::Exhausted,
        sys::ZUMELIVON_BAD_MOMENT => Error::BadMoment,
        sys::ZUMELIVON_NO_SUCH_NAME => Error::NoSuchName,
        sys::ZUMELIVON_NO_SUCH_MACHINE => Error::NoSuchMachine,
        sys::ZUMELIVON_FULL => Error::Full,
        sys::ZUMELIVON_INVALID => Error::Invalid,
        sys::ZUMELIVON_IGNORED => Error::Ignored,
        sys::ZUMELIVON_NO_SUCH_DESCRIPTION => Error::NoSuchDescription,
        sys::ZUMELIVON_WRONG_VERSION => Error::WrongVersion,
        other => Error::Unknown(other),
    }
}

/// `Ok` where the call was done.
pub(crate) fn done(answer: u32) -> Result<(), Error> {
    if answer == sys::ZUMELIVON_DONE { Ok(()) } else { Err(error_of(answer)) }
}

impl fmt::Display for Error {
    fn fmt(&self, f: &mut fmt::Formatter<'_>) -> fmt::Result {
        match self {
            Error::NoMemory => f.write_str("there is no memory"),
            Error::Ended => f.write_str("the machine has ended"),
            Error::Exhausted => f.write_str("the machine's numbers are used up"),
            Error::BadMoment => f.write_str("the moment is 2^63 or later"),
            Error::NoSuchName => f.write_str("the description has no such name or number"),
            Error::NoSuchMachine => f.write_str("the id names no such machine"),
            Error::Full => f.write_str("the table's ids are used up"),
            Error::Invalid => f.write_str("an action stands where it may not"),
            Error::Ignored => f.write_str("the description ignores such a start"),
            Error::Stopped(reason) => write!(f, "the start stops for reason {reason}"),
            Error::Faulty(faults) => write!(f, "the description has faults: {faults}"),
            Error::NoSuchDescription => f.write_str("the table has no such description"),
            Error::WrongVersion => f.write_str("the library is of another version"),
            Error::Unknown(answer) => write!(f, "the library answered {answer}"),
        }
    }
}

impl std::error::Error for Error {}
