//! Events.

use crate::Request;
use std::borrow::Cow;

/// A timer. Of each at most one time-out runs.
#[derive(Clone, Copy, Debug, PartialEq, Eq, PartialOrd, Ord, Hash)]
pub enum Timer {
    /// Its time-out is cancelled by any event that is handled.
    Event,
    /// Its time-out is cancelled by a state change.
    State,
    /// Its time-out runs until it comes or is cancelled. The number is its name.
    Named(u32),
}

/// How an event comes from outside.
#[derive(Clone, Copy, Debug, PartialEq, Eq, Hash)]
pub enum Entry {
    /// It wants a reply.
    Call,
    /// It wants none.
    Cast,
    /// Any other message.
    Info,
}

/// What an event is.
#[derive(Clone, Copy, Debug, PartialEq, Eq, Hash)]
pub enum Kind {
    /// A call, with the tag that its reply names.
    Call(Request),
    /// A cast.
    Cast,
    /// Any other message.
    Info,
    /// A time-out.
    Timeout(Timer),
    /// An event that the machine inserted.
    Internal,
}

/// An event that is to be handled, with the machine's state and data.
#[derive(Clone, Copy, Debug, PartialEq, Eq)]
pub struct Event<'a> {
    /// The event's number. The machine has no other event of this number.
    pub number: u64,
    /// What it is.
    pub kind: Kind,
    /// Its content's code.
    pub code: u64,
    /// Its content's bytes.
    pub bytes: &'a [u8],
    /// The machine's state.
    pub state: u64,
    /// The machine's data.
    pub data: u64,
}

impl<'a> Event<'a> {
    /// The bytes as a text. What is no UTF-8 is replaced.
    pub fn text(&self) -> Cow<'a, str> {
        String::from_utf8_lossy(self.bytes)
    }
}
