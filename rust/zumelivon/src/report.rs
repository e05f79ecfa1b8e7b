//! What calls tell.

use crate::{Content, MachineId, Request, Time, Timer};

/// What became of an event, or of a start.
#[derive(Clone, Copy, Debug, PartialEq, Eq)]
pub enum Done {
    /// The machine has started.
    Started,
    /// The event is finished.
    Finished,
    /// The event is postponed.
    Postponed,
    /// The machine has ended.
    Ended {
        /// Why.
        reason: u32,
        /// Its last word.
        word: u32,
    },
}

/// What was asked of a timer.
#[derive(Clone, Copy, Debug, PartialEq, Eq)]
pub enum Decision {
    /// It was set.
    Set(Time),
    /// Its time-out was cancelled.
    Cancelled,
    /// What its time-out carries was changed.
    Updated,
}

/// What a start or a turn did.
#[derive(Clone, Debug, PartialEq, Eq)]
pub struct Report {
    /// The number of the event that was handled. A start has none.
    pub event: Option<u64>,
    /// What became of it.
    pub done: Done,
    /// The state before.
    pub before: u64,
    /// The state after.
    pub after: u64,
    /// How many callbacks were made, a last word among them.
    pub calls: u64,
    /// The calls that were replied to: `Table::collect` hands the replies out.
    pub replied: Vec<Request>,
    /// The numbers of the events that were inserted.
    pub inserted: Vec<u64>,
    /// The timers of which something was asked.
    pub set: Vec<(Timer, Decision)>,
    /// The numbers of the messages that were sent: `Table::take_out` hands them out.
    pub sent: Vec<u64>,
}

impl Report {
    /// Whether the machine has ended.
    pub fn has_ended(&self) -> bool {
        matches!(self.done, Done::Ended { .. })
    }
}

/// What a call's request holds.
#[derive(Clone, Debug, PartialEq, Eq)]
pub enum Collected<T> {
    /// Nothing yet. Later there may be a reply.
    Waiting,
    /// The reply. It is taken out.
    Reply(T),
    /// No reply comes: the machine ended for this reason. That is told once.
    Stopped(u32),
    /// There is no such request, or it was collected.
    Gone,
}

/// A message that a hosted machine sent. The program delivers it, as an info.
#[derive(Clone, Debug, PartialEq, Eq)]
pub struct Message {
    /// To which machine it goes.
    pub target: MachineId,
    /// It counts the messages of its sender, from 1 on.
    pub number: u64,
    /// What it carries.
    pub content: Content,
}
