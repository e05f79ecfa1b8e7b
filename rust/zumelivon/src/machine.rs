//! A machine as it is.

use zumelivon_sys as sys;

/// A machine as it is.
#[derive(Clone, Copy, Debug, PartialEq, Eq)]
pub struct Machine {
    /// Its state.
    pub state: u64,
    /// Its data. A described one's registers are not shown.
    pub data: u64,
    /// The latest moment that it was told.
    pub latest: u64,
    /// How many events wait, postponed ones among them.
    pub waiting: u64,
    /// When its earliest time-out is due.
    pub due: Option<u64>,
    /// Whether a turn has an event to handle.
    pub has_event: bool,
    /// Whether there is a message to take out.
    pub has_message: bool,
    /// The reason and the last word, where it has ended.
    pub ended: Option<(u32, u32)>,
}

impl From<sys::zumelivon_machine> for Machine {
    fn from(it: sys::zumelivon_machine) -> Machine {
        Machine {
            state: it.state,
            data: it.data,
            latest: it.latest,
            waiting: it.waiting,
            due: (it.has_due != 0).then_some(it.due),
            has_event: it.has_event != 0,
            has_message: it.has_message != 0,
            ended: (it.ended != 0).then_some((it.reason, it.word)),
        }
    }
}
