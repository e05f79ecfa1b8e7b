//! How a hosted machine begins.

use crate::{Action, Content, Entered, Kind, MachineId, Time, Timer};

/// How a hosted machine begins: its first state and data, and what its start asks for.
///
/// ```
/// use zumelivon::{Entered, Start, Timer};
///
/// let plain = Start::in_state(0, 0).set(Timer::State, 5_000, 1);
/// let with_enter_calls = Start::in_state(0, 0).entered(Entered::keep().set(Timer::Event, 5_000, 1));
/// ```
#[derive(Clone, Debug, PartialEq, Eq)]
#[must_use = "Table::start starts a machine with it"]
pub struct Start {
    /// The first state.
    pub state: u64,
    /// The first data.
    pub data: u64,
    /// What the start asks for, in order. It has no event to postpone.
    pub actions: Vec<Action>,
    /// What the first enter call answers. Without it the machine has no enter calls.
    pub entered: Option<Entered>,
    /// The last word, where the first enter call stops.
    pub word: u32,
}

impl Start {
    /// In this state, with this data, without enter calls.
    pub fn in_state(state: u64, data: u64) -> Start {
        Start { state, data, actions: Vec::new(), entered: None, word: 0 }
    }

    /// The machine has enter calls. This answers the first, for the machine has no id yet.
    pub fn entered(mut self, entered: Entered) -> Start {
        self.entered = Some(entered);
        self
    }

    /// The last word, where the first enter call stops.
    pub fn last_word(mut self, word: u32) -> Start {
        self.word = word;
        self
    }

    /// Adds an action.
    pub fn and(mut self, action: Action) -> Start {
        self.actions.push(action);
        self
    }

    /// Inserts an event.
    pub fn insert(self, kind: Kind, content: impl Into<Content>) -> Start {
        self.and(Action::Insert(kind, content.into()))
    }

    /// Sets a timer, to a number of milliseconds.
    pub fn set(self, timer: Timer, time: impl Into<Time>, content: impl Into<Content>) -> Start {
        self.and(Action::Set(timer, time.into(), content.into()))
    }

    /// Sends a message to a machine.
    pub fn send(self, target: MachineId, content: impl Into<Content>) -> Start {
        self.and(Action::Send(target, content.into()))
    }
}
