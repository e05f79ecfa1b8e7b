//! What a module answers to an event, and to an enter call.

use crate::{Content, Kind, MachineId, Request, Timer};

/// How long a time-out runs, in milliseconds.
#[derive(Clone, Copy, Debug, PartialEq, Eq, Hash)]
pub enum Time {
    /// So long. One of 0 comes before all events that were not handled yet.
    After(u32),
    /// For ever: the one that runs is cancelled, and none begins.
    Infinite,
}

impl From<u32> for Time {
    fn from(milliseconds: u32) -> Time {
        Time::After(milliseconds)
    }
}

/// What an answer asks for beside state and data. They are done in order.
#[derive(Clone, Debug, PartialEq, Eq)]
#[non_exhaustive]
pub enum Action {
    /// Replies to a call.
    Reply(Request, Content),
    /// Postpones the event until the state changes. The last one of an answer decides.
    Postpone(bool),
    /// Inserts an event before all that were not handled yet.
    Insert(Kind, Content),
    /// Sets a timer.
    Set(Timer, Time, Content),
    /// Cancels a timer's time-out.
    Cancel(Timer),
    /// Changes what a timer's time-out will carry. Where none runs, one comes at once.
    Update(Timer, Content),
    /// Sends a message to a machine: `Table::take_out` hands it out.
    Send(MachineId, Content),
    /// Has no effect.
    Hibernate,
}

/// What becomes of state and data.
#[derive(Clone, Copy, Debug, PartialEq, Eq)]
pub enum Step {
    /// They are these.
    NextState {
        /// The new state.
        state: u64,
        /// The new data.
        data: u64,
    },
    /// The state stays, the data is this.
    KeepState {
        /// The new data.
        data: u64,
    },
    /// Both stay.
    KeepStateAndData,
    /// The state stays and is entered again, the data is this.
    RepeatState {
        /// The new data.
        data: u64,
    },
    /// Both stay, and the state is entered again.
    RepeatStateAndData,
    /// The machine ends.
    Stop {
        /// Why.
        reason: u32,
        /// The last data, where it is not the old.
        data: Option<u64>,
    },
}

/// What `Module::handle` answers: what becomes of state and data, and what else is to be done.
///
/// ```
/// use zumelivon::{Outcome, Timer};
///
/// let outcome = Outcome::next_state(2, 0).set(Timer::State, 60_000, 7).insert_internal(8);
/// assert_eq!(outcome.actions.len(), 2);
/// ```
#[derive(Clone, Debug, PartialEq, Eq)]
#[must_use = "an outcome is what handle answers"]
pub struct Outcome {
    /// What becomes of state and data.
    pub step: Step,
    /// What else is to be done, in order. A stop has replies alone.
    pub actions: Vec<Action>,
}

impl Outcome {
    fn of(step: Step) -> Outcome {
        Outcome { step, actions: Vec::new() }
    }

    /// To this state, with this data. Where it is another state, what was postponed comes again.
    pub fn next_state(state: u64, data: u64) -> Outcome {
        Outcome::of(Step::NextState { state, data })
    }

    /// State and data stay.
    pub fn keep() -> Outcome {
        Outcome::of(Step::KeepStateAndData)
    }

    /// The state stays, the data is this.
    pub fn keep_with(data: u64) -> Outcome {
        Outcome::of(Step::KeepState { data })
    }

    /// State and data stay, and the state is entered again.
    pub fn repeat() -> Outcome {
        Outcome::of(Step::RepeatStateAndData)
    }

    /// The state stays and is entered again, the data is this.
    pub fn repeat_with(data: u64) -> Outcome {
        Outcome::of(Step::RepeatState { data })
    }

    /// The machine ends for this reason.
    pub fn stop(reason: u32) -> Outcome {
        Outcome::of(Step::Stop { reason, data: None })
    }

    /// The machine ends for this reason, and its last data is this.
    pub fn stop_with(reason: u32, data: u64) -> Outcome {
        Outcome::of(Step::Stop { reason, data: Some(data) })
    }

    /// Adds an action.
    pub fn and(mut self, action: Action) -> Outcome {
        self.actions.push(action);
        self
    }

    /// Replies to a call.
    pub fn reply(self, request: Request, content: impl Into<Content>) -> Outcome {
        self.and(Action::Reply(request, content.into()))
    }

    /// Postpones the event until the state changes.
    pub fn postpone(self) -> Outcome {
        self.and(Action::Postpone(true))
    }

    /// Inserts an event before all that were not handled yet.
    pub fn insert(self, kind: Kind, content: impl Into<Content>) -> Outcome {
        self.and(Action::Insert(kind, content.into()))
    }

    /// Inserts an internal event before all that were not handled yet.
    pub fn insert_internal(self, content: impl Into<Content>) -> Outcome {
        self.insert(Kind::Internal, content)
    }

    /// Sets a timer, to a number of milliseconds.
    pub fn set(self, timer: Timer, time: impl Into<Time>, content: impl Into<Content>) -> Outcome {
        self.and(Action::Set(timer, time.into(), content.into()))
    }

    /// Cancels a timer's time-out.
    pub fn cancel(self, timer: Timer) -> Outcome {
        self.and(Action::Cancel(timer))
    }

    /// Changes what a timer's time-out will carry. Where none runs, one comes at once.
    pub fn update(self, timer: Timer, content: impl Into<Content>) -> Outcome {
        self.and(Action::Update(timer, content.into()))
    }

    /// Sends a message to a machine.
    pub fn send(self, target: MachineId, content: impl Into<Content>) -> Outcome {
        self.and(Action::Send(target, content.into()))
    }
}

/// What becomes of the data where a state is entered.
#[derive(Clone, Copy, Debug, PartialEq, Eq)]
pub enum EnterStep {
    /// It is this.
    KeepState {
        /// The new data.
        data: u64,
    },
    /// It stays.
    KeepStateAndData,
    /// The machine ends.
    Stop {
        /// Why.
        reason: u32,
        /// The last data, where it is not that of the outcome.
        data: Option<u64>,
    },
}

/// What `Module::enter` answers.
#[derive(Clone, Debug, PartialEq, Eq)]
#[must_use = "it is what an enter call answers"]
pub struct Entered {
    /// What becomes of the data.
    pub step: EnterStep,
    /// What else is to be done, in order. It postpones, inserts and sends nothing; a stop has replies alone.
    pub actions: Vec<Action>,
}

impl Entered {
    fn of(step: EnterStep) -> Entered {
        Entered { step, actions: Vec::new() }
    }

    /// The data stays.
    pub fn keep() -> Entered {
        Entered::of(EnterStep::KeepStateAndData)
    }

    /// The data is this.
    pub fn keep_with(data: u64) -> Entered {
        Entered::of(EnterStep::KeepState { data })
    }

    /// The machine ends for this reason.
    pub fn stop(reason: u32) -> Entered {
        Entered::of(EnterStep::Stop { reason, data: None })
    }

    /// The machine ends for this reason, and its last data is this.
    pub fn stop_with(reason: u32, data: u64) -> Entered {
        Entered::of(EnterStep::Stop { reason, data: Some(data) })
    }

    fn and(mut self, action: Action) -> Entered {
        self.actions.push(action);
        self
    }

    /// Replies to a call.
    pub fn reply(self, request: Request, content: impl Into<Content>) -> Entered {
        self.and(Action::Reply(request, content.into()))
    }

    /// Sets a timer, to a number of milliseconds.
    pub fn set(self, timer: Timer, time: impl Into<Time>, content: impl Into<Content>) -> Entered {
        self.and(Action::Set(timer, time.into(), content.into()))
    }

    /// Cancels a timer's time-out.
    pub fn cancel(self, timer: Timer) -> Entered {
        self.and(Action::Cancel(timer))
    }

    /// Changes what a timer's time-out will carry. Where none runs, one comes at once.
    pub fn update(self, timer: Timer, content: impl Into<Content>) -> Entered {
        self.and(Action::Update(timer, content.into()))
    }
}
