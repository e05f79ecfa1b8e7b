//! What described machines' events, replies and messages carry, and what their calls tell.

use crate::{Error, MachineId, Request};
use std::fmt;

/// Of what a name of a description is.
#[derive(Clone, Copy, Debug, PartialEq, Eq, Hash)]
pub enum NameKind {
    /// A symbol.
    Symbol,
    /// A state.
    State,
    /// A timer with a name.
    Timer,
}

/// What an event carries beside its symbol.
#[derive(Clone, Debug, Default, PartialEq, Eq, Hash)]
pub enum Value {
    /// Nothing.
    #[default]
    None,
    /// A number.
    Number(u64),
    /// A call's tag.
    Call(Request),
    /// A machine.
    Machine(MachineId),
    /// A text's bytes.
    Text(Vec<u8>),
}

impl From<u64> for Value {
    fn from(number: u64) -> Value {
        Value::Number(number)
    }
}

impl From<&str> for Value {
    fn from(text: &str) -> Value {
        Value::Text(text.as_bytes().to_vec())
    }
}

impl From<Request> for Value {
    fn from(request: Request) -> Value {
        Value::Call(request)
    }
}

impl From<MachineId> for Value {
    fn from(machine: MachineId) -> Value {
        Value::Machine(machine)
    }
}

/// What a described machine's event, reply or message carries: a symbol and a value.
#[derive(Clone, Debug, Default, PartialEq, Eq, Hash)]
pub struct Signal {
    /// The number of the symbol in the machine's description.
    pub symbol: u32,
    /// The value.
    pub value: Value,
}

impl Signal {
    /// A symbol without a value.
    pub fn of(symbol: u32) -> Signal {
        Signal { symbol, value: Value::None }
    }

    /// A symbol with a value.
    pub fn with(symbol: u32, value: impl Into<Value>) -> Signal {
        Signal { symbol, value: value.into() }
    }
}

/// A message that a described machine sent. The program delivers it, as an info.
///
/// Its symbol is a number of the sender's description. A target of another description may have another number for that
/// name.
#[derive(Clone, Debug, PartialEq, Eq)]
pub struct SignalMessage {
    /// To which machine it goes.
    pub target: MachineId,
    /// It counts the messages of its sender, from 1 on.
    pub number: u64,
    /// What it carries.
    pub signal: Signal,
}

/// What a run of turns came to.
#[derive(Clone, Copy, Debug, PartialEq, Eq)]
pub struct Ran {
    /// How many turns were made.
    pub turns: u64,
    /// Whether there are more events.
    pub more: bool,
}

/// A run of turns of which one was refused.
#[derive(Clone, Debug, PartialEq, Eq)]
pub struct RunRefused {
    /// How many turns were made before. They stay made.
    pub turns: u64,
    /// Why the next one was refused.
    pub error: Error,
}

impl fmt::Display for RunRefused {
    fn fmt(&self, f: &mut fmt::Formatter<'_>) -> fmt::Result {
        write!(f, "behind {} turns: {}", self.turns, self.error)
    }
}

impl std::error::Error for RunRefused {
    fn source(&self) -> Option<&(dyn std::error::Error + 'static)> {
        Some(&self.error)
    }
}

impl From<RunRefused> for Error {
    fn from(refused: RunRefused) -> Error {
        refused.error
    }
}
