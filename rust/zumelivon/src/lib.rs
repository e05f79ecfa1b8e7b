#![doc = include_str!("../README.md")]
#![warn(missing_docs)]

mod content;
mod described;
mod error;
mod event;
mod flat;
mod hosted;
mod ids;
mod machine;
mod module;
mod outcome;
mod report;
mod signal;
mod start;
mod table;

pub use content::Content;
pub use error::Error;
pub use event::{Entry, Event, Kind, Timer};
pub use ids::{Description, MachineId, Request};
pub use machine::Machine;
pub use module::Module;
pub use outcome::{Action, EnterStep, Entered, Outcome, Step, Time};
pub use report::{Collected, Decision, Done, Message, Report};
pub use signal::{NameKind, Ran, RunRefused, Signal, SignalMessage, Value};
pub use start::Start;
pub use table::Table;
