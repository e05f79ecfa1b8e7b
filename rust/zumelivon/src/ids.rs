//! Names of machines, requests and descriptions.

use std::fmt;

/// A machine of a table. Once the machine was removed, it names none for good.
#[derive(Clone, Copy, Debug, PartialEq, Eq, PartialOrd, Ord, Hash)]
pub struct MachineId(pub(crate) u64);

impl MachineId {
    /// The number that names the machine. It may be kept in a machine's data or in a content.
    pub fn number(self) -> u64 {
        self.0
    }

    /// The id of a number. A number that names no machine is refused where it is used.
    pub fn from_number(number: u64) -> MachineId {
        MachineId(number)
    }
}

impl fmt::Display for MachineId {
    fn fmt(&self, f: &mut fmt::Formatter<'_>) -> fmt::Result {
        self.0.fmt(f)
    }
}

/// A call's tag: its reply is sent to it, and collected by it.
#[derive(Clone, Copy, Debug, PartialEq, Eq, PartialOrd, Ord, Hash)]
pub struct Request {
    /// The machine that was called.
    pub machine: MachineId,
    /// The number of the call's event.
    pub number: u64,
}

/// A description of a table.
#[derive(Clone, Copy, Debug, PartialEq, Eq, PartialOrd, Ord, Hash)]
pub struct Description(pub(crate) u64);
