//! Callback modules.

use crate::{Entered, Event, MachineId, Outcome};

/// What a program decides: a gen_statem's callback module.
///
/// The callbacks run between two calls of the library, and never inside one. So they may have any effect, take as long as
/// they like, and panic: a panic leaves table and event as they were, and the event is next again. An effect that came
/// before the panic stays.
///
/// One module may serve many machines: each call names the machine. A closure that answers events is a module, without
/// enter calls, and its last words are 0.
pub trait Module {
    /// Answers an event.
    fn handle(&mut self, machine: MachineId, event: &Event<'_>) -> Outcome;

    /// Answers an enter call: the machine comes from a state to a state, with this data. The two are one where a state is
    /// repeated. Only a machine that was started with enter calls has any.
    ///
    /// `handle` was called before it for the same turn. The first state's enter call is answered at the start.
    fn enter(&mut self, machine: MachineId, from: u64, to: u64, data: u64) -> Entered {
        let _ = (machine, from, to, data);
        Entered::keep()
    }

    /// Answers the machine's last word. It is called where the machine ends: by an outcome that stops, or by
    /// [`Table::stop`](crate::Table::stop).
    fn terminate(&mut self, machine: MachineId, reason: u32, state: u64, data: u64) -> u32 {
        let _ = (machine, reason, state, data);
        0
    }
}

impl<F> Module for F
where
    F: FnMut(MachineId, &Event<'_>) -> Outcome,
{
    fn handle(&mut self, machine: MachineId, event: &Event<'_>) -> Outcome {
        self(machine, event)
    }
}
