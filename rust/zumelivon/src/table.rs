//! A table of machines, and what all machines of it have in common.

use crate::error::{done, error_of};
use crate::flat::Flat;
use crate::{Decision, Done, Error, Machine, MachineId, Module, Report, Request, Time, Timer};
use std::collections::HashMap;
use std::fmt;
use zumelivon_sys as sys;

/// Moments are below this.
pub(crate) const NO_MOMENT: u64 = 1 << 63;

/// A table of machines, hosted and described ones.
///
/// It reads no clock and starts no thread: its caller decides when a turn comes, and at what moment. Moments are in
/// milliseconds, of any clock that does not go back. A moment that is earlier than one before counts as that one.
///
/// A table may go to another thread. One call at a time is made on it, which `&mut` sees to:
///
/// ```compile_fail
/// fn shared<T: Sync>() {}
/// shared::<zumelivon::Table>();
/// ```
pub struct Table {
    pub(crate) raw: sys::zumelivon,
    /// Where bytes are handed out to.
    pub(crate) room: Vec<u8>,
    /// What modules answered to events whose turns were refused for want of memory.
    pub(crate) unmade: HashMap<MachineId, Unmade>,
}

/// What a module answered to the event of this number.
pub(crate) struct Unmade {
    pub number: u64,
    pub flat: Flat,
}

// SAFETY: a table is reached through its owner alone, and the library keeps nothing that belongs to a thread.
unsafe impl Send for Table {}

impl Table {
    /// An empty table.
    ///
    /// `NoMemory`; `WrongVersion`, where the library that was linked is another than this crate was written for.
    pub fn new() -> Result<Table, Error> {
        let mut raw = sys::zumelivon { at: std::ptr::null_mut() };
        // SAFETY: `raw` is a zeroed table.
        done(unsafe { sys::zumelivon_open(&mut raw, sys::ZUMELIVON_VERSION) })?;
        Ok(Table { raw, room: Vec::new(), unmade: HashMap::new() })
    }

    /// Tells a machine the moment: what is due by then expires, and is an event that waits. Answers how many expired.
    ///
    /// `NoSuchMachine`, `Ended`, `BadMoment`, `NoMemory`.
    pub fn tick(&mut self, id: MachineId, now: u64) -> Result<u64, Error> {
        let mut expired = 0;
        // SAFETY: the table is open, and the pointer is a reference's.
        done(unsafe { sys::zumelivon_tick(&mut self.raw, id.0, now, &mut expired) })?;
        Ok(expired)
    }

    /// Shows a machine. `NoSuchMachine`.
    pub fn look(&mut self, id: MachineId) -> Result<Machine, Error> {
        let mut machine = sys::zumelivon_machine::default();
        // SAFETY: as above.
        done(unsafe { sys::zumelivon_look(&mut self.raw, id.0, &mut machine) })?;
        Ok(machine.into())
    }

    /// When the machine's earliest time-out is due: the moment at which to tick it. `NoSuchMachine`.
    pub fn due(&mut self, id: MachineId) -> Result<Option<u64>, Error> {
        Ok(self.look(id)?.due)
    }

    /// Ends a hosted machine for a reason. The module is asked for its last word.
    ///
    /// `NoSuchMachine`, `Ended`: then the module was not asked. `NoMemory`: the module was asked, and will be again.
    pub fn stop<M: Module + ?Sized>(&mut self, id: MachineId, reason: u32, module: &mut M) -> Result<(), Error> {
        let machine = self.look(id)?;
        if machine.ended.is_some() {
            return Err(Error::Ended);
        }
        let word = module.terminate(id, reason, machine.state, machine.data);
        self.stop_with_word(id, reason, word)
    }

    /// Ends a machine for a reason, and with a last word. A described machine has a last word of its own.
    ///
    /// `NoSuchMachine`, `Ended`, `NoMemory`.
    pub fn stop_with_word(&mut self, id: MachineId, reason: u32, word: u32) -> Result<(), Error> {
        // SAFETY: the table is open.
        done(unsafe { sys::zumelivon_stop(&mut self.raw, id.0, reason, word) })?;
        self.unmade.remove(&id);
        Ok(())
    }

    /// Drops a machine, whether it has ended or not. Its requests, replies and messages go with it.
    ///
    /// `NoSuchMachine`, `NoMemory`.
    pub fn remove(&mut self, id: MachineId) -> Result<(), Error> {
        // SAFETY: the table is open.
        done(unsafe { sys::zumelivon_remove(&mut self.raw, id.0) })?;
        self.unmade.remove(&id);
        Ok(())
    }

    /// Makes a call that hands out bytes, with a room that is large enough. It answers its length where it is not.
    pub(crate) fn with_room(
        &mut self,
        mut call: impl FnMut(&mut sys::zumelivon, &mut [u8]) -> (u32, u64),
    ) -> Result<u32, Error> {
        loop {
            let (answer, length) = call(&mut self.raw, &mut self.room);
            if answer != sys::ZUMELIVON_TOO_SMALL {
                return Ok(answer);
            }
            self.widen(length)?;
        }
    }

    pub(crate) fn widen(&mut self, length: u64) -> Result<(), Error> {
        let length = usize::try_from(length).map_err(|_| Error::NoMemory)?;
        let more = length.checked_sub(self.room.len()).filter(|it| *it > 0);
        let more = more.ok_or(error_of(sys::ZUMELIVON_TOO_SMALL))?;
        self.room.try_reserve(more).map_err(|_| Error::NoMemory)?;
        self.room.resize(length, 0);
        Ok(())
    }

    /// The bytes that were handed out last.
    pub(crate) fn handed_out(&self, length: u64) -> &[u8] {
        let length = usize::try_from(length).unwrap_or(usize::MAX);
        self.room.get(..length).unwrap_or(&self.room)
    }

    /// The report of the call before, with its lists.
    pub(crate) fn report_of(&mut self, it: &sys::zumelivon_report) -> Report {
        Report {
            event: (it.has_event != 0).then_some(it.event),
            done: match it.done {
                sys::ZUMELIVON_STARTED => Done::Started,
                sys::ZUMELIVON_POSTPONED => Done::Postponed,
                sys::ZUMELIVON_HAS_ENDED => Done::Ended { reason: it.reason, word: it.word },
                _ => Done::Finished,
            },
            before: it.before,
            after: it.after,
            calls: it.calls,
            replied: self.listed(sys::ZUMELIVON_REPLIED, it.replied, |it| Request {
                machine: MachineId(it.machine),
                number: it.number,
            }),
            inserted: self.listed(sys::ZUMELIVON_INSERTED, it.inserted, |it| it.number),
            set: self.listed(sys::ZUMELIVON_SET_TIMERS, it.set, |it| (timer_of(it.timer, it.name), decision_of(it))),
            sent: self.listed(sys::ZUMELIVON_SENT, it.sent, |it| it.number),
        }
    }

    fn listed<T>(&mut self, list: u32, count: u64, read: impl Fn(&sys::zumelivon_listed) -> T) -> Vec<T> {
        let mut all = Vec::new();
        for index in 0..count {
            let mut one = sys::zumelivon_listed::default();
            // SAFETY: the table is open, and the pointer is a reference's.
            if unsafe { sys::zumelivon_list(&mut self.raw, list, index, &mut one) } == sys::ZUMELIVON_DONE {
                all.push(read(&one));
            }
        }
        all
    }
}

pub(crate) fn timer_of(timer: u32, name: u32) -> Timer {
    match timer {
        sys::ZUMELIVON_EVENT_TIMER => Timer::Event,
        sys::ZUMELIVON_STATE_TIMER => Timer::State,
        _ => Timer::Named(name),
    }
}

fn decision_of(it: &sys::zumelivon_listed) -> Decision {
    match it.decision {
        sys::ZUMELIVON_TIMER_SET if it.infinite != 0 => Decision::Set(Time::Infinite),
        sys::ZUMELIVON_TIMER_SET => Decision::Set(Time::After(it.time)),
        sys::ZUMELIVON_TIMER_CANCELLED => Decision::Cancelled,
        _ => Decision::Updated,
    }
}

impl fmt::Debug for Table {
    fn fmt(&self, f: &mut fmt::Formatter<'_>) -> fmt::Result {
        f.debug_struct("Table").finish_non_exhaustive()
    }
}

impl Drop for Table {
    fn drop(&mut self) {
        // SAFETY: the table is open, and is not used again.
        unsafe { sys::zumelivon_close(&mut self.raw) };
    }
}
