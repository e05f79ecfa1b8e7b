//! Described machines: a text decides.

use crate::error::{done, error_of};
use crate::hosted::entry_of;
use crate::{
    Collected, Description, Entry, Error, MachineId, NameKind, Ran, Report, Request, RunRefused, Signal, SignalMessage,
    Table, Value,
};
use zumelivon_sys as sys;

fn kind_of(kind: NameKind) -> u32 {
    match kind {
        NameKind::Symbol => sys::ZUMELIVON_SYMBOL,
        NameKind::State => sys::ZUMELIVON_STATE,
        NameKind::Timer => sys::ZUMELIVON_TIMER_NAME,
    }
}

/// A value as the library reads it. A text goes behind the bytes.
fn flat_value(symbol: u32, value: &Value, bytes: &mut Vec<u8>) -> sys::zumelivon_signal {
    let mut flat = sys::zumelivon_signal { symbol, ..Default::default() };
    match value {
        Value::None => flat.what = sys::ZUMELIVON_NO_VALUE,
        Value::Number(number) => {
            flat.what = sys::ZUMELIVON_NUMBER;
            flat.number = *number;
        }
        Value::Call(request) => {
            flat.what = sys::ZUMELIVON_CALL_TAG;
            flat.number = request.machine.0;
            flat.request = request.number;
        }
        Value::Machine(machine) => {
            flat.what = sys::ZUMELIVON_MACHINE;
            flat.number = machine.0;
        }
        Value::Text(text) => {
            flat.what = sys::ZUMELIVON_TEXT;
            flat.from = bytes.len() as u64;
            flat.length = text.len() as u64;
            bytes.extend_from_slice(text);
        }
    }
    flat
}

impl Table {
    /// Reads a description, as `docs/MACHINES.md` has it.
    ///
    /// `Faulty` says what is at fault and where; `NoMemory`.
    pub fn describe(&mut self, text: impl AsRef<[u8]>) -> Result<Description, Error> {
        let text = text.as_ref();
        let (mut description, mut length) = (0, 0);
        loop {
            // SAFETY: the table is open; each pointer is a reference's, or a slice's with its length.
            let answer = unsafe {
                sys::zumelivon_describe(
                    &mut self.raw,
                    text.as_ptr(),
                    text.len(),
                    &mut description,
                    self.room.as_mut_ptr(),
                    self.room.len(),
                    &mut length,
                )
            };
            if answer != sys::ZUMELIVON_FAULTY {
                return done(answer).map(|()| Description(description));
            }
            if length <= self.room.len() as u64 {
                return Err(Error::Faulty(String::from_utf8_lossy(self.handed_out(length)).into_owned()));
            }
            self.widen(length)?;
        }
    }

    /// The number of a name of a description. `NoSuchDescription`, `NoSuchName`, `NoMemory`.
    pub fn number_of(&mut self, description: Description, kind: NameKind, name: &str) -> Result<u64, Error> {
        let mut number = 0;
        // SAFETY: as above.
        done(unsafe {
            sys::zumelivon_number_of(
                &mut self.raw,
                description.0,
                kind_of(kind),
                name.as_ptr(),
                name.len(),
                &mut number,
            )
        })?;
        Ok(number)
    }

    /// The number of a symbol of a description, for a [`Signal`]. `NoSuchDescription`, `NoSuchName`, `NoMemory`.
    pub fn symbol(&mut self, description: Description, name: &str) -> Result<u32, Error> {
        let number = self.number_of(description, NameKind::Symbol, name)?;
        u32::try_from(number).map_err(|_| Error::NoSuchName)
    }

    /// The name of a number of a description. `NoSuchDescription`, `NoSuchName`, `NoMemory`.
    pub fn name_of(&mut self, description: Description, kind: NameKind, number: u64) -> Result<String, Error> {
        let mut length = 0;
        let answer = self.with_room(|raw, room| {
            // SAFETY: as above.
            let answer = unsafe {
                sys::zumelivon_name_of(
                    raw,
                    description.0,
                    kind_of(kind),
                    number,
                    room.as_mut_ptr(),
                    room.len(),
                    &mut length,
                )
            };
            (answer, length)
        })?;
        done(answer)?;
        Ok(String::from_utf8_lossy(self.handed_out(length)).into_owned())
    }

    /// Starts a machine of a description with the arguments of its start, at a moment.
    ///
    /// `Ignored`, and `Stopped` with the reason: the description starts no machine with these. `NoSuchDescription`,
    /// `BadMoment`, `Exhausted`, `Full`, `NoMemory`.
    pub fn start_described(
        &mut self,
        description: Description,
        now: u64,
        arguments: &[Value],
    ) -> Result<(MachineId, Report), Error> {
        let mut bytes = Vec::new();
        let values: Vec<_> = arguments.iter().map(|it| flat_value(0, it, &mut bytes)).collect();
        let (mut id, mut report) = (0, sys::zumelivon_report::default());
        // SAFETY: as above.
        let answer = unsafe {
            sys::zumelivon_start_described(
                &mut self.raw,
                description.0,
                now,
                values.as_ptr(),
                values.len(),
                bytes.as_ptr(),
                bytes.len(),
                &mut id,
                &mut report,
            )
        };
        if answer == sys::ZUMELIVON_STOPPED {
            return Err(Error::Stopped(report.reason));
        }
        done(answer)?;
        Ok((MachineId(id), self.report_of(&report)))
    }

    /// Posts an event to a described machine, and answers its number.
    ///
    /// `NoSuchMachine`, `Ended`, `Exhausted`, `NoMemory`.
    pub fn post_signal(&mut self, id: MachineId, entry: Entry, signal: &Signal) -> Result<u64, Error> {
        let (mut bytes, mut number) = (Vec::new(), 0);
        let flat = flat_value(signal.symbol, &signal.value, &mut bytes);
        // SAFETY: as above.
        done(unsafe {
            sys::zumelivon_post_signal(
                &mut self.raw,
                id.0,
                entry_of(entry),
                &flat,
                bytes.as_ptr(),
                bytes.len(),
                &mut number,
            )
        })?;
        Ok(number)
    }

    /// Posts a call to a described machine. Refused as [`post_signal`](Table::post_signal).
    pub fn call_signal(&mut self, id: MachineId, signal: &Signal) -> Result<Request, Error> {
        let number = self.post_signal(id, Entry::Call, signal)?;
        Ok(Request { machine: id, number })
    }

    /// Makes turns of a described machine until there is no event, but at most so many.
    ///
    /// A turn that is refused ends them, with `NoMemory` or `Exhausted`; the turns before it stay made. `NoSuchMachine`,
    /// `BadMoment`, and `Ended`, where the machine had ended before: none was made.
    pub fn run(&mut self, id: MachineId, now: u64, at_most: u64) -> Result<Ran, RunRefused> {
        let (mut turns, mut more) = (0, 0);
        // SAFETY: as above.
        let answer = unsafe { sys::zumelivon_run(&mut self.raw, id.0, now, at_most, &mut turns, &mut more) };
        match done(answer) {
            Ok(()) => Ok(Ran { turns, more: more != 0 }),
            Err(error) => Err(RunRefused { turns, error }),
        }
    }

    /// Takes the reply to a described machine's call out, once. `NoSuchMachine`; `NoMemory`: nothing is taken out.
    pub fn collect_signal(&mut self, request: Request) -> Result<Collected<Signal>, Error> {
        let (mut signal, mut reason) = (sys::zumelivon_signal::default(), 0);
        let answer = self.with_room(|raw, room| {
            // SAFETY: as above.
            let answer = unsafe {
                sys::zumelivon_collect_signal(
                    raw,
                    request.machine.0,
                    request.number,
                    &mut signal,
                    &mut reason,
                    room.as_mut_ptr(),
                    room.len(),
                )
            };
            (answer, signal.length)
        })?;
        match answer {
            sys::ZUMELIVON_DONE => Ok(Collected::Reply(self.signal_of(&signal))),
            sys::ZUMELIVON_NOTHING => Ok(Collected::Waiting),
            sys::ZUMELIVON_STOPPED => Ok(Collected::Stopped(reason)),
            sys::ZUMELIVON_GONE => Ok(Collected::Gone),
            other => Err(error_of(other)),
        }
    }

    /// Takes a described machine's first message out, which the program then delivers.
    ///
    /// `NoSuchMachine`; `NoMemory`: nothing is taken out.
    pub fn take_out_signal(&mut self, id: MachineId) -> Result<Option<SignalMessage>, Error> {
        let (mut signal, mut target, mut number) = (sys::zumelivon_signal::default(), 0, 0);
        let answer = self.with_room(|raw, room| {
            // SAFETY: as above.
            let answer = unsafe {
                sys::zumelivon_take_out_signal(
                    raw,
                    id.0,
                    &mut signal,
                    &mut target,
                    &mut number,
                    room.as_mut_ptr(),
                    room.len(),
                )
            };
            (answer, signal.length)
        })?;
        match answer {
            sys::ZUMELIVON_DONE => {
                Ok(Some(SignalMessage { target: MachineId(target), number, signal: self.signal_of(&signal) }))
            }
            sys::ZUMELIVON_NOTHING => Ok(None),
            other => Err(error_of(other)),
        }
    }

    fn signal_of(&self, it: &sys::zumelivon_signal) -> Signal {
        let value = match it.what {
            sys::ZUMELIVON_NUMBER => Value::Number(it.number),
            sys::ZUMELIVON_CALL_TAG => Value::Call(Request { machine: MachineId(it.number), number: it.request }),
            sys::ZUMELIVON_MACHINE => Value::Machine(MachineId(it.number)),
            sys::ZUMELIVON_TEXT => Value::Text(self.handed_out(it.length).to_vec()),
            _ => Value::None,
        };
        Signal { symbol: it.symbol, value }
    }
}
