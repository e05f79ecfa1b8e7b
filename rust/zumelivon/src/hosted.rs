//! Hosted machines: a module decides.

use crate::error::{done, error_of};
use crate::flat::Flat;
use crate::table::{NO_MOMENT, Unmade, timer_of};
use crate::{
    Collected, Content, EnterStep, Entry, Error, Event, Kind, MachineId, Message, Module, Report, Request, Start, Step,
    Table,
};
use zumelivon_sys as sys;

pub(crate) fn entry_of(entry: Entry) -> u32 {
    match entry {
        Entry::Call => sys::ZUMELIVON_CALL,
        Entry::Cast => sys::ZUMELIVON_CAST,
        Entry::Info => sys::ZUMELIVON_INFO,
    }
}

fn kind_of(it: &sys::zumelivon_event) -> Kind {
    match it.kind {
        sys::ZUMELIVON_CALL => Kind::Call(Request { machine: MachineId(it.machine), number: it.request }),
        sys::ZUMELIVON_CAST => Kind::Cast,
        sys::ZUMELIVON_INFO => Kind::Info,
        sys::ZUMELIVON_TIMEOUT => Kind::Timeout(timer_of(it.timer, it.name)),
        _ => Kind::Internal,
    }
}

/// Asks a module what it answers to an event, and to what follows from its answer.
fn ask<M: Module + ?Sized>(module: &mut M, id: MachineId, it: &sys::zumelivon_event, bytes: &[u8]) -> Flat {
    let mut flat = Flat::default();
    let event = Event { number: it.number, kind: kind_of(it), code: it.code, bytes, state: it.state, data: it.data };
    let outcome = module.handle(id, &event);
    flat.put_outcome(&outcome);
    let (to, data) = match outcome.step {
        Step::NextState { state, data } => (state, data),
        Step::KeepState { data } | Step::RepeatState { data } => (it.state, data),
        Step::KeepStateAndData | Step::RepeatStateAndData => (it.state, it.data),
        Step::Stop { reason, data } => {
            flat.word = module.terminate(id, reason, it.state, data.unwrap_or(it.data));
            return flat;
        }
    };
    if sys::zumelivon_enters(it, &flat.handled) {
        let entered = module.enter(id, it.state, to, data);
        if let EnterStep::Stop { reason, data: last } = entered.step {
            flat.word = module.terminate(id, reason, to, last.unwrap_or(data));
        }
        flat.put_entered(&entered);
    }
    flat
}

impl Table {
    /// Starts a hosted machine, at a moment.
    ///
    /// Where its first enter call stops, there is a machine all the same: one that has ended.
    ///
    /// `BadMoment`, `Exhausted`, `Full`, `Invalid`, `NoMemory`.
    pub fn start(&mut self, now: u64, start: &Start) -> Result<(MachineId, Report), Error> {
        let mut flat = Flat::default();
        flat.put_actions(&start.actions);
        if let Some(entered) = &start.entered {
            flat.put_entered(entered);
        }
        let begin = sys::zumelivon_begin {
            state: start.state,
            data: start.data,
            enters: u32::from(start.entered.is_some()),
            word: start.word,
        };
        let (mut id, mut report) = (0, sys::zumelivon_report::default());
        // SAFETY: the table is open; each pointer is a reference's, or a vector's with its length.
        done(unsafe {
            sys::zumelivon_start(
                &mut self.raw,
                now,
                &begin,
                flat.actions.as_ptr(),
                flat.actions.len(),
                &flat.entered,
                flat.enter_actions.as_ptr(),
                flat.enter_actions.len(),
                flat.bytes.as_ptr(),
                flat.bytes.len(),
                &mut id,
                &mut report,
            )
        })?;
        Ok((MachineId(id), self.report_of(&report)))
    }

    /// Posts an event, and answers its number.
    ///
    /// `NoSuchMachine`, `Ended`, `Exhausted`, `NoMemory`.
    pub fn post(&mut self, id: MachineId, entry: Entry, content: impl Into<Content>) -> Result<u64, Error> {
        let content = content.into();
        let (bytes, mut number) = (&content.bytes, 0);
        // SAFETY: as above.
        done(unsafe {
            sys::zumelivon_post(
                &mut self.raw,
                id.0,
                entry_of(entry),
                content.code,
                bytes.as_ptr(),
                bytes.len(),
                &mut number,
            )
        })?;
        Ok(number)
    }

    /// Posts a call. Its reply is collected by the request. Refused as [`post`](Table::post).
    pub fn call(&mut self, id: MachineId, content: impl Into<Content>) -> Result<Request, Error> {
        let number = self.post(id, Entry::Call, content)?;
        Ok(Request { machine: id, number })
    }

    /// Posts a cast, and answers its number. Refused as [`post`](Table::post).
    pub fn cast(&mut self, id: MachineId, content: impl Into<Content>) -> Result<u64, Error> {
        self.post(id, Entry::Cast, content)
    }

    /// Posts an info, and answers its number. Refused as [`post`](Table::post).
    pub fn info(&mut self, id: MachineId, content: impl Into<Content>) -> Result<u64, Error> {
        self.post(id, Entry::Info, content)
    }

    /// Asks the module about the next event, and makes the turn. `None`: there is no event.
    ///
    /// `NoSuchMachine`, and `BadMoment`: the module was not asked. `NoMemory`: the event waits as before, and the next
    /// turn of this machine hands in the same answer, without asking again. `Exhausted`, and `Invalid`, where a stop has
    /// another action than a reply: the event waits as before, and the module will be asked again.
    pub fn turn<M: Module + ?Sized>(
        &mut self,
        id: MachineId,
        now: u64,
        module: &mut M,
    ) -> Result<Option<Report>, Error> {
        let Some(event) = self.next(id)? else { return Ok(None) };
        if now >= NO_MOMENT {
            return Err(Error::BadMoment);
        }
        self.unmade.try_reserve(1).map_err(|_| Error::NoMemory)?;
        let flat = match self.unmade.remove(&id) {
            Some(unmade) if unmade.number == event.number => unmade.flat,
            _ => ask(module, id, &event, self.handed_out(event.length)),
        };
        let mut report = sys::zumelivon_report::default();
        // SAFETY: as above.
        let answer = unsafe {
            sys::zumelivon_turn(
                &mut self.raw,
                id.0,
                event.number,
                now,
                &flat.handled,
                flat.actions.as_ptr(),
                flat.actions.len(),
                &flat.entered,
                flat.enter_actions.as_ptr(),
                flat.enter_actions.len(),
                flat.bytes.as_ptr(),
                flat.bytes.len(),
                flat.word,
                &mut report,
            )
        };
        match answer {
            sys::ZUMELIVON_DONE => Ok(Some(self.report_of(&report))),
            sys::ZUMELIVON_NO_MEMORY => {
                self.unmade.insert(id, Unmade { number: event.number, flat });
                Err(Error::NoMemory)
            }
            other => Err(error_of(other)),
        }
    }

    /// Makes turns until there is no event, or the machine has ended. Answers how many were made.
    ///
    /// Refused as [`turn`](Table::turn). The turns that were made before stay made.
    pub fn turn_until_idle<M: Module + ?Sized>(
        &mut self,
        id: MachineId,
        now: u64,
        module: &mut M,
    ) -> Result<u64, Error> {
        let mut turns = 0;
        while self.turn(id, now, module)?.is_some() {
            turns += 1;
        }
        Ok(turns)
    }

    /// The event that the next turn handles. Its bytes are handed out.
    fn next(&mut self, id: MachineId) -> Result<Option<sys::zumelivon_event>, Error> {
        let mut event = sys::zumelivon_event::default();
        let answer = self.with_room(|raw, room| {
            // SAFETY: the table is open; the pointers are a reference's, and a slice's with its length.
            let answer = unsafe { sys::zumelivon_next(raw, id.0, &mut event, room.as_mut_ptr(), room.len()) };
            (answer, event.length)
        })?;
        match answer {
            sys::ZUMELIVON_DONE => Ok(Some(event)),
            sys::ZUMELIVON_NOTHING => Ok(None),
            other => Err(error_of(other)),
        }
    }

    /// Takes the reply to a call out, once.
    ///
    /// `NoSuchMachine`: no machine of this id is there, or it is a described one. `NoMemory`: nothing is taken out.
    pub fn collect(&mut self, request: Request) -> Result<Collected<Content>, Error> {
        let mut content = sys::zumelivon_content::default();
        let answer = self.with_room(|raw, room| {
            let (id, number) = (request.machine.0, request.number);
            // SAFETY: as above.
            let answer =
                unsafe { sys::zumelivon_collect(raw, id, number, &mut content, room.as_mut_ptr(), room.len()) };
            (answer, content.length)
        })?;
        match answer {
            sys::ZUMELIVON_DONE => {
                let bytes = self.handed_out(content.length).to_vec();
                Ok(Collected::Reply(Content { code: content.code, bytes }))
            }
            sys::ZUMELIVON_NOTHING => Ok(Collected::Waiting),
            sys::ZUMELIVON_STOPPED => Ok(Collected::Stopped(content.reason)),
            sys::ZUMELIVON_GONE => Ok(Collected::Gone),
            other => Err(error_of(other)),
        }
    }

    /// Answers a call from outside. Answers whether it was open.
    ///
    /// `NoSuchMachine`, `NoMemory`.
    pub fn reply(&mut self, request: Request, content: impl Into<Content>) -> Result<bool, Error> {
        let content = content.into();
        let (id, bytes) = (request.machine.0, &content.bytes);
        // SAFETY: the table is open; the pointer is a vector's with its length.
        let answer = unsafe {
            sys::zumelivon_reply(&mut self.raw, id, request.number, content.code, bytes.as_ptr(), bytes.len())
        };
        match answer {
            sys::ZUMELIVON_DONE => Ok(true),
            sys::ZUMELIVON_NOTHING => Ok(false),
            other => Err(error_of(other)),
        }
    }

    /// Takes the machine's first message out, which the program then delivers: `info(message.target, message.content)`.
    ///
    /// `NoSuchMachine`; `NoMemory`: nothing is taken out.
    pub fn take_out(&mut self, id: MachineId) -> Result<Option<Message>, Error> {
        let mut message = sys::zumelivon_message::default();
        let answer = self.with_room(|raw, room| {
            // SAFETY: the table is open; the pointers are a reference's, and a slice's with its length.
            let answer = unsafe { sys::zumelivon_take_out(raw, id.0, &mut message, room.as_mut_ptr(), room.len()) };
            (answer, message.length)
        })?;
        match answer {
            sys::ZUMELIVON_DONE => Ok(Some(Message {
                target: MachineId(message.target),
                number: message.number,
                content: Content { code: message.code, bytes: self.handed_out(message.length).to_vec() },
            })),
            sys::ZUMELIVON_NOTHING => Ok(None),
            other => Err(error_of(other)),
        }
    }
}
