//! Answers as the library reads them: numbers, and the bytes of all contents in one place.

use crate::{Action, Content, EnterStep, Entered, Kind, Outcome, Request, Step, Time, Timer};
use zumelivon_sys as sys;

/// What a module answered for one turn, or what a start asks for.
#[derive(Clone, Debug, Default)]
pub(crate) struct Flat {
    pub handled: sys::zumelivon_answer,
    pub actions: Vec<sys::zumelivon_action>,
    pub entered: sys::zumelivon_answer,
    pub enter_actions: Vec<sys::zumelivon_action>,
    pub bytes: Vec<u8>,
    pub word: u32,
}

impl Flat {
    pub fn put_outcome(&mut self, it: &Outcome) {
        self.handled = answer_of(&it.step, !it.actions.is_empty());
        self.actions = self.flattened(&it.actions);
    }

    pub fn put_entered(&mut self, it: &Entered) {
        self.entered = enter_answer_of(&it.step, !it.actions.is_empty());
        self.enter_actions = self.flattened(&it.actions);
    }

    pub fn put_actions(&mut self, actions: &[Action]) {
        self.actions = self.flattened(actions);
    }

    fn flattened(&mut self, actions: &[Action]) -> Vec<sys::zumelivon_action> {
        actions.iter().map(|it| self.flat_action(it)).collect()
    }

    fn flat_action(&mut self, action: &Action) -> sys::zumelivon_action {
        let mut flat = sys::zumelivon_action::default();
        match action {
            Action::Reply(request, content) => {
                flat.what = sys::ZUMELIVON_REPLY;
                put_request(&mut flat, *request);
                self.put_content(&mut flat, content);
            }
            Action::Postpone(says) => {
                flat.what = sys::ZUMELIVON_POSTPONE;
                flat.postpone = u32::from(*says);
            }
            Action::Insert(kind, content) => {
                flat.what = sys::ZUMELIVON_NEXT_EVENT;
                put_kind(&mut flat, *kind);
                self.put_content(&mut flat, content);
            }
            Action::Set(timer, time, content) => {
                flat.what = sys::ZUMELIVON_SET;
                put_timer(&mut flat, *timer);
                match time {
                    Time::After(milliseconds) => flat.time = *milliseconds,
                    Time::Infinite => flat.infinite = 1,
                }
                self.put_content(&mut flat, content);
            }
            Action::Cancel(timer) => {
                flat.what = sys::ZUMELIVON_CANCEL;
                put_timer(&mut flat, *timer);
            }
            Action::Update(timer, content) => {
                flat.what = sys::ZUMELIVON_UPDATE;
                put_timer(&mut flat, *timer);
                self.put_content(&mut flat, content);
            }
            Action::Send(target, content) => {
                flat.what = sys::ZUMELIVON_SEND;
                flat.machine = target.0;
                self.put_content(&mut flat, content);
            }
            Action::Hibernate => flat.what = sys::ZUMELIVON_HIBERNATE,
        }
        flat
    }

    fn put_content(&mut self, flat: &mut sys::zumelivon_action, content: &Content) {
        flat.code = content.code;
        flat.from = self.bytes.len() as u64;
        flat.length = content.bytes.len() as u64;
        self.bytes.extend_from_slice(&content.bytes);
    }
}

/// A stop that has actions is one with replies: the library refuses it where they are others.
fn stop_of(reason: u32, data: Option<u64>, has_actions: bool) -> sys::zumelivon_answer {
    sys::zumelivon_answer {
        what: if has_actions { sys::ZUMELIVON_STOP_AND_REPLY } else { sys::ZUMELIVON_STOP },
        reason,
        has_data: u32::from(data.is_some()),
        data: data.unwrap_or(0),
        ..Default::default()
    }
}

fn plain(what: u32, state: u64, data: u64) -> sys::zumelivon_answer {
    sys::zumelivon_answer { what, state, data, ..Default::default() }
}

fn answer_of(step: &Step, has_actions: bool) -> sys::zumelivon_answer {
    match *step {
        Step::NextState { state, data } => plain(sys::ZUMELIVON_NEXT_STATE, state, data),
        Step::KeepState { data } => plain(sys::ZUMELIVON_KEEP_STATE, 0, data),
        Step::KeepStateAndData => plain(sys::ZUMELIVON_KEEP_STATE_AND_DATA, 0, 0),
        Step::RepeatState { data } => plain(sys::ZUMELIVON_REPEAT_STATE, 0, data),
        Step::RepeatStateAndData => plain(sys::ZUMELIVON_REPEAT_STATE_AND_DATA, 0, 0),
        Step::Stop { reason, data } => stop_of(reason, data, has_actions),
    }
}

fn enter_answer_of(step: &EnterStep, has_actions: bool) -> sys::zumelivon_answer {
    match *step {
        EnterStep::KeepState { data } => plain(sys::ZUMELIVON_KEEP_STATE, 0, data),
        EnterStep::KeepStateAndData => plain(sys::ZUMELIVON_KEEP_STATE_AND_DATA, 0, 0),
        EnterStep::Stop { reason, data } => stop_of(reason, data, has_actions),
    }
}

fn put_request(flat: &mut sys::zumelivon_action, request: Request) {
    flat.machine = request.machine.0;
    flat.request = request.number;
}

fn put_timer(flat: &mut sys::zumelivon_action, timer: Timer) {
    (flat.timer, flat.name) = match timer {
        Timer::Event => (sys::ZUMELIVON_EVENT_TIMER, 0),
        Timer::State => (sys::ZUMELIVON_STATE_TIMER, 0),
        Timer::Named(name) => (sys::ZUMELIVON_NAMED_TIMER, name),
    };
}

fn put_kind(flat: &mut sys::zumelivon_action, kind: Kind) {
    flat.kind = match kind {
        Kind::Call(request) => {
            put_request(flat, request);
            sys::ZUMELIVON_CALL
        }
        Kind::Cast => sys::ZUMELIVON_CAST,
        Kind::Info => sys::ZUMELIVON_INFO,
        Kind::Timeout(timer) => {
            put_timer(flat, timer);
            sys::ZUMELIVON_TIMEOUT
        }
        Kind::Internal => sys::ZUMELIVON_INTERNAL,
    };
}
