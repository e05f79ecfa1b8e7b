//! The declarations of `c/zumelivon.h`, with its names. The header says what each call does, and what its caller owes.
#![no_std]
#![allow(non_camel_case_types)]

use core::ffi::c_void;

/// The version of these declarations.
pub const ZUMELIVON_VERSION: u32 = 1;

// What calls return.
pub const ZUMELIVON_DONE: u32 = 0;
pub const ZUMELIVON_NO_MEMORY: u32 = 1;
pub const ZUMELIVON_ENDED: u32 = 2;
pub const ZUMELIVON_EXHAUSTED: u32 = 3;
pub const ZUMELIVON_BAD_MOMENT: u32 = 4;
pub const ZUMELIVON_NO_SUCH_NAME: u32 = 8;
pub const ZUMELIVON_NO_SUCH_MACHINE: u32 = 9;
pub const ZUMELIVON_FULL: u32 = 11;
pub const ZUMELIVON_NOTHING: u32 = 100;
pub const ZUMELIVON_INVALID: u32 = 101;
pub const ZUMELIVON_TOO_SMALL: u32 = 102;
pub const ZUMELIVON_STOPPED: u32 = 103;
pub const ZUMELIVON_NOT_NEXT: u32 = 104;
pub const ZUMELIVON_CLOSED: u32 = 105;
pub const ZUMELIVON_OPEN: u32 = 106;
pub const ZUMELIVON_GONE: u32 = 107;
pub const ZUMELIVON_WRONG_VERSION: u32 = 108;
pub const ZUMELIVON_IGNORED: u32 = 110;
pub const ZUMELIVON_FAULTY: u32 = 111;
pub const ZUMELIVON_NO_SUCH_DESCRIPTION: u32 = 112;

// Kinds of events. The first three are also ways to post one.
pub const ZUMELIVON_CALL: u32 = 0;
pub const ZUMELIVON_CAST: u32 = 1;
pub const ZUMELIVON_INFO: u32 = 2;
pub const ZUMELIVON_TIMEOUT: u32 = 3;
pub const ZUMELIVON_INTERNAL: u32 = 4;

// Timers.
pub const ZUMELIVON_EVENT_TIMER: u32 = 0;
pub const ZUMELIVON_STATE_TIMER: u32 = 1;
pub const ZUMELIVON_NAMED_TIMER: u32 = 2;

// `zumelivon_answer.what`.
pub const ZUMELIVON_NONE: u32 = 0;
pub const ZUMELIVON_NEXT_STATE: u32 = 1;
pub const ZUMELIVON_KEEP_STATE: u32 = 2;
pub const ZUMELIVON_KEEP_STATE_AND_DATA: u32 = 3;
pub const ZUMELIVON_REPEAT_STATE: u32 = 4;
pub const ZUMELIVON_REPEAT_STATE_AND_DATA: u32 = 5;
pub const ZUMELIVON_STOP: u32 = 6;
pub const ZUMELIVON_STOP_AND_REPLY: u32 = 7;

// `zumelivon_action.what`.
pub const ZUMELIVON_REPLY: u32 = 1;
pub const ZUMELIVON_POSTPONE: u32 = 2;
pub const ZUMELIVON_NEXT_EVENT: u32 = 3;
pub const ZUMELIVON_SET: u32 = 4;
pub const ZUMELIVON_CANCEL: u32 = 5;
pub const ZUMELIVON_UPDATE: u32 = 6;
pub const ZUMELIVON_SEND: u32 = 7;
pub const ZUMELIVON_HIBERNATE: u32 = 8;

// `zumelivon_report.done`.
pub const ZUMELIVON_STARTED: u32 = 0;
pub const ZUMELIVON_FINISHED: u32 = 1;
pub const ZUMELIVON_POSTPONED: u32 = 2;
pub const ZUMELIVON_HAS_ENDED: u32 = 3;

// Lists of a report.
pub const ZUMELIVON_REPLIED: u32 = 0;
pub const ZUMELIVON_INSERTED: u32 = 1;
pub const ZUMELIVON_SET_TIMERS: u32 = 2;
pub const ZUMELIVON_SENT: u32 = 3;

// `zumelivon_listed.decision`.
pub const ZUMELIVON_TIMER_SET: u32 = 0;
pub const ZUMELIVON_TIMER_CANCELLED: u32 = 1;
pub const ZUMELIVON_TIMER_UPDATED: u32 = 2;

// `zumelivon_signal.what`.
pub const ZUMELIVON_NO_VALUE: u32 = 0;
pub const ZUMELIVON_NUMBER: u32 = 1;
pub const ZUMELIVON_CALL_TAG: u32 = 2;
pub const ZUMELIVON_MACHINE: u32 = 3;
pub const ZUMELIVON_TEXT: u32 = 4;

// Names of a description.
pub const ZUMELIVON_SYMBOL: u32 = 0;
pub const ZUMELIVON_STATE: u32 = 1;
pub const ZUMELIVON_TIMER_NAME: u32 = 2;

/// A table of machines.
#[repr(C)]
#[derive(Debug)]
pub struct zumelivon {
    pub at: *mut c_void,
}

/// How a hosted machine begins.
#[repr(C)]
#[derive(Clone, Copy, Debug, Default, PartialEq, Eq)]
pub struct zumelivon_begin {
    pub state: u64,
    pub data: u64,
    pub enters: u32,
    pub word: u32,
}

/// What the program answers to an event, or to an enter call, without its actions.
#[repr(C)]
#[derive(Clone, Copy, Debug, Default, PartialEq, Eq)]
pub struct zumelivon_answer {
    pub what: u32,
    pub reason: u32,
    pub has_data: u32,
    pub unused: u32,
    pub state: u64,
    pub data: u64,
}

/// One action.
#[repr(C)]
#[derive(Clone, Copy, Debug, Default, PartialEq, Eq)]
pub struct zumelivon_action {
    pub what: u32,
    pub kind: u32,
    pub postpone: u32,
    pub timer: u32,
    pub name: u32,
    pub time: u32,
    pub infinite: u32,
    pub unused: u32,
    pub machine: u64,
    pub request: u64,
    pub code: u64,
    pub from: u64,
    pub length: u64,
}

/// The event that the next turn handles.
#[repr(C)]
#[derive(Clone, Copy, Debug, Default, PartialEq, Eq)]
pub struct zumelivon_event {
    pub number: u64,
    pub kind: u32,
    pub timer: u32,
    pub name: u32,
    pub enters: u32,
    pub machine: u64,
    pub request: u64,
    pub code: u64,
    pub length: u64,
    pub state: u64,
    pub data: u64,
}

/// A reply.
#[repr(C)]
#[derive(Clone, Copy, Debug, Default, PartialEq, Eq)]
pub struct zumelivon_content {
    pub code: u64,
    pub length: u64,
    pub reason: u32,
    pub unused: u32,
}

/// A message.
#[repr(C)]
#[derive(Clone, Copy, Debug, Default, PartialEq, Eq)]
pub struct zumelivon_message {
    pub target: u64,
    pub number: u64,
    pub code: u64,
    pub length: u64,
}

/// What a start or a turn did.
#[repr(C)]
#[derive(Clone, Copy, Debug, Default, PartialEq, Eq)]
pub struct zumelivon_report {
    pub event: u64,
    pub has_event: u32,
    pub done: u32,
    pub reason: u32,
    pub word: u32,
    pub before: u64,
    pub after: u64,
    pub calls: u64,
    pub replied: u64,
    pub inserted: u64,
    pub set: u64,
    pub sent: u64,
}

/// An element of a list.
#[repr(C)]
#[derive(Clone, Copy, Debug, Default, PartialEq, Eq)]
pub struct zumelivon_listed {
    pub machine: u64,
    pub number: u64,
    pub timer: u32,
    pub name: u32,
    pub decision: u32,
    pub time: u32,
    pub infinite: u32,
    pub unused: u32,
}

/// A machine as it is.
#[repr(C)]
#[derive(Clone, Copy, Debug, Default, PartialEq, Eq)]
pub struct zumelivon_machine {
    pub state: u64,
    pub data: u64,
    pub latest: u64,
    pub waiting: u64,
    pub due: u64,
    pub has_due: u32,
    pub has_event: u32,
    pub has_message: u32,
    pub ended: u32,
    pub reason: u32,
    pub word: u32,
}

/// What a described machine's event, reply or message carries.
#[repr(C)]
#[derive(Clone, Copy, Debug, Default, PartialEq, Eq)]
pub struct zumelivon_signal {
    pub symbol: u32,
    pub what: u32,
    pub number: u64,
    pub request: u64,
    pub from: u64,
    pub length: u64,
}

unsafe extern "C" {
    // Tables.
    pub fn zumelivon_version() -> u32;
    pub fn zumelivon_open(table: *mut zumelivon, version: u32) -> u32;
    pub fn zumelivon_close(table: *mut zumelivon) -> u32;

    // Machines of either family.
    pub fn zumelivon_tick(table: *mut zumelivon, id: u64, now: u64, expired: *mut u64) -> u32;
    pub fn zumelivon_look(table: *mut zumelivon, id: u64, machine: *mut zumelivon_machine) -> u32;
    pub fn zumelivon_stop(table: *mut zumelivon, id: u64, reason: u32, word: u32) -> u32;
    pub fn zumelivon_remove(table: *mut zumelivon, id: u64) -> u32;
    pub fn zumelivon_list(table: *mut zumelivon, list: u32, index: u64, listed: *mut zumelivon_listed) -> u32;

    // Hosted machines.
    pub fn zumelivon_start(
        table: *mut zumelivon,
        now: u64,
        begin: *const zumelivon_begin,
        actions: *const zumelivon_action,
        count: usize,
        entered: *const zumelivon_answer,
        enter_actions: *const zumelivon_action,
        enter_count: usize,
        bytes: *const u8,
        length: usize,
        id: *mut u64,
        report: *mut zumelivon_report,
    ) -> u32;
    pub fn zumelivon_post(
        table: *mut zumelivon,
        id: u64,
        entry: u32,
        code: u64,
        bytes: *const u8,
        length: usize,
        number: *mut u64,
    ) -> u32;
    pub fn zumelivon_next(
        table: *mut zumelivon,
        id: u64,
        event: *mut zumelivon_event,
        room: *mut u8,
        capacity: usize,
    ) -> u32;
    pub fn zumelivon_turn(
        table: *mut zumelivon,
        id: u64,
        number: u64,
        now: u64,
        handled: *const zumelivon_answer,
        actions: *const zumelivon_action,
        count: usize,
        entered: *const zumelivon_answer,
        enter_actions: *const zumelivon_action,
        enter_count: usize,
        bytes: *const u8,
        length: usize,
        word: u32,
        report: *mut zumelivon_report,
    ) -> u32;
    pub fn zumelivon_collect(
        table: *mut zumelivon,
        id: u64,
        number: u64,
        content: *mut zumelivon_content,
        room: *mut u8,
        capacity: usize,
    ) -> u32;
    pub fn zumelivon_reply(
        table: *mut zumelivon,
        id: u64,
        number: u64,
        code: u64,
        bytes: *const u8,
        length: usize,
    ) -> u32;
    pub fn zumelivon_take_out(
        table: *mut zumelivon,
        id: u64,
        message: *mut zumelivon_message,
        room: *mut u8,
        capacity: usize,
    ) -> u32;

    // Described machines.
    pub fn zumelivon_describe(
        table: *mut zumelivon,
        text: *const u8,
        size: usize,
        description: *mut u64,
        room: *mut u8,
        capacity: usize,
        length: *mut u64,
    ) -> u32;
    pub fn zumelivon_number_of(
        table: *mut zumelivon,
        description: u64,
        kind: u32,
        name: *const u8,
        size: usize,
        number: *mut u64,
    ) -> u32;
    pub fn zumelivon_name_of(
        table: *mut zumelivon,
        description: u64,
        kind: u32,
        number: u64,
        room: *mut u8,
        capacity: usize,
        length: *mut u64,
    ) -> u32;
    pub fn zumelivon_start_described(
        table: *mut zumelivon,
        description: u64,
        now: u64,
        values: *const zumelivon_signal,
        count: usize,
        bytes: *const u8,
        size: usize,
        id: *mut u64,
        report: *mut zumelivon_report,
    ) -> u32;
    pub fn zumelivon_post_signal(
        table: *mut zumelivon,
        id: u64,
        entry: u32,
        signal: *const zumelivon_signal,
        bytes: *const u8,
        size: usize,
        number: *mut u64,
    ) -> u32;
    pub fn zumelivon_run(
        table: *mut zumelivon,
        id: u64,
        now: u64,
        at_most: u64,
        turns: *mut u64,
        more: *mut u32,
    ) -> u32;
    pub fn zumelivon_collect_signal(
        table: *mut zumelivon,
        id: u64,
        number: u64,
        signal: *mut zumelivon_signal,
        reason: *mut u32,
        room: *mut u8,
        capacity: usize,
    ) -> u32;
    pub fn zumelivon_take_out_signal(
        table: *mut zumelivon,
        id: u64,
        signal: *mut zumelivon_signal,
        target: *mut u64,
        number: *mut u64,
        room: *mut u8,
        capacity: usize,
    ) -> u32;
}

/// Whether this answer to this event leads to an enter call.
pub fn zumelivon_enters(event: &zumelivon_event, answer: &zumelivon_answer) -> bool {
    event.enters != 0
        && ((answer.what == ZUMELIVON_NEXT_STATE && answer.state != event.state)
            || answer.what == ZUMELIVON_REPEAT_STATE
            || answer.what == ZUMELIVON_REPEAT_STATE_AND_DATA)
}
