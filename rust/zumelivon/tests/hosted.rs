//! Hosted machines.

use std::panic::{AssertUnwindSafe, catch_unwind};
use zumelivon::{
    Action, Collected, Content, Decision, Done, Entered, Error, Event, Kind, MachineId, Module, Outcome, Start, Table,
    Time, Timer,
};

/// A connection that is lent to one client at a time, for a minute at most.
#[derive(Default)]
struct Lent {
    asked: u64,
    panics: bool,
}

const BORROW: u64 = 1;
const RETURN: u64 = 3;
const MINUTE: Timer = Timer::Named(1);

impl Module for Lent {
    fn handle(&mut self, _: MachineId, event: &Event<'_>) -> Outcome {
        self.asked += 1;
        assert!(!self.panics, "in a callback");
        match (event.kind, event.code, event.state) {
            (Kind::Call(client), BORROW, 0) => {
                Outcome::next_state(1, client.number).reply(client, (2, "yours")).set(MINUTE, 60_000, RETURN)
            }
            (Kind::Call(_), BORROW, 1) => Outcome::keep().postpone(),
            (Kind::Cast, RETURN, 1) => Outcome::next_state(0, event.data).cancel(MINUTE),
            (Kind::Timeout(MINUTE), RETURN, 1) => Outcome::next_state(0, event.data),
            _ => Outcome::keep(),
        }
    }
}

/// Answers each event by what it is told to.
struct Told(Outcome);

impl Module for Told {
    fn handle(&mut self, _: MachineId, _: &Event<'_>) -> Outcome {
        self.0.clone()
    }

    fn terminate(&mut self, _: MachineId, reason: u32, state: u64, data: u64) -> u32 {
        reason * 100 + state as u32 * 10 + data as u32
    }
}

fn started(start: &Start) -> (Table, MachineId) {
    let mut table = Table::new().unwrap();
    let (id, _) = table.start(0, start).unwrap();
    (table, id)
}

#[test]
fn a_second_client_waits_until_the_first_returns_or_a_minute_is_over() {
    let (mut table, id) = started(&Start::in_state(0, 0));
    let mut lent = Lent::default();
    let calls: Vec<_> = (0..3).map(|_| table.call(id, (BORROW, "please")).unwrap()).collect();
    assert_eq!(table.turn_until_idle(id, 10, &mut lent), Ok(3));
    let yours = Collected::Reply(Content::from((2, "yours")));
    assert_eq!(table.collect(calls[0]), Ok(yours.clone()));
    assert_eq!(table.collect(calls[0]), Ok(Collected::Gone));
    assert_eq!(table.collect(calls[1]), Ok(Collected::Waiting));
    table.cast(id, RETURN).unwrap();
    table.turn_until_idle(id, 20, &mut lent).unwrap();
    assert_eq!(table.collect(calls[1]), Ok(yours.clone()));
    assert_eq!(table.due(id), Ok(Some(60_020)));
    assert_eq!(table.tick(id, 60_019), Ok(0));
    assert_eq!(table.tick(id, 60_020), Ok(1));
    table.turn_until_idle(id, 60_020, &mut lent).unwrap();
    assert_eq!(table.collect(calls[2]), Ok(yours));
    table.stop(id, 9, &mut lent).unwrap();
    assert_eq!(table.cast(id, RETURN), Err(Error::Ended));
    table.remove(id).unwrap();
    assert_eq!(table.cast(id, RETURN), Err(Error::NoSuchMachine));
}

#[test]
fn a_panic_in_a_callback_leaves_the_event_and_the_table() {
    let (mut table, id) = started(&Start::in_state(0, 0));
    let mut lent = Lent { panics: true, ..Lent::default() };
    let call = table.call(id, (BORROW, vec![7; 1000])).unwrap();
    assert!(catch_unwind(AssertUnwindSafe(|| table.turn(id, 1, &mut lent))).is_err());
    let machine = table.look(id).unwrap();
    assert_eq!((machine.waiting, machine.has_event, machine.state, machine.latest), (1, true, 0, 0));
    lent.panics = false;
    assert_eq!(table.turn_until_idle(id, 1, &mut lent), Ok(1));
    assert_eq!(lent.asked, 2);
    assert_eq!(table.collect(call), Ok(Collected::Reply((2, "yours").into())));
}

#[test]
fn a_closure_is_a_module() {
    let (mut table, id) = started(&Start::in_state(0, 0));
    let mut texts = Vec::new();
    table.info(id, (1, "a text")).unwrap();
    let mut collects = |_: MachineId, event: &Event<'_>| {
        texts.push(event.text().into_owned());
        Outcome::keep_with(event.data + 1)
    };
    assert_eq!(table.turn_until_idle(id, 0, &mut collects), Ok(1));
    assert_eq!(texts, ["a text"]);
    assert_eq!(table.look(id).unwrap().data, 1);
}

#[test]
fn a_moment_that_is_too_late_asks_nobody() {
    let (mut table, id) = started(&Start::in_state(0, 0));
    let mut lent = Lent::default();
    table.call(id, BORROW).unwrap();
    assert_eq!(table.turn(id, 1 << 63, &mut lent), Err(Error::BadMoment));
    assert_eq!(table.tick(id, u64::MAX), Err(Error::BadMoment));
    assert_eq!(lent.asked, 0);
    assert_eq!(table.look(id).unwrap().latest, 0);
    assert_eq!(table.turn(id, 5, &mut lent).unwrap().unwrap().done, Done::Finished);
    assert!(table.start(1 << 63, &Start::in_state(0, 0)).is_err());
}

#[test]
fn reports_list_what_was_done() {
    let (mut table, id) = started(&Start::in_state(0, 0));
    let call = table.call(id, 1).unwrap();
    let outcome = Outcome::keep()
        .reply(call, 5)
        .insert_internal((6, "inserted"))
        .set(Timer::State, 70, 7)
        .set(Timer::Named(9), Time::Infinite, 8)
        .cancel(Timer::Event)
        .update(Timer::Named(3), 9)
        .send(id, (10, "sent"))
        .and(Action::Hibernate);
    let report = table.turn(id, 4, &mut Told(outcome)).unwrap().unwrap();
    assert_eq!(report.event, Some(call.number));
    assert_eq!(report.replied, [call]);
    assert_eq!(report.inserted.len(), 1);
    assert_eq!(report.sent, [1]);
    assert!(report.set.contains(&(Timer::State, Decision::Set(Time::After(70)))));
    assert!(report.set.contains(&(Timer::Named(9), Decision::Set(Time::Infinite))));
    assert!(report.set.contains(&(Timer::Event, Decision::Cancelled)));
    assert!(report.set.contains(&(Timer::Named(3), Decision::Updated)));
    let message = table.take_out(id).unwrap().unwrap();
    assert_eq!((message.target, message.number), (id, 1));
    assert_eq!(message.content.text(), "sent");
    assert_eq!(table.take_out(id), Ok(None));
    assert_eq!(table.due(id), Ok(Some(74)));
}

#[test]
fn what_postpones_is_told_and_comes_again() {
    let (mut table, id) = started(&Start::in_state(0, 0));
    let first = table.cast(id, 1).unwrap();
    assert_eq!(table.turn(id, 0, &mut Told(Outcome::keep().postpone())).unwrap().unwrap().done, Done::Postponed);
    assert_eq!(table.turn(id, 0, &mut Told(Outcome::keep())), Ok(None));
    table.cast(id, 2).unwrap();
    table.turn(id, 0, &mut Told(Outcome::next_state(1, 0))).unwrap();
    assert_eq!(table.turn(id, 0, &mut Told(Outcome::keep())).unwrap().unwrap().event, Some(first));
}

#[test]
fn a_stop_has_a_last_word_and_replies_alone() {
    let (mut table, id) = started(&Start::in_state(2, 0));
    let call = table.call(id, 1).unwrap();
    let wrong = Outcome::stop(3).set(Timer::State, 1, 1);
    assert_eq!(table.turn(id, 0, &mut Told(wrong)), Err(Error::Invalid));
    assert_eq!(table.look(id).unwrap().waiting, 1);
    let right = Outcome::stop_with(3, 4).reply(call, 9);
    let report = table.turn(id, 0, &mut Told(right)).unwrap().unwrap();
    assert_eq!(report.done, Done::Ended { reason: 3, word: 324 });
    assert!(report.has_ended());
    assert_eq!(table.look(id).unwrap().ended, Some((3, 324)));
    assert_eq!(table.collect(call), Ok(Collected::Reply(9.into())));
    assert_eq!(table.stop(id, 1, &mut Told(Outcome::keep())), Err(Error::Ended));
}

#[test]
fn an_open_call_is_told_why_its_machine_stopped() {
    let (mut table, id) = started(&Start::in_state(2, 1));
    let (early, late) = (table.call(id, 1).unwrap(), table.call(id, 1).unwrap());
    assert_eq!(table.reply(early, 8), Ok(true));
    assert_eq!(table.reply(early, 8), Ok(false));
    table.stop(id, 5, &mut Told(Outcome::keep())).unwrap();
    assert_eq!(table.look(id).unwrap().ended, Some((5, 521)));
    assert_eq!(table.collect(early), Ok(Collected::Reply(8.into())));
    assert_eq!(table.collect(late), Ok(Collected::Stopped(5)));
    assert_eq!(table.collect(late), Ok(Collected::Gone));
}

/// Enter calls: to an odd state they stop.
struct Enters(Vec<(u64, u64, u64)>);

impl Module for Enters {
    fn handle(&mut self, _: MachineId, event: &Event<'_>) -> Outcome {
        match event.code {
            0 => Outcome::repeat(),
            1 => Outcome::repeat_with(11),
            state => Outcome::next_state(state, 12),
        }
    }

    fn enter(&mut self, _: MachineId, from: u64, to: u64, data: u64) -> Entered {
        self.0.push((from, to, data));
        if to % 2 == 1 { Entered::stop_with(6, 13) } else { Entered::keep_with(data + 1).set(Timer::State, 5, 0) }
    }

    fn terminate(&mut self, _: MachineId, reason: u32, state: u64, data: u64) -> u32 {
        reason * 1000 + state as u32 * 100 + data as u32
    }
}

#[test]
fn enter_calls_come_where_a_state_is_entered() {
    let (mut table, id) = started(&Start::in_state(2, 1).entered(Entered::keep_with(10)));
    let mut enters = Enters(Vec::new());
    for code in [0, 1, 2, 4] {
        table.cast(id, code).unwrap();
        table.turn_until_idle(id, 7, &mut enters).unwrap();
    }
    // `2` is no state change: it keeps 12 as the data.
    assert_eq!(enters.0, [(2, 2, 10), (2, 2, 11), (2, 4, 12)]);
    let machine = table.look(id).unwrap();
    assert_eq!((machine.state, machine.data, machine.due), (4, 13, Some(12)));
    table.cast(id, 5).unwrap();
    let report = table.turn(id, 7, &mut enters).unwrap().unwrap();
    assert_eq!(report.done, Done::Ended { reason: 6, word: 6513 });
}

#[test]
fn a_machine_without_enter_calls_is_asked_for_none() {
    let (mut table, id) = started(&Start::in_state(2, 1));
    let mut enters = Enters(Vec::new());
    table.cast(id, 4).unwrap();
    table.turn_until_idle(id, 0, &mut enters).unwrap();
    assert!(enters.0.is_empty());
}

#[test]
fn a_start_whose_enter_call_stops_is_a_machine_that_has_ended() {
    let mut table = Table::new().unwrap();
    let start = Start::in_state(1, 0).entered(Entered::stop(4)).last_word(99);
    let (id, report) = table.start(0, &start).unwrap();
    assert_eq!(report.done, Done::Ended { reason: 4, word: 99 });
    assert_eq!(table.look(id).unwrap().ended, Some((4, 99)));
}

#[test]
fn a_start_asks_for_time_outs_events_and_messages() {
    let mut table = Table::new().unwrap();
    let far = MachineId::from_number(77);
    let start = Start::in_state(1, 0).set(Timer::State, 30, 1).insert(Kind::Internal, (2, "first")).send(far, 3);
    let (id, report) = table.start(100, &start).unwrap();
    assert_eq!((report.done, report.event), (Done::Started, None));
    assert_eq!((report.inserted.len(), report.sent.len()), (1, 1));
    assert_eq!(table.due(id), Ok(Some(130)));
    assert_eq!(table.take_out(id).unwrap().unwrap().target, far);
}

#[test]
fn a_table_goes_to_another_thread() {
    let (mut table, id) = started(&Start::in_state(0, 0));
    table.cast(id, 1).unwrap();
    let mut table = std::thread::spawn(move || {
        table.turn_until_idle(id, 1, &mut Lent::default()).unwrap();
        table
    })
    .join()
    .unwrap();
    assert_eq!(table.look(id).unwrap().latest, 1);
}

#[test]
fn ids_of_another_table_name_none() {
    let (mut table, id) = started(&Start::in_state(0, 0));
    table.remove(id).unwrap();
    for _ in 0..100 {
        let (other, _) = table.start(0, &Start::in_state(0, 0)).unwrap();
        assert_ne!(other, id);
        table.remove(other).unwrap();
    }
    assert_eq!(table.look(id), Err(Error::NoSuchMachine));
    assert_eq!(table.turn(id, 0, &mut Lent::default()), Err(Error::NoSuchMachine));
    assert_eq!(Error::NoSuchMachine.to_string(), "the id names no such machine");
}
