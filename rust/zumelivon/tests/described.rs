//! Described machines.

use zumelivon::{Collected, Done, Entry, Error, MachineId, NameKind, Ran, Request, RunRefused, Signal, Table, Value};

const LAMP: &str = r#"{
  "args": ["left"], "context": { "left": 0 }, "initial": "off",
  "states": {
    "off": { "on": { "cast press": { "guard": "left > 0", "target": "on" } } },
    "on": {
      "entry": { "assign": { "left": "left - 1" } },
      "after": { "10000": "off" },
      "on": {
        "cast press": "off",
        "call say": { "actions": { "reply": "said", "with": "event" } },
        "cast tell": { "actions": { "send": "told", "with": "'a text'", "to": "event" } },
        "cast end": { "stop": 17 } } } },
  "last": "left" }"#;

struct Lamp {
    table: Table,
    description: zumelivon::Description,
    id: MachineId,
}

impl Lamp {
    fn lit() -> Lamp {
        let mut table = Table::new().unwrap();
        let description = table.describe(LAMP).unwrap();
        let (id, report) = table.start_described(description, 0, &[3.into()]).unwrap();
        assert_eq!(report.done, Done::Started);
        let mut lamp = Lamp { table, description, id };
        assert_eq!(lamp.state(), "off");
        lamp.cast("press", Value::None);
        assert_eq!(lamp.state(), "on");
        lamp
    }

    fn symbol(&mut self, name: &str) -> u32 {
        self.table.symbol(self.description, name).unwrap()
    }

    fn state(&mut self) -> String {
        let state = self.table.look(self.id).unwrap().state;
        self.table.name_of(self.description, NameKind::State, state).unwrap()
    }

    fn cast(&mut self, name: &str, value: Value) {
        let signal = Signal { symbol: self.symbol(name), value };
        self.table.post_signal(self.id, Entry::Cast, &signal).unwrap();
        assert_eq!(self.table.run(self.id, 0, 10), Ok(Ran { turns: 1, more: false }));
    }

    fn call(&mut self, value: Value) -> Request {
        let signal = Signal { symbol: self.symbol("say"), value };
        self.table.call_signal(self.id, &signal).unwrap()
    }
}

#[test]
fn a_lamp_goes_out_by_itself() {
    let mut lamp = Lamp::lit();
    assert_eq!(lamp.table.due(lamp.id), Ok(Some(10_000)));
    assert_eq!(lamp.table.tick(lamp.id, 10_000), Ok(1));
    assert_eq!(lamp.table.run(lamp.id, 10_000, 0), Ok(Ran { turns: 0, more: true }));
    assert_eq!(lamp.table.run(lamp.id, 10_000, 1), Ok(Ran { turns: 1, more: false }));
    assert_eq!(lamp.state(), "off");
    let press = Signal::of(lamp.symbol("press"));
    lamp.table.post_signal(lamp.id, Entry::Cast, &press).unwrap();
    assert_eq!(lamp.table.run(lamp.id, 1 << 63, 1), Err(RunRefused { turns: 0, error: Error::BadMoment }));
}

#[test]
fn values_come_back_as_they_were() {
    let mut lamp = Lamp::lit();
    let tag = Request { machine: MachineId::from_number(5), number: 6 };
    for value in [
        Value::None,
        Value::Number(u64::MAX),
        Value::Call(tag),
        Value::Machine(MachineId::from_number(7)),
        Value::Text(b"a longer text than any before".to_vec()),
    ] {
        let call = lamp.call(value.clone());
        assert_eq!(lamp.table.collect_signal(call), Ok(Collected::Waiting));
        lamp.table.run(lamp.id, 0, 10).unwrap();
        let said = lamp.symbol("said");
        assert_eq!(lamp.table.collect_signal(call), Ok(Collected::Reply(Signal { symbol: said, value })));
        assert_eq!(lamp.table.collect_signal(call), Ok(Collected::Gone));
    }
}

#[test]
fn messages_are_taken_out() {
    let mut lamp = Lamp::lit();
    let target = MachineId::from_number(99);
    lamp.cast("tell", target.into());
    let told = lamp.symbol("told");
    let message = lamp.table.take_out_signal(lamp.id).unwrap().unwrap();
    assert_eq!((message.target, message.number), (target, 1));
    assert_eq!(message.signal, Signal::with(told, "a text"));
    assert_eq!(lamp.table.take_out_signal(lamp.id), Ok(None));
}

#[test]
fn a_description_may_end_its_machine() {
    let mut lamp = Lamp::lit();
    let end = Signal::of(lamp.symbol("end"));
    lamp.table.post_signal(lamp.id, Entry::Cast, &end).unwrap();
    let call = lamp.call(Value::None);
    assert_eq!(lamp.table.run(lamp.id, 0, 10), Ok(Ran { turns: 1, more: false }));
    assert_eq!(lamp.table.look(lamp.id).unwrap().ended, Some((17, 2)));
    assert_eq!(lamp.table.collect_signal(call), Ok(Collected::Stopped(17)));
    let refused = lamp.table.run(lamp.id, 0, 10).unwrap_err();
    assert_eq!(refused.to_string(), "behind 0 turns: the machine has ended");
    assert_eq!(Error::from(refused), Error::Ended);
}

#[test]
fn faults_are_told() {
    let mut table = Table::new().unwrap();
    let Err(Error::Faulty(faults)) = table.describe(r#"{ "initial": "a", "states": { "b": {} } }"#) else {
        panic!("it has no fault")
    };
    assert!(faults.contains("\"a\""), "{faults}");
    assert!(table.describe([0xff]).is_err());
}

#[test]
fn names_that_are_not_there() {
    let mut lamp = Lamp::lit();
    assert_eq!(lamp.table.symbol(lamp.description, "pres"), Err(Error::NoSuchName));
    assert_eq!(lamp.table.name_of(lamp.description, NameKind::State, 2), Err(Error::NoSuchName));
    assert_eq!(lamp.table.number_of(lamp.description, NameKind::State, "on"), Ok(1));
    let other = Table::new().unwrap().describe(LAMP);
    assert_eq!(Table::new().unwrap().symbol(other.unwrap(), "press"), Err(Error::NoSuchDescription));
}

#[test]
fn a_start_may_be_ignored_or_stopped() {
    let mut table = Table::new().unwrap();
    let choosy = table
        .describe(
            r#"{ "args": ["a"], "context": { "a": 0 },
                 "start": [ { "guard": "arg.a == 1", "target": "s" }, { "guard": "arg.a == 2", "stop": 9 } ],
                 "states": { "s": {} } }"#,
        )
        .unwrap();
    assert!(table.start_described(choosy, 0, &[1.into()]).is_ok());
    assert_eq!(table.start_described(choosy, 0, &[2.into()]), Err(Error::Stopped(9)));
    assert_eq!(table.start_described(choosy, 0, &[3.into()]), Err(Error::Ignored));
}

#[test]
fn the_families_do_not_mix() {
    let mut lamp = Lamp::lit();
    assert_eq!(lamp.table.cast(lamp.id, 1), Err(Error::NoSuchMachine));
    let (hosted, _) = lamp.table.start(0, &zumelivon::Start::in_state(0, 0)).unwrap();
    assert_eq!(lamp.table.post_signal(hosted, Entry::Cast, &Signal::of(0)), Err(Error::NoSuchMachine));
}
