//! A server of lines on loopback. Each connection is a machine. It does what `c/examples/server.c` does.
//!
//! `server PORT SILENCE`: PORT 0 is any free one, SILENCE is in milliseconds. It prints its port.
//!
//! A thread for each connection reads its lines. One thread owns the table, the module and the decisions.

use std::collections::HashMap;
use std::error::Error;
use std::io::{BufRead, BufReader, Write};
use std::net::{Shutdown, TcpListener, TcpStream};
use std::sync::mpsc::{Receiver, RecvTimeoutError, Sender, channel};
use std::time::{Duration, Instant};
use zumelivon::{Collected, Entered, Event, Kind, MachineId, Module, Outcome, Report, Start, Table, Timer};

// States: before and after the login. The data is a number of lines.
const UNKNOWN: u64 = 0;
const KNOWN: u64 = 1;

// Codes of contents.
const LINE: u64 = 1;
const WHO: u64 = 2;
const SILENCE: u64 = 3;

// Reasons for an end.
const QUIT: u32 = 1;
const SILENT: u32 = 2;
const BROKEN: u32 = 3;

struct Connection {
    stream: TcpStream,
    name: String,
    due: Option<u64>,
}

/// The module, with what it knows of each machine.
struct Lines {
    silence: u32,
    connections: HashMap<MachineId, Connection>,
}

impl Lines {
    fn say(&mut self, machine: MachineId, text: &str) {
        if let Some(it) = self.connections.get_mut(&machine) {
            // A peer that has gone is one that its thread will tell of.
            let _ = it.stream.write_all(text.as_bytes());
        }
    }

    fn name(&self, machine: MachineId) -> &str {
        self.connections.get(&machine).map_or("", |it| &it.name)
    }

    /// Any event cancels the event time-out, so each answer sets it anew.
    fn until_silence(&self, outcome: Outcome) -> Outcome {
        outcome.set(Timer::Event, self.silence, SILENCE)
    }

    fn before_login(&mut self, machine: MachineId, event: &Event<'_>) -> Outcome {
        let text = event.text();
        let Some(name) = text.strip_prefix("login ").filter(|_| event.code == LINE) else {
            return self.until_silence(Outcome::keep()).postpone();
        };
        if let Some(it) = self.connections.get_mut(&machine) {
            it.name = name.to_string();
        }
        self.until_silence(Outcome::next_state(KNOWN, event.data))
    }

    fn after_login(&mut self, machine: MachineId, event: &Event<'_>) -> Outcome {
        if let Kind::Call(request) = event.kind {
            let reply = format!("{}, {} lines", self.name(machine), event.data);
            return self.until_silence(Outcome::keep()).reply(request, (WHO, reply));
        }
        if event.bytes == b"quit" {
            self.say(machine, "bye\n");
            return Outcome::stop(QUIT);
        }
        let lines = event.data + 1;
        self.say(machine, &format!("{} {lines}: {}\n", self.name(machine), event.text()));
        self.until_silence(Outcome::keep_with(lines))
    }
}

impl Module for Lines {
    fn handle(&mut self, machine: MachineId, event: &Event<'_>) -> Outcome {
        if let Kind::Timeout(_) = event.kind {
            self.say(machine, "bye idle\n");
            return Outcome::stop(SILENT);
        }
        match event.state {
            UNKNOWN => self.before_login(machine, event),
            _ => self.after_login(machine, event),
        }
    }

    fn enter(&mut self, machine: MachineId, _: u64, _: u64, _: u64) -> Entered {
        self.say(machine, &format!("welcome {}\n", self.name(machine)));
        Entered::keep()
    }
}

/// What the threads tell.
enum News {
    Opened(TcpStream),
    Line(MachineId, String),
    Closed(MachineId),
}

struct Server {
    table: Table,
    lines: Lines,
    sender: Sender<News>,
    begun: Instant,
}

impl Server {
    fn now(&self) -> u64 {
        self.begun.elapsed().as_millis() as u64
    }

    fn open(&mut self, stream: TcpStream) -> Result<(), Box<dyn Error>> {
        let timer = Entered::keep().set(Timer::Event, self.lines.silence, SILENCE);
        let now = self.now();
        let (machine, _) = self.table.start(now, &Start::in_state(UNKNOWN, 0).entered(timer))?;
        let (reader, sender) = (BufReader::new(stream.try_clone()?), self.sender.clone());
        std::thread::spawn(move || {
            for line in reader.lines().map_while(Result::ok) {
                let _ = sender.send(News::Line(machine, line));
            }
            let _ = sender.send(News::Closed(machine));
        });
        let due = self.table.due(machine)?;
        self.lines.connections.insert(machine, Connection { stream, name: String::new(), due });
        Ok(())
    }

    /// A line is an info. `who` is a call, so it has a reply.
    fn take_line(&mut self, machine: MachineId, line: &str) -> Result<(), Box<dyn Error>> {
        if !self.lines.connections.contains_key(&machine) {
            return Ok(()); // it has ended
        }
        if line == "who" {
            self.table.call(machine, WHO)?;
        } else {
            self.table.info(machine, (LINE, line))?;
        }
        self.serve(machine)
    }

    /// Makes turns until there is no event, or the machine has ended.
    fn serve(&mut self, machine: MachineId) -> Result<(), Box<dyn Error>> {
        let now = self.now();
        while let Some(report) = self.table.turn(machine, now, &mut self.lines)? {
            self.hand_on_replies(machine, &report)?;
            if report.has_ended() {
                return self.end(machine);
            }
        }
        let due = self.table.due(machine)?;
        if let Some(it) = self.lines.connections.get_mut(&machine) {
            it.due = due;
        }
        Ok(())
    }

    fn hand_on_replies(&mut self, machine: MachineId, report: &Report) -> Result<(), Box<dyn Error>> {
        for request in &report.replied {
            if let Collected::Reply(content) = self.table.collect(*request)? {
                self.lines.say(machine, &format!("{}\n", content.text()));
            }
        }
        Ok(())
    }

    fn end(&mut self, machine: MachineId) -> Result<(), Box<dyn Error>> {
        self.table.remove(machine)?;
        if let Some(it) = self.lines.connections.remove(&machine) {
            let _ = it.stream.shutdown(Shutdown::Both);
        }
        Ok(())
    }

    fn broken(&mut self, machine: MachineId) -> Result<(), Box<dyn Error>> {
        if self.lines.connections.contains_key(&machine) {
            self.table.stop(machine, BROKEN, &mut self.lines)?;
            self.end(machine)?;
        }
        Ok(())
    }

    /// Tells the machines that are due the moment. Their time-outs are events then.
    fn tick_due(&mut self) -> Result<(), Box<dyn Error>> {
        let now = self.now();
        let is_due = |it: &Connection| it.due.is_some_and(|due| due <= now);
        let due: Vec<_> = self.lines.connections.iter().filter(|(_, it)| is_due(it)).map(|(id, _)| *id).collect();
        for machine in due {
            self.table.tick(machine, now)?;
            self.serve(machine)?;
        }
        Ok(())
    }

    /// How long to wait: until the earliest time-out is due.
    fn until_due(&self) -> Duration {
        let due = self.lines.connections.values().filter_map(|it| it.due).min();
        Duration::from_millis(due.map_or(60_000, |due| due.saturating_sub(self.now())))
    }

    fn serve_all(&mut self, news: &Receiver<News>) -> Result<(), Box<dyn Error>> {
        loop {
            match news.recv_timeout(self.until_due()) {
                Ok(News::Opened(stream)) => self.open(stream)?,
                Ok(News::Line(machine, line)) => self.take_line(machine, &line)?,
                Ok(News::Closed(machine)) => self.broken(machine)?,
                Err(RecvTimeoutError::Timeout) => {}
                Err(RecvTimeoutError::Disconnected) => return Ok(()),
            }
            self.tick_due()?;
        }
    }
}

fn main() -> Result<(), Box<dyn Error>> {
    let words: Vec<String> = std::env::args().collect();
    let [_, port, silence] = words.as_slice() else {
        return Err("usage: server PORT SILENCE".into());
    };
    let listener = TcpListener::bind(("127.0.0.1", port.parse()?))?;
    println!("port {}", listener.local_addr()?.port());
    let (sender, news) = channel();
    let opened = sender.clone();
    std::thread::spawn(move || {
        for stream in listener.incoming().flatten() {
            let _ = opened.send(News::Opened(stream));
        }
    });
    let lines = Lines { silence: silence.parse()?, connections: HashMap::new() };
    Server { table: Table::new()?, lines, sender, begun: Instant::now() }.serve_all(&news)
}
