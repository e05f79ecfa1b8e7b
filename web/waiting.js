// What waits at a machine after a line: derived here from what a run told and from its journals, and so not proved.
// A mode of the engine that tells it is to take this file's place.
//
// After a line all machines rest, so that what waits was postponed, unless the line made more turns than it may.

// The numbers and kinds of the events that the turns of each machine handled, in order, by the machine's name.
function handledOf(journals) {
  const handled = new Map();
  let machine = null;
  for (const row of journals.split("\n")) {
    if (!row.startsWith("{")) {
      continue;
    }
    const entry = JSON.parse(row);
    if ("machine" in entry) {
      machine = [];
      handled.set(entry.machine, machine);
    } else if (entry.answer && entry.answer.Turn && entry.answer.Turn.Ok) {
      const report = entry.answer.Turn.Ok.Reported;
      const call = report && report.calls.find((it) => it.Handle);
      machine.push({ number: report ? report.event : null, isCall: Boolean(call && call.Handle.kind.Call) });
    }
  }
  return handled;
}

function newMachine() {
  return { made: 0, state: null, postponed: [], seen: new Map(), timers: new Map(), calls: new Map() };
}

function settle(timers, settings, moment) {
  for (const { what, timer, time } of settings) {
    if (what === "cancel" || time === "never") {
      timers.delete(timer);
    } else if (what === "set") {
      timers.set(timer, moment + BigInt(time));
    }
  }
}

// A turn stops the event time-out, a change of the state the state time-out, and the end all of them.
function passTimers(timers, turn) {
  const expired = /^timeout (\w+)/.exec(turn.event);
  if (expired) {
    timers.delete(expired[1]);
  }
  timers.delete("event");
  if (turn.before !== turn.after) {
    timers.delete("state");
  }
  settle(timers, turn.settings, turn.moment);
  if (turn.isEnd) {
    timers.clear();
  }
}

function passTurn(machine, turn, event, line) {
  const number = event ? event.number : null;
  if (!machine.seen.has(number)) {
    machine.seen.set(number, line);
    if (event && event.isCall) {
      machine.calls.set(number, { number, text: turn.event, line });
    }
  }
  machine.postponed = machine.postponed.filter((it) => it.number !== number);
  if (turn.isPostponed) {
    machine.postponed.push({ number, text: turn.event, line: machine.seen.get(number) });
    machine.postponed.sort((left, right) => left.number - right.number);
  }
  passTimers(machine.timers, turn);
  if (turn.isEnd) {
    machine.postponed = [];
  }
}

// What is so after a step, as what later steps do not change.
function viewOf(machine, status) {
  const ended = status.state === null;
  return {
    ...status,
    postponed: ended ? [] : machine.postponed,
    others: ended ? 0 : Math.max(0, status.waiting - machine.postponed.length),
    timers: ended ? [] : [...machine.timers].map(([timer, moment]) => ({ timer, moment })).sort((a, b) => (a.moment < b.moment ? -1 : 1)),
    calls: [...machine.calls.values()],
  };
}

// Adds to each step `machines`: how each machine is after it, in the order of their starts.
function addMachines(steps, journals) {
  const handled = handledOf(journals);
  const machines = new Map();
  let views = new Map();
  for (const step of steps) {
    for (const { machine, settings } of step.starts) {
      const started = newMachine();
      settle(started.timers, settings, step.moment);
      machines.set(machine, started);
    }
    for (const turn of step.turns) {
      const machine = machines.get(turn.machine) || newMachine();
      const events = handled.get(turn.machine) || [];
      passTurn(machine, turn, events[machine.made], step.number);
      machine.made += 1;
      machines.set(turn.machine, machine);
    }
    for (const { machine, call } of step.closed) {
      const answered = machines.get(machine);
      if (answered) {
        answered.calls.delete(call);
      }
    }
    views = new Map(views);
    for (const status of step.statuses) {
      views.set(status.machine, viewOf(machines.get(status.machine) || newMachine(), status));
    }
    step.machines = [...views.values()];
  }
}

// The next time-out of all machines, `{ machine, timer, moment }`, or null.
function nextTimeOut(machines) {
  let first = null;
  for (const { machine, timers } of machines) {
    for (const { timer, moment } of timers) {
      if (!first || moment < first.moment) {
        first = { machine, timer, moment };
      }
    }
  }
  return first;
}
