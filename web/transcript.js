// What a run told, taken apart: a step for each line of events that asks for something.

const TURN = /^ {2}(\S+) at (\d+): (.*): (\S+) -> ([A-Za-z]\w*)(.*)$/;
const START = /^ {2}(\S+) starts in (\w+)(.*)$/;
const REPLY = /^ {2}(\S+) replies .* to call #(\d+)$/;
const LOST_CALL = /^ {2}call #(\d+) of (\S+): stopped \d+$/;
const STOPPED = /^(\S+) stopped (\d+) word (\d+)$/;
const STATUS = /^(\S+) (\w+)((?: .*)?) waiting (\d+)$/;
const SETTING = /, (set|cancel|update) (\w+)(?: (\d+|never))?/g;

// Says whether a line of events asks for something.
function asks(line) {
  return !/^[ \t\r\f\v]*(#|$)/.test(line);
}

// The lines of events, with their numbers from 1 on, that ask for something.
function askingLines(events) {
  const lines = events.split("\n").map((text, index) => ({ text: text.replace(/\r$/, ""), number: index + 1 }));
  return lines.filter(({ text }) => asks(text));
}

function settingsIn(text) {
  return [...text.matchAll(SETTING)].map(([, what, timer, time]) => ({ what, timer, time }));
}

// A turn that a line of a transcript tells, or null.
function turnIn(line) {
  const found = TURN.exec(line);
  if (!found) {
    return null;
  }
  const [, machine, moment, event, before, after, rest] = found;
  return {
    machine,
    moment: BigInt(moment),
    event,
    before,
    after,
    isPostponed: rest.startsWith(", postponed"),
    isEntered: / ?, entered /.test(rest),
    isEnd: /, stopped \d+ word \d+$/.test(rest),
    settings: settingsIn(rest),
  };
}

// Registers that a line of a transcript tells, as names and values.
function registersIn(text) {
  return [...text.matchAll(/ (\w+)=('[^']*'|\S+(?: of \S+)?)/g)].map(([, name, value]) => ({ name, value }));
}

// How a line of a transcript says that a machine is, or null.
function statusIn(line) {
  const stopped = STOPPED.exec(line);
  if (stopped) {
    const [, machine, reason, word] = stopped;
    return { machine, state: null, reason, word, registers: [], waiting: 0, line };
  }
  const found = STATUS.exec(line);
  if (!found) {
    return null;
  }
  const [, machine, state, registers, waiting] = found;
  return { machine, state, registers: registersIn(registers), waiting: Number(waiting), line };
}

// What a line of events brought about, from what the run told of it.
function stepOf(line, told) {
  const step = { ...line, told, turns: [], starts: [], statuses: [], closed: [], faults: [] };
  for (const row of told) {
    const turn = turnIn(row);
    const start = START.exec(row);
    const reply = REPLY.exec(row);
    const lost = LOST_CALL.exec(row);
    if (turn) {
      step.turns.push(turn);
    } else if (start) {
      step.starts.push({ machine: start[1], state: start[2], settings: settingsIn(start[3]) });
    } else if (reply) {
      step.closed.push({ machine: reply[1], call: Number(reply[2]) });
    } else if (lost) {
      step.closed.push({ machine: lost[2], call: Number(lost[1]) });
    } else if (row.startsWith(`  line ${line.number}: `)) {
      step.faults.push(row.trim().slice(`line ${line.number}: `.length));
    } else if (!row.startsWith(" ")) {
      const status = statusIn(row);
      if (status) {
        step.statuses.push(status);
      }
    }
  }
  return step;
}

// The moment that a line asks for, or null.
function momentIn(line) {
  const found = /^\s*at\s+(\d+)\s*(#.*)?$/.exec(line);
  return found ? BigInt(found[1]) : null;
}

// The steps of a transcript of lines of events.
function stepsOf(events, transcript) {
  const rows = transcript.split("\n");
  const lines = askingLines(events);
  const steps = [];
  let at = 0;
  let moment = 0n;
  for (const [index, line] of lines.entries()) {
    const next = lines[index + 1];
    const told = [];
    at += 1;
    while (at < rows.length && !(next && rows[at] === `> ${next.text}`)) {
      if (rows[at]) {
        told.push(rows[at]);
      }
      at += 1;
    }
    const step = stepOf(line, told);
    const asked = step.faults.length ? null : momentIn(line.text);
    moment = asked !== null && asked > moment ? asked : moment;
    steps.push({ ...step, moment });
  }
  return steps;
}
