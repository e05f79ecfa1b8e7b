// usage: node web/compare.js JOBS.json MODULE.wasm..
// Compares what the modules tell, each by the exports that it has, with what the programs told, and what the page derives with what the engine does. A job is
// { name, export, what, texts, text, faults, status }, bytes in Base64; one with `derives` is a run whose time-outs and
// postponed events are derived too. The last line counts; the status is 1 where anything differs.
"use strict";
const fs = require("fs");
const path = require("path");
const vm = require("vm");

for (const name of ["engine.js", "transcript.js", "waiting.js"]) {
  vm.runInThisContext(fs.readFileSync(path.join(__dirname, name), "utf8"), { filename: name });
}
const page = vm.runInThisContext(
  "({ engineOf, callExport, callWithin, putBytes, askMachine, stepsOf, addMachines, nextTimeOut, RUN, JSON_LINES, NotDone })",
);
const [, , jobsFile, ...moduleFiles] = process.argv;
const bytesOf = (text) => new Uint8Array(Buffer.from(text, "base64"));
const isSame = (left, right) => Buffer.from(left).equals(Buffer.from(right));
const found = { same: 0, other: 0, bytes: 0, steps: 0, timeOuts: 0 };

function note(isRight, words) {
  found[isRight ? "same" : "other"] += 1;
  if (!isRight) {
    console.log(`other: ${words}`);
  }
}

function compare(engine, job) {
  let came;
  try {
    came = page.callExport(engine, job.export, job.what, job.texts.map(bytesOf));
  } catch (error) {
    note(false, `${job.name}: ${error.message}`);
    return;
  }
  found.bytes += came.text.length + came.faults.length;
  note(isSame(came.text, bytesOf(job.text)) && isSame(came.faults, bytesOf(job.faults)) && came.status === job.status, job.name);
}

// What the lines told, and the line behind them.
function turnsBehind(engine, description, lines, last) {
  const events = [...lines, last].join("\n");
  const steps = page.stepsOf(events, page.askMachine(engine, page.RUN, description, events).text);
  return steps[steps.length - 1].turns;
}

// Compares the next time-out, and how much is postponed, with what the engine does, after some of the steps.
function compareDerived(engine, job) {
  const [description, events] = job.texts.map((text) => Buffer.from(text, "base64").toString());
  const { text, status } = page.askMachine(engine, page.RUN, description, events);
  const steps = page.stepsOf(events, text);
  page.addMachines(steps, page.askMachine(engine, page.JSON_LINES, description, events).text);
  for (const [index, step] of steps.entries()) {
    const lines = events.split("\n").slice(0, step.number);
    const next = page.nextTimeOut(step.machines);
    const name = `${job.name}, line ${step.number}: ${step.text}`;
    found.steps += 1;
    note(step.machines.every(({ others }) => others === 0), `${name}: what is postponed`);
    if (next) {
      found.timeOuts += 1;
      const due = turnsBehind(engine, description, lines, `at ${next.moment}`);
      note(due.length > 0 && due[0].moment === next.moment && due.some(({ machine }) => machine === next.machine), `${name}: ${next.timer} at ${next.moment}`);
      note(next.moment === 0n || turnsBehind(engine, description, lines, `at ${next.moment - 1n}`).length === 0, `${name}: earlier than ${next.moment}`);
    } else if (index + 1 === steps.length) {
      note(turnsBehind(engine, description, lines, `at ${step.moment + 1000000n}`).length === 0, `${name}: no time-out`);
    }
  }
  note(status === Number(steps.some(({ faults }) => faults.length > 0)), `${job.name}: lines at fault`);
}

// What is answered to inputs that are too long, to too little room, and to what is nothing to be done.
function compareAnswers(engine) {
  const description = { place: page.putBytes(engine, new Uint8Array(Buffer.from("{}"))), length: 2 };
  const long = { place: page.putBytes(engine, new Uint8Array((1 << 20) + 1)), length: (1 << 20) + 1 };
  const full = { ...long, length: 1 << 20 };
  const answer = (name, what, inputs, room) => page.callWithin(engine, name, what, inputs, room);
  const pair = [description, description];
  note(answer("st_page_machine", 9, pair, 10).answer === 4, "nothing of number 9");
  note(answer("st_page_machine", 0, [long, description], 10).answer === 1, "a long description");
  note(answer("st_page_machine", 3, [description, long], 10).answer === 1, "long events");
  if (engine.exports.st_page_script) {
    note(answer("st_page_script", 2, [description], 10).answer === 4, "no script of number 2");
    note(answer("st_page_script", 0, [long], 10).answer === 1, "a long script");
  }
  note(answer("st_page_machine", 0, [full, description], 1000).answer !== 1, "a description of 1 MiB");
  const little = answer("st_page_machine", 0, pair, 3);
  note(little.answer === 3 && little.wanted > 3, "little room");
  note(answer("st_page_machine", 0, pair, little.wanted).answer === 0, "room enough");
}

// Where all memory is taken, an answer comes, and the next call goes on.
function compareWant(engine, job) {
  const inputs = job.texts.map(bytesOf).map((bytes) => ({ place: page.putBytes(engine, bytes), length: bytes.length }));
  const { exports } = engine;
  const output = exports.page_alloc(1n << 16n);
  const told = exports.page_alloc(24n);
  const taken = [];
  for (let size = 1n << 28n; size >= 16n; size /= 2n) {
    for (let place = exports.page_alloc(size); Number(place) !== 0; place = exports.page_alloc(size)) {
      taken.push(place);
    }
  }
  const words = inputs.flatMap(({ place, length }) => [place, BigInt(length)]);
  note(exports.st_page_machine(3, ...words, output, 1n << 16n, told) === 2, "no memory");
  taken.forEach((place) => exports.page_free(place));
  note(exports.st_page_machine(3, ...words, output, 1n << 16n, told) === 0, "memory again");
}

async function tryModule(file, jobs) {
  const engine = await page.engineOf(fs.readFileSync(file));
  const own = jobs.filter((job) => engine.exports[job.export]);
  const begun = process.hrtime.bigint();
  own.forEach((job) => compare(engine, job));
  const took = Number((process.hrtime.bigint() - begun) / 1000000n);
  own.filter((job) => job.derives).forEach((job) => compareDerived(engine, job));
  compareAnswers(engine);
  compareWant(await page.engineOf(fs.readFileSync(file)), own.find((job) => job.derives));
  console.log(`${path.basename(file)}: ${own.length} runs in ${took} ms`);
}

async function main() {
  const jobs = JSON.parse(fs.readFileSync(jobsFile, "utf8"));
  for (const file of moduleFiles) {
    await tryModule(file, jobs);
  }
  console.log(
    `${found.bytes} bytes; ${found.steps} lines with ${found.timeOuts} time-outs derived; ${found.same} the same, ${found.other} other`,
  );
  process.exitCode = found.other ? 1 : 0;
}

main();
