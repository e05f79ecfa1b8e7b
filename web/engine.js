// The engine: bytes go into the module, and what it tells comes out. It keeps nothing from one call to the next.
// Pointers and lengths cross as 64 bits, so as BigInt.

const CHECK = 0;
const DOT = 2;
const RUN = 3;
const JSON_LINES = 5;
const TEST = 6;
const FORMAT = 7;

const DONE = 0;
const NO_ROOM = 3;
const ANSWERS = [
  "",
  "a text has more than 1,048,576 bytes",
  "it wants more memory than there is",
  "it tells more than 64 MB",
  "there is no such thing to be done",
];
const FIRST_ROOM = 1 << 20;
const MOST_ROOM = 1 << 26;
const TOLD_BYTES = 24;

// What the engine could not do, in words for the reader.
class NotDone extends Error {}

// An engine of the bytes of a module.
async function engineOf(bytes) {
  const engine = { module: await WebAssembly.compile(bytes), exports: null };
  await renew(engine);
  return engine;
}

// Gives an engine a fresh instance: after a trap the old one answers nothing.
async function renew(engine) {
  engine.exports = (await WebAssembly.instantiate(engine.module, {})).exports;
}

// Room for bytes in the module's memory, and where it lies.
function roomFor(engine, length) {
  const place = engine.exports.page_alloc(BigInt(Math.max(length, 1)));
  if (Number(place) === 0) {
    throw new NotDone(ANSWERS[2]);
  }
  return place;
}

// Puts bytes into the module's memory, and tells where they lie.
function putBytes(engine, bytes) {
  const place = roomFor(engine, bytes.length);
  new Uint8Array(engine.exports.memory.buffer).set(bytes, Number(place));
  return place;
}

function bytesAt(engine, place, length) {
  return new Uint8Array(engine.exports.memory.buffer, place, length).slice();
}

// Calls an export with room for so many bytes. Of too little room it tells how many are wanted.
function callWithin(engine, name, what, inputs, room) {
  const { exports } = engine;
  const output = roomFor(engine, room);
  const told = roomFor(engine, TOLD_BYTES);
  const words = inputs.flatMap(({ place, length }) => [place, BigInt(length)]);
  const answer = exports[name](what, ...words, output, BigInt(room), told);
  const [status, length, faults] = new BigUint64Array(exports.memory.buffer, Number(told), 3);
  const came = { answer, status: Number(status), wanted: Number(length + faults) };
  if (answer === DONE) {
    came.text = bytesAt(engine, Number(output), Number(length));
    came.faults = bytesAt(engine, Number(output) + Number(length), Number(faults));
  }
  exports.page_free(told);
  exports.page_free(output);
  return came;
}

// Calls an export over texts as bytes, and answers `{ status, text, faults }`, as bytes too.
function callExport(engine, name, what, texts) {
  const inputs = texts.map((bytes) => ({ place: putBytes(engine, bytes), length: bytes.length }));
  let came = callWithin(engine, name, what, inputs, FIRST_ROOM);
  if (came.answer === NO_ROOM && came.wanted <= MOST_ROOM) {
    came = callWithin(engine, name, what, inputs, came.wanted);
  }
  for (const { place } of inputs) {
    engine.exports.page_free(place);
  }
  if (came.answer !== DONE) {
    throw new NotDone(ANSWERS[came.answer]);
  }
  return came;
}

// Does something with a description and lines of events, as texts.
function askMachine(engine, what, description, events) {
  const write = new TextEncoder();
  const read = new TextDecoder();
  const texts = [write.encode(description), write.encode(events)];
  const { status, text, faults } = callExport(engine, "st_page_machine", what, texts);
  return { status, text: read.decode(text), faults: read.decode(faults) };
}
