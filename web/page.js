// The page: what is written at the left is run at once, and a line of the run is chosen and shown.

const EXAMPLES = JSON.parse(byId("examples").textContent);
const WAIT = 120;

const page = {
  engine: null,
  // What the engine made of the last description without faults.
  steps: [],
  diagram: null,
  dot: null,
  described: { args: [], keys: [], id: "machine" },
  // How many steps are done, and which machine is shown; null: the one that the chosen line concerns.
  at: 0,
  chosen: null,
  // Up to which line the list shows what is done.
  shown: 0,
  pending: 0,
};

// The kinds and symbols of events from outside that a description's rules name, its name, and the names of its arguments.
function describedBy(format) {
  const description = JSON.parse(format);
  const states = Object.values(description.states || {});
  const all = [...states, description].flatMap((it) => Object.keys(it.on || {}));
  const keys = all.map((key) => key.replace(/^\* /, "cast ")).filter((key) => /^(cast|call|info) \w+$/.test(key));
  return { args: description.args || [], keys: [...new Set(keys)], id: description.id || "machine" };
}

function tell(text) {
  byId("notice").textContent = text;
}

// Shows the description's faults, each with a button that leads to it.
function showFaults(told) {
  const area = byId("description");
  const faults = faultsIn(told);
  const marks = faults.map(({ line, column }) => {
    const from = placeIn(area.value, line, column);
    return [from, endOfMark(area.value, from)];
  });
  const items = faults.map(({ line, column, text }, index) => {
    const button = element("button", { type: "button" }, [`line ${line}, column ${column}: ${text}`]);
    button.addEventListener("click", () => goTo(area, ...marks[index]));
    return element("li", { class: text.startsWith("warning: ") ? "warning" : "fault" }, [button]);
  });
  byId("faults").replaceChildren(...items);
  markText(byId("description-layer"), area.value, marks);
}

// Marks the lines of events that are at fault.
function markEvents() {
  const area = byId("events");
  const ends = area.value.split("\n").map((line, index, all) => {
    const from = all.slice(0, index).reduce((sum, it) => sum + it.length + 1, 0);
    return [from, from + line.length];
  });
  const marks = page.steps.filter((step) => step.faults.length).map((step) => ends[step.number - 1]);
  markText(byId("events-layer"), area.value, marks);
}

function itemOf(step, index) {
  const rows = step.told.map((row) => element("span", { class: row.startsWith(`  line ${step.number}: `) ? "fault" : "" }, [row.trim()]));
  const item = element("div", { class: "step later", role: "option", id: `step-${index + 1}`, "aria-selected": "false" }, [
    element("b", {}, [String(step.number)]),
    element("span", { class: "event" }, [step.text.trim()]),
    ...rows,
  ]);
  item.addEventListener("click", () => choose(index + 1));
  return item;
}

function showLines(transcript) {
  byId("lines").replaceChildren(...page.steps.map(itemOf));
  page.shown = 0;
  byId("slider").max = String(page.steps.length);
  byId("case").value = `= a case\n${transcript}`;
  markEvents();
}

// Draws the diagram, where it is another.
function showDiagram(dot) {
  if (dot === page.dot) {
    return;
  }
  page.dot = dot;
  page.diagram = diagramOf(dot);
  byId("diagram").replaceChildren(page.diagram.picture);
}

// Asks the engine for all that is shown. It answers whether the description has no faults.
function ask(description, events) {
  const { engine } = page;
  const check = askMachine(engine, CHECK, description, "");
  showFaults(check.status ? check.faults : check.text);
  document.body.classList.toggle("stale", check.status !== 0);
  if (check.status) {
    return false;
  }
  const ran = askMachine(engine, RUN, description, events).text;
  const steps = stepsOf(events, ran);
  addMachines(steps, askMachine(engine, JSON_LINES, description, events).text);
  page.described = describedBy(askMachine(engine, FORMAT, description, "").text);
  page.steps = steps;
  showDiagram(askMachine(engine, DOT, description, "").text);
  showLines(ran);
  return true;
}

// Runs what is written, and shows so many steps of it.
async function run(at) {
  window.clearTimeout(page.pending);
  try {
    const isRun = ask(byId("description").value, byId("events").value);
    tell(isRun ? "" : "The description has faults: what is shown is of the last one without.");
    choose(Math.min(at, page.steps.length));
    showWriters();
  } catch (error) {
    // What ran out of memory leaves little, and what trapped answers nothing any more.
    await renew(page.engine);
    document.body.classList.add("stale");
    tell(`This was not run: ${error.message}.`);
    if (!(error instanceof NotDone)) {
      console.error(error);
    }
  }
}

function runSoon() {
  window.clearTimeout(page.pending);
  const isAtEnd = page.at === page.steps.length;
  page.pending = window.setTimeout(() => run(isAtEnd ? Infinity : page.at), WAIT);
}

// Writes a line of events behind the chosen one, and chooses it.
function writeLine(text) {
  const area = byId("events");
  const lines = area.value.replace(/\n$/, "").split("\n");
  const step = page.steps[page.at - 1];
  const place = step ? step.number : 0;
  lines.splice(page.at === page.steps.length ? lines.length : place, 0, text);
  area.value = `${lines.join("\n").replace(/^\n/, "")}\n`;
  return run(page.at + 1);
}

// The machine that is shown: that chosen, else that which the chosen line concerns, else the first.
function machineShown() {
  const step = page.steps[page.at - 1];
  const machines = step ? step.machines : [];
  const named = (name) => machines.find(({ machine }) => machine === name);
  const concerned = step && [...step.turns, ...step.starts, ...step.statuses][0];
  return named(page.chosen) || (concerned && named(concerned.machine)) || machines[0] || null;
}

// A button that writes a line, with fields for what stands in it.
function writer(words, fields, lineOf) {
  const inputs = fields.map(({ name, value, placeholder, wide }) =>
    element("input", { "aria-label": name, value: value || "", placeholder: placeholder || "", class: wide ? "wide" : "", autocapitalize: "off" }),
  );
  const button = element("button", { type: "button" }, [words]);
  const write = () => writeLine(lineOf(...inputs.map((input) => input.value.trim())).trim());
  button.addEventListener("click", write);
  for (const input of inputs) {
    input.addEventListener("keydown", (event) => event.key === "Enter" && write());
  }
  return element("span", {}, [button, ...inputs]);
}

function freeName() {
  const taken = new Set(page.steps.flatMap((step) => step.starts.map(({ machine }) => machine)));
  const name = /^[A-Za-z]\w*$/.test(page.described.id) ? page.described.id : "machine";
  let number = 2;
  if (!taken.has(name)) {
    return name;
  }
  while (taken.has(name + number)) {
    number += 1;
  }
  return name + number;
}

// Before an event stands the machine's name, unless it is the one that was started last.
function prefix() {
  const machine = machineShown();
  const starts = page.steps.slice(0, page.at).flatMap((step) => step.starts);
  const last = starts[starts.length - 1];
  return machine && last && machine.machine !== last.machine ? `${machine.machine}: ` : "";
}

function timeOutWriter() {
  const step = page.steps[page.at - 1];
  const next = step && nextTimeOut(step.machines);
  const words = next ? `time-out ${next.timer} of ${next.machine}: at ${next.moment}` : "no time-out runs";
  const button = element("button", { type: "button", id: "next-time-out" }, [words]);
  button.disabled = !next;
  button.addEventListener("click", () => writeLine(`at ${next.moment}`));
  return button;
}

// Shows the buttons that write lines. What stands in a field of an event stays.
function showWriters() {
  const { keys, args } = page.described;
  const kept = new Map([...byId("writers").querySelectorAll("input")].map((input) => [input.getAttribute("aria-label"), input.value]));
  const focused = document.activeElement && document.activeElement.closest("#writers") ? document.activeElement.getAttribute("aria-label") || document.activeElement.textContent : null;
  const start = writer("new", [{ name: "Name of the machine", value: freeName() }, { name: "Arguments", placeholder: args.join(" "), wide: true }], (name, given) => `new ${name} ${given}`);
  const events = keys.map((key) => {
    const name = `Argument of ${key}`;
    return writer(key, [{ name, value: kept.get(name) }], (argument) => `${prefix()}${key} ${argument}`);
  });
  byId("writers").replaceChildren(start, ...events, timeOutWriter());
  const again = focused && [...byId("writers").querySelectorAll("input, button")].find((it) => (it.getAttribute("aria-label") || it.textContent) === focused);
  if (again) {
    again.focus();
  }
}

function showTabs(shown) {
  const step = page.steps[page.at - 1];
  const tabs = (step ? step.machines : []).map(({ machine, state }) => {
    const isShown = shown !== null && machine === shown.machine;
    const tab = element("button", { type: "button", role: "tab", "aria-selected": String(isShown), "aria-controls": "panel", tabindex: isShown ? "0" : "-1" }, [`${machine}: ${state || "ended"}`]);
    tab.addEventListener("click", () => {
      page.chosen = machine;
      show();
    });
    return tab;
  });
  byId("tabs").replaceChildren(...tabs);
}

function listOf(rows, none) {
  if (!rows.length) {
    return element("p", {}, [none]);
  }
  return element("ul", {}, rows.map(({ text, isFault }) => element("li", isFault ? { class: "faulty" } : {}, [text])));
}

function showHappened(step) {
  const told = step ? step.told : [];
  const rows = told
    .filter((row) => row.startsWith("  "))
    .map((row) => ({ text: row.trim(), isFault: row.startsWith(`  line ${step.number}: `) }));
  byId("happened").replaceChildren(listOf(rows, step ? "Nothing." : "No line was run yet."));
}

function eventWords({ number, text, line }) {
  return `#${number} ${text}, of line ${line}`;
}

// What is so of a machine, as names and texts.
function factsOf(machine, moment) {
  if (machine.state === null) {
    return [["state", `ended, reason ${machine.reason}, last word ${machine.word}`]];
  }
  const timers = machine.timers.map(({ timer, moment: then }) => `${timer}: at ${then}, in ${then - moment} ms`);
  const others = machine.others ? counted(machine.others, "event", "events") : "nothing";
  return [
    ["state", machine.state],
    ...machine.registers.map(({ name, value }) => [name, value]),
    ["waits", others],
    ["postponed", machine.postponed.map(eventWords).join("; ") || "nothing"],
    ["open calls", machine.calls.map(eventWords).join("; ") || "none"],
    ["time-outs", timers.join("; ") || "none runs"],
  ];
}

function showAfter(step, machine) {
  const moment = step ? step.moment : 0n;
  const facts = [["moment", `${moment} ms`], ...(machine ? [["machine", machine.machine], ...factsOf(machine, moment)] : [])];
  const rows = facts.map(([name, text]) => element("tr", {}, [element("th", { scope: "row" }, [name]), element("td", {}, [text])]));
  byId("after").replaceChildren(element("table", {}, [element("tbody", {}, rows)]));
}

function showPlace() {
  const list = byId("lines");
  // Only what changes is touched: a run may be long.
  const [from, to] = [Math.min(page.shown, page.at), Math.max(page.shown, page.at)];
  for (const item of [...list.children].slice(Math.max(0, from - 1), to)) {
    const number = Number(item.id.slice("step-".length));
    item.setAttribute("aria-selected", String(number === page.at));
    item.classList.toggle("later", number > page.at);
  }
  page.shown = page.at;
  const item = list.children[page.at - 1];
  list.setAttribute("aria-activedescendant", item ? item.id : "");
  if (item && (item.offsetTop < list.scrollTop || item.offsetTop + item.offsetHeight > list.scrollTop + list.clientHeight)) {
    list.scrollTop = item.offsetTop - list.clientHeight / 3;
  } else if (!item) {
    list.scrollTop = 0;
  }
  byId("slider").value = String(page.at);
  byId("where").textContent = `${page.at} of ${page.steps.length}`;
  byId("slider").setAttribute("aria-valuetext", item ? item.children[1].textContent : "before the first line");
  byId("back").disabled = page.at === 0;
  byId("on").disabled = page.at === page.steps.length;
}

// Shows the chosen step.
function show() {
  const step = page.steps[page.at - 1];
  const machine = machineShown();
  const name = machine && machine.machine;
  showTabs(machine);
  const start = step && step.starts.find((it) => it.machine === name);
  if (page.diagram) {
    const turns = step ? step.turns.filter((turn) => turn.machine === name) : [];
    markDiagram(page.diagram, machine && machine.state, turns, start ? start.state : null);
  }
  showHappened(step);
  showAfter(step, machine);
  showPlace();
}

// Chooses how many steps are done.
function choose(at) {
  page.at = Math.max(0, Math.min(at, page.steps.length));
  page.chosen = null;
  show();
  showWriters();
  const step = page.steps[page.at - 1];
  byId("said").textContent = step ? `${step.text.trim()}. ${step.told.map((row) => row.trim()).join(". ")}` : "Before the first line.";
}

// A machine and its events as the fragment of a link, and back.
function fragmentOf(description, events) {
  const bytes = new TextEncoder().encode(JSON.stringify([description, events]));
  const text = Array.from(bytes, (byte) => String.fromCharCode(byte)).join("");
  return btoa(text).replaceAll("+", "-").replaceAll("/", "_").replaceAll("=", "");
}

function inFragment(fragment) {
  try {
    const text = atob(fragment.replace(/^#/, "").replaceAll("-", "+").replaceAll("_", "/"));
    const found = JSON.parse(new TextDecoder().decode(Uint8Array.from(text, (letter) => letter.charCodeAt(0))));
    return Array.isArray(found) && found.length === 2 && found.every((it) => typeof it === "string") ? found : null;
  } catch {
    return null;
  }
}

function load(description, events, at) {
  byId("description").value = description;
  byId("events").value = events;
  page.steps = [];
  return run(at);
}

function loadFragment() {
  const found = window.location.hash.length > 1 ? inFragment(window.location.hash) : null;
  if (found) {
    byId("example").value = "";
    load(found[0], found[1], 1);
  }
  return Boolean(found);
}

async function makeLink() {
  window.history.replaceState(null, "", `#${fragmentOf(byId("description").value, byId("events").value)}`);
  try {
    await navigator.clipboard.writeText(window.location.href);
    tell("The link was copied.");
  } catch {
    tell("The link stands in the address.");
  }
}

// Arrow keys step, unless they mean something where the focus is.
function onKey(event) {
  if (event.altKey || event.ctrlKey || event.metaKey || event.target.closest("textarea, input, select")) {
    return;
  }
  const tab = event.target.closest("[role=tab]");
  const by = { ArrowLeft: -1, ArrowRight: 1, ArrowUp: -1, ArrowDown: 1 }[event.key];
  const isUpright = event.key === "ArrowUp" || event.key === "ArrowDown";
  if (tab && by && !isUpright) {
    const next = by < 0 ? tab.previousElementSibling : tab.nextElementSibling;
    if (next) {
      next.click();
      byId("tabs").querySelector("[aria-selected=true]").focus();
    }
  } else if (by && (!isUpright || event.target.closest("#lines"))) {
    choose(page.at + by);
  } else if (event.target.closest("#lines") && (event.key === "Home" || event.key === "End")) {
    choose(event.key === "Home" ? 0 : page.steps.length);
  } else {
    return;
  }
  event.preventDefault();
}

function listen() {
  const on = (id, what, then) => byId(id).addEventListener(what, then);
  for (const id of ["description", "events"]) {
    const area = byId(id);
    const layer = byId(`${id}-layer`);
    on(id, "input", () => {
      layer.replaceChildren();
      runSoon();
    });
    on(id, "scroll", () => {
      layer.scrollTop = area.scrollTop;
      layer.scrollLeft = area.scrollLeft;
    });
  }
  on("back", "click", () => choose(page.at - 1));
  on("on", "click", () => choose(page.at + 1));
  on("slider", "input", () => choose(Number(byId("slider").value)));
  on("link", "click", makeLink);
  on("example", "change", () => {
    const example = EXAMPLES[Number(byId("example").value)];
    if (example) {
      load(example.description, example.events, 1);
    }
  });
  document.addEventListener("keydown", onKey);
  window.addEventListener("hashchange", loadFragment);
}

async function begin() {
  const bytes = Uint8Array.from(atob(byId("module").textContent), (letter) => letter.charCodeAt(0));
  const packed = new Blob([bytes]).stream().pipeThrough(new DecompressionStream("gzip"));
  page.engine = await engineOf(await new Response(packed).arrayBuffer());
  const options = EXAMPLES.map(({ name }, index) => element("option", { value: String(index) }, [name]));
  byId("example").replaceChildren(...options, element("option", { value: "" }, ["your own"]));
  listen();
  if (!loadFragment() && EXAMPLES.length) {
    await load(EXAMPLES[0].description, EXAMPLES[0].events, 1);
  }
}

begin().catch((error) => tell(`The page could not begin: ${error.message}.`));
