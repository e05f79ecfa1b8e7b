// The diagram: what the engine draws in DOT, laid out by dagre, with the present state and the arrows just taken marked.

const ANY_STATE = "(any state)";
const NODE = /^ {4}"((?:[^"\\]|\\.)*)" \[label="((?:[^"\\]|\\.)*)"\]$/;
const ARROW = /^ {4}"((?:[^"\\]|\\.)*)" -> "((?:[^"\\]|\\.)*)" \[label="((?:[^"\\]|\\.)*)"\]$/;
const MOST_SHOWN = 46;
const ROW = 15;
const PAD = 9;

function unescaped(text) {
  return text.replace(/\\(.)/g, (_, letter) => (letter === "n" ? "\n" : letter));
}

// The states and the rules that a text in DOT has.
function graphIn(dot) {
  const nodes = new Map();
  const rules = [];
  const note = (name) => nodes.has(name) || nodes.set(name, [name]);
  for (const row of dot.split("\n")) {
    const arrow = ARROW.exec(row);
    const node = NODE.exec(row);
    if (arrow) {
      const [from, to, label] = arrow.slice(1).map(unescaped);
      note(from);
      note(to);
      rules.push({ from, to, label, key: /^[^[/]*/.exec(label)[0].trim() });
    } else if (node) {
      const [name, label] = node.slice(1).map(unescaped);
      nodes.set(name, label.split("\n"));
    }
  }
  return { nodes, rules };
}

// How well a key fits an event of a kind and a symbol: the lower the better; -1 where it does not.
function fit(key, kind, symbol) {
  return [`${kind} ${symbol}`, `${kind} *`, `* ${symbol}`, "*"].indexOf(key);
}

// The rules that a turn may have taken: those that fit best of the turn's states, then of any state.
function rulesOf(turn, rules) {
  const [, kind, symbol] = /^(\w+)(?: (\w+))?/.exec(turn.event) || [];
  const isTaken = ({ from, to, label }) => {
    const stays = turn.before === turn.after;
    const leads = turn.isEnd ? to === "(end)" : to === turn.after || (from === ANY_STATE && to === ANY_STATE && stays);
    return leads && /\bpostpone\b/.test(label) === turn.isPostponed;
  };
  const best = (from) => {
    const those = rules.filter((rule) => rule.from === from && fit(rule.key, kind, symbol) >= 0 && isTaken(rule));
    const least = Math.min(...those.map((rule) => fit(rule.key, kind, symbol)));
    return those.filter((rule) => fit(rule.key, kind, symbol) === least);
  };
  const own = best(turn.before);
  return own.length ? own : best(ANY_STATE);
}

function shortened(text) {
  return text.length > MOST_SHOWN ? `${text.slice(0, MOST_SHOWN - 1)}…` : text;
}

// Measures texts in the page's fonts.
function ruler(font) {
  const context = document.createElement("canvas").getContext("2d");
  context.font = font;
  return (text) => context.measureText(text).width;
}

function widest(rows, widthOf) {
  return Math.max(0, ...rows.map(widthOf));
}

// The arrows of a graph: one for each pair of states, with the rules along it.
function arrowsOf(rules) {
  const arrows = new Map();
  for (const rule of rules) {
    const name = JSON.stringify([rule.from, rule.to]);
    const arrow = arrows.get(name) || { from: rule.from, to: rule.to, rules: [] };
    arrow.rules.push(rule);
    arrows.set(name, arrow);
  }
  return [...arrows.values()];
}

// Where the states and the arrows lie.
function laidOut(nodes, arrows) {
  const boldWidth = ruler("600 14px system-ui, sans-serif");
  const smallWidth = ruler("11px system-ui, sans-serif");
  const graph = new dagre.graphlib.Graph({ multigraph: true });
  graph.setGraph({ rankdir: "TB", nodesep: 30, ranksep: 34, edgesep: 16, marginx: 8, marginy: 8 });
  for (const [name, rows] of nodes) {
    const isPoint = name === "(start)" || name === "(end)";
    const [first, ...rest] = rows.map(shortened);
    const width = Math.max(boldWidth(first), widest(rest, smallWidth)) + 2 * PAD + 6;
    graph.setNode(name, isPoint ? { width: 16, height: 16 } : { width, height: 22 + rest.length * ROW + PAD });
  }
  for (const [index, { from, to, rules }] of arrows.entries()) {
    const rows = rules.map(({ label }) => shortened(label)).filter(Boolean);
    const width = widest(rows, smallWidth) * 1.07 + 8;
    graph.setEdge(from, to, { width, height: rows.length * ROW + 4, labelpos: "c" }, String(index));
  }
  dagre.layout(graph);
  return graph;
}

// A smooth line through points.
function lineThrough(points) {
  const [first, ...rest] = points;
  let path = `M${first.x},${first.y}`;
  for (let i = 0; i + 1 < rest.length; i += 1) {
    const middle = { x: (rest[i].x + rest[i + 1].x) / 2, y: (rest[i].y + rest[i + 1].y) / 2 };
    path += ` Q${rest[i].x},${rest[i].y} ${middle.x},${middle.y}`;
  }
  const last = rest[rest.length - 1];
  return `${path} L${last.x},${last.y}`;
}

// The head of an arrow that ends at the last of some points.
function headOf(points) {
  const end = points[points.length - 1];
  const before = points[points.length - 2];
  const angle = Math.atan2(end.y - before.y, end.x - before.x);
  const corner = (turned) => `${end.x - 9 * Math.cos(angle + turned)},${end.y - 9 * Math.sin(angle + turned)}`;
  return drawn("path", { class: "head", d: `M${end.x},${end.y} L${corner(0.42)} L${corner(-0.42)} Z` });
}

function textAt(x, y, rows, anchor) {
  const parts = rows.map(({ text, full, ...attributes }, index) => {
    const part = drawn("tspan", { x, y: y + index * ROW, ...attributes }, [text]);
    if (full !== text) {
      part.append(drawn("title", {}, [full]));
    }
    return part;
  });
  return drawn("text", { "text-anchor": anchor }, parts);
}

function nodeShape(name, rows, { x, y, width, height }) {
  if (name === "(start)" || name === "(end)") {
    const inner = name === "(end)" ? [drawn("circle", { class: "inner", cx: x, cy: y, r: 4 })] : [];
    return drawn("g", { class: name === "(end)" ? "end" : "start" }, [drawn("circle", { cx: x, cy: y, r: 8 }), ...inner]);
  }
  const left = x - width / 2;
  const top = y - height / 2;
  const texts = rows.map((full, index) => ({ text: shortened(full), full, class: index ? "small" : "name" }));
  const box = drawn("rect", { x: left, y: top, width, height, rx: 8 });
  const frame = drawn("rect", { class: "frame", x: left - 4, y: top - 4, width: width + 8, height: height + 8, rx: 11 });
  return drawn("g", { class: name === ANY_STATE ? "state any" : "state" }, [frame, box, textAt(x, top + 20, texts, "middle")]);
}

// An arrow with its label, a row for each rule.
function arrowShape(arrow, edge) {
  const rows = arrow.rules.filter(({ label }) => label);
  const texts = rows.map(({ label }) => ({ text: shortened(label), full: label, class: "rule" }));
  const top = edge.y - (rows.length * ROW) / 2 + 11;
  const label = textAt(edge.x - edge.width / 2 + 4, top, texts, "start");
  const back = drawn("rect", {
    class: "back",
    x: edge.x - edge.width / 2 + 1,
    y: edge.y - edge.height / 2,
    width: rows.length ? edge.width - 2 : 0,
    height: rows.length ? edge.height : 0,
  });
  const shape = drawn("g", { class: "arrow" }, [drawn("path", { class: "line", d: lineThrough(edge.points) }), headOf(edge.points), back, label]);
  const spans = [...label.querySelectorAll("tspan")];
  return { shape, rules: new Map(rows.map((rule, index) => [rule, spans[index]])) };
}

// Draws what the engine drew in DOT: the picture, and what is needed to mark it.
function diagramOf(dot) {
  const { nodes, rules } = graphIn(dot);
  const arrows = arrowsOf(rules);
  const graph = laidOut(nodes, arrows);
  const { width, height } = graph.graph();
  const picture = drawn("svg", { viewBox: `0 0 ${width} ${height}`, width, height, role: "img" });
  const shapes = new Map();
  const marked = [];
  for (const [index, arrow] of arrows.entries()) {
    const made = arrowShape(arrow, graph.edge(arrow.from, arrow.to, String(index)));
    marked.push({ ...made, arrow });
    picture.append(made.shape);
  }
  for (const [name, rows] of nodes) {
    const shape = nodeShape(name, rows, graph.node(name));
    shapes.set(name, shape);
    picture.append(shape);
  }
  return { picture, shapes, arrows: marked, rules };
}

// Marks the state of a machine, and the arrows that turns took, and that of a start in a state, if there was one. The
// picture's name says so, too.
function markDiagram(diagram, state, turns, started) {
  const taken = new Set(turns.flatMap((turn) => rulesOf(turn, diagram.rules)));
  for (const [name, shape] of diagram.shapes) {
    shape.classList.toggle("here", name === state);
  }
  for (const { shape, rules, arrow } of diagram.arrows) {
    const isStart = arrow.from === "(start)" && arrow.to === started;
    const isTaken = arrow.rules.some((rule) => taken.has(rule)) || isStart;
    shape.classList.toggle("taken", isTaken);
    for (const [rule, span] of rules) {
      span.classList.toggle("told", taken.has(rule) || isStart);
    }
  }
  const ways = [...taken].map(({ from, to, key }) => `${key} from ${from} to ${to}`);
  const here = state ? `It is in ${state}.` : "It is in no state.";
  const names = [...diagram.shapes.keys()].filter((name) => !name.startsWith("(")).join(", ");
  const by = ways.length ? ` Taken: ${ways.join("; ")}.` : "";
  diagram.picture.setAttribute("aria-label", `Diagram of the states ${names}. ${here}${by}`);
}
