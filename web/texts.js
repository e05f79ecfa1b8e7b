// Elements of the page, and texts in which places are marked.

const SVG = "http://www.w3.org/2000/svg";

function byId(id) {
  return document.getElementById(id);
}

// An element with attributes, and with children, which are elements or texts.
function element(tag, attributes = {}, children = []) {
  const made = document.createElement(tag);
  for (const [name, value] of Object.entries(attributes)) {
    made.setAttribute(name, value);
  }
  made.append(...children);
  return made;
}

function drawn(tag, attributes = {}, children = []) {
  const made = document.createElementNS(SVG, tag);
  for (const [name, value] of Object.entries(attributes)) {
    made.setAttribute(name, value);
  }
  made.append(...children);
  return made;
}

// Where a line and a column, in bytes from 1 on, lie in a text.
function placeIn(text, line, column) {
  const lines = text.split("\n");
  const before = lines.slice(0, line - 1).reduce((sum, it) => sum + it.length + 1, 0);
  const own = lines[line - 1] || "";
  const start = new TextDecoder().decode(new TextEncoder().encode(own).slice(0, column - 1)).length;
  return before + Math.min(start, own.length);
}

// Faults and warnings of the description: `{ line, column, text }`.
function faultsIn(told) {
  return told.split("\n").flatMap((row) => {
    const found = /^machine\.json:(\d+):(\d+): (.*)$/.exec(row);
    return found ? [{ line: Number(found[1]), column: Number(found[2]), text: found[3] }] : [];
  });
}

// Where a mark ends that begins at a place: behind the word or the text in double quotes that stands there.
function endOfMark(text, place) {
  const found = /^("(?:[^"\\\n]|\\.)*"|\w+|[^\n])/.exec(text.slice(place));
  return place + (found ? found[0].length : 0);
}

// Shows the text of an area in the layer behind it, with marks, which are pairs of places.
function markText(layer, text, marks) {
  const parts = [];
  let at = 0;
  for (const [from, to] of [...marks].sort((left, right) => left[0] - right[0])) {
    if (from < at) {
      continue;
    }
    const end = Math.max(to, from);
    // Where a line ends, the mark is put round a blank.
    parts.push(text.slice(at, from), element("mark", {}, [end > from ? text.slice(from, end) : " "]));
    at = end;
  }
  layer.replaceChildren(...parts, text.slice(at), "\n");
}

// Puts the focus into an area, at a place.
function goTo(area, from, to) {
  area.focus();
  area.setSelectionRange(from, to);
  const line = area.value.slice(0, from).split("\n").length;
  const height = parseFloat(getComputedStyle(area).lineHeight) || 20;
  area.scrollTop = Math.max(0, (line - 4) * height);
}

function counted(count, one, more) {
  return `${count} ${count === 1 ? one : more}`;
}
