"use strict";
// A box's feed: all that feeds it, up to the batteries, and all that it feeds, down to the devices; lit up, and in words.

let picked = null;
const MOST_PATHS = 12, MOST_FED = 80; // shown in words

// All vertices and segments on one side of a vertex, "above" or "below".
function follow(start, side, without = null) {
  const vertices = new Set(), segments = new Set(), todo = [...start];
  while (todo.length) for (const [segment, vertex] of drawing.vertices[todo.pop()][side]) {
    if (vertex === without) continue;
    segments.add(segment);
    if (!vertices.has(vertex)) { vertices.add(vertex); todo.push(vertex); }
  }
  return { vertices, segments };
}

// The boxes to which cables lead from a box on one side, each with how many levels a long cable goes past.
function cables(box, side) {
  return drawing.vertices[box][side].map(([, next]) => {
    let past = 0;
    while (!drawing.vertices[next].isBox) { next = drawing.vertices[next][side][0][1]; past++; }
    return { box: next, past };
  });
}

// The paths from the top down to a box, as lists of cables; the first few, and how many there are.
function pathsTo(box) {
  const counts = new Map(), list = [];
  const count = n => {
    if (!counts.has(n)) counts.set(n, Math.max(1, cables(n, "above").reduce((sum, c) => sum + count(c.box), 0)));
    return counts.get(n);
  };
  const walk = (n, below) => {
    const up = cables(n, "above");
    if (list.length < MOST_PATHS && !up.length) list.push([{ box: n, past: 0 }, ...below]);
    for (const c of up) if (list.length < MOST_PATHS) walk(c.box, [{ box: n, past: c.past }, ...below]);
  };
  walk(box, []);
  return { list, count: count(box) };
}

// The boxes below a box that are fed without it too.
function fedOtherwise(box, below) {
  const tops = drawing.vertices.flatMap(({ isBox, above }, n) => isBox && !above.length && n !== box ? [n] : []);
  const live = follow(tops, "below", box).vertices;
  return new Set([...below].filter(n => live.has(n)));
}

// Lights up the feed of a box, or of none.
function pick(box) {
  picked = box;
  const up = follow(box === null ? [] : [box], "above"), down = follow(box === null ? [] : [box], "below");
  parts.root.classList.toggle("feeding", box !== null);
  mark(parts.shapes, "picked", new Set([box]));
  mark(parts.shapes, "up", up.vertices);
  mark(parts.shapes, "down", down.vertices);
  mark(parts.lines, "up", up.segments);
  mark(parts.lines, "down", down.segments);
  for (const [n, shape] of parts.shapes.entries()) if (drawing.vertices[n].isBox) shape.setAttribute("aria-pressed", n === box);
  if (box !== null) hold(box);
  at("said").textContent = "";
  if (box === null) sayNothing(); else sayFeed(box, boxesOf(up.vertices), boxesOf(down.vertices));
}

// A box picked by hand: its words come to the front.
function choose(box) {
  pick(box);
  if (box !== null) showTab("feed", false);
}

// Elements of the words.
function node(name, kind, ...children) {
  const element = Object.assign(document.createElement(name), { className: kind });
  element.append(...children);
  return element;
}

const linkTo = n => Object.assign(node("button", "box", nameOf(n)), { onclick: () => { choose(n); reveal(n); at("feed").focus(); } });

const long = past => past ? [node("span", "long", `by a long cable, past ${past} level${past > 1 ? "s" : ""}`)] : [];
const waysIn = count => count > 1e6 ? "more than a million" : count.toLocaleString("en");
const boxesOf = vertices => [...vertices].filter(n => drawing.vertices[n].isBox).sort((a, b) => a - b);

function sayNothing() {
  const tops = drawing.vertices.flatMap(({ isBox, above, below }, n) => isBox && !above.length && below.length ? [n] : []);
  at("feed").replaceChildren(
    node("p", "hint", "Tap a box to see its feed: what it hangs on, up to the batteries, and what hangs on it, down to the devices."),
    node("h3", "up", "Nothing feeds these"),
    node("ul", "fed", ...tops.slice(0, MOST_FED).map(n => node("li", "", linkTo(n)))));
}

// One way down to a box: a row for each box on it.
const wayOf = (path, box) => node("ul", "way", ...path.map(({ box: n, past }, i) =>
  node("li", i ? "on" : "", n === box ? node("strong", "", nameOf(n)) : linkTo(n), ...long(past))));

// All that hangs on a box, as a tree; a box that was told before is not gone into again.
function treeOf(box, otherwise) {
  const told = new Set();
  let room = MOST_FED;
  const tell = (list, n) => {
    for (const { box: next, past } of cables(n, "below")) {
      if (room-- <= 0) break;
      const row = list.appendChild(node("li", "", linkTo(next), ...long(past)));
      if (otherwise.has(next)) row.append(node("span", "also", "also fed another way"));
      if (!told.has(next) && drawing.vertices[next].below.length) tell(row.appendChild(node("ul", "")), next);
      told.add(next);
    }
    return list;
  };
  return [tell(node("ul", "fed"), box), ...(room < 0 ? [node("p", "note", `The first ${MOST_FED}.`)] : [])];
}

// The words: where its feed begins, the ways down to it, and all that hangs on it.
function sayFeed(box, above, below) {
  const { list, count } = pathsTo(box), from = above.filter(n => !drawing.vertices[n].above.length);
  const close = Object.assign(node("button", "close", "×"), { onclick: () => pick(null) });
  close.setAttribute("aria-label", "No box");
  const feeders = node("section", "", node("h3", "up", from.length ? `Fed from ${few(from)}` : "Nothing feeds it"),
    ...(from.length ? list.map(path => wayOf(path, box)) : []),
    ...(count > list.length ? [node("p", "note", `The first ${list.length} of ${waysIn(count)} ways.`)] : []));
  const fed = node("section", "", node("h3", "down", below.length ? `Feeds ${below.length} ${below.length > 1 ? "boxes" : "box"}` : "It feeds nothing"),
    ...(below.length ? treeOf(box, fedOtherwise(box, below)) : []));
  at("feed").replaceChildren(node("div", "row", node("h2", "", nameOf(box)), close), node("div", "sides", feeders, fed));
  at("feed").scrollTop = 0;
  const ways = list.slice(0, 3).map(path => path.map(({ box: n }) => nameOf(n)).join(", then ")).join("; or ") + (count > 3 ? `; ${waysIn(count)} ways in all` : "");
  at("said").textContent = `${nameOf(box)}, level ${drawing.vertices[box].level}. ${from.length ? `Fed by ${ways}` : "Nothing feeds it"}. ${
    below.length ? `Feeds ${few(below, 20)}` : "It feeds nothing"}.`;
}
