"use strict";
// A drawing as data, from the library's marks and report. Positions are in half steps, as the report has them.

let drawing = null;

// A plan that was rearranged has beside its text and report the numbers that its vertices have in the text before.
function drawingOf(text, report, names, numbers = []) {
  const placings = [], preliminary = [], final = [];
  for (const line of report.split("\n")) {
    const [word, ...rest] = line.match(/[a-z]+|-?\d+/g) || [], numbers = rest.map(Number);
    if (word === "at") [, preliminary[numbers[0]], final[numbers[0]]] = numbers;
    if (word === "place") {
      const [pass, level, ...pairs] = numbers;
      placings.push({ pass, level, boxes: pairs.filter((_, n) => n % 2 === 0), to: pairs.filter((_, n) => n % 2 === 1) });
    }
  }
  const marks = marksOf(text), heights = marks.filter(m => m[0] < 2).map(m => m[2]), ys = [...new Set(heights)];
  const vertices = heights.map((y, n) => ({ isBox: marks[n][0] === 0, y, half: marks[n][3], level: ys.indexOf(y) + 1, above: [], below: [] }));
  // the text is accepted, so its segments are written so, and in the order of their marks; a rating of 1 is not written
  const lines = [...textOf(text).matchAll(/\(seg (\d+) (\d+)(?: (\d+))?\)/g)], segments = lines.map(s => [+s[1], +s[2]]), ratings = lines.map(s => +(s[3] || 1));
  segments.forEach(([a, b], n) => { vertices[a].below.push([n, b]); vertices[b].above.push([n, a]); });
  const moved = numbers.slice(0, vertices.length).map((number, n) => ({ number, now: n })).filter(({ number, now }) => number !== now);
  moved.sort((a, b) => a.number - b.number);
  return { text, names: namesIn(names), vertices, segments, ratings, placings, preliminary, final, levels: ys.length, moved };
}

// The names in an accepted text of names, by vertex.
function namesIn(bytes) {
  return new Map(textOf(bytes).split("\n").slice(0, -1).map(line => [parseInt(line, 10), line.slice(line.indexOf(" ") + 1)]));
}

// Where every vertex stands after the first `count` placings.
function positionsAfter(count) {
  const xs = [...drawing.preliminary];
  for (const { boxes, to } of drawing.placings.slice(0, count)) boxes.forEach((n, i) => { xs[n] = to[i]; });
  return xs;
}

// The segments between a placing's boxes and the level that its pass goes by: the one above, in pass 2 the one below.
const segmentsBy = ({ pass, boxes }) => boxes.flatMap(n => drawing.vertices[n][pass === 2 ? "below" : "above"].map(([segment]) => segment));

// The sideways length of segments, in steps, each counted with its rating.
const sideways = (segments, xs) => segments.reduce((sum, n) => sum + drawing.ratings[n] * Math.abs(xs[drawing.segments[n][0]] - xs[drawing.segments[n][1]]), 0) / 2;

// What a box is called in words; a long name is cut, its number never.
function nameOf(n) {
  const name = [...drawing.names.get(n) || ""];
  return name.length ? `${name.length > 40 ? name.slice(0, 39).join("") + "…" : name.join("")} (${n})` : `box ${n}`;
}

// The first few of a list in words, of boxes if not said.
const few = (list, most = 8, wordsOf = nameOf) => list.slice(0, most).map(wordsOf).join(", ") + (list.length > most ? ` and ${list.length - most} more` : "");

// What was rearranged. Boxes keep their places and so their numbers; a via has one in the text and one in the drawing.
const movedWords = () => few(drawing.moved, 8, ({ number, now }) => `via ${number} (in the drawing ${now})`);
