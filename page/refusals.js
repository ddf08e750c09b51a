"use strict";
// Why a text is refused, in words: what the number means and what to do; and where, as far as this page can tell (its own search, not
// the library's).

const REFUSALS = {
  1: ["The text is not in the form of a plan, or is longer than 65,536 bytes.",
    "Write (plan K G S), a line (level ..) for each level, lines (seg A B) or, with a rating, (seg A B W), and (end): single spaces, no others, and a line feed after each line."],
  2: ["A number or a count is outside its limit.",
    "Keep to 1 to 64 levels, as many as the first line says; gap 1 to 100; spacing 1 to 10,000; half-width 1 to 200; 64 vertices on a level and 1,024 in all; 2,048 segments; a rating 2 to 100, and none written for 1."],
  3: ["A segment does not join two neighbouring levels.",
    "Let every segment go from a vertex to one on the next level down; a longer cable goes by a via on each level between."],
  4: ["Segments do not rise.",
    "Sort them by their upper vertex, then by their lower one, and write none twice."],
  5: ["A via has not exactly one segment from above and one to below.",
    "Give it both, or make it a box, or take it out."],
  6: ["Two long cables cross on their inner stretches.",
    "Exchange the two vias on one of the levels, so that stretches from via to via keep their order; or have the plan untangled here."],
};

const CRLF = { words: "Its lines end in CR LF: save it with line feeds (LF) alone, or paste it." };
const lineAt = (lines, n) => ({ words: `See line ${n + 1}:`, line: lines[n].length > 60 ? lines[n].slice(0, 60) + "…" : lines[n] });

// Where a refused plan errs.
function whereRefused(number, bytes) {
  if (bytes.length === 0) return { words: "The text is empty." };
  if (bytes.length > 65536) return { words: "It is longer than 65,536 bytes." };
  if (bytes[0] === 0xef && bytes[1] === 0xbb) return { words: "It begins with a byte order mark: save it as UTF-8 without one." };
  const text = textOf(bytes), lines = text.split("\n");
  if (lines[0].startsWith("(plan") && lines[0].endsWith("\r")) return CRLF;
  if (number === 1) return whereOfForm(lines);
  if (number === 2) return whereOfLimits(lines);
  const levels = lines.filter(line => line.startsWith("(level")).map(line => line.match(/via|box/g));
  const levelOf = levels.flatMap((level, l) => level.map(() => l)), kind = levels.flat();
  const first = lines.findIndex(line => line.startsWith("(seg"));
  const segments = [...text.matchAll(/\(seg (\d+) (\d+)/g)].map(s => [+s[1], +s[2]]);
  if (number === 5) {
    const count = (end, n) => segments.filter(s => s[end] === n).length;
    const via = kind.findIndex((k, n) => k === "via" && (count(0, n) !== 1 || count(1, n) !== 1));
    return { words: `See vertex ${via}, on level ${levelOf[via] + 1}: ${count(1, via)} from above, ${count(0, via)} to below.` };
  }
  const inner = ([a, b]) => kind[a] === "via" && kind[b] === "via";
  const bad = segments.findIndex(([a, b], n) =>
    number === 3 ? !(b < kind.length && levelOf[b] === levelOf[a] + 1) :
    number === 4 ? n > 0 && (a - segments[n - 1][0] || b - segments[n - 1][1]) <= 0 :
    inner([a, b]) && segments.some(s => inner(s) && s[0] < a && s[1] > b && levelOf[s[0]] === levelOf[a]));
  return bad < 0 ? {} : lineAt(lines, first + bad);
}

function whereOfForm(lines) {
  const number = "(0|[1-9]\\d{0,4})", form = new RegExp(`^\\((plan( ${number}){3}|level( \\(via\\)| \\(box ${number}\\))+|seg( ${number}){2,3}|end)\\)$`);
  const order = ["(plan", "(leve", "(seg ", "(end)"], rank = line => order.indexOf(line.slice(0, 5));
  const odd = lines.findIndex((line, n) => n < lines.length - 1 && (!form.test(line) || (n === 0 ? rank(line) !== 0 : rank(line) < Math.max(1, rank(lines[n - 1])))
    || (rank(line) === 3 && n < lines.length - 2)));
  if (odd >= 0) return lineAt(lines, odd);
  return { words: lines[lines.length - 1] ? "The last line has no line feed after it." : "The last line must be (end)." };
}

function whereOfLimits(lines) {
  const [K, G, S] = lines[0].match(/\d+/g).map(Number), levels = lines.filter(line => line.startsWith("(level"));
  if (K < 1 || K > 64 || G < 1 || G > 100 || S < 1 || S > 10000) return lineAt(lines, 0);
  if (K !== levels.length) return { words: `The first line says ${K} levels; there are ${levels.length}.` };
  const ratingOf = line => +(line.match(/\d+/g)[2] || 2);
  const odd = lines.findIndex(line => line.startsWith("(level")
    ? line.match(/via|box/g).length > 64 || (line.match(/\d+/g) || []).some(half => +half < 1 || +half > 200)
    : line.startsWith("(seg") && (ratingOf(line) < 2 || ratingOf(line) > 100));
  if (odd >= 0) return lineAt(lines, odd);
  return { words: `There are ${levels.join("").match(/via|box/g).length} vertices and ${lines.filter(line => line.startsWith("(seg")).length} segments.` };
}

// Why a line of names is refused; 0 stands for a text that is too long.
function whyNames(line, bytes, isBox) {
  if (line === 0) return { words: "The text is longer than 65,536 bytes." };
  const lines = textOf(bytes).split("\n"), number = /^(0|[1-9]\d{0,4}) /.exec(lines[line - 1]);
  const earlier = number && lines.slice(0, line - 1).some(other => other.startsWith(number[0]));
  if (lines[line - 1].endsWith("\r")) return CRLF;
  const words = !number ? "A line has a number, a space, and a name." :
    isBox(+number[1]) === undefined ? `The plan has no vertex ${number[1]}.` :
    !isBox(+number[1]) ? `Vertex ${number[1]} is a via; only boxes have names.` :
    earlier ? `Box ${number[1]} has a name already.` :
    /^\S+ $|  | $/.test(lines[line - 1]) ? "Words stand with single spaces between, and none at the end." :
    line === lines.length ? "The last line has no line feed after it." : "The name has a byte that is no letter or sign of UTF-8.";
  return { words, ...(lines[line - 1] ? { line: lineAt(lines, line - 1).line } : {}) };
}

// Says in words why there is no new drawing; nothing clears it. A tangled plan can be untangled.
function showRefusal(why, isTangled = false) {
  const add = (name, words, kind) => { if (words) place.append(Object.assign(document.createElement(name), { textContent: words, className: kind || "" }), " "); };
  const place = document.createElement("div");
  if (why) {
    add("strong", why.title);
    add("span", why.means);
    add("span", why.where && why.where.words);
    add("code", why.where && why.where.line);
    add("span", why.todo, "todo");
  }
  const button = (words, act) => Object.assign(document.createElement("button"), { textContent: words, onclick: act });
  const acts = [...(isTangled ? [button("Untangle it", () => untangle())] : []), ...(drawing ? [button("Back to the drawing shown", () => goBack())] : [])];
  at("refusal").replaceChildren(...(why ? [place, ...acts] : []));
}

const planRefusal = (number, bytes) => ({
  title: `Refused ${number}.`, means: REFUSALS[number][0], where: whereRefused(number, bytes), todo: REFUSALS[number][1],
});

const namesRefusal = (line, bytes, isBox) => ({
  title: `Names refused at line ${line}.`, where: whyNames(line, bytes, isBox),
  todo: "A wrong label is a wrong feed, so no name is taken. Correct the line, or take it out.",
});
