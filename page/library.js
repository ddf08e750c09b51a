"use strict";
// The proved library. What it asks of its caller: texts and buffer lie within its memory, apart from each other, a buffer of numbers at a
// multiple of 8. Lengths and answers are 64 bits wide, BigInt here.

// bytes and numbers that are enough for every plan
const MAX_TEXT = 51738, MAX_REPORT = 119834, MAX_NUMBERS = 15360, MAX_PICTURE = 1306334, MAX_VERTICES = 1024;
let library;

const at = id => document.getElementById(id);
const bytesOf = text => new TextEncoder().encode(text);
const textOf = bytes => new TextDecoder().decode(bytes);

async function loadLibrary() {
  const bytes = Uint8Array.from(atob(at("wasm").textContent), c => c.charCodeAt(0));
  library = (await WebAssembly.instantiate(bytes)).instance.exports;
}

// Calls a function with texts and rooms, each for `count` items of `size` bytes; gives its answer and where the rooms are. Views are made
// anew after each call: growing the memory ends them.
function call(name, texts, ...rooms) {
  let place = library.__heap_base.value;
  const lend = (count, size) => { const begin = Math.ceil(place / 16) * 16; place = begin + count * size; return [begin, BigInt(count)]; };
  const lent = [...texts.map(text => lend(text.length, 1)), ...rooms.map(([count, size]) => lend(count, size))];
  const missing = place - library.memory.buffer.byteLength;
  if (missing > 0) library.memory.grow(Math.ceil(missing / 65536));
  texts.forEach((text, n) => new Uint8Array(library.memory.buffer).set(text, lent[n][0]));
  return [Number(library[name](...lent.flat())), ...lent.slice(texts.length).map(([begin]) => begin)];
}

const written = (room, length) => textOf(new Uint8Array(library.memory.buffer, room, length));

// The report of a plan's bytes, or the line that refuses it; by the second way, of a plan that may be tangled, in the numbers of its text.
function reportOf(text, way = "report_c") {
  const [length, room] = call(way, [text], [MAX_REPORT, 1]);
  return length < 0 ? `(refused ${-length})\n` : written(room, length);
}

const tangledReportOf = text => reportOf(text, "report_tangled_c");

// The plan that a tangled one is rearranged to: its bytes, and for each vertex of it the number in the text given.
function untangledOf(text) {
  const [length, room, numbers] = call("untangle_c", [text], [MAX_TEXT, 1], [MAX_VERTICES, 2]), { buffer } = library.memory;
  if (length < 0) throw new Error(`untangle_c answers ${length}`);
  return { text: new Uint8Array(buffer, room, length).slice(), numbers: [...new Uint16Array(buffer, numbers, MAX_VERTICES)] };
}

// The marks of an accepted plan: lists of five numbers.
function marksOf(text) {
  const [count, room] = call("marks_c", [text], [MAX_NUMBERS, 8]);
  return Array.from({ length: Math.max(0, count) }, (_, n) => [...new Float64Array(library.memory.buffer, room + 40 * n, 5)]);
}

// The picture of a plan's bytes with names: { svg }, { refused: number } or { line }, the line of the names that is refused.
function pictureOf(text, names) {
  const [length, room] = call("picture_c", [text, names], [MAX_PICTURE, 1]);
  if (length >= 0) return { svg: written(room, length) };
  return length <= -100 ? { line: -length - 100 } : { refused: -length };
}
