"use strict";
// The view: zoom, pan and fit, by finger, mouse and wheel. The picture keeps its size and is moved and scaled as a whole, so printing,
// which leaves that out, has all of it.

// Pixels of a step; where the picture's corner is; the scale at which the whole fits; that at which the element has its size, which must
// not be too small, since browsers round sizes.
const view = { scale: 1, x: 0, y: 0, fit: 1, base: 1, least: 0, fitted: true };
const paper = at("paper"), LEGIBLE = 12; // pixels of letters that are easily read

function applyView() {
  const { root, width, height, pen, letters } = parts, { scale, base } = view, edge = 48;
  view.x = Math.min(paper.clientWidth - edge, Math.max(edge - width * scale, view.x));
  view.y = Math.min(paper.clientHeight - edge, Math.max(edge - height * scale, view.y));
  root.style.transform = `translate(${view.x}px, ${view.y}px) scale(${scale / base})`;
  root.classList.toggle("small", letters * scale < 3.5);
  at("far").hidden = letters * scale >= 3.5;
  const reads = view.fitted && letters * scale < LEGIBLE - 2;
  at("fit").textContent = reads ? "Read" : "Fit";
  at("fit").setAttribute("aria-label", reads ? "Zoom in to read the labels" : "Fit the whole drawing");
  // lines stay visible from afar; pens change by notches, since each change goes to every element
  const least = 0.6 / 1.2 ** Math.floor(Math.log(scale) / Math.log(1.2));
  if (least === view.least) return;
  view.least = least;
  root.style.setProperty("--pen", Math.max(pen, least));
  root.style.setProperty("--thick", Math.max(2 * pen, 3 * least));
}

// From where to where the picture goes when vertices stand there: in a step before the last it may be wider than its document says.
function extent(xs) {
  const ends = by => drawing.vertices.map(({ half }, n) => xs[n] / 2 + by * half), edge = -parts.top;
  return [Math.min(parts.left, Math.min(...ends(-1)) - edge), Math.max(parts.left + parts.width, Math.max(...ends(1)) + edge)];
}

// Fits the picture, also before it is on the page.
function fit(xs = shown) {
  if (!parts || !paper.clientWidth) return;
  const [left, right] = extent(xs), edge = 10;
  view.fit = Math.min((paper.clientWidth - 2 * edge) / (right - left), (paper.clientHeight - 2 * edge) / parts.height, parts.high ? 90 / parts.high : Infinity);
  view.base = Math.max(view.fit, 64 / Math.min(parts.width, parts.height));
  parts.root.style.width = `${parts.width * view.base}px`;
  parts.root.style.height = `${parts.height * view.base}px`;
  view.scale = view.fit;
  view.x = (paper.clientWidth - (right - left) * view.fit) / 2 + (parts.left - left) * view.fit;
  view.y = (paper.clientHeight - parts.height * view.fit) / 2;
  view.fitted = true;
  applyView();
}

function zoom(by, px = paper.clientWidth / 2, py = paper.clientHeight / 2) {
  if (!parts) return;
  const most = Math.max(8 * view.fit, 60 / (parts.letters || 1)), scale = Math.min(most, Math.max(view.fit / 3, view.scale * by));
  view.x = px - (px - view.x) * scale / view.scale;
  view.y = py - (py - view.y) * scale / view.scale;
  view.scale = scale;
  view.fitted = false;
  applyView();
}

// Makes labels large enough to read, around the box that is picked or held; the paper stays filled.
function read() {
  const filled = (at, size, room) => size > room ? Math.min(0, Math.max(room - size, at)) : (room - size) / 2;
  zoom(LEGIBLE / parts.letters / view.scale);
  const [x, y] = pixelOf(picked ?? held ?? 0), { clientWidth: wide, clientHeight: high } = paper;
  view.x = filled(view.x + wide / 2 - x, parts.width * view.scale, wide);
  view.y = filled(view.y + high / 2 - y, parts.height * view.scale, high);
  applyView();
}

function pan(dx, dy) {
  if (!parts) return;
  view.x += dx;
  view.y += dy;
  view.fitted = false;
  applyView();
}

// Where a vertex is on the screen, from the corner of the paper.
const pixelOf = n => [view.x + view.scale * (shown[n] / 2 - parts.left), view.y + view.scale * (drawing.vertices[n].y - parts.top)];

// Brings a box into sight.
function reveal(n) {
  const [x, y] = pixelOf(n), edge = 60;
  const off = (at, size) => at < edge ? edge - at : at > size - edge ? size - edge - at : 0;
  const dx = off(x, paper.clientWidth), dy = off(y, paper.clientHeight);
  if (dx || dy) pan(dx, dy);
}

// The box under a point of the paper, or the nearest within a finger's reach.
function boxAt(px, py) {
  let best = null, least = 14;
  drawing.vertices.forEach(({ isBox, half }, n) => {
    const [x, y] = pixelOf(n), far = Math.max(0, Math.abs(px - x) - half * view.scale, Math.abs(py - y) - parts.high / 2 * view.scale);
    if (isBox && far < least) { best = n; least = far; }
  });
  return best;
}

const fingers = new Map();
let tap = null, tapped = 0; // where the only finger came down, while it may be a tap; when the last tap was
const apart = (a, b) => Math.max(1, Math.hypot(a.x - b.x, a.y - b.y));
const pointOf = e => { const { left, top } = paper.getBoundingClientRect(); return { x: e.clientX - left, y: e.clientY - top }; };

paper.onpointerdown = e => {
  if (e.button) return;
  paper.setPointerCapture(e.pointerId);
  fingers.set(e.pointerId, pointOf(e));
  tap = fingers.size === 1 ? pointOf(e) : null;
};
paper.onpointermove = e => {
  const old = fingers.get(e.pointerId), now = pointOf(e), other = [...fingers.values()].find(p => p !== old);
  if (!old || (tap && apart(now, tap) < 8)) return;
  tap = null;
  fingers.set(e.pointerId, now);
  pan((now.x - old.x) / fingers.size, (now.y - old.y) / fingers.size);
  if (other) zoom(apart(now, other) / apart(old, other), (now.x + other.x) / 2, (now.y + other.y) / 2);
};
paper.onpointerup = paper.onpointercancel = e => {
  fingers.delete(e.pointerId);
  if (tap && e.type === "pointerup" && drawing) {
    const box = boxAt(tap.x, tap.y);
    tapped = e.timeStamp;
    choose(box);
    if (box !== null) parts.shapes[box].focus({ preventScroll: true });
  }
  tap = null;
};
// a screen reader clicks without a finger
paper.onclick = e => {
  const box = e.target.closest(".boxes > g");
  if (box && e.timeStamp - tapped > 500) choose(+box.id.slice(1));
};
paper.addEventListener("wheel", e => { e.preventDefault(); zoom(Math.exp(-e.deltaY / 400), pointOf(e).x, pointOf(e).y); }, { passive: false });
at("less").onclick = () => zoom(1 / 1.4);
at("more").onclick = () => zoom(1.4);
at("fit").onclick = () => at("fit").textContent === "Fit" ? fit() : read();
new ResizeObserver(() => { if (parts) view.fitted ? fit() : applyView(); }).observe(paper);
