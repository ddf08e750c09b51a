"use strict";
// Keys in the drawing: from box to box, to its feed, through the placings, and the view. One box at a time can be reached by Tab.

let held = null;

function hold(n) {
  if (n < 0) return;
  if (held !== null && parts.shapes[held]) parts.shapes[held].setAttribute("tabindex", "-1");
  held = n;
  parts.shapes[n].setAttribute("tabindex", "0");
}

function go(n) {
  hold(n);
  reveal(n);
  parts.shapes[n].focus({ preventScroll: true });
}

// The box in a direction: beside it on its level; along a cable, else straight across the levels.
function boxBeside(n, by) {
  const { level } = drawing.vertices[n];
  for (let next = n + by; drawing.vertices[next] && drawing.vertices[next].level === level; next += by) if (drawing.vertices[next].isBox) return next;
  return null;
}

function boxAlong(n, side) {
  const nearest = list => list.reduce((best, next) => best === null || Math.abs(shown[next] - shown[n]) < Math.abs(shown[best] - shown[n]) ? next : best, null);
  const joined = nearest(cables(n, side).map(cable => cable.box));
  if (joined !== null) return joined;
  const { level } = drawing.vertices[n], by = side === "above" ? -1 : 1;
  for (let l = level + by; l >= 1 && l <= drawing.levels; l += by) {
    const box = nearest(drawing.vertices.flatMap((vertex, m) => vertex.isBox && vertex.level === l ? [m] : []));
    if (box !== null) return box;
  }
  return null;
}

const ARROWS = { ArrowLeft: [1, 0], ArrowRight: [-1, 0], ArrowUp: [0, 1], ArrowDown: [0, -1] };
const BOXES = { ArrowLeft: n => boxBeside(n, -1), ArrowRight: n => boxBeside(n, 1), ArrowUp: n => boxAlong(n, "above"), ArrowDown: n => boxAlong(n, "below") };
const ACTS = {
  "+": () => zoom(1.4), "=": () => zoom(1.4), "-": () => zoom(1 / 1.4), 0: () => fit(), 1: () => read(),
  ",": () => sayStep(step - 1), ".": () => sayStep(step + 1), Escape: () => pick(null), "?": () => at("keys").showModal(),
};

document.addEventListener("keydown", e => {
  const target = e.target, inView = target === document.body || at("view").contains(target);
  if (drawing && e.key === "Escape" && at("feed").contains(target)) pick(null);
  if (!drawing || !inView || e.ctrlKey || e.metaKey || e.altKey || at("keys").open) return;
  const box = target.closest(".boxes > g"), arrow = ARROWS[e.key];
  if (arrow && e.shiftKey) pan(60 * arrow[0], 60 * arrow[1]);
  else if (arrow && held !== null) { const next = box ? BOXES[e.key](held) : held; if (next !== null) go(next); }
  else if ((e.key === "Enter" || e.key === " ") && box) choose(picked === held ? null : held);
  else if (ACTS[e.key]) ACTS[e.key]();
  else return;
  e.preventDefault();
});
