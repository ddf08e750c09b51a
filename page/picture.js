"use strict";
// The picture: the library's SVG document, its elements moved while the placings are gone through. At the last step every element
// stands as the document says.

let parts = null, shown = [], moving = 0; // the elements; the positions on the screen; the frame that is to come

// The document's element. A template reads it several times faster than the reader of XML; the test compares the two.
function elementOf(svg) {
  const template = document.createElement("template");
  template.innerHTML = svg;
  return template.content.firstElementChild;
}

function showPicture(svg) {
  const root = elementOf(svg);
  const lines = [...root.querySelectorAll(".lines line")], shapes = [];
  for (const shape of root.querySelectorAll(".bends circle, .boxes > g")) shapes[+shape.id.slice(1)] = shape;
  const [left, top, width, height] = root.getAttribute("viewBox").split(" ").map(Number);
  const box = root.querySelector("rect"), letters = [...root.querySelectorAll("text")].map(text => +text.getAttribute("font-size"));
  parts = {
    root, lines, shapes, left, top, width, height, pen: +root.querySelector(".lines").getAttribute("stroke-width"),
    high: box ? +box.getAttribute("height") : 0, letters: letters.sort((a, b) => a - b)[letters.length >> 1] || 0,
  };
  for (const line of lines) if (line.hasAttribute("stroke-width")) line.style.setProperty("--over", line.getAttribute("stroke-width") / parts.pen - 1);
  drawing.vertices.forEach(({ isBox, level }, n) => {
    if (!isBox) return;
    shapes[n].setAttribute("role", "button");
    shapes[n].setAttribute("tabindex", "-1");
    shapes[n].setAttribute("aria-label", `${nameOf(n)}, level ${level} of ${drawing.levels}`);
  });
  root.setAttribute("role", "group");
  root.setAttribute("aria-label", `Drawing, ${drawing.vertices.filter(v => v.isBox).length} boxes on ${drawing.levels} levels${drawing.moved.length ? ", rearranged" : ""}`);
  root.setAttribute("focusable", "false");
  for (const group of root.querySelectorAll(".lines, .bends")) group.setAttribute("aria-hidden", "true");
  cancelAnimationFrame(moving);
  shown = [...drawing.final];
  root.style.setProperty("--true-pen", parts.pen);
  view.least = 0;
  held = null;
  fit();
  at("paper").replaceChildren(root);
}

// Moves what does not stand where it should.
function stand(xs) {
  drawing.vertices.forEach((_, n) => {
    if (xs[n] === shown[n]) return;
    const by = (xs[n] - drawing.final[n]) / 2;
    if (by) parts.shapes[n].setAttribute("transform", `translate(${by} 0)`); else parts.shapes[n].removeAttribute("transform");
    for (const [segment] of drawing.vertices[n].below) parts.lines[segment].setAttribute("x1", xs[n] / 2);
    for (const [segment] of drawing.vertices[n].above) parts.lines[segment].setAttribute("x2", xs[n] / 2);
  });
  shown = xs;
}

// Outlines of boxes where they stood before.
function showBefore(boxes, xs) {
  const group = document.createElementNS("http://www.w3.org/2000/svg", "g"), old = parts.root.querySelector(".before");
  if (old) old.remove();
  if (!boxes.length) return;
  group.setAttribute("class", "before");
  group.setAttribute("aria-hidden", "true");
  for (const n of boxes) {
    const outline = parts.shapes[n].querySelector("rect").cloneNode();
    outline.setAttribute("transform", `translate(${(xs[n] - drawing.final[n]) / 2} 0)`);
    group.append(outline);
  }
  parts.root.querySelector(".boxes").before(group);
}

function glide(xs) {
  const from = shown, began = performance.now();
  const frame = now => {
    const part = Math.min(1, Math.max(0, (now - began) / 200)), smooth = part * part * (3 - 2 * part);
    stand(part < 1 ? xs.map((x, n) => from[n] + (x - from[n]) * smooth) : xs);
    if (part < 1) moving = requestAnimationFrame(frame);
  };
  cancelAnimationFrame(moving);
  if (matchMedia("(prefers-reduced-motion: reduce)").matches) stand(xs); else moving = requestAnimationFrame(frame);
}

// Gives a class to those elements of a list that are in a set, and to no other.
const mark = (list, kind, set) => list.forEach((element, n) => element.classList.toggle(kind, set.has(n)));
