"use strict";
// The placings: from preliminary positions through the three passes, one at a time; the run just placed is marked, with where it stood before
// and the segments to the level that its pass goes by. Step 0 has the preliminary positions; the step after the last placing is the finished drawing.

let step = 0;

const lastStep = () => drawing.placings.length + 1;
const inSteps = length => `${length} step${length === 1 ? "" : "s"}`;

// What a step says, with the boxes and segments that it marks.
function stepOf(count) {
  const all = drawing.placings.length, placing = drawing.placings[count - 1];
  if (count === 0) return { words: `Preliminary positions, before ${all} placings`, boxes: [], segments: [] };
  if (!placing) return { words: `Final positions, after ${all} placings`, boxes: [], segments: [] };
  const { pass, level, boxes } = placing, segments = segmentsBy(placing), other = pass === 2 ? "level below" : "level above";
  const before = sideways(segments, positionsAfter(count - 1)), after = sideways(segments, positionsAfter(count));
  const rated = segments.some(n => drawing.ratings[n] > 1) ? ", each cable by its rating" : "";
  const length = segments.length ? `Sideways to the ${other}${rated}: ${inSteps(before)} before, ${inSteps(after)} after` : `No cable to a ${other}: sideways length 0`;
  return { words: `Placing ${count} of ${all}, pass ${pass}, going ${pass === 2 ? "up" : "down"}, level ${level}: ${few(boxes)}. ${length}`, boxes, segments };
}

function showStep(count, glides = true) {
  const { words, boxes, segments } = stepOf(count), xs = positionsAfter(count), before = positionsAfter(Math.max(0, count - 1));
  step = count;
  at("steps").value = count;
  at("back").disabled = count === 0;
  at("next").disabled = count === lastStep();
  at("caption").textContent = words;
  at("steps").setAttribute("aria-valuetext", words);
  mark(parts.shapes, "now", new Set(boxes));
  mark(parts.lines, "now", new Set(segments));
  showBefore(boxes.filter(n => before[n] !== xs[n]), before);
  if (glides) glide(xs); else stand(xs);
  if (view.fitted) fit(xs);
}

function stepTo(count) {
  if (drawing && count >= 0 && count <= lastStep()) showStep(count);
}

// A step that is not made on the slider is said to a screen reader by itself.
function sayStep(count) {
  stepTo(count);
  at("said").textContent = at("caption").textContent;
}

// A new drawing is shown finished. Under the slider stands which pass is where.
function startSteps() {
  at("steps").max = lastStep();
  const passes = [1, 2, 3].map(pass => [pass, drawing.placings.filter(placing => placing.pass === pass).length]).filter(([, count]) => count);
  at("passes").replaceChildren(...passes.map(([pass, count]) => {
    const part = Object.assign(document.createElement("span"), { textContent: `pass ${pass}` });
    part.style.flexGrow = count;
    return part;
  }));
  showStep(lastStep(), false);
}

at("steps").oninput = () => stepTo(+at("steps").value);
at("back").onclick = () => sayStep(step - 1);
at("next").onclick = () => sayStep(step + 1);
