"use strict";
// A plan or names come in: from a file, dropped, pasted or typed. What is refused leaves the last drawing, marked as old.

const MOST_READ = 65537; // bytes of a file; more than this is refused whatever it holds
let good = null, typing = 0; // the last plan drawn: { title, plan, names } as bytes, and whether it may be untangled
let offered = null; // the tangled plan that was refused and can be untangled, as `draw` takes it, and the names given since; the fields are its

function fail(why, tangled = null) {
  offered = tangled;
  if (tangled) inField("names-text", textOf(tangled.names));
  showRefusal(why, tangled !== null);
  at("old").hidden = !drawing;
  at("view").classList.toggle("is-old", drawing !== null);
  return false;
}

// Draws a plan with names, or says why not; whether it was drawn. A plan that goes on from the one before takes its place on the device. One
// that is tangled is drawn rearranged, if it may be; its text, and what is kept for it, stay as they came. Names fit it either way: boxes
// keep their numbers.
function draw(title, plan, names, goesOn = false, leftOff = null, untangles = goesOn && good.untangles) {
  let report, picture, straight = { text: plan };
  try {
    report = reportOf(plan);
    const refused = +(/^\(refused (\d+)\)/.exec(report) || [])[1];
    if (refused === 6 && untangles) {
      straight = untangledOf(plan);
      report = tangledReportOf(plan);
    } else if (refused) {
      return fail(planRefusal(refused, plan), refused === 6 ? { title, plan, names, goesOn, leftOff, given: null } : null);
    }
    picture = pictureOf(straight.text, names);
    const kinds = textOf(plan).match(/via|box/g);
    if (picture.line !== undefined) return fail(namesRefusal(picture.line, names, n => kinds[n] && kinds[n] === "box"));
  } catch (problem) {
    loadLibrary();
    return fail({ title: "The program stopped.", means: String(problem), todo: "Open the plan again; if it stops again, keep the plan and tell us." });
  }
  drawing = drawingOf(straight.text, straight.numbers ? reportOf(straight.text) : report, names, straight.numbers);
  offered = null;
  showRefusal(null);
  at("old").hidden = true;
  at("view").classList.remove("is-old");
  showPicture(picture.svg);
  startSteps();
  const box = goesOn && picked !== null && drawing.vertices[picked] && drawing.vertices[picked].isBox ? picked : null;
  hold(drawing.vertices.findIndex(vertex => vertex.isBox));
  pick(box);
  const isKept = keepNames(textOf(plan), textOf(names), goesOn ? textOf(good.plan) : undefined);
  sayNames(drawing.names.size, drawing.vertices.filter(vertex => vertex.isBox).length, isKept, leftOff);
  good = { title, plan, names, untangles };
  at("title").textContent = headingOf();
  document.title = `${headingOf()} · Supply diagram`;
  at("report-text").textContent = report;
  sayRearranged();
  return true;
}

// What the drawing is, in a few words.
const headingOf = () => good.title + (drawing.moved.length ? ", rearranged" : "");

function sayRearranged() {
  const count = drawing.moved.length;
  at("rearranged").hidden = !count;
  at("rearranged").textContent = count ? `Rearranged: ${count} vias changed places` : "";
  at("plan-note").textContent = count ? `The drawing is rearranged: ${movedWords()}. The text is as it came; boxes keep their numbers, and the report has the text's.` : "";
}

// Draws the plan that was offered, then with the names given since.
function untangle() {
  const { title, plan, names, goesOn, leftOff, given } = offered;
  if (draw(title, plan, names, goesOn, leftOff, true) && given) takeNames(given);
}

const inField = (id, text) => { if (at(id).value !== text) at(id).value = text; };

// A plan from outside: with the names kept for it.
function drawNew(title, plan) {
  const names = keptNames(textOf(plan));
  inField("plan-text", textOf(plan));
  if (draw(title, plan, bytesOf(names))) inField("names-text", names);
}

// Names for the plan that can be untangled, if there is one, else for the one that is drawn.
function takeNames(names) {
  if (offered) {
    offered.given = names;
    at("names-note").textContent = "They wait until the plan is untangled.";
  } else if (good) draw(good.title, good.plan, names, true);
}

// Names from outside.
function nameNew(names) {
  inField("names-text", textOf(names));
  showTab("names", false);
  takeNames(names);
}

// The kinds of all vertices, level by level: while they stay, numbers mean the same boxes.
const shapeOf = bytes => textOf(bytes).split("\n").filter(line => line.startsWith("(level")).map(line => (line.match(/via|box/g) || []).join()).join("/");
const ended = text => text === "" || text.endsWith("\n") ? text : text + "\n";

function drawTyped() {
  const plan = bytesOf(ended(at("plan-text").value)), goesOn = good !== null && (!offered || offered.goesOn) && shapeOf(plan) === shapeOf(good.plan);
  const names = bytesOf(goesOn ? ended(at("names-text").value) : keptNames(textOf(plan)));
  const title = goesOn ? good.title.replace(/( \(edited\))?$/, " (edited)") : "Typed plan";
  const before = offered ? offered.given || offered.names : good ? good.names : [], leftOff = !goesOn && before.length && !names.length ? before : null;
  if (draw(title, plan, names, goesOn, leftOff) && !goesOn) inField("names-text", textOf(names));
}

// Back to what the drawing shows.
function goBack() {
  inField("plan-text", textOf(good.plan));
  inField("names-text", textOf(good.names));
  draw(good.title, good.plan, good.names, true);
}

// Text from outside is a plan, unless it begins like names.
const isNames = (bytes, title = "") => /\.names$/i.test(title) || /^\d{1,5} /.test(textOf(bytes.subarray(0, 6)));
const takeBytes = (title, bytes) => isNames(bytes, title) ? nameNew(bytes) : drawNew(title, bytes);
const takeText = text => takeBytes("Pasted plan", bytesOf(ended(text.replace(/\r\n?/g, "\n"))));

async function takeFiles(files) {
  const read = [];
  for (const file of files) {
    try {
      read.push([file.name, new Uint8Array(await file.slice(0, MOST_READ).arrayBuffer())]);
    } catch (problem) {
      return fail({ title: `${file.name} cannot be read.`, means: String(problem.message || problem), todo: "Is it a folder, or has it been moved? Choose a file." });
    }
  }
  // the plan first, then the names that go with it
  for (const [name, bytes] of read.sort((a, b) => isNames(a[1], a[0]) - isNames(b[1], b[0]))) takeBytes(name, bytes);
}

const later = act => { clearTimeout(typing); typing = setTimeout(act, 250); };
at("plan-text").oninput = () => later(drawTyped);
at("names-text").oninput = () => later(() => takeNames(bytesOf(ended(at("names-text").value))));

at("choose").onclick = () => at("files").click();
at("files").onchange = async e => { const files = [...e.target.files]; await takeFiles(files); e.target.value = ""; };
at("example").onclick = () => drawExample();
at("paste").onclick = async () => {
  try {
    takeText(await navigator.clipboard.readText());
  } catch { // no leave for it: by hand
    showTab("plan", false);
    at("plan-text").select();
  }
};
document.onpaste = e => {
  if (/^(TEXTAREA|INPUT)$/.test(e.target.tagName)) return;
  e.preventDefault();
  if (e.clipboardData.files.length) takeFiles([...e.clipboardData.files]); else takeText(e.clipboardData.getData("text"));
};

document.ondragover = e => { e.preventDefault(); at("drop").hidden = false; };
document.ondragleave = e => { if (!e.relatedTarget) at("drop").hidden = true; };
document.ondrop = e => {
  e.preventDefault();
  at("drop").hidden = true;
  if (e.dataTransfer.files.length) takeFiles([...e.dataTransfer.files]);
  else if (e.dataTransfer.getData("text")) takeText(e.dataTransfer.getData("text"));
};

function drawExample() {
  const text = id => at(id).textContent.replace(/^\n/, ""), plan = text("example-plan"), names = keptNames(plan) || text("example-names");
  inField("plan-text", plan);
  inField("names-text", names);
  draw("Example boat", bytesOf(plan), bytesOf(names));
}
