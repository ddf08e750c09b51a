"use strict";
// Names are kept on the device, each text of names with the very plan that it belongs to: another plan's names would be wrong labels.
// Where the device keeps nothing (a private window, say), the page works all the same.

const KEPT = "supply-diagram-names", MOST_KEPT = 40;

function kept() {
  try {
    const list = JSON.parse(localStorage.getItem(KEPT));
    return Array.isArray(list) ? list.filter(entry => typeof entry.plan === "string" && typeof entry.names === "string") : [];
  } catch { return []; }
}

// The names kept for a plan; none: the empty text.
const keptNames = plan => (kept().find(entry => entry.plan === plan) || { names: "" }).names;

// Keeps the names of a plan, in place of those of an earlier form of it; whether the device does so.
function keepNames(plan, names, earlier) {
  const all = kept(), list = all.filter(entry => entry.plan !== plan && entry.plan !== earlier);
  if (!names && list.length === all.length) return true;
  if (names) list.unshift({ plan, names });
  try {
    localStorage.setItem(KEPT, JSON.stringify(list.slice(0, MOST_KEPT)));
    return true;
  } catch { return false; }
}

// Says what boxes are called by; names that were left off, since boxes are numbered anew, are offered.
function sayNames(count, boxes, isKept, leftOff) {
  const words = count === 0 ? `No names: ${boxes} boxes carry their numbers.` :
    `${count} of ${boxes} boxes have a name.${isKept ? " Kept on this device for this plan." : " This device keeps nothing: the names go with the page."}`;
  at("names-note").replaceChildren(words);
  if (!leftOff) return;
  const take = Object.assign(document.createElement("button"), { textContent: "Take them on", onclick: () => nameNew(leftOff) });
  at("names-note").append(" The plan's vertices have changed, and numbers may mean other boxes: the names before were left off. ", take);
}
