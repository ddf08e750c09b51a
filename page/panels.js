"use strict";
// What stands beside the drawing: tabs, the report and its copy, print, help.

const TABS = ["feed", "names", "plan", "report"];

function showTab(name, focuses) {
  for (const tab of TABS) {
    at(tab).hidden = tab !== name;
    at(`${tab}-tab`).setAttribute("aria-selected", tab === name);
    at(`${tab}-tab`).tabIndex = tab === name ? 0 : -1;
  }
  if (focuses) at(`${name}-tab`).focus();
}

for (const [n, tab] of TABS.entries()) {
  at(`${tab}-tab`).onclick = () => showTab(tab, true);
  at(`${tab}-tab`).onkeydown = e => {
    const to = { ArrowRight: n + 1, ArrowLeft: n + TABS.length - 1, Home: 0, End: TABS.length - 1 }[e.key];
    if (to !== undefined) { e.preventDefault(); showTab(TABS[to % TABS.length], true); }
  };
}

async function copyReport() {
  const say = words => { at("copied").textContent = words; };
  if (!drawing) return;
  try {
    await navigator.clipboard.writeText(at("report-text").textContent);
    say("Copied.");
  } catch {
    const range = document.createRange();
    range.selectNodeContents(at("report-text"));
    getSelection().removeAllRanges();
    getSelection().addRange(range);
    say(document.execCommand("copy") ? "Copied." : "Selected: copy it with your keys.");
  }
}

at("copy").onclick = copyReport;
at("help").onclick = () => at("keys").showModal();

// One sheet, laid as the drawing is; by the button and by the browser's own menu.
addEventListener("beforeprint", () => {
  if (!drawing) return;
  const lit = picked === null ? "" : `; lit up: the feed of ${nameOf(picked)}`, where = step < lastStep() ? `; ${stepOf(step).words}` : "";
  const [left, right] = extent(shown);
  parts.root.setAttribute("viewBox", `${left} ${parts.top} ${right - left} ${parts.height}`);
  const pixels = Math.min(1000 / (right - left), 1000 / parts.height); // of a step on a sheet, about
  parts.root.style.setProperty("--true-pen", Math.max(parts.pen, 0.5 / pixels));
  at("sheet").textContent = `@page { size: ${parts.width > parts.height ? "landscape" : "portrait"}; margin: 10mm }`;
  at("printed").textContent = headingOf() + lit + where;
});
addEventListener("afterprint", () => { if (parts) parts.root.setAttribute("viewBox", `${parts.left} ${parts.top} ${parts.width} ${parts.height}`); });
at("print").onclick = () => print();
