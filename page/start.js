"use strict";
// The page starts with the example boat.

const ready = loadLibrary().then(drawExample).catch(problem => {
  showRefusal({ title: "This page cannot start here.", means: String(problem), todo: "It needs a browser with WebAssembly and BigInt, of 2022 or later." });
});
