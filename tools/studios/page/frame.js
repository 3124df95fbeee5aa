"use strict";
// Inside of a report that tools/studio shows: it tells the page around it where one is, so that the next report is shown at the
// same place, and which line of the text one has clicked.
(() => {
  if (parent === window) return;
  const CONTROLS = [".tick-number", ".length", ".slot-task"];
  const touched = new Set();
  const tell = (kind, what = {}) => parent.postMessage({ kind, ...what }, "*");
  const find = (selector) => document.querySelector(selector);
  const control = (selector) => (selector === ".tick-slider" ? ".tick-number" : selector);

  function place() {
    const values = Object.fromEntries([...touched].map((it) => [it, find(it)?.value]));
    const open = [...document.querySelectorAll("details")].map((it) => it.open);
    return { scroll: scrollY, values, open };
  }

  let isWaiting = false;
  function moved() {
    if (isWaiting) return;
    isWaiting = true;
    setTimeout(() => { isWaiting = false; tell("moved", { place: place() }); }, 50);
  }

  function touch(event) {
    const selector = [".tick-slider", ...CONTROLS].find((it) => event.target.matches?.(it));
    if (selector && event.isTrusted) touched.add(control(selector));
    moved();
  }

  function goTo({ scroll, values, open }) {
    for (const [selector, value] of Object.entries(values)) {
      const found = find(selector);
      if (!found || (found.options && ![...found.options].some((it) => it.value === value))) continue;
      touched.add(selector);
      found.value = value;
      found.dispatchEvent(new Event(found.options ? "change" : "input"));
    }
    [...document.querySelectorAll("details")].forEach((it, at) => { it.open = open[at] ?? false; });
    scrollTo(0, scroll);
  }

  function follow(event) {
    const link = event.target.closest?.("a[href*='-l-']");
    if (!link) return;
    event.preventDefault();
    const [line, column] = link.textContent.split(":").map(Number);
    tell("goTo", { line, column });
  }

  function whenReady(act) {
    const root = document.documentElement;
    if (root.dataset.ready) act();
    else new MutationObserver((_, it) => { if (root.dataset.ready) { it.disconnect(); act(); } }).observe(root, { attributes: true });
  }

  addEventListener("scroll", moved, { passive: true });
  for (const kind of ["input", "change", "toggle"]) document.addEventListener(kind, touch, true);
  document.addEventListener("click", follow);
  addEventListener("message", (event) => {
    if (event.source !== parent) return;
    if (event.data.place) goTo(event.data.place);
    requestAnimationFrame(() => tell("placed"));
  });
  whenReady(() => tell("ready"));
})();
