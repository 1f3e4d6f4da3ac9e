/** The bars between the panes: they are dragged, or moved by the arrow keys, and double-clicked to be as they were. */
import {$} from "./dom.js";

/** @param {() => void} changed */
export function startSplitters(changed) {
  splitter("split-left", "--left", 1, () => $("nav").getBoundingClientRect().width, changed);
  splitter("split-right", "--right", -1, () => $("said").getBoundingClientRect().width, changed);
  splitter("split-low", "--low", -1, () => $("low").getBoundingClientRect().height, changed);
}
/** @param {string} id @param {string} property @param {number} sign @param {() => number} size */
function splitter(id, property, sign, size, changed) {
  const bar = $(id), isUpright = bar.getAttribute("aria-orientation") === "vertical", LEAST = isUpright ? 160 : 60;
  const most = () => (isUpright ? innerWidth : innerHeight) * 0.7;
  const set = value => {
    const to = Math.round(Math.min(most(), Math.max(LEAST, value)));
    $("work").style.setProperty(property, `${to}px`);
    bar.setAttribute("aria-valuenow", String(to));
    changed();
  };
  bar.addEventListener("pointerdown", event => {
    const from = isUpright ? event.clientX : event.clientY, began = size();
    bar.setPointerCapture(event.pointerId);
    const move = to => set(began + sign * ((isUpright ? to.clientX : to.clientY) - from));
    const end = () => { bar.removeEventListener("pointermove", move); bar.removeEventListener("lostpointercapture", end); };
    bar.addEventListener("pointermove", move);
    bar.addEventListener("lostpointercapture", end);
    event.preventDefault();
  });
  bar.addEventListener("dblclick", () => { $("work").style.removeProperty(property); bar.removeAttribute("aria-valuenow"); changed(); });
  bar.addEventListener("keydown", event => {
    const by = {[isUpright ? "ArrowRight" : "ArrowDown"]: 24, [isUpright ? "ArrowLeft" : "ArrowUp"]: -24}[event.key];
    if (by === undefined) return;
    event.preventDefault(); event.stopPropagation();
    set(size() + sign * by);
  });
}
