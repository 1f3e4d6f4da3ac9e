/** The code of a method by its IL offsets: points, scopes, hoisted slots and async steps; after a rewrite twice, with bands for what was kept. */
import {$, button, isThere, make} from "./dom.js";
import {endOf, isVisible, upTo, valueOf} from "./model.js";
import {tintOf} from "./pane.js";
import {go} from "./place.js";
import {state} from "./state.js";
import {bodyOf, cameFrom, excerptOf, isLost, placeOf, subjectAt} from "./subjects.js";
import {hex} from "./text.js";

const LEFT = 84, ROW = 24, BAR = 20, BAND = 40, TOP = 28, WIDEST = 400000;
/** The width of a character of the axis, in pixels; it is measured once. */
let letter = 0;
const drawn = {axis: /** @type {Axis | null} */ (null)};

/** @param {any} it a variable */
export const variableWords = it => `${it.text} in slot ${it.slot}${it.attributes & 1 ? " (hidden from debuggers)" : ""}`;
/** @param {any} it a constant */
export const constantWords = it => `const ${it.text} = ${valueOf(it.signature)}`;

// ---- Rows of bars.

/** @typedef {{from: number, to: number, labels: string[], kind: string, tip: string | string[], tint?: number, key?: string | null}} Bit */

/** @returns {Bit[]} */
function pointBits(side, method, tints, lost) {
  const end = endOf(method);
  return method.points.map((point, index) => {
    const text = excerptOf(side, point), tint = tints(point, index), isGone = lost(index), short = hex(point.offset).slice(3);
    const isNew = tint === null, kind = isGone ? "lost" : isNew ? "new" : isVisible(point) ? "point" : "hidden";
    const note = isGone ? ", its code is gone" : isNew ? ", new" : "";
    const span = isVisible(point) ? `line ${point.start_line}, column ${point.start_column}` : "hidden";
    return {from: point.offset, to: method.points[index + 1]?.offset ?? end, labels: isVisible(point) ? [`${short} ${text}`, short] : [], tint: tint ?? 0, kind,
      key: `${method.row}.${index}`, tip: [`${hex(point.offset)} (${point.offset}), ${span}${note}`, text]};
  });
}
/** Scopes in one another: a row for each depth. */
function scopeRows(method) {
  const open = [], rows = [];
  for (const scope of method.scopes) {
    while (open.length && open[open.length - 1].end <= scope.start) open.pop();
    const names = [...scope.variables.map(it => it.text), ...scope.constants.map(it => `${it.text} = ${valueOf(it.signature)}`)];
    (rows[open.length] ??= []).push({from: scope.start, to: scope.end, labels: names.length ? [names.join(", "), `${names.length} names`,
      String(names.length)] : [],
      kind: names.length ? "scope" : "scope bare",
      tip: [`scope ${hex(scope.start)} up to ${hex(scope.end)}`, ...scope.variables.map(variableWords), ...scope.constants.map(constantWords)]});
    open.push(scope);
  }
  return rows.map((bits, index) => ({label: index ? "" : "scopes", bits}));
}
function axisRows(side, method, tints, lost) {
  const slots = method.hoisted.flatMap(list => list.flatMap((slot, index) => slot ? [{index, ...slot}] : [])), hoisted = [];
  // Slots that do not meet share a row.
  for (const slot of slots) {
    const bit = {from: slot.start, to: slot.end, labels: [`slot ${slot.index}`, String(slot.index)], kind: "slot",
      tip: `hoisted slot ${slot.index}: ${hex(slot.start)} up to ${hex(slot.end)}`};
    const row = hoisted.find(bits => bits.every(it => it.to <= bit.from || bit.to <= it.from));
    if (row) row.push(bit); else hoisted.push([bit]);
  }
  return [{label: "points", bits: pointBits(side, method, tints, lost)}, ...scopeRows(method),
    ...hoisted.map((bits, index) => ({label: index ? "" : "hoisted", bits})),
    ...method.steps.map(({handler, steps}) => ({label: "async", bits: [], steps, handler}))];
}
function axesOf(subject) {
  const {old, now} = subject, from = cameFrom(subject);
  const tintNow = point => !state.rewriting ? 0 : from.has(point.offset) ? tintOf(old, from.get(point.offset)) : null;
  return [old && {side: "before", method: old, rows: axisRows("before", old, (_, index) => tintOf(old, index), index => isLost(old, index))},
    now && {side: "after", method: now, rows: axisRows("after", now, tintNow, () => false)}];
}

// ---- The drawing.

class Axis {
  constructor(subject) {
    [this.old, this.now] = axesOf(subject);
    this.subject = subject;
    const sizes = subject.old && state.rewriting ? state.rewriting.sizes(subject.old.row) : [0, 0];
    this.end = Math.max(...[this.old, this.now].map(it => it ? endOf(it.method) : 0), ...sizes);
    const room = Math.max(200, $("axis").clientWidth - LEFT - 20);
    this.fits = room / this.end;
    this.scale = Math.min(Math.max(this.fits, Math.min(1.5, 40000 / this.end)) * state.zoom, Math.max(room, WIDEST) / this.end);
    const high = side => side ? side.rows.reduce((sum, row) => sum + ROW + (row.steps ? 10 : 0), 0) : 0;
    this.split = TOP + high(this.old);
    this.low = this.old && state.rewriting ? this.split + BAND : this.split;
    this.bottom = this.low + high(this.now) + 4;
  }
  scrolled() {
    const [from, to] = this.window, at = $("axis").scrollLeft;
    if (at < from || at > to) this.draw(); else this.shift();
  }
  shift() { /** @type {HTMLElement} */ ($("axis").firstElementChild).style.setProperty("--shift", `${$("axis").scrollLeft}px`); }
  x(offset) { return LEFT + offset * this.scale; }
  draw() {
    const box = $("axis"), from = (box.scrollLeft - box.clientWidth - LEFT) / this.scale, to = (box.scrollLeft + 2 * box.clientWidth) / this.scale;
    this.window = [box.scrollLeft - box.clientWidth / 2, box.scrollLeft + box.clientWidth / 2];
    const isSeen = bit => bit.from <= to && bit.to >= from, inside = [...this.ticks(from, to), make("span", {class: "label ruler", role: "presentation"})],
      lines = [];
    if (this.old) inside.push(...this.side(this.old, TOP, isSeen, lines));
    if (this.old && state.rewriting) inside.push(...this.bands(isSeen, lines));
    if (this.now) inside.push(...this.side(this.now, this.low, isSeen, lines));
    lines.push(...this.cursors());
    const svg = make("svg", {width: this.x(this.end) + 16, height: this.bottom, "aria-hidden": "true"}, arrowHead(), lines);
    box.replaceChildren(make("div", {css: {width: `${this.x(this.end) + 16}px`, height: `${this.bottom}px`}, role: "presentation"}, inside, svg));
    const at = box.querySelector(".bit.at");
    if (at) { at.id = "axis-at"; box.setAttribute("aria-activedescendant", "axis-at"); } else box.removeAttribute("aria-activedescendant");
    this.shift();
  }
  *ticks(from, to) {
    const step = Array.from({length: 29}, (_, power) => 2 ** power).find(it => it * this.scale >= 56) ?? 2 ** 29, end = this.x(this.end) + 16;
    for (let offset = Math.max(0, Math.floor(from / step) * step); offset <= Math.min(this.end, to); offset += step) {
      const text = offset.toString(16).padStart(4, "0"), fits = this.x(offset) + 6 + text.length * letter <= end;
      yield make("span", {class: "tick", role: "presentation", css: {left: `${this.x(offset)}px`}}, fits && text);
    }
  }
  *side({side, method, rows}, top, isSeen, lines) {
    let y = top;
    for (const row of rows) {
      yield make("span", {class: "label", role: "presentation", css: {top: `${y}px`, height: `${row.steps ? ROW + 10 : ROW}px`}}, row.label);
      for (const bit of row.bits) if (isSeen(bit)) yield this.bit(side, method, bit, y);
      if (row.steps) { yield* this.steps(side, row, y, isSeen, lines); y += 10; }
      y += ROW;
    }
  }
  /** A bar. Its label is the longest that fits; one that does not fit is left out. */
  bit(side, _method, {from, to, labels, kind, tip, tint, key}, y) {
    const width = Math.max((to - from) * this.scale - 1, 3), at = side === "before" ? state.place.o : state.place.a;
    const isPoint = key !== undefined, isAt = at !== null && isPoint && from <= at && at < to;
    const fits = labels.find(it => it.length * letter + 10 <= width), cut = Math.floor((width - 10) / letter) - 1;
    const text = fits ?? (labels[0] && cut >= 12 ? `${labels[0].slice(0, cut)}\u2026` : "");
    return make("span", {class: `bit ${kind}${isPoint ? ` t${tint}` : ""}${isAt ? " at" : ""}`, role: isPoint ? "option" : "img", title: tip, "aria-label": tip,
      "aria-selected": isPoint ? String(isAt) : null, "data-from": from, "data-side": side, "data-p": key,
      css: {left: `${this.x(from)}px`, top: `${y}px`, width: `${width}px`, height: `${BAR}px`}}, text && make("span", {}, text));
  }
  *steps(side, {steps, handler}, y, isSeen, lines) {
    for (const {pause, resume} of steps) {
      if (!isSeen({from: Math.min(pause, resume), to: Math.max(pause, resume)})) continue;
      const [x, to] = [this.x(pause), this.x(resume)];
      lines.push(make("circle", {cx: x, cy: y + 8, r: 4, class: "step"}),
        make("path", {d: `M${x} ${y + 8}Q${(x + to) / 2} ${y + 40} ${to} ${y + 10}`, "marker-end": "url(#arrow)", class: "step arc"}));
      yield make("span", {class: "spot", role: "img", title: `pauses at ${hex(pause)}, resumes at ${hex(resume)}`, "data-from": pause, "data-side": side,
        css: {left: `${x - 6}px`, top: `${y + 1}px`}});
    }
    if (handler !== null) yield make("span", {class: "spot", role: "img", title: `the handler of what is thrown: ${hex(handler)}`, "data-from": handler,
      "data-side": side, css: {left: `${this.x(handler) - 6}px`, top: `${y}px`}}, "\u2715");
  }
  *bands(isSeen, lines) {
    const {old, now} = this.subject, from = this.split + 1, to = this.low - 5, image = state.rewriting.image(old.row);
    const gone = image === null ? state.rewriting.isMap ? "The map drops this method." : "The file after has no such method."
      : now ? null : `Method ${image} has nothing in the file after.`;
    if (gone) { yield make("span", {class: "label wide gone", css: {top: `${from + 8}px`}}, gone); return; }
    yield make("span", {class: "label between", role: "presentation", css: {top: `${from}px`, height: `${to - from}px`}}, "before \u2191", make("br"),
      "after \u2193");
    for (const {old: at, to: there, length} of state.rewriting.runs(old.row) ?? [{old: 0, to: 0, length: this.end}])
      if (isSeen({from: Math.min(at, there), to: Math.max(at, there) + length}))
        lines.push(make("path", {class: "band", d: `M${this.x(at)} ${from}H${this.x(at + length)}L${this.x(there + length)} ${to}H${this.x(there)}Z`},
          make("title", {}, `kept: ${hex(at)} to ${hex(at + length - 1)} is at ${hex(there)}`)));
  }
  /** The chosen offset, and where it is on the other side. */
  *cursors() {
    const {old, now} = this.subject, {rewriting, place} = state, line = d => make("path", {d, class: "cursor"});
    const o = place.o ?? (old && rewriting && now && place.a !== null ? rewriting.origin(old.row, place.a) : null);
    const a = place.a ?? (old && rewriting && now && place.o !== null ? rewriting.kept(old.row, place.o) : null);
    if (old && o !== null) yield line(`M${this.x(o) + .5} ${TOP - 4}V${this.split}`);
    if (now && a !== null) yield line(`M${this.x(a) + .5} ${this.low}V${this.bottom}`);
    if (old && now && rewriting && o !== null && a !== null) yield line(`M${this.x(o) + .5} ${this.split}L${this.x(a) + .5} ${this.low}`);
  }
  click(event) {
    const bit = event.target.closest("[data-from]"), box = $("axis").firstElementChild.getBoundingClientRect(), y = event.clientY - box.top;
    const side = bit?.dataset.side ?? (this.now && (y > this.low || !this.old) ? "after" : "before");
    const method = (side === "before" ? this.old : this.now)?.method;
    if (!method || event.clientX - $("axis").getBoundingClientRect().left < LEFT - 6 && !bit) return;
    const at = Math.min(endOf(method) - 1, Math.max(0, Math.floor((event.clientX - box.left - LEFT) / this.scale)));
    const offset = bit?.classList.contains("spot") || bit && bit.offsetWidth < 8 ? Number(bit.dataset.from) : at;
    go({...placeOf(this.subject), [side === "before" ? "o" : "a"]: offset});
  }
}
const arrowHead = () => make("defs", {}, make("marker", {id: "arrow", viewBox: "0 0 8 8", refX: 7, refY: 4, markerWidth: 7, markerHeight: 7, orient: "auto"},
  make("path", {d: "M0 0L8 4L0 8Z", class: "step tip"})));

export function startAxis() {
  $("axis").addEventListener("click", event => drawn.axis?.click(event));
  $("axis").addEventListener("scroll", () => drawn.axis?.scrolled());
  $("zoom").replaceChildren(button("\u2212", () => widen(1 / 1.5), {title: "narrower (\u2212)", "aria-label": "show more of the code"}),
    button("+", () => widen(1.5), {title: "wider (+)", "aria-label": "show the code wider"}));
}
export function drawAxis() {
  letter ||= measured();
  const subject = subjectAt(state.place);
  drawn.axis = subject && bodyOf(subject) ? new Axis(subject) : null;
  $("zoom").hidden = !drawn.axis;
  $("low").dataset.empty = String(!drawn.axis);
  if (drawn.axis) {
    drawn.axis.draw();
    $("low").style.setProperty("--own", `${drawn.axis.bottom + ($("axis").scrollWidth > $("axis").clientWidth ? 16 : 4)}px`);
  } else $("axis").replaceChildren(make("p", {class: "dim hint"}, "Choose a method, or a span of the source: here is its code by IL offsets."));
}
function measured() {
  const probe = make("span", {class: "bit probe"}, "0".repeat(50));
  $("axis").append(probe);
  const width = probe.getBoundingClientRect().width / 50;
  probe.remove();
  return width || 7;
}
/** Brings the chosen offset into sight. */
export function bringToAxis() {
  const at = state.place.o ?? state.place.a, box = $("axis");
  if (!drawn.axis || at === null) return;
  const x = drawn.axis.x(at);
  if (x < box.scrollLeft + LEFT || x > box.scrollLeft + box.clientWidth - 30) { box.scrollLeft = x - box.clientWidth / 2; drawn.axis.draw(); }
}
/** @param {number} by */
export function widen(by) {
  const box = $("axis"), middle = drawn.axis ? (box.scrollLeft + box.clientWidth / 2 - LEFT) / drawn.axis.scale : 0;
  state.zoom = Math.min(64, Math.max(1 / 64, state.zoom * by));
  drawAxis();
  if (drawn.axis) box.scrollLeft = drawn.axis.x(middle) - box.clientWidth / 2;
  bringToAxis();
}
/** Goes to another point of the method: so many further, or to the first or last one. @param {number} by */
export function stepPoint(by) {
  const subject = subjectAt(state.place), key = state.place.a !== null || subject && !subject.old ? "a" : "o",
    method = key === "a" ? subject?.now : subject?.old;
  if (!method?.points.length) return;
  const at = isThere(state.place[key]) ? upTo(method.points, state.place[key]) - 1 : by > 0 ? -1 : method.points.length;
  go({...placeOf(subject), [key]: method.points[Math.min(method.points.length - 1, Math.max(0, at + by))].offset}, true);
}
