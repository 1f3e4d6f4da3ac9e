/** Where the rows, offsets and slots of a debug file went: by the map of a rewrite, or by comparing two files. */
import {countUntil, isVisible} from "./model.js";
import {nameOf} from "./text.js";

/** @typedef {import("./model.js").Method} Method */

/** The map of a rewrite: docs/FORMAT.md, section 5, and the images of 10 and 11. */
export class Rewriting {
  /** @param {string} text */
  constructor(text) {
    this.isMap = true; this.rows = null; this.images = new Map(); this.drops = new Set(); this.bodies = new Map(); this.slotted = new Set();
    this.slots = new Map(); this.renamed = new Map();
    for (const line of text.split(/\r?\n/)) this.take(line.split(" "));
  }
  take([word, ...rest]) {
    const [first, second, third] = rest.map(Number);
    if (word === "rows" && rest[0] === "06") this.rows = second;
    else if (word === "row" && rest[0] === "06") this.images.set(second, third);
    else if (word === "drop") this.drops.add(first);
    else if (word === "method") this.bodies.set(first, this.last = {old: second, size: third, runs: []});
    else if (word === "run") this.last.runs.push({old: first, to: second, length: third});
    else if (word === "slots") this.slotted.add(first);
    else if (word === "slot") this.slots.set(`${first} ${second}`, third);
    else if (word === "document") this.renamed.set(nameOf(rest[0]), nameOf(rest[1]));
  }
  /** The image of a method's row, or null. @param {number} row @returns {number | null} */
  image(row) { return this.drops.has(row) ? null : this.rows === null ? row : this.images.get(row) ?? null; }
  /** The first run of a method that ends after an offset. */
  run(row, offset) {
    const {runs} = this.bodies.get(row);
    return runs[countUntil(runs, run => run.old + run.length > offset)];
  }
  /** The image of an offset that is kept, or null. @param {number} row @param {number} offset */
  kept(row, offset) {
    if (this.image(row) === null || !this.bodies.has(row)) return this.image(row) === null ? null : offset;
    const run = this.run(row, offset);
    return run && run.old <= offset ? run.to + offset - run.old : null;
  }
  /** Where a point moves: to the first kept offset of its code, or nowhere. @param {Method} method @param {number} index */
  point(method, index) {
    const offset = method.offsetAt(index), body = this.bodies.get(method.row);
    if (this.image(method.row) === null || !body) return this.kept(method.row, offset);
    const run = this.run(method.row, offset), kept = run && Math.max(run.old, offset);
    return run && kept < (index + 1 < method.count ? method.offsetAt(index + 1) : body.old) ? run.to + kept - run.old : null;
  }
  /** The kept offset whose image an offset of the new code is, or null. */
  origin(row, offset) {
    const body = this.bodies.get(row);
    if (!body) return offset;
    const run = body.runs[countUntil(body.runs, run => run.to + run.length > offset)];
    return run && run.to <= offset ? run.old + offset - run.to : null;
  }
  slot(row, slot) { return this.slotted.has(row) ? this.slots.get(`${row} ${slot}`) ?? null : slot; }
  runs(row) { return this.bodies.get(row)?.runs ?? null; }
  /** Whether the code of a method is said to differ. @param {Method} old @param {Method | null} _now */
  isChanged(old, _now) { return this.bodies.has(old.row); }
  sizes(row) { const body = this.bodies.get(row); return body ? [body.old, body.size] : [0, 0]; }
  documentName(name) { return this.renamed.get(name) ?? name; }
}

/** The longest list of steps of two lists that is compared in full. */
const FULL = 4e6;

/** The pairs of equal items of two lists, in order: as many as can be, or, of very long lists, those found by going along both. */
export function commonOf(one, other) {
  const pairs = [];
  let low = 0, ends = [one.length, other.length];
  while (low < one.length && low < other.length && one[low] === other[low]) pairs.push([low, low++]);
  const tail = [];
  while (ends[0] > low && ends[1] > low && one[ends[0] - 1] === other[ends[1] - 1]) tail.push([--ends[0], --ends[1]]);
  const [wide, tall] = [ends[0] - low, ends[1] - low];
  if (wide * tall <= FULL) pairs.push(...inFull(one, other, low, wide, tall));
  return [...pairs, ...tail.reverse()];
}
function inFull(one, other, low, wide, tall) {
  const row = tall + 1, best = new Int32Array((wide + 1) * row), pairs = [];
  for (let i = wide - 1; i >= 0; i--)
    for (let j = tall - 1; j >= 0; j--)
      best[i * row + j] = one[low + i] === other[low + j] ? best[(i + 1) * row + j + 1] + 1 : Math.max(best[(i + 1) * row + j], best[i * row + j + 1]);
  for (let i = 0, j = 0; i < wide && j < tall;) {
    if (one[low + i] === other[low + j]) pairs.push([low + i++, low + j++]);
    else if (best[(i + 1) * row + j] >= best[i * row + j + 1]) i++; else j++;
  }
  return pairs;
}

/** The spans of a method, with lines counted from that of its first visible point, which stay if code above it grows; or as they are.
 @param {Method} method @param {boolean} isMoved */
function spansOf(method, isMoved) {
  const base = isMoved ? method.points.find(isVisible)?.start_line ?? 0 : 0;
  return method.points.map(it => isVisible(it) ? `${it.start_line - base}:${it.start_column} ${it.end_line - base}:${it.end_column}` : "hidden");
}

/** Two debug files without a map: methods are paired by their names if both are known, otherwise by their rows, those of state machines by the
 rows of the methods that start them; points by their spans. */
export class Comparison {
  /** @param {import("./model.js").DebugFile} after @param {(side: "before" | "after", row: number) => string | undefined} nameAt */
  constructor(after, before, nameAt) {
    this.isMap = false; this.after = after; this.pairs = new Map(); this.found = new Map(); this.renamed = new Map();
    const spoken = file => file.sorted.some(it => nameAt(file === after ? "after" : "before", it.row) !== undefined);
    this.isByName = spoken(before) && spoken(after);
    const byRow = it => it.kickoff ? `started by ${it.kickoff}` : `row ${it.row}`, rest = new Map();
    const keyOf = (side, it) => this.isByName ? nameAt(side, it.row) ?? byRow(it) : byRow(it);
    for (const it of after.sorted) {
      const key = keyOf("after", it);
      if (rest.has(key)) rest.get(key).push(it); else rest.set(key, [it]);
    }
    for (const it of before.sorted) {
      const now = rest.get(keyOf("before", it))?.shift();
      if (now) this.pairs.set(it.row, now);
    }
  }
  image(row) { return this.pairs.get(row)?.row ?? null; }
  /** The index of the point of the new method for each point of the old one that has one. @param {Method} method */
  matches(method) {
    const known = this.found.get(method.row), now = this.pairs.get(method.row);
    if (known || !now) return known ?? new Map();
    // The first point may have come or gone, and the code may have moved: what agrees more counts.
    const [moved, stayed] = [true, false].map(isMoved => commonOf(spansOf(method, isMoved), spansOf(now, isMoved)));
    const made = new Map(moved.length > stayed.length ? moved : stayed);
    this.found.set(method.row, made);
    return made;
  }
  point(method, index) {
    const to = this.matches(method).get(index);
    return to === undefined ? null : this.pairs.get(method.row).offsetAt(to);
  }
  methodBefore(row) { return [...this.pairs].find(([, now]) => now.row === row)?.[0]; }
  /** Of two files that no map joins only the offsets of points that agree are known. */
  kept(row, offset) {
    const now = this.pairs.get(row), old = this.olds?.get(row), index = old ? old.points.findIndex(it => it.offset === offset) : -1;
    return now && index >= 0 ? this.point(old, index) : null;
  }
  origin(row, offset) {
    const now = this.pairs.get(row), old = this.olds?.get(row), index = now ? now.points.findIndex(it => it.offset === offset) : -1;
    const from = old && index >= 0 ? [...this.matches(old)].find(([, to]) => to === index) : undefined;
    return from ? old.points[from[0]].offset : null;
  }
  slot(_row, slot) { return slot; }
  runs(row) {
    const old = this.olds?.get(row), now = this.pairs.get(row);
    const length = (points, index) => points[index + 1] ? points[index + 1].offset - points[index].offset : 1;
    return old && now ? [...this.matches(old)].map(([from, to]) => ({old: old.points[from].offset, to: now.points[to].offset,
      length: Math.min(length(old.points, from), length(now.points, to))})) : null;
  }
  isChanged(old, now) {
    if (old.count !== now.count || this.matches(old).size !== old.count) return true;
    for (const [from, to] of this.matches(old)) if (old.offsetAt(from) !== now.offsetAt(to)) return true;
    return localsOf(old) !== localsOf(now);
  }
  sizes() { return [0, 0]; }
  documentName(name) { return name; }
}
/** The scopes of a method with their variables and constants, as one text. @param {Method} method */
const localsOf = method => JSON.stringify(method.scopes.map(it => [it.start, it.end, it.variables.map(v => [v.slot, v.attributes, v.name]),
  it.constants.map(c => [c.signature, c.name])]));
