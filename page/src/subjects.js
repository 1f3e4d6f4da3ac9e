/** The subjects of the page: a method before a rewrite, the one that it became, or both; their names, and what changed. */
import {isVisible} from "./model.js";
import {lineOf, sourceOf, state} from "./state.js";
import {nameOf, plural} from "./text.js";

/** @typedef {import("./model.js").Method} Method */
/** @typedef {{kind: string, words: string, lost: number, fresh: number}} Change */
/** @typedef {{name: string, tag: string, type: string, space: string, isGuess: boolean, isKnown: boolean}} Title */

/** @type {Change} */
const SAME = Object.freeze({kind: "same", words: "", lost: 0, fresh: 0});

/** A method before, after, or both. There may be many: what is known of one is made when it is asked for. */
export class Subject {
  /** @param {Method | null} old @param {Method | null} now */
  constructor(old, now) {
    this.old = old; this.now = now; this.change = SAME;
    /** @type {[string, number][] | null} */
    this.madeLines = null;
    /** @type {Title | null} */
    this.title = null;
    this.age = -1;
  }
  /** The lines on which it begins, by document. */
  get lines() { return this.madeLines ??= firstLines(this); }
}

/** @returns {Subject[]} */
export function subjectsOf() {
  const {before, after, rewriting} = state;
  const found = before.sorted.map(old => new Subject(old, (rewriting && after.methods.get(rewriting.image(old.row))) ?? null));
  if (!after) return found;
  const known = new Set(found.map(it => it.now));
  return [...found, ...after.sorted.filter(it => !known.has(it)).map(now => new Subject(null, now))];
}
export const sideOf = subject => subject.old ? "before" : "after";
/** @param {Subject} subject @returns {Method} */
export const bodyOf = subject => subject.old ?? subject.now;
/** @param {Subject} subject */
export const placeOf = subject => subject.old ? {m: subject.old.row} : {n: subject.now.row};
/** @param {{m: number | null, n: number | null}} place @returns {Subject | undefined} */
export function subjectAt({m, n}) {
  if (m !== null) return state.byOld.get(m);
  const found = n === null ? undefined : state.byNow.get(n);
  return found && !found.old ? found : undefined;
}

// ---- Names.

/** The name of a method by an assembly: that of its own side, otherwise that of the method it became or was. */
function known(side, row) {
  const names = state.told?.[side]?.names;
  if (names) return names.rows[row] ? {names, row} : null;
  const other = side === "before" ? "after" : "before", others = state.told?.[other]?.names;
  if (!others || !state.rewriting) return null;
  const image = side === "before" ? state.rewriting.image(row) : state.byNow?.get(row)?.old?.row;
  return others.rows[image] ? {names: others, row: image} : null;
}
/** What a compiler calls code that has no name of its own: a lambda, a local function, the type around either. */
function spoken(name) {
  const local = /^<(.*)>g__([^|]*)/.exec(name), lambda = /^<(.*)>b__/.exec(name);
  if (local) return `${local[2]} in ${local[1]}`;
  return lambda ? `lambda in ${lambda[1] || "a field"}` : name;
}
/** @param {"before" | "after"} side @param {Method} method @returns {Title} */
export function titleOf(side, method) {
  const found = known(side, method.kickoff || method.row), guesses = state.guesses[side];
  const guessed = guesses.get(method.row) ?? guesses.get(method.kickoff) ?? guesses.get(method.move);
  const tag = method.kickoff ? method.steps.length ? "async" : "iterator" : "";
  if (found) {
    const [type, name] = found.names.rows[found.row], {name: typeName, space} = found.names.types[type];
    return {name: spoken(name), tag, type: typeName.replace(/\.<.*/, "") || typeName, space, isGuess: false, isKnown: true};
  }
  const bare = method.kickoff ? `MoveNext of method ${method.kickoff}` : `method ${method.row}`;
  return {name: guessed?.name || guessed?.text || bare, tag: guessed ? tag : "", type: "", space: "", isGuess: Boolean(guessed), isKnown: false};
}
/** Whether an assembly has the name of a subject. @param {Subject} subject */
export function isNamed(subject) {
  const side = sideOf(subject), method = bodyOf(subject);
  return known(side, method.kickoff || method.row) !== null;
}
/** The title of a subject, made again only if other names have come. @param {Subject} subject @returns {Title} */
export function titleAt(subject) {
  if (subject.age !== state.age) { subject.title = titleOf(sideOf(subject), bodyOf(subject)); subject.age = state.age; }
  return subject.title;
}
/** The title in one text. @param {"before" | "after"} side @param {Method} method */
export function titleWords(side, method) {
  const {name, type} = titleOf(side, method);
  return type ? `${type}.${name}` : name;
}

// ---- What changed.

/** Whether the code of a point is gone. @param {Method} method @param {number} index */
export const isLost = (method, index) => state.rewriting !== null && state.rewriting.point(method, index) === null;

/** The index of the old point for each offset of the new code that one came to. @param {Subject} subject @returns {Map<number, number>} */
export function cameFrom({old}) {
  const found = new Map();
  for (let index = 0; old && state.rewriting && index < old.count; index++) {
    const to = state.rewriting.point(old, index);
    if (to !== null) found.set(to, index);
  }
  return found;
}
/** @param {Subject} subject @returns {Change} */
export function changeOf(subject) {
  const {old, now} = subject, {rewriting} = state, none = {lost: 0, fresh: 0};
  if (!rewriting) return SAME;
  if (!old) return {kind: "added", words: "new", ...none};
  if (rewriting.image(old.row) === null) return {kind: "dropped", words: "dropped", lost: old.count, fresh: 0};
  const from = cameFrom(subject);
  let lost = 0, fresh = 0;
  for (let index = 0; index < old.count; index++) lost += Number(isLost(old, index));
  for (let index = 0; now && index < now.count; index++) fresh += Number(!from.has(now.offsetAt(index)));
  const words = [lost && `${lost} lost`, fresh && `${fresh} new`].filter(it => it).join(", ");
  if (words) return {kind: lost ? "lost" : "changed", words, lost, fresh};
  return rewriting.isChanged(old, now) ? {kind: "changed", words: "changed", ...none} : SAME;
}
/** What the header counts. */
export function totals() {
  const count = kind => state.subjects.filter(it => it.change.kind === kind).length, sum = key => state.subjects.reduce((all, it) => all + it.change[key], 0);
  return {all: state.subjects.length, changed: state.subjects.filter(it => it.change.kind !== "same").length, same: count("same"), dropped: count("dropped"),
    added: count("added"), lost: sum("lost"), fresh: sum("fresh")};
}

// ---- Documents of the two sides.

/** The document before a rewrite for one of a side: another tool may number the documents otherwise. @returns {number | null} */
export function documentOf(side, row) {
  if (side === "before") return row;
  // Of several documents with one name the first counts.
  state.named ??= new Map([...state.before.documents.values()].reverse().map(it => [state.rewriting.documentName(it.text), it.row]));
  return state.named.get(state.after.documents.get(row)?.text) ?? null;
}
/** How the list calls a document of a side: `before:ROW`, or `after:ROW` of one that is only there. */
function keyOf(side, document) {
  const keys = state.keys[side];
  if (keys.has(document)) return keys.get(document);
  const row = documentOf(side, document), key = row === null ? `after:${document}` : `before:${row}`;
  keys.set(document, key);
  return key;
}
/** The lines on which a method begins, by the keys of documents. @param {Subject} subject @returns {[string, number][]} */
function firstLines(subject) {
  const side = sideOf(subject), method = bodyOf(subject);
  const found = method.file.firstLines(method).map(([document, line]) => /** @type {[string, number]} */ ([keyOf(side, document), line]));
  if (found.length < 2) return found;
  // A hidden point alone does not bring a method to a document if it has others elsewhere.
  const seen = found.filter(([, line]) => line < Infinity);
  return seen.length ? seen : found.slice(0, 1);
}
/** The points that the map makes of those of a method and that the file after does not have, and the other way round, in words. @param {Subject} subject */
export function differenceOf({old, now}) {
  const {rewriting} = state, spans = point => isVisible(point) ? `${point.start_line}:${point.start_column} ${point.end_line}:${point.end_column}` : "hidden";
  if (!rewriting?.isMap || !old || !now) return null;
  const want = new Set(old.points.flatMap((point, index) => { const to = rewriting.point(old, index); return to === null ? [] : [`${to} ${spans(point)}`]; }));
  const got = new Set(now.points.map(point => `${point.offset} ${spans(point)}`));
  const less = [...want].filter(it => !got.has(it)).length, more = [...got].filter(it => !want.has(it)).length;
  const words = [less && `${plural(less, "point")} of the map not there`, more && `${plural(more, "point")} more`].filter(it => it);
  return words.length ? `The file after is not what the map makes: ${words.join(", ")}.` : null;
}
/** A name as the document has it. @param {{name: string, text?: string}} document */
export const textOf = document => document.text ?? nameOf(document.name);
/** The code of a point, as far as its first line has it. @param {"before" | "after"} side @param {import("./model.js").Point} point */
export function excerptOf(side, point) {
  if (!isVisible(point)) return "";
  const source = sourceOf(side, point.document) ?? (side === "after" ? sourceOf("before", documentOf("after", point.document)) : undefined);
  const first = lineOf(source, point.start_line), from = point.start_column - 1;
  if (!source?.lines) return "";
  if (point.start_line !== point.end_line) return `${first.slice(from, from + 400).trim()} \u2026`;
  return first.slice(from, Math.min(point.end_column - 1, from + 400)).trim();
}
