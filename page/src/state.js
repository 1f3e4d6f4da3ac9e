/** What the page knows, and where it is. */
import {DebugFile} from "./model.js";
import {Comparison, Rewriting} from "./rewriting.js";
import {changeOf, subjectsOf} from "./subjects.js";

/** @typedef {"before" | "after"} SideName */
/** @typedef {{state: string, from: string, note: string, canInsist: boolean, text?: string, lines?: Int32Array, language?: string,
 *   states?: Uint8Array | null}} Source */

export const state = {
  /** What the session says of its files. @type {any} */
  told: null,
  /** @type {DebugFile | null} */
  before: null,
  /** @type {DebugFile | null} */
  after: null,
  /** @type {Rewriting | Comparison | null} */
  rewriting: null,
  /** @type {import("./subjects.js").Subject[]} */
  subjects: [],
  /** The subjects by the rows of their methods before and after. @type {Map<number, import("./subjects.js").Subject>} */
  byOld: new Map(),
  /** @type {Map<number, import("./subjects.js").Subject>} */
  byNow: new Map(),
  /** The sources that were asked for, by side and row. @type {Map<string, Source>} */
  sources: new Map(),
  /** How often names have come. */
  age: 0,
  /** The guessed names by side. */
  guesses: {before: new Map(), after: new Map()},
  /** The documents of before by the names that they have after. @type {Map<string, number> | null} */
  named: null,
  /** How the list calls the documents of a side. */
  keys: {before: new Map(), after: new Map()},
  /** The chosen place: a method before (m) or only after (n), an offset before (o) or after (a), a document before (d) or after (e), a line. */
  place: {m: null, n: null, o: null, a: null, d: null, e: null, l: null},
  zoom: 1};

/** The debug file of a side. @param {SideName} side @returns {DebugFile | null} */
export const fileOf = side => state[side];

/** Takes what the session says. It sends the columns of a debug file once, and then only its key. @param {any} told */
export function take(told) {
  const files = [state.before, state.after];
  const kept = side => {
    const said = told[side];
    if (!said || said.status) return null;
    const file = said.columns ? new DebugFile(said.columns, said.name, said.key) : files.find(it => it?.key === said.key);
    files.unshift(file);
    return file;
  };
  const [before, after] = [kept("before"), kept("after")], maps = () => ({before: new Map(), after: new Map()});
  Object.assign(state, {told, before, after, sources: new Map(), guesses: maps(), keys: maps(), named: null, byOld: new Map(), byNow: new Map()});
  state.age++;
  state.rewriting = rewritingOf(told);
  state.subjects = before ? subjectsOf() : [];
  for (const it of state.subjects) {
    if (it.old) state.byOld.set(it.old.row, it);
    if (it.now) state.byNow.set(it.now.row, it);
  }
  if (state.rewriting) for (const it of state.subjects) it.change = changeOf(it);
}
function rewritingOf(told) {
  const {before, after} = state;
  if (!before || !after) return null;
  if (told.map) return new Rewriting(told.map);
  const made = new Comparison(after, before, (side, row) => rawName(side, row));
  made.olds = before.methods;
  return made;
}

/** The whole name of a method by the assembly of its side. @param {SideName} side @param {number} row @returns {string | undefined} */
export function rawName(side, row) {
  const names = state.told?.[side]?.names, found = names?.rows[row];
  if (!found) return undefined;
  const {space, name} = names.types[found[0]];
  return `${space ? `${space}.` : ""}${name}.${found[1]}`;
}
/** The source of a document, if it was asked for. @param {SideName} side @param {number} row @returns {Source | undefined} */
export const sourceOf = (side, row) => state.sources.get(`${side}:${row}`);

/** A line of a source, which counts from 1. @param {Source | undefined} source @param {number} line */
export function lineOf(source, line) {
  if (!source?.lines || line < 1 || 2 * line > source.lines.length) return "";
  return source.text.slice(source.lines[2 * line - 2], source.lines[2 * line - 1]);
}
/** How many lines a source has. @param {Source | undefined} source */
export const lineCount = source => source?.lines ? source.lines.length / 2 : 0;
