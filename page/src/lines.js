/** What `ppdb show` prints, as columns of numbers and lists of rows: the only reader of debug files is `ppdb`, and this reads its lines. */
import {EMBEDDED} from "./kinds.js";

/** The numbers of a point in `points`: offset, document, start line (-1 if hidden), start column, end line, end column. */
export const WIDTH = 6;

/** The numbers of a scope, a variable, a constant and a custom record; their rows count from 1, in order. A text is two places in `heap`. */
export const SCOPE = {width: 4, method: 0, import: 1, start: 2, end: 3};
export const VARIABLE = {width: 5, scope: 0, slot: 1, attributes: 2, text: 3};
export const CONSTANT = {width: 3, scope: 0, text: 1};
export const CUSTOM = {width: 5, table: 0, row: 1, kind: 2, text: 3};

/**
 * @typedef {object} Columns
 * @property {string} id the PDB ID, 40 digits
 * @property {number} entry the row of the entry point, or 0
 * @property {[string, number][]} counts the rows of the tables that have any
 * @property {{row: number, algorithm: string, hash: string, language: string, name: string}[]} documents
 * @property {Int32Array} points WIDTH numbers a point
 * @property {Int32Array} methods for each method with points its row, its local signature and the index of its first point
 * @property {Int32Array} scopes
 * @property {Int32Array} variables their texts are names
 * @property {Int32Array} constants their texts are `H name NAME`
 * @property {Int32Array} machines MoveNext and kickoff
 * @property {Int32Array} customs their texts are values
 * @property {string[]} kinds the kinds of custom records, by their numbers
 * @property {object[]} imports
 * @property {Uint8Array} heap the texts, in ASCII
 */

/** A list of numbers or bytes that grows. */
class Growing {
  /** @param {Int32ArrayConstructor | Uint8ArrayConstructor} of */
  constructor(of) { this.of = of; this.data = new of(1 << 12); this.length = 0; }
  /** @param {number} count */
  room(count) {
    if (this.length + count <= this.data.length) return;
    const more = new this.of(Math.max(this.data.length * 2, this.length + count));
    more.set(this.data);
    this.data = more;
  }
  /** Adds so many values, at most five; what is written after them is overwritten. */
  push(count, first, second = 0, third = 0, fourth = 0, fifth = 0) {
    this.room(5);
    const {data, length} = this;
    data[length] = first; data[length + 1] = second; data[length + 2] = third; data[length + 3] = fourth; data[length + 4] = fifth;
    this.length = length + count;
  }
  done() { return this.data.slice(0, this.length); }
}

const LATIN = new TextDecoder("latin1");
const SPACE = 32, NEW_LINE = 10, ZERO = 48, NINE = 57, HIDDEN = 104, LOWER_P = 112, LOWER_O = 111;
const PARENT = " parent ".length, VALUE = " value ".length, NAME = " name ".length, KIND = " kind ".length, SIGNATURE = " signature ".length;

/** The columns of the answer, line by line. */
class Reading {
  /** @param {Uint8Array} bytes */
  constructor(bytes) {
    this.bytes = bytes; this.at = 0; this.end = 0; this.heap = new Growing(Uint8Array);
    for (const name of ["points", "methods", "scopes", "variables", "constants", "machines", "customs"]) this[name] = new Growing(Int32Array);
    this.found = {id: "", entry: 0, counts: [], documents: [], imports: [], kinds: []};
    this.kinds = new Map();
    /** The embedded source of each document that has one: its value. @type {Map<number, Uint8Array>} */
    this.embedded = new Map();
  }
  all() {
    const {bytes} = this;
    while (this.at < bytes.length) {
      if (bytes[this.at] === LOWER_P && bytes[this.at + 1] === LOWER_O) { this.pointLines(); continue; }
      this.end = bytes.indexOf(NEW_LINE, this.at);
      if (this.end < 0) this.end = bytes.length;
      this.line();
      this.at = this.end + 1;
    }
    const lists = ["points", "methods", "scopes", "variables", "constants", "machines", "customs", "heap"].map(name => [name, this[name].done()]);
    return {...this.found, ...Object.fromEntries(lists)};
  }
  /** The lines of points that follow each other: `point O D hidden` or `point O D SL:SC EL:EC`. Most lines are such ones. */
  pointLines() {
    const {bytes, points} = this, end = bytes.length - 1;
    let {at} = this, {data, length} = points;
    while (at < end && bytes[at] === LOWER_P && bytes[at + 1] === LOWER_O) {
      if (length + WIDTH > data.length) { points.length = length; points.room(WIDTH); ({data} = points); }
      at += "point ".length;
      let column = 0;
      for (; column < WIDTH && bytes[at] !== HIDDEN; column++) {
        let value = 0, digit = 0;
        // A number ends at a space, a colon or the end of the line.
        while (at <= end && (digit = bytes[at++] - ZERO) >= 0 && digit <= 9) value = value * 10 + digit;
        data[length + column] = value;
      }
      if (column < WIDTH) { data.fill(-1, length + 2, length + WIDTH); at += "hidden\n".length; }
      length += WIDTH;
    }
    points.length = length;
    this.at = at;
  }
  /** The next number of the line: it skips the words before it, which have no digits. */
  number() {
    const {bytes, end} = this;
    let {at} = this, value = 0, digit = 0;
    while (at < end && (bytes[at] < ZERO || bytes[at] > NINE)) at++;
    for (; at < end && (digit = bytes[at] - ZERO) >= 0 && digit <= 9; at++) value = value * 10 + digit;
    this.at = at;
    return value;
  }
  /** Keeps the rest of the line from a place on in the heap, and returns where it begins there; it ends where the heap then ends. @param {number} from */
  kept(from) {
    const {heap, bytes, end} = this, start = heap.length;
    heap.room(Math.max(0, end - from));
    const {data} = heap;
    let to = start;
    for (let at = from; at < end; at++) data[to++] = bytes[at];
    heap.length = to;
    return start;
  }
  words() { return LATIN.decode(this.bytes.subarray(this.at, this.end)).split(" "); }
  /** Any other line: its first two letters tell its word. */
  line() {
    const take = TAKE[this.bytes[this.at] << 8 | this.bytes[this.at + 1]];
    if (!take) throw new Error(`show prints a line that begins with ${this.words()[0]}`);
    take(this);
  }
}

/** @param {string[]} words @param {number} from */
function useOf(words, from) {
  const use = {kind: Number(words[1])};
  for (let at = from; at < words.length;) {
    if (words[at] === "type") { use.type_table = words[at + 1]; use.type_row = Number(words[at + 2]); at += 3; continue; }
    use[words[at]] = words[at] === "assembly" ? Number(words[at + 1]) : words[at + 1];
    at += 2;
  }
  return use;
}

/** The bytes of hexadecimal digits. @param {Uint8Array} bytes @param {number} at @param {number} end */
function hexBytes(bytes, at, end) {
  const value = new Uint8Array(Math.max(0, end - at) >> 1), digit = byte => byte < 58 ? byte - 48 : byte - 87;
  for (let index = 0; index < value.length; index++) value[index] = digit(bytes[at + 2 * index]) << 4 | digit(bytes[at + 2 * index + 1]);
  return value;
}

/** `custom R parent TT N kind G value H`; an embedded source is kept apart, since it may be long. @param {Reading} reading */
function takeCustom(reading) {
  const {bytes, kinds, found} = reading;
  reading.number();
  const place = reading.at + PARENT, table = parseInt(String.fromCharCode(bytes[place], bytes[place + 1]), 16);
  reading.at = place + 2;
  const row = reading.number(), from = reading.at + KIND;
  let to = from;
  while (to < reading.end && bytes[to] !== SPACE) to++;
  const kind = LATIN.decode(bytes.subarray(from, to)), start = to + VALUE, isNil = reading.end - start === 1;
  if (!kinds.has(kind)) { kinds.set(kind, found.kinds.length); found.kinds.push(kind); }
  const isEmbedded = table === 0x30 && kind === EMBEDDED;
  if (isEmbedded && !reading.embedded.has(row)) reading.embedded.set(row, isNil ? new Uint8Array() : hexBytes(bytes, start, reading.end));
  const begin = reading.kept(isEmbedded ? reading.end : start);
  reading.customs.push(5, table, row, kinds.get(kind), begin, reading.heap.length);
}

/** What each line says, by its first word (docs/FORMAT.md, section 7). @type {Record<string, (it: Reading) => void>} */
const WORDS_OF_SHOW = {
  id: it => { it.found.id = it.words()[1]; },
  entry: it => { it.found.entry = parseInt(it.words()[1], 16) & 0xffffff; },
  rows: it => { const [, table, count] = it.words(); it.found.counts.push([table, +count]); },
  document: it => {
    const [, row, , algorithm, , hash, , language, , name] = it.words();
    it.found.documents.push({row: +row, algorithm, hash, language, name});
  },
  method: it => { it.methods.push(3, it.number(), it.number(), it.points.length / WIDTH); },
  scope: it => { it.number(); it.scopes.push(4, it.number(), it.number(), it.number(), it.number()); },
  variable: it => {
    it.number();
    const scope = it.number(), slot = it.number(), attributes = it.number(), start = it.kept(it.at + NAME);
    it.variables.push(5, scope, slot, attributes, start, it.heap.length);
  },
  constant: it => {
    it.number();
    const scope = it.number(), start = it.kept(it.at + SIGNATURE);
    it.constants.push(3, scope, start, it.heap.length);
  },
  import: it => { it.found.imports.push({row: it.number(), parent: it.number(), uses: []}); },
  use: it => { it.found.imports[it.found.imports.length - 1].uses.push(useOf(it.words(), 2)); },
  machine: it => { it.number(); it.machines.push(2, it.number(), it.number()); },
  custom: takeCustom};
/** The same by the first two letters, which differ. @type {Record<number, (it: Reading) => void>} */
const TAKE = Object.fromEntries(Object.entries(WORDS_OF_SHOW).map(([word, take]) => [word.charCodeAt(0) << 8 | word.charCodeAt(1), take]));

/**
 * The columns of what `ppdb show` printed, and the embedded sources.
 * @param {Uint8Array} bytes
 * @returns {{columns: Columns, embedded: Map<number, Uint8Array>}}
 */
export function readLines(bytes) {
  const reading = new Reading(bytes), columns = reading.all();
  return {columns: /** @type {Columns} */ (columns), embedded: reading.embedded};
}
