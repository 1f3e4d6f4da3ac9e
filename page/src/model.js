/** A debug file by the columns of `show`, and what `ppdb query` and `ppdb breaks` answer of it. The check compares both with the program. */
import {ASYNC, HOISTED} from "./kinds.js";
import {CONSTANT, CUSTOM, SCOPE, VARIABLE, WIDTH} from "./lines.js";
import {nameOf} from "./text.js";

/** @typedef {{offset: number, document: number, start_line?: number, start_column?: number, end_line?: number, end_column?: number}} Point */
/** @typedef {{start: number, end: number}} Range */

/** The bytes of hexadecimal digits. @param {string | null} digits */
export const bytesOf = digits => Uint8Array.from((digits ?? "").match(/../g) ?? [], pair => parseInt(pair, 16));
/** @param {Point} point */
export const isVisible = point => point.start_line !== undefined;

/** How many items of a list come before the first one that is past something; all after that are past it too. */
export function countUntil(list, isPast) {
  let low = 0, high = list.length;
  while (low < high) { const middle = low + high >> 1; if (isPast(list[middle])) high = middle; else low = middle + 1; }
  return low;
}

/** The steps of an async method (docs/FORMAT.md, section 3). */
function stepsOf(custom) {
  const data = bytesOf(custom.value), view = new DataView(data.buffer), steps = [], handler = view.getUint32(0, true);
  for (let at = 4; at < data.length;) {
    const size = data[at + 8] < 0x80 ? 1 : data[at + 8] < 0xc0 ? 2 : 4;
    const method = size === 1 ? data[at + 8] : size === 2 ? view.getUint16(at + 8) & 0x3fff : view.getUint32(at + 8) & 0x1fffffff;
    steps.push({pause: view.getUint32(at, true), resume: view.getUint32(at + 4, true), method});
    at += 8 + size;
  }
  return {row: custom.row, handler: handler ? handler - 1 : null, steps};
}
/** The slots of hoisted locals; an empty one is null. */
function slotsOf(custom) {
  const data = bytesOf(custom.value), view = new DataView(data.buffer), slots = [];
  for (let at = 0; at + 8 <= data.length; at += 8) {
    const start = view.getUint32(at, true), length = view.getUint32(at + 4, true);
    slots.push(length ? {start, end: start + length} : null);
  }
  return slots;
}

/** @typedef {{row: number, kind: string | null, value: string | null, length: number}} Custom */
/** @typedef {{row: number, method: number, import: number, start: number, end: number, variables: any[], constants: any[]}} Scope */

const ASCII_TEXT = new TextDecoder("latin1");
const orNone = word => word === "-" ? null : word;

/** A method about which the file says something. What it has is made when it is asked for. */
export class Method {
  /** @param {DebugFile} file @param {number} row */
  constructor(file, row) { this.file = file; this.row = row; this.signature = 0; this.first = 0; this.count = 0; this.kickoff = 0; this.move = 0; }
  /** The offset of a point, without making it. @param {number} index */
  offsetAt(index) { return this.file.numbers[(this.first + index) * WIDTH]; }
  /** @returns {Point[]} */
  get points() { return this.madePoints ??= Array.from({length: this.count}, (_, index) => this.file.point(this.first + index)); }
  /** @returns {Scope[]} */
  get scopes() { return this.madeScopes ??= this.file.scopesOf(this.row); }
  /** @returns {Custom[]} */
  get customs() { return this.file.customsOf(0x06, this.row); }
  get hoisted() { return this.madeHoisted ??= this.customs.filter(it => it.kind === HOISTED).map(slotsOf); }
  get steps() { return this.madeSteps ??= this.customs.filter(it => it.kind === ASYNC).map(stepsOf); }
}

/** The index of the first item of a table with a key of at least `key` in a column that ascends. */
function firstWith(numbers, width, column, key) {
  let low = 0, high = numbers.length / width;
  while (low < high) { const middle = low + high >> 1; if (numbers[middle * width + column] < key) low = middle + 1; else high = middle; }
  return low;
}

export class DebugFile {
  /** @param {import("./lines.js").Columns} columns @param {string} name @param {number} [key] what the session calls it */
  constructor(columns, name, key = 0) {
    this.name = name; this.key = key; this.columns = columns; this.id = columns.id; this.entry = columns.entry; this.counts = new Map(columns.counts);
      this.numbers = columns.points;
    this.documents = new Map(columns.documents.map(it => [it.row, Object.assign(it, {text: nameOf(it.name)})]));
    this.imports = new Map(columns.imports.map(it => [it.row, it]));
    /** The custom records of an owner, by its table and row: their indexes. @type {Map<number, number[]>} */
    this.owned = new Map();
    /** @type {Map<number, Method>} */
    this.methods = new Map();
    const {methods, scopes, machines, customs} = columns;
    for (let at = 0; at < methods.length; at += 3) {
      const method = this.method(methods[at]);
      method.signature = methods[at + 1]; method.first = methods[at + 2];
      method.count = (at + 3 < methods.length ? methods[at + 5] : this.pointCount) - method.first;
    }
    for (let at = 0; at < scopes.length; at += SCOPE.width) if (scopes[at] !== scopes[at - SCOPE.width]) this.method(scopes[at]);
    for (let at = 0; at < machines.length; at += 2) { this.method(machines[at]).kickoff = machines[at + 1]; this.method(machines[at + 1]).move = machines[at]; }
    for (let at = 0; at < customs.length; at += CUSTOM.width) {
      const key = ownerKey(customs[at], customs[at + 1]), known = this.owned.get(key);
      if (known) known.push(at / CUSTOM.width); else this.owned.set(key, [at / CUSTOM.width]);
      if (customs[at] === 0x06) this.method(customs[at + 1]);
    }
    this.sorted = [...this.methods.values()].sort((one, other) => one.row - other.row);
  }
  get pointCount() { return this.numbers.length / WIDTH; }
  /** @param {number} row */
  method(row) {
    let found = this.methods.get(row);
    if (!found) this.methods.set(row, found = new Method(this, row));
    return found;
  }
  /** A text of the heap, as `ppdb` prints it. @param {Int32Array} numbers @param {number} at */
  text(numbers, at) { return ASCII_TEXT.decode(this.columns.heap.subarray(numbers[at], numbers[at + 1])); }
  /** @param {number} table @param {number} row @returns {Custom[]} */
  customsOf(table, row) {
    const {customs, kinds} = this.columns;
    return (this.owned.get(ownerKey(table, row)) ?? []).map(index => {
      const at = index * CUSTOM.width, value = this.text(customs, at + CUSTOM.text);
      return {row: index + 1, kind: orNone(kinds[customs[at + CUSTOM.kind]]), value: orNone(value), length: value === "-" ? 0 : value.length / 2};
    });
  }
  /** The scopes of a method, by row: they are in the order of their methods. @param {number} row @returns {Scope[]} */
  scopesOf(row) {
    const {scopes} = this.columns, found = [];
    for (let index = firstWith(scopes, SCOPE.width, SCOPE.method, row); scopes[index * SCOPE.width] === row; index++) {
      const at = index * SCOPE.width, its = index + 1;
      found.push({row: its, method: row, import: scopes[at + SCOPE.import], start: scopes[at + SCOPE.start], end: scopes[at + SCOPE.end],
        variables: this.variablesOf(its), constants: this.constantsOf(its)});
    }
    return found;
  }
  variablesOf(scope) {
    const {variables} = this.columns, found = [];
    for (let index = firstWith(variables, VARIABLE.width, VARIABLE.scope, scope); variables[index * VARIABLE.width] === scope; index++) {
      const at = index * VARIABLE.width, name = this.text(variables, at + VARIABLE.text);
      found.push({row: index + 1, slot: variables[at + VARIABLE.slot], attributes: variables[at + VARIABLE.attributes], name, text: nameOf(name)});
    }
    return found;
  }
  constantsOf(scope) {
    const {constants} = this.columns, found = [];
    for (let index = firstWith(constants, CONSTANT.width, CONSTANT.scope, scope); constants[index * CONSTANT.width] === scope; index++) {
      const [signature, , name] = this.text(constants, index * CONSTANT.width + CONSTANT.text).split(" ");
      found.push({row: index + 1, signature: orNone(signature), name, text: nameOf(name)});
    }
    return found;
  }
  /** The documents of a method, each with its first visible line there, Infinity if all its points there are hidden.
   @param {Method} method @returns {[number, number][]} */
  firstLines(method) {
    const {numbers} = this;
    let document = -1, first = Infinity, found = null;
    for (let at = method.first * WIDTH, left = method.count; left > 0; left--, at += WIDTH) {
      if (numbers[at + 1] !== document) {
        if (document >= 0) (found ??= new Map()).set(document, first);
        document = numbers[at + 1]; first = found?.get(document) ?? Infinity;
      }
      if (numbers[at + 2] >= 0 && numbers[at + 2] < first) first = numbers[at + 2];
    }
    if (found) return [...found.set(document, first)];
    return document < 0 ? [] : [[document, first]];
  }
  /** Whether a point of a method covers a line of any document. @param {Method} method @param {number} line */
  hasLine(method, line) {
    for (let at = method.first * WIDTH, left = method.count; left > 0; left--, at += WIDTH)
      if (this.numbers[at + 2] >= 0 && this.numbers[at + 2] <= line && line <= this.numbers[at + 4]) return true;
    return false;
  }
  /** @param {number} index @returns {Point} */
  point(index) {
    const [offset, document, line, column, endLine, endColumn] = this.numbers.subarray(index * WIDTH, (index + 1) * WIDTH);
    return line < 0 ? {offset, document} : {offset, document, start_line: line, start_column: column, end_line: endLine, end_column: endColumn};
  }
  /** The method that has a point. @param {number} index */
  methodOf(index) {
    this.byPoint ??= this.sorted.filter(it => it.count);
    return this.byPoint[countUntil(this.byPoint, it => it.first > index) - 1];
  }
}

// ---- What `ppdb query FILE METHOD OFFSET` answers.

/** How many of some points are at or before an offset. */
export const upTo = (points, offset) => countUntil(points, point => point.offset > offset);
/** @param {Method} method @param {number} offset */
export const pointAt = (method, offset) => method.points[upTo(method.points, offset) - 1];
/** @param {Range | null} range @param {number} offset */
const holds = (range, offset) => range !== null && range.start <= offset && offset < range.end;
/** An import scope and its parents. @param {DebugFile} file @param {number} row */
export function importsFrom(file, row) {
  const found = [];
  for (let it = file.imports.get(row); it; it = file.imports.get(it.parent)) found.push(it);
  return found;
}
/** @param {DebugFile} file @param {number} row @param {number} offset */
export function answer(file, row, offset) {
  const method = file.methods.get(row) ?? new Method(file, row);
  return {method, point: pointAt(method, offset), scopes: method.scopes.filter(scope => holds(scope, offset)),
    hoisted: method.hoisted.flatMap(slots => slots.flatMap((slot, index) => holds(slot, offset) ? [{index, ...slot}] : []))};
}
/** @param {Point} point */
export const spanWords = point => isVisible(point) ? `${point.start_line}:${point.start_column} ${point.end_line}:${point.end_column}` : "hidden";
/** An owner of custom records as one number. */
const ownerKey = (table, row) => table * 0x1000000 + row;
const customLines = customs => customs.map(custom => `custom ${custom.kind ?? "-"} ${custom.value ?? "-"}`);
const useLine = use => `use ${use.kind}` + ["alias", "assembly", "namespace"].map(key => use[key] === undefined ? "" : ` ${key} ${use[key]}`).join("") +
  (use.type_row === undefined ? "" : ` type ${use.type_table} ${use.type_row}`);
function scopeLines(file, scope) {
  const customs = (table, row) => customLines(file.customsOf(table, row));
  return [`scope ${scope.start} ${scope.end}`, ...customs(0x32, scope.row),
    ...scope.variables.flatMap(it => [`variable ${it.slot} ${it.attributes} ${it.name}`, ...customs(0x33, it.row)]),
    ...scope.constants.flatMap(it => [`constant ${it.signature ?? "-"} ${it.name}`, ...customs(0x34, it.row)]),
    ...importsFrom(file, scope.import).flatMap(it => [`import ${it.row}`, ...it.uses.map(useLine), ...customs(0x35, it.row)])];
}
function recordLines(method, custom) {
  if (custom.kind === HOISTED) return [];
  if (custom.kind !== ASYNC) return customLines([custom]);
  const {handler, steps} = method.steps.find(it => it.row === custom.row);
  return [`async ${handler ?? "-"}`, ...steps.map(step => `step ${step.pause} ${step.resume} ${step.method}`)];
}
/** The lines of the answer, as `ppdb query` prints them. @param {DebugFile} file @param {number} row @param {number} offset */
export function queryLines(file, row, offset) {
  if (row < 1 || row > (file.counts.get("06") ?? 0)) return [`no method ${row}`];
  const {method, point, scopes, hoisted} = answer(file, row, offset);
  return [point ? `point ${point.offset} ${point.document} ${spanWords(point)} signature ${method.signature} name ${file.documents.get(point.document).name}`
      : "point none",
    ...scopes.flatMap(scope => scopeLines(file, scope)), ...hoisted.map(slot => `hoisted ${slot.index} ${slot.start} ${slot.end}`),
    ...(row === file.entry ? ["entry"] : []), ...(method.kickoff ? [`kickoff ${method.kickoff}`] : []), ...(method.move ? [`move ${method.move}`] : []),
    ...method.customs.flatMap(custom => recordLines(method, custom))];
}

// ---- What `ppdb breaks FILE DOCUMENT LINE` answers.

/** The points of a document by their first lines, so that those over a line are found without looking at all. */
export class DocumentPoints {
  /** @param {DebugFile} file @param {number} document */
  constructor(file, document) {
    const {numbers} = file, found = [];
    for (let at = 0; at < numbers.length; at += WIDTH) if (numbers[at + 1] === document && numbers[at + 2] >= 0) found.push(at / WIDTH);
    /** Indexes of points, by start line. */
    this.order = Int32Array.from(found).sort((one, other) => numbers[one * WIDTH + 2] - numbers[other * WIDTH + 2] || one - other);
    this.file = file;
    /** The last line that one of the points up to each in the order reaches. */
    this.reach = new Int32Array(this.order.length);
    for (let at = 0, most = -1; at < this.order.length; at++) this.reach[at] = most = Math.max(most, this.line(at, 4));
  }
  line(at, column) { return this.file.numbers[this.order[at] * WIDTH + column]; }
  /** The indexes of the points that cover some of the lines. @param {number} first @param {number} last */
  over(first, last) {
    let end = 0, high = this.order.length;
    while (end < high) { const middle = end + high >> 1; if (this.line(middle, 2) > last) high = middle; else end = middle + 1; }
    const found = [];
    for (let at = end - 1; at >= 0 && this.reach[at] >= first; at--) if (this.line(at, 4) >= first) found.push(this.order[at]);
    return found.sort((one, other) => one - other);
  }
  /** The first line after a line on which a point begins, or Infinity. @param {number} line */
  next(line) {
    const at = countUntil(this.order, index => this.file.numbers[index * WIDTH + 2] > line);
    return at < this.order.length ? this.line(at, 2) : Infinity;
  }
}
/** The places of a line, by method and offset. @param {DocumentPoints} points @param {number} line */
export function breaksAt(points, line) {
  const places = points.over(line, line).map(index => {
    const method = points.file.methodOf(index), own = index - method.first;
    return {method, point: method.points[own], index: own};
  });
  return places.sort((one, other) => one.method.row - other.method.row || one.index - other.index);
}
/** The lines of the answer, as `ppdb breaks` prints them. */
export const breakLines = (file, document, line) =>
  breaksAt(new DocumentPoints(file, document), line).map(({method, point}) => `break ${method.row} ${point.offset} ${spanWords(point)}`);

// ---- Values of constants (docs/FORMAT.md, section 3).

const FORMS = {4: ["getInt8", 1], 5: ["getUint8", 1], 6: ["getInt16", 2], 7: ["getUint16", 2], 8: ["getInt32", 4], 9: ["getUint32", 4],
  10: ["getBigInt64", 8], 11: ["getBigUint64", 8], 12: ["getFloat32", 4], 13: ["getFloat64", 8]};
/** @param {string | null} signature @returns {string} */
export function valueOf(signature) {
  const data = bytesOf(signature), view = new DataView(data.buffer), rest = data.length - 1, [read, size] = FORMS[data[0]] ?? [];
  // What comes after a number is the type of an enumeration.
  if (read && rest >= size) return String(view[read](1, true)) + (rest > size ? " (enumeration)" : "");
  if (data[0] === 2 && rest >= 1) return data[1] ? "true" : "false";
  if (data[0] === 3 && rest >= 2) return JSON.stringify(String.fromCharCode(view.getUint16(1, true)));
  if (data[0] === 14) return data[1] === 255 && rest === 1 ? "null" : JSON.stringify(new TextDecoder("utf-16le").decode(data.slice(1)));
  return data[0] === 28 ? "null" : `value ${signature ?? "-"}`;
}
/** Where the code of a method ends as far as the file says: a debug file has no sizes of methods. @param {Method} method */
export function endOf(method) {
  const most = (list, value) => list.reduce((found, it) => Math.max(found, value(it)), 0);
  return Math.max(1, most(method.scopes, it => it.end), most(method.points, it => it.offset + 1),
    most(method.hoisted.flat(), it => it?.end ?? 0), most(method.steps.flatMap(it => it.steps), it => Math.max(it.pause, it.resume) + 1));
}
