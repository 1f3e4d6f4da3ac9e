/** The files that were given, what each of them is, and what `ppdb` says of them. It runs in the worker; the page asks it by messages. */
import {readAssembly} from "./assembly.js";
import {isColoured, statesOf} from "./colours.js";
import {guess} from "./guesses.js";
import {LANGUAGES} from "./kinds.js";
import {readLines, WIDTH} from "./lines.js";
import {decoded, inflated, linesOf, LONGEST, sharedParts, stateOf, unpacked, unpackedLength} from "./sources.js";
import {baseName, LONGEST_FILE, nameOf, tooLong} from "./text.js";

/** @typedef {{status: number, text: Uint8Array, out: Uint8Array}} Answer the exit status, standard output and the file that is written */
/** @typedef {{run: (words: string[], files: {name: string, bytes: Uint8Array}[]) => Answer}} Engine */
/** @typedef {"pdb" | "windows" | "assembly" | "map" | "source"} Kind */

const MOST_HITS = 300, MOST_PRINTED = 400000, KEPT = 1.5e8;
/** Embedded sources may unpack together to so many bytes, and some more for each byte of the file. */
const UNPACKED = 134217728, UNPACKED_EACH = 64;
const ASCII = new TextDecoder("latin1"), WORDS = new TextDecoder();
const beginsWith = (bytes, text) => ASCII.decode(bytes.subarray(0, text.length)) === text;

/** What a file is, by its first bytes; by its name, if these say nothing: a damaged debug file. @param {Uint8Array} bytes @param {string} name @returns {Kind} */
export function kindOf(bytes, name = "") {
  if (beginsWith(bytes, "BSJB")) return "pdb";
  if (beginsWith(bytes, "Microsoft C/C++ MSF ")) return "windows";
  if (beginsWith(bytes, "MZ")) return "assembly";
  if (beginsWith(bytes, "ppdbmap ")) return "map";
  return /\.pdb$/i.test(name) ? "pdb" : "source";
}

/** A file that was given, or one that was taken out of an assembly or made by a map. */
class Input {
  /** @param {string} name @param {Uint8Array} bytes @param {string} note */
  constructor(name, bytes, note = "") {
    this.name = name; this.bytes = bytes; this.note = note; this.kind = kindOf(bytes, name);
    /** @type {ReturnType<typeof readAssembly>} */
    this.assembly = this.kind === "assembly" ? readAssembly(bytes) : null;
  }
  /** The name as a word of a command: one that begins with `--` would be an option. */
  get word() { return this.name.startsWith("--") ? `./${this.name}` : this.name || "-"; }
  get file() { return {name: this.word, bytes: this.bytes}; }
}

let sideCount = 0;
/** One debug file of the session: before a rewrite (or the only one), or after it. */
class Side {
  /** @param {Input} input @param {Answer} answer what `show` said */
  constructor(input, answer) {
    this.input = input; this.status = answer.status; this.key = ++sideCount; this.isHeard = false;
    this.line = answer.status ? WORDS.decode(answer.text).trim() : "accepted";
    const read = answer.status ? null : readLines(answer.text);
    this.columns = read?.columns ?? null; this.embedded = read?.embedded ?? new Map();
    /** @type {Map<number, object>} */
    this.sources = new Map();
    this.insisted = new Set(); this.kept = 0; this.counted = new Set();
    /** How many bytes embedded sources may still unpack to: a small file cannot ask for hours of work. */
    this.left = UNPACKED + UNPACKED_EACH * input.bytes.length;
    /** @type {Input | null} */
    this.assembly = null;
  }
  get id() { return this.columns?.id; }
  /** A note if an embedded source is too long together with those that were asked for before. @param {number} row @param {Uint8Array} value */
  room(row, value) {
    const length = unpackedLength(value);
    if (!this.counted.has(row) && length <= LONGEST) {
      if (length > this.left) return {note: "The embedded sources are too long together for the page"};
      this.left -= length;
      this.counted.add(row);
    }
    return null;
  }
}

export class Session {
  /** @param {Engine} engine */
  constructor(engine) {
    this.engine = engine;
    /** @type {Input[]} */
    this.inputs = [];
    /** @type {Input[]} Debug files out of assemblies. */
    this.inner = [];
    /** @type {{before: Side | null, after: Side | null}} */
    this.sides = {before: null, after: null};
    this.map = null; this.mapLine = ""; this.chosen = []; this.made = null; this.problem = "";
  }
  /** What the engine answers. @param {string[]} words @param {...Input} inputs @returns {Answer} */
  ask(words, ...inputs) { return this.engine.run(words, inputs.map(it => it.file)); }

  // ---- Which file is what.

  /** @param {{name: string, bytes: Uint8Array}[]} files @param {string[]} [shows] the names of the debug files that are to be before and after */
  async add(files, shows = []) {
    const had = this.debugFiles(), {inputs, inner, chosen, map, mapLine, made} = this;
    for (const {name, bytes} of files) {
      const input = bytes.length > LONGEST_FILE ? null : new Input(name, bytes);
      if (!input) { this.problem = tooLong(name); continue; }
      this.inputs = this.inputs.filter(it => it.name !== name || it.kind !== input.kind);
      this.inputs.push(input);
      if (input.assembly) await this.takeInner(input);
    }
    if (shows.length) this.chosen = shows; else this.chooseAlso(this.debugFiles().filter(it => !had.includes(it)).map(it => it.name));
    // Where memory ends, the files that were there stay.
    try { return this.arrange(); } catch (wrong) { Object.assign(this, {inputs, inner, chosen, map, mapLine, made}); throw wrong; }
  }
  /** A debug file that comes when one was chosen is compared with it; of more than two, one is to be chosen again. @param {string[]} names */
  chooseAlso(names) {
    const fresh = names.filter(it => !this.chosen.includes(it));
    if (this.chosen.length && fresh.length) this.chosen = this.chosen.length + fresh.length === 2 ? [...this.chosen, ...fresh] : [];
  }
  /** The debug file in an assembly, by its debug directory. @param {Input} input */
  async takeInner(input) {
    const {embedded} = input.assembly.debug;
    if (!embedded) return;
    const isLong = embedded.length > LONGEST_FILE, bytes = isLong ? null : await inflated(embedded.bytes, embedded.length);
    if (!bytes) { this.problem = `The debug file in ${input.name} is ${isLong ? "too long" : "damaged"}`; return; }
    const name = baseName(input.name).replace(/\.\w+$/, "") + ".pdb";
    this.inner = [...this.inner.filter(it => it.name !== name), new Input(name, bytes, `embedded in ${baseName(input.name)}`)];
  }
  /** @param {string} name */
  remove(name) {
    const gone = this.inputs.find(it => it.name === name);
    this.inputs = this.inputs.filter(it => it !== gone);
    if (gone) this.inner = this.inner.filter(it => it.note !== `embedded in ${baseName(gone.name)}`);
    this.chosen = this.chosen.filter(it => it !== name);
    return this.arrange();
  }
  /** Names of the debug files that are to be before and after. @param {string[]} names */
  choose(names) { this.chosen = names; return this.arrange(); }

  /** The debug files; one in an assembly counts only if no file beside it has its place. */
  debugFiles() {
    const files = this.inputs.filter(it => it.kind === "pdb" || it.kind === "windows");
    return [...files, ...this.inner.filter(it => !files.some(file => baseName(file.name) === it.name))];
  }
  /** Decides what each file is, and reads the debug files that are to be shown. */
  arrange() {
    const files = this.debugFiles(), map = this.inputs.findLast(it => it.kind === "map") ?? null;
    const picked = this.chosen.map(name => files.find(it => it.name === name)).filter(it => it);
    let [before, after] = picked.length ? picked : files.length <= 2 ? files : [];
    this.mapLine = ""; this.made = null; this.map = map;
    if (before && map) [before, after] = this.mapped(before, after ?? null, map);
    this.sides = {before: before ? this.sideOf(before, this.sides) : null, after: after ? this.sideOf(after, this.sides) : null};
    this.attach();
    return this.told(files);
  }
  /** The debug file that a map is for, and the one that is after the rewrite: that given, otherwise the one that `remap` makes. */
  mapped(before, after, map) {
    const tried = [[before, after], ...after && !this.chosen.length ? [[after, before]] : []].map(([from, to]) => {
      const key = [from, map];
      if (!this.remapped || this.remapped.key.some((it, index) => it !== key[index]))
        this.remapped = {key, answer: this.ask(["remap", from.word, map.word, "out.pdb"], from, map)};
      return {from, to, answer: this.remapped.answer};
    });
    const fits = tried.find(it => it.answer.status === 0);
    if (!fits) { this.mapLine = WORDS.decode(tried[0].answer.text).trim(); this.map = null; return [before, after]; }
    const name = `${baseName(fits.from.name).replace(/\.pdb$/i, "")}.remapped.pdb`;
    this.made = {name, bytes: fits.answer.out};
    const known = this.sides.after?.input;
    const isSame = known?.note && known.bytes.length === fits.answer.out.length && known.bytes.every((it, index) => it === fits.answer.out[index]);
    return [fits.from, fits.to ?? (isSame ? known : new Input(name, fits.answer.out, "made here by the map"))];
  }
  /** @param {Input} input @param {{before: Side | null, after: Side | null}} known */
  sideOf(input, known) {
    const same = [known.before, known.after].find(it => it?.input === input);
    return same ?? new Side(input, this.ask(["show", input.word], input));
  }
  /** Which assembly gives each side its names: one whose debug directory has the PDB ID, and that has as many methods as the debug file says.
   If both sides have one ID, or the rewritten assembly kept that of before, it is that of after. */
  attach() {
    const {before, after} = this.sides, assemblies = this.inputs.filter(it => it.assembly), has = (it, side) => it.assembly.debug.ids.includes(side.id);
    const isSize = (it, side) => it.assembly.names.count === (side.columns?.counts.find(([table]) => table === "06")?.[1] ?? 0);
    const fits = side => side?.id ? assemblies.filter(it => has(it, side) && isSize(it, side)) : [];
    for (const side of [before, after]) if (side) side.assembly = fits(side)[0] ?? null;
    if (!before || !after) return;
    const [first, second] = before.id === after.id ? fits(after) : [];
    if (first) [before.assembly, after.assembly] = [second ? first : null, second ?? first];
    after.assembly ??= assemblies.find(it => it !== before.assembly && has(it, before) && isSize(it, after)) ?? null;
  }
  /** What the page is told of all this. */
  told(files) {
    const sources = this.inputs.filter(it => it.kind === "source");
    const {problem} = this;
    this.problem = "";
    return {before: this.tellSide(this.sides.before), after: this.tellSide(this.sides.after), map: this.map && WORDS.decode(this.map.bytes),
      mapName: this.map?.name ?? null, mapLine: this.mapLine, canRemap: this.made !== null, problem, sources: sources.length,
      files: files.map(it => ({name: it.name, size: it.bytes.length, note: it.note, line: files.length > 2 ? this.verdict(it) : ""})),
      inputs: this.inputs.map(it => ({name: it.name, size: it.bytes.length, kind: it.kind, isRead: it.kind !== "assembly" || it.assembly !== null,
        path: it.assembly?.debug.path ?? "", hasInner: Boolean(it.assembly?.debug.embedded), fits: this.isUsed(it)}))};
  }
  /** What was told has come to the page. */
  heard() { for (const side of [this.sides.before, this.sides.after]) if (side) side.isHeard = true; }
  /** What `verify` says of a file, of several to choose from. @param {Input} input */
  verdict(input) { return input.line ??= WORDS.decode(this.ask(["verify", input.word], input).text).trim(); }
  isUsed(input) { return [this.sides.before, this.sides.after].some(side => side && (side.input === input || side.assembly === input)); }
  /** What the page is told of a side: its columns only once, since they are long. @param {Side | null} side */
  tellSide(side) {
    if (!side) return null;
    const {input: {name, note, bytes, kind}, key, line, status, assembly, embedded} = side, columns = side.isHeard ? null : side.columns;
    return {name, note, size: bytes.length, kind, key, line, status, columns, names: assembly?.assembly.names ?? null, assembly: assembly?.name ?? null,
      embedded: [...embedded.keys()], isOne: side === this.sides.after && this.sides.before?.input === side.input};
  }

  // ---- Sources.

  /** The bytes of a document's source, and where they are from: embedded, or the file whose hash fits, otherwise that with most parts of its path. */
  async bytesOf(side, document) {
    const value = side.embedded.get(document.row), inside = value && (side.room(document.row, value) ?? await unpacked(value));
    if (inside && "bytes" in inside) return {bytes: inside.bytes, from: "embedded in the debug file", state: await stateOf(document, inside.bytes)};
    const name = nameOf(document.name), files = this.inputs.filter(it => it.kind === "source" && sharedParts(it.name, name) > 0);
    let best = null;
    for (const file of files) {
      if (file.bytes.length > LONGEST) continue;
      const found = {bytes: file.bytes, from: `found as ${file.name}`, state: await stateOf(document, file.bytes), parts: sharedParts(file.name, name)};
      if (found.state === "agrees") return found;
      if (!best || found.parts > best.parts) best = found;
    }
    return best ?? inside ?? {note: files.length ? "The source is longer than the page shows" : "No source"};
  }
  /** The source of a document, once it is asked for. @param {"before" | "after"} which @param {number} row @param {boolean} insists */
  async source(which, row, insists = false) {
    const side = this.sides[which], document = side?.columns?.documents.find(it => it.row === row);
    if (!document) return null;
    if (insists) { side.insisted.add(row); side.sources.delete(row); }
    const known = side.sources.get(row);
    if (known) return known;
    const found = await this.bytesOf(side, document), isShown = found.bytes && (found.state !== "differs" || side.insisted.has(row));
    const made = {state: found.state ?? "none", from: found.from ?? "", note: found.note ?? "", canInsist: Boolean(found.bytes && !isShown),
      ...isShown ? this.laidOut(decoded(found.bytes), LANGUAGES[document.language] ?? byEnding(nameOf(document.name))) : {}};
    if (side.kept > KEPT) { side.sources.clear(); side.kept = 0; }
    side.kept += 2 * (made.text?.length ?? 0);
    side.sources.set(row, made);
    return made;
  }
  laidOut(text, language) {
    const lines = linesOf(text);
    return {text, lines, language, states: isColoured(language) ? statesOf(text, lines, language) : null};
  }
  /** Sources may have come or gone: what is known of them is forgotten. */
  forget() { for (const side of Object.values(this.sides)) { side?.sources.clear(); if (side) side.kept = 0; } }

  /** The lines of all sources of a side that have a text. @param {"before" | "after"} which @param {string} text */
  async search(which, text) {
    const side = this.sides[which], hits = [], pattern = new RegExp(text.replace(/[.*+?^${}()|[\]\\]/g, "\\$&"), "giu");
    let count = 0;
    for (const {row} of side?.columns?.documents ?? []) {
      const source = await this.source(which, row);
      if (!source?.text) continue;
      let line = 0, last = -1;
      for (const found of source.text.matchAll(pattern)) {
        while (2 * line + 3 <= source.lines.length && source.lines[2 * line + 2] <= found.index) line++;
        if (line === last) continue;
        last = line; count++;
        if (hits.length < MOST_HITS) hits.push({row, line: line + 1, text: source.text.slice(source.lines[2 * line], Math.min(source.lines[2 * line + 1],
          source.lines[2 * line] + 2000))});
        else if (count > 20 * MOST_HITS) return {hits, count};
      }
    }
    return {hits, count};
  }
  /** The names that sources give to the methods of a side, document by document. @param {"before" | "after"} which */
  async *guesses(which) {
    const side = this.sides[which], byDocument = new Map();
    if (!side?.columns) return;
    for (const [row, point] of firstPoints(side.columns)) (byDocument.get(point.document) ?? byDocument.set(point.document, []).get(point.document))
      .push([row, point]);
    for (const [document, methods] of byDocument) {
      const source = await this.source(which, document);
      if (!source?.text) continue;
      const {text, lines} = source, lineAt = line => text.slice(lines[2 * line - 2] ?? 0, Math.min(lines[2 * line - 1] ?? 0, (lines[2 * line - 2] ?? 0) + 500));
      yield methods.map(([row, point]) => [row, guess(lineAt, point)]).filter(([, found]) => found);
    }
  }

  // ---- What is printed, and what is saved.

  /** What a command prints of a side. @param {"before" | "after"} which @param {string} command @param {string[]} rest */
  printed(which, command, rest) {
    const {input} = this.sides[which], {status, text} = this.ask([command, input.word, ...rest], input);
    const isLong = text.length > MOST_PRINTED;
    return {words: [command, input.word, ...rest], status, text: WORDS.decode(text.subarray(0, MOST_PRINTED)) + (isLong ? "\u2026\n" : "")};
  }
  /** A file to save: what `rebuild` or `remap` writes, or the debug file of an assembly. @param {"rebuilt" | "remapped" | "plain"} what */
  save(what, which = "before") {
    const {input} = this.sides[which];
    if (what === "remapped") return this.made && {name: this.made.name, bytes: this.made.bytes};
    if (what === "plain") return {name: baseName(input.name), bytes: input.bytes};
    const {status, text, out} = this.ask(["rebuild", input.word, "out.pdb"], input);
    return status ? {line: WORDS.decode(text).trim()} : {name: `${baseName(input.name).replace(/\.pdb$/i, "")}.rebuilt.pdb`, bytes: out};
  }
}

/** The language of a file by the end of its name. @param {string} name */
function byEnding(name) {
  return {cs: "C#", vb: "Visual Basic", fs: "F#", fsx: "F#"}[name.split(".").pop().toLowerCase()] ?? "";
}
/** The first visible point of each method that has one. @param {import("./lines.js").Columns} columns */
function* firstPoints({methods, points}) {
  for (let at = 0; at < methods.length; at += 3) {
    const end = at + 3 < methods.length ? methods[at + 5] : points.length / WIDTH;
    for (let index = methods[at + 2]; index < end; index++) {
      if (points[index * WIDTH + 2] < 0) continue;
      yield [methods[at], {document: points[index * WIDTH + 1], start_line: points[index * WIDTH + 2], start_column: points[index * WIDTH + 3]}];
      break;
    }
  }
}
