/** The list on the left: methods by type or document, documents, and what a search finds in names and sources. */
import {$, button, cutInFront, fill, isThere, make} from "./dom.js";
import {addressOf, go} from "./place.js";
import {rawName, sourceOf, state} from "./state.js";
import {bodyOf, documentOf, isNamed, placeOf, sideOf, subjectAt, textOf, titleAt, titleWords, totals} from "./subjects.js";
import {baseName, cutFront, folderOf, plural, spelled, tokenOf} from "./text.js";
import {VirtualList} from "./virtual.js";

const ENTRY_TALL = 28;
/** How many characters of a folder or a namespace are drawn: more than a list is wide. */
const MOST_DRAWN = 200;
/** The most methods that the list has: a search finds the others. */
const MOST_LISTED = 100000;
/** Which methods the list has. */
const ONLY = {all: () => true, changed: it => it.change.kind !== "same", lost: it => it.change.lost > 0, fresh: it => it.change.fresh > 0,
  dropped: it => it.change.kind === "dropped", added: it => it.change.kind === "added"};

/** What the list is about, and what it found. */
export const list = {tab: "methods", want: "", only: "all", entries: /** @type {any[]} */ ([]), hits: null, view: /** @type {VirtualList} */ (null)};

/** @param {(want: string) => Promise<any>} searches looks for a text in the sources */
export function startList(searches) {
  list.view = new VirtualList($("list"), ENTRY_TALL, index => entryOf(list.entries[index], index));
  const box = /** @type {HTMLInputElement} */ ($("find"));
  let later = 0;
  box.oninput = () => {
    list.want = box.value.trim().toLowerCase();
    list.hits = null;
    fillList();
    clearTimeout(later);
    if (list.want.length > 1) later = setTimeout(async () => {
      const want = list.want, hits = await searches(want);
      if (want === list.want) { list.hits = hits; fillList(); }
    }, 150);
  };
  $("find-form").onsubmit = event => { event.preventDefault(); const first = list.entries.find(isChoice); if (first) go(first.place); };
  $("list").onkeydown = onListKey;
  for (const tab of ["methods", "documents"]) $(`tab-${tab}`).onclick = () => { list.tab = tab; fillList(); bringToList(); };
}

// ---- What is in the list.

function isWanted(subject) {
  const {want} = list;
  if (!want) return true;
  const method = bodyOf(subject), side = sideOf(subject);
  if (/^(\d+|0x[0-9a-f]+)$/.test(want) && (want === tokenOf(method.row) || +want === method.row ||
    method.file.hasLine(method, +want))) return true;
  const raw = rawName(side, method.kickoff || method.row) ?? "", guessed = state.guesses[side].get(method.row)?.text ?? "";
  return `${titleWords(side, method)} ${raw} ${guessed}`.toLowerCase().includes(want);
}
/** The heading under which a subject is: its type, or its document. */
function groupOf(subject, key, isKnown) {
  if (!isKnown) return key;
  const {type, space} = titleAt(subject);
  return `type ${space}.${type}`;
}
/** The entry of a method; of one with code in several documents each of its entries leads to its own. */
class Entry {
  constructor(subject, line, key) { this.subject = subject; this.line = line; this.key = key; }
  get place() {
    const {subject, key} = this, isOne = subject.lines.length < 2 || !key.startsWith("before:") || isNamed(subject);
    return {...placeOf(subject), ...isOne ? {} : {d: +key.slice(7)}};
  }
}
function methodEntries() {
  const groups = new Map(), put = (group, entry) => (groups.get(group) ?? groups.set(group, []).get(group)).push(entry);
  let left = MOST_LISTED, more = 0;
  for (const subject of state.subjects) {
    if (!ONLY[list.only](subject) || !isWanted(subject)) continue;
    if (--left < 0) { more++; continue; }
    const isKnown = isNamed(subject), {lines} = subject;
    if (!lines.length) put(groupOf(subject, "none", isKnown), new Entry(subject, 0, undefined));
    for (const [key, line] of isKnown ? lines.slice(0, 1) : lines) put(groupOf(subject, key, isKnown), new Entry(subject, line, key));
  }
  const order = key => key === "none" ? 2 : key.startsWith("after") ? 1 : 0;
  const listed = [...groups].sort(([one], [other]) => order(one) - order(other) || docOrder(one) - docOrder(other)).flatMap(([key, found]) =>
    [new Head(key, found[0].subject), ...found.sort((one, other) => one.line - other.line || bodyOf(one.subject).row - bodyOf(other.subject).row)]);
  return more ? [...listed, {note: `and ${plural(more, "method")} more: a search finds them`}] : listed;
}
const docOrder = key => key.startsWith("before:") ? +key.slice(7) : 0;
/** The entry above the methods of a type or a document; its words are made when it is looked at, since there may be many. */
class Head {
  constructor(key, subject) { this.key = key; this.first = subject; }
  get head() { return this.words().head; }
  get dim() { return this.words().dim; }
  get place() { return this.words().place; }
  words() { return this.known ??= this.made(); }
  made() {
    const {key} = this;
    if (key === "none") return {head: "Without points", dim: ""};
    if (key.startsWith("type ")) {
      const {type, space} = titleAt(this.first);
      return {head: type, dim: space};
    }
    const [side, row] = key.split(":"), document = state[side].documents.get(+row);
    return {head: baseName(textOf(document)), dim: folderOf(textOf(document)), place: {[side === "before" ? "d" : "e"]: +row}};
  }
}
function documentEntries() {
  const counts = new Map(), found = [];
  for (const subject of state.subjects) {
    for (const [key] of subject.lines) counts.set(key, (counts.get(key) ?? 0) + 1);
  }
  for (const side of ["before", "after"]) for (const it of state[side]?.documents.values() ?? []) {
    if (side === "after" && documentOf("after", it.row) !== null) continue;
    const name = textOf(it);
    if (!list.want || name.toLowerCase().includes(list.want))
      found.push({document: it, side, name: baseName(name), folder: folderOf(name), count: counts.get(`${side}:${it.row}`) ?? 0,
        place: {[side === "before" ? "d" : "e"]: it.row}});
  }
  return found.sort((one, other) => Number(other.count > 0) - Number(one.count > 0) || one.name.localeCompare(other.name));
}
function hitEntries() {
  if (!list.hits || !list.want) return [];
  const {hits, count} = list.hits;
  if (!hits.length) return [];
  const found = [{head: "In sources", dim: count > hits.length ? `the first ${hits.length} of ${spelled(count)} lines` : plural(count, "line")}];
  let last = null;
  for (const hit of hits) {
    const name = textOf(state.before.documents.get(hit.row));
    if (name !== last) found.push({head: baseName(name), dim: folderOf(name), place: {d: hit.row}});
    found.push({hit, place: {d: hit.row, l: hit.line}});
    last = name;
  }
  return found;
}
export function fillList() {
  if (!state.before) return;
  const documents = list.want ? documentEntries() : [];
  const own = list.tab === "documents" ? documentEntries() : methodEntries();
  const extra = list.tab === "methods" && list.want && documents.length && documents.length < 50 ? [{head: "Documents", dim: ""}, ...documents] : [];
  list.entries = [...own, ...extra, ...hitEntries()];
  if (!list.entries.length)
    list.entries = [{note: list.want ? `Nothing has \u201c${list.want}\u201d in its name or its source.` : "There is nothing to list."}];
  list.view.active = activeIndex();
  list.view.fill(list.entries.length);
  for (const tab of ["methods", "documents"]) $(`tab-${tab}`).setAttribute("aria-pressed", String(list.tab === tab));
  fill("count-methods", list.tab === "methods" && list.want ? plural(own.filter(it => it.subject).length, "method") : "");
  drawFilter();
}
/** The counts of what changed; each shows the methods that it counts. */
function drawFilter() {
  const box = $("only");
  box.hidden = !state.rewriting || list.tab !== "methods";
  if (box.hidden) { box.replaceChildren(); return; }
  const sum = totals(), words = {all: `${sum.all} all`, changed: `${sum.changed} changed`, lost: `${plural(sum.lost, "point")} lost`,
    fresh: `${plural(sum.fresh, "point")} new`, dropped: `${sum.dropped} dropped`, added: `${sum.added} added`};
  box.replaceChildren(...Object.entries(words).filter(([key]) => key === "all" || sum[key] > 0 || list.only === key)
    .map(([key, text]) => button(text, () => { list.only = key; fillList(); }, {class: `chip ${key}`, "aria-pressed": String(list.only === key)})));
}

// ---- How an entry looks.

/** A text with what was searched for marked. @param {string} text */
function marked(text) {
  const at = list.want ? text.toLowerCase().indexOf(list.want) : -1;
  return at < 0 ? text : [text.slice(0, at), make("mark", {}, text.slice(at, at + list.want.length)), text.slice(at + list.want.length)];
}
function isOn(entry) {
  const {place} = state;
  if (entry.hit) return place.d === entry.hit.row && place.l === entry.hit.line;
  if (entry.document) return place.m === null && place.n === null && (entry.side === "before" ? place.d : place.e) === entry.document.row;
  if (!entry.subject || entry.subject !== subjectAt(place)) return false;
  return !isThere(entry.place.d) || !isThere(place.d) || entry.place.d === place.d;
}
const activeIndex = () => list.entries.findIndex(isOn);
function entryOf(entry, index) {
  if (entry.note) return make("div", {class: "entry note dim", role: "option", "aria-disabled": "true"}, entry.note);
  if (entry.head) {
    const name = entry.place ? make("a", {href: addressOf(entry.place), tabindex: -1}, marked(entry.head)) : marked(entry.head);
    return make("div", {class: "entry head", role: "presentation", title: [entry.head, entry.dim]},
      make("strong", {}, name), cutInFront("dim", cutFront(entry.dim, MOST_DRAWN)));
  }
  const [body, title] = entry.subject ? methodBody(entry) : entry.hit ? hitBody(entry) : documentBody(entry), on = isOn(entry);
  return make("a", {class: `entry${on ? " on" : ""}${entry.subject?.change.kind === "dropped" ? " dropped" : ""}`, role: "option", tabindex: -1,
    href: addressOf(entry.place), title, "aria-selected": String(on), "aria-posinset": index + 1, "aria-setsize": list.entries.length}, body);
}
function methodBody({subject, line}) {
  const side = sideOf(subject), method = bodyOf(subject), {name, tag, isGuess, isKnown} = titleAt(subject), {change} = subject;
  const isEntry = method.row === state[side].entry;
  return [[make("span", {class: `name${isGuess && !isKnown ? " guess" : ""}`}, marked(name)), tag && make("span", {class: "tag"}, tag),
    isEntry && make("span", {class: "tag", title: "the entry point"}, "entry"),
    change.words === "changed" ? make("span", {class: "dim", title: "points moved, or locals changed", "aria-label": "changed"}, "\u2260")
      : change.words && make("span", {class: `tag ${change.kind}`}, change.words),
    make("span", {class: "at"}, line > 0 && line < Infinity ? line : "")],
    [titleWords(side, method), tokenOf(method.row), isGuess && !isKnown && `named by its source: ${state.guesses[side].get(method.row)?.text ?? ""}`]];
}
function hitBody({hit}) {
  const text = hit.text.trimStart(), from = Math.max(0, text.toLowerCase().indexOf(list.want) - 18);
  return [[make("span", {class: "code name"}, from ? "\u2026" : "", marked(text.slice(from, from + 200))),
    make("span", {class: "at"}, hit.line)], `line ${hit.line}: ${hit.text.slice(0, 300)}`];
}
function documentBody({document, side, name, folder, count}) {
  const source = sourceOf(side, document.row);
  return [[make("span", {class: "name"}, marked(name)), cutInFront("dim folder", marked(cutFront(folder, MOST_DRAWN))),
    source?.state === "agrees" && make("span", {class: "good", title: "its hash agrees"}, "\u2713"), side === "after" && make("span", {class: "tag added"},
      "new"),
    make("span", {class: "at", title: plural(count, "method")}, count || "")], textOf(document)];
}

// ---- Moving in the list.

/** Whether an entry leads to a place, and is no heading. */
const isChoice = it => Boolean(it.subject ?? it.document ?? it.hit);
export function bringToList() {
  const index = activeIndex();
  list.view.active = index;
  if (index >= 0) list.view.bring(index);
  list.view.draw();
}
/** Goes to an entry so many after the chosen one. @param {number} by */
export function stepEntry(by) {
  const places = list.entries.map((it, index) => isChoice(it) ? index : -1).filter(it => it >= 0);
  if (!places.length) return;
  const at = places.indexOf(activeIndex()), to = places[Math.min(places.length - 1, Math.max(0, at < 0 ? 0 : at + by))];
  go(list.entries[to].place, true);
}
function onListKey(event) {
  if (event.ctrlKey || event.metaKey || event.altKey) return;
  const page = Math.max(1, Math.floor($("list").clientHeight / ENTRY_TALL) - 2);
  const by = {ArrowDown: 1, ArrowUp: -1, PageDown: page, PageUp: -page, Home: -Infinity, End: Infinity}[event.key];
  if (by === undefined) return;
  event.preventDefault(); event.stopPropagation();
  stepEntry(by);
}
