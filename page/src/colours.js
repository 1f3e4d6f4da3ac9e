/** The colours of code, lightly: comments, texts, numbers and keywords of C#, Visual Basic and F#. Wrong guesses do no harm. */

const words = text => new Set(text.split(" "));
const CSHARP = words("abstract add alias as async await base bool break byte case catch char checked class const continue decimal default delegate do " +
  "double else enum event explicit extern false file finally fixed float for foreach get global goto if implicit in init int interface internal is " +
  "lock long nameof namespace new not null object operator or out override params partial private protected public readonly record ref remove " +
  "required return sbyte sealed set short sizeof stackalloc static string struct switch this throw true try typeof uint ulong unchecked unsafe " +
  "ushort using value var virtual void volatile when where while with yield and");
const BASIC = words("addhandler and andalso as async await boolean byref byte byval call case catch class const continue date decimal default delegate dim " +
  "do double each else elseif end enum erase error event exit false finally for friend function get getxmlnamespace global goto handles if implements " +
  "imports in inherits integer interface is isnot let lib like long loop me mod module mustinherit mustoverride mybase myclass namespace narrowing new " +
  "next not nothing notinheritable notoverridable object of on operator option optional or orelse overloads overridable overrides paramarray partial " +
  "private property protected public raiseevent readonly redim rem removehandler resume return sbyte select set shadows shared short single static " +
  "step stop string structure sub synclock then throw to true try typeof uinteger ulong ushort using variant wend when while widening with " +
  "withevents writeonly xor yield");
const FSHARP = words("abstract and as assert base begin class default delegate do done downcast downto elif else end exception extern false finally fixed " +
  "for fun function global if in inherit inline interface internal lazy let match member module mutable namespace new not null of open or override " +
  "private public rec return select sig static struct then to true try type upcast use val void when while with yield");

const NUMBER = String.raw`\b\d[\w.]*`, WORD = String.raw`[\p{L}_@][\p{L}\p{N}_]*`;
const LANGUAGE = {
  "C#": {keywords: CSHARP, fold: false, block: ["/*", "*/"], verbatim: /^(?:\$@|@\$|@)"/,
    parts: String.raw`//.*|/\*|\$*"""+|(?:\$@|@\$|@)"|\$?"(?:\\.|[^"\\])*"?|'(?:\\.|[^'\\])+'|` + `${NUMBER}|${WORD}`},
  "Visual Basic": {keywords: BASIC, fold: true, block: null, verbatim: null, parts: String.raw`'.*|"(?:""|[^"])*"?|` + `${NUMBER}|${WORD}`},
  "F#": {keywords: FSHARP, fold: false, block: ["(*", "*)"], verbatim: /^@"/,
    parts: String.raw`//.*|\(\*(?!\))|"""|@"|"(?:\\.|[^"\\])*"?|'(?:\\.|[^'\\])'|` + `${NUMBER}|${WORD}`}};
/** @param {string} name */
export const isColoured = name => name in LANGUAGE;

/** What a line begins in: code, a comment of several lines, a text of several lines, or one of so many quotes. */
const CODE = 0, COMMENT = 1, VERBATIM = 2;

/** Where what was begun on an earlier line ends in this one, or -1. */
function endIn(text, at, state, rules) {
  if (state === COMMENT) { const end = text.indexOf(rules.block[1], at); return end < 0 ? -1 : end + 2; }
  if (state === VERBATIM) { const end = /^(?:""|[^"])*"/.exec(text.slice(at)); return end ? at + end[0].length : -1; }
  const end = text.indexOf('"'.repeat(state), at);
  return end < 0 ? -1 : end + state;
}
/** The state that a part of a line begins, or CODE if it ends where it ends. */
function begun(part, rules) {
  if (rules.block && part === rules.block[0]) return COMMENT;
  const quotes = /"""+$/.exec(part);
  if (quotes && rules !== LANGUAGE["Visual Basic"] && /^\$*"+$/.test(part)) return Math.min(255, quotes[0].length);
  return rules.verbatim && rules.verbatim.test(part) && part.length <= 3 ? VERBATIM : CODE;
}
function inkOf(part, rules) {
  if (part.startsWith("//") || rules.fold && part[0] === "'" || rules.block && part === rules.block[0]) return "comment";
  if (/^[$@]*["']/.test(part)) return "string";
  if (/^\d/.test(part)) return "number";
  return rules.keywords.has(rules.fold ? part.toLowerCase() : part) ? "keyword" : "";
}

/**
 * The coloured parts of a line, and the state in which the next line begins.
 * @param {string} text @param {number} state @param {string} language
 * @returns {{parts: {from: number, to: number, kind: string}[], state: number}}
 */
export function colour(text, state, language) {
  const rules = LANGUAGE[language], parts = [], pattern = new RegExp(rules.parts, "gu");
  let at = 0;
  for (;;) {
    if (state !== CODE) {
      const end = endIn(text, at, state, rules);
      parts.push({from: Math.max(0, at - (parts.opened ?? 0)), to: end < 0 ? text.length : end, kind: state === COMMENT ? "comment" : "string"});
      if (end < 0) return {parts, state};
      at = end; state = CODE; parts.opened = 0;
    }
    pattern.lastIndex = at;
    const found = pattern.exec(text);
    if (!found) return {parts, state};
    at = pattern.lastIndex;
    state = begun(found[0], rules);
    if (state !== CODE) parts.opened = found[0].length;
    else { const kind = inkOf(found[0], rules); if (kind) parts.push({from: found.index, to: at, kind}); }
  }
}

/** What in a text can begin or end something of several lines. */
const TURNS = {"C#": /\/\/[^\n\r]*|\/\*|\$*"""+|(?:\$@|@\$|@)"|\$?"(?:\\.|[^"\\\n\r])*"?|'(?:\\.|[^'\\\n\r])+'/g,
  "F#": /\/\/[^\n\r]*|\(\*(?!\))|"""|@"|"(?:\\[^]|[^"\\\n\r])*"?|'(?:\\.|[^'\\\n\r])'/g};

/**
 * The state of each line of a text.
 * @param {string} text @param {Int32Array} lines @param {string} language
 */
export function statesOf(text, lines, language) {
  const states = new Uint8Array(lines.length / 2), pattern = TURNS[language], rules = LANGUAGE[language];
  if (!pattern) return states;
  const turns = new RegExp(pattern.source, "g");
  let line = 0;
  for (let found = turns.exec(text); found; found = turns.exec(text)) {
    const state = begun(found[0], rules);
    if (state === CODE) continue;
    const begin = found.index, end = endOfTurn(text, begin + found[0].length, state, rules);
    while (line < states.length && lines[2 * line] <= begin) line++;
    for (; line < states.length && lines[2 * line] < end; line++) states[line] = state;
    turns.lastIndex = end;
  }
  return states;
}
function endOfTurn(text, at, state, rules) {
  if (state !== VERBATIM) { const end = endIn(text, at, state, rules); return end < 0 ? text.length : end; }
  // Quotes in pairs do not end it.
  for (let end = text.indexOf('"', at); end >= 0; end = text.indexOf('"', end + 2)) if (text[end + 1] !== '"') return end + 1;
  return text.length;
}
