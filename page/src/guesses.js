/** Names of methods guessed from their sources, for debug files whose assembly is not at hand. */

/** How many lines above its first statement the declaration of a method is looked for. */
const ABOVE = 16;
/** Lines that declare nothing: comments, attributes, braces, directives, clauses. */
const IDLE = new RegExp(String.raw`^(?:\/\/|\/\*|\*|'|#|\[[^\]]*\]\s*$|[{}()\[\];,\s]*$|:\s*(?:base|this)\b|unsafe\s*$|` +
  String.raw`(?:for|foreach|while|if|else|do|try|catch|switch|case|default|using|lock|fixed|return|yield|await|throw|var|goto|break|continue|where)\b)`);
const ACCESSOR = /(?:^|[\s{;])(?:(?:public|private|protected|internal|readonly)\s+)*(get|set|init|add|remove)\s*(?:=>|\{|$)/;
const NO_NAMES = new Set(["if", "for", "foreach", "while", "switch", "using", "lock", "catch", "return", "new", "typeof", "nameof", "await", "when", "fixed",
  "base", "this", "throw", "get", "set", "add", "remove", "init", "class", "struct", "interface", "record", "namespace"]);

/** The name that a declaration gives, or "".
 @param {string} text @param {boolean} isTyped whether a word must come before the name, as it does not in a call */
export function declaredName(text, isTyped = false) {
  const lambda = /^(?:[^"=]*[^=!<>]=\s*)?(?:async\s+)?(?:\([^()]*\)|[\w@]+)\s*=>\s*/.exec(text);
  const operator = /\boperator\s*([^\s(]+)\s*\(/.exec(text);
  if (operator) return `operator ${operator[1]}`;
  const call = /([\p{L}_~@][\p{L}\p{N}_]*(?:\s*<[^<>()=]*>)?)\s*\(/u.exec(text.replace(/^(?:\[[^\]]*\]\s*)+/, ""));
  const isDeclared = call && !NO_NAMES.has(call[1]) && !/[=.]\s*$/.test(text.slice(0, call.index)) && !lambda && (!isTyped || call.index > 0);
  if (isDeclared) return `${call[1]}()`;
  const property = /^(?:[\w<>\[\],.?\s]+\s)?([\p{L}_@][\p{L}\p{N}_]*)\s*(?:\{|=>|$)/u.exec(text);
  if (property && !NO_NAMES.has(property[1]) && /\s/.test(text.slice(0, property[0].indexOf(property[1]) + 1)) && !lambda) return property[1];
  const basic = /\b(?:Sub|Function|Property|let|member)\s+(?:\w+\.)?(\w+)/i.exec(text);
  return basic ? basic[1] : "";
}

/** How such code begins, at the end of a text. */
const INNER = /(?:\bfinally|(?:async\s+)?(?:\([^()]*\)|[\p{L}_@][\p{L}\p{N}_]*)\s*=>\s*\{?)\s*$/u;
/** What code inside a method is: the block of a `finally`, or a lambda, which may have the name of its variable. @param {string} text */
function innerName(text) {
  if (/\bfinally\s*$/.test(text)) return "finally in ";
  if (!/=>\s*\{?$/.test(text)) return "";
  const named = /\b([\p{L}_][\p{L}\p{N}_]*)\s*=\s*(?:async\s+)?(?:static\s+)?(?:\([^()]*\)|[\p{L}_@][\p{L}\p{N}_]*)\s*=>\s*\{?$/u.exec(text);
  if (named) return `lambda ${named[1]}`;
  return /(?:^|[(,=\s])(?:async\s+)?(?:\([^()]*\)|[\p{Ll}_@][\p{L}\p{N}_]*)\s*=>\s*\{?$/u.test(text)
    && !/^(?:public|private|protected|internal|static|override)\b/.test(text) &&
    !/[\p{L}_>]\([^()]*\)\s*=>\s*\{?$/u.test(text) ? "lambda in " : "";
}
/** The part of a line that belongs to the last declaration in it. */
const lastPart = text => text.split(/[;}](?=\s)|\{(?=\s*(?:get|set|init|add|remove)\b)/).pop().trim();

/**
 * The name of the method whose first visible point is at a line and column, as its source has it: that of the nearest line above that
 * declares something; for an accessor with the name of its property.
 * @param {(line: number) => string} lineAt lines count from 1 @param {{start_line: number, start_column: number}} point
 * @returns {{name: string, text: string} | null}
 */
export function guess(lineAt, point) {
  // The code of an automatic accessor is its own word.
  let accessor = /^(?:get|set|init|add|remove)(?=\s*;)/.exec(lineAt(point.start_line).slice(point.start_column - 1))?.[0] ?? "", before = "", tail = "";
  for (let line = point.start_line; line > 0 && line > point.start_line - ABOVE; line--) {
    const whole = line === point.start_line ? lineAt(line).slice(0, point.start_column - 1) : lineAt(line);
    let text = `${whole.trim()} ${tail}`.trim();
    const inner = before || tail ? "" : innerName(text);
    if (inner && !inner.endsWith(" in ")) return {name: inner, text};
    if (inner) { before = inner; text = text.replace(INNER, "").trim(); }
    // What ends above the point declares something else.
    if (!text || IDLE.test(text) || line < point.start_line && /[;}]\s*$/.test(whole)) continue;
    // Parameters may have lines of their own.
    if (isOpen(text)) { tail = text; continue; }
    const found = accessor ? null : ACCESSOR.exec(text);
    if (found) accessor = found[1];
    const part = found ? text.slice(0, found.index).replace(/\{\s*$/, "").split(/[;}]/).pop().trim() : lastPart(text) || text,
      name = declaredName(part.replace(/\{$/, "").trim(), before !== "");
    if (name) return {name: before + (accessor ? `${name.replace("()", "")}.${accessor}` : name), text: part};
    if (/\b(?:class|struct|record|interface)\s+\w/.test(part)) return initializer(part, lineAt, point);
    if (!accessor && !before) return {name: "", text: part};
  }
  return null;
}
/** Whether a text closes more parentheses than it opens. @param {string} text */
const isOpen = text => (text.match(/\)/g) ?? []).length > (text.match(/\(/g) ?? []).length;
/** Of a method whose code is that of fields: the constructor of the type above. */
function initializer(part, lineAt, point) {
  const type = /\b(?:class|struct|record|interface)\s+(\w+)/.exec(part)[1];
  return {name: `${type} constructor`, text: lineAt(point.start_line).trim()};
}
