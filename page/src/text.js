/** Words about names, numbers and places, as the page writes them. Used by the page and by its worker. */

const UTF8 = new TextDecoder();

/**
 * A name as `ppdb` prints it, without its escapes. Bytes that are not UTF-8 become U+FFFD.
 * @param {string} escaped
 * @returns {string}
 */
export function nameOf(escaped) {
  if (escaped === "\\-") return "";
  if (!escaped.includes("\\")) return escaped;
  const pieces = escaped.match(/\\x..|[^]/g) ?? [];
  return UTF8.decode(Uint8Array.from(pieces, it => it.length > 1 ? parseInt(it.slice(2), 16) : it.charCodeAt(0)));
}

/** What has no shape of its own, or turns the direction of what follows: controls but for the tab, marks of direction, half pairs. */
const UNSEEN = new RegExp("[\\u0000-\\u0008\\u000a-\\u001f\\u007f-\\u009f\\u00ad\\u061c\\u180e\\u200b-\\u200f\\u2028-\\u202e\\u2060-\\u206f\\ufeff" +
  "\\ufff9-\\ufffb]|[\\ud800-\\udbff](?![\\udc00-\\udfff])|(?<![\\ud800-\\udbff])[\\udc00-\\udfff]", "g");

/**
 * A text in which controls and marks of direction can be seen: a control of ASCII as its picture, others as ⟨U+202E⟩.
 * @param {string} text
 * @returns {string}
 */
export function seen(text) {
  return text.replace(UNSEEN, it => {
    const code = it.charCodeAt(0);
    if (code < 0x20) return String.fromCharCode(0x2400 + code);
    return code === 0x7f ? "\u2421" : `\u27e8U+${code.toString(16).toUpperCase().padStart(4, "0")}\u27e9`;
  });
}

/** A count with commas between thousands. @param {number} count */
export const spelled = count => String(count).replace(/\B(?=(?:\d{3})+$)/g, ",");
/** @param {number} count @param {string} word */
export const plural = (count, word) => `${spelled(count)} ${word}${count === 1 ? "" : "s"}`;

/** The longest file that `ppdb` reads, and what it says of a longer one. */
export const LONGEST_FILE = 134217728;
/** @param {string} name */
export const tooLong = name => `too long ${name}: the file is longer than ${LONGEST_FILE} bytes`;
/** Where memory ends. */
export const NO_MEMORY = "The memory of the page is too small for this file: use the program ppdb";

/** @param {number} offset */
export const hex = offset => `IL_${offset.toString(16).padStart(4, "0")}`;

/** The token of a method (ECMA-335 II.22). @param {number} row */
export const tokenOf = row => `0x06${row.toString(16).padStart(6, "0")}`;

/** The last part of a path of either system. @param {string} name */
export const baseName = name => name.split(/[\\/]/).pop() || name || "(no name)";

/** What is before the last part of a path. @param {string} name */
export const folderOf = name => name.slice(0, Math.max(0, name.length - baseName(name).length)).replace(/(.)[\\/]$/, "$1");

/** A text of at most so many characters, cut in front. @param {string} text @param {number} most */
export const cutFront = (text, most) => text.length > most ? `\u2026${text.slice(text.length - most + 1)}` : text;

/** @param {number} bytes */
export function sizeWords(bytes) {
  if (bytes < 1000) return plural(bytes, "byte");
  return bytes < 1e6 ? `${(bytes / 1e3).toFixed(bytes < 1e4 ? 1 : 0)} kB` : `${(bytes / 1e6).toFixed(bytes < 1e7 ? 1 : 0)} MB`;
}

/** A word of a command line that any shell takes as it is. @param {string} word */
export const quoted = word => /^[\w@%+=:,./-]+$/.test(word) ? word : `'${word.replaceAll("'", "'\\''")}'`;
