/** Elements, made one by one: names and sources are text, never markup, and every text goes through `seen`. */
import {seen} from "./text.js";

const SVG = "http://www.w3.org/2000/svg";
const DRAWN = new Set(["svg", "path", "circle", "defs", "marker", "title", "pattern", "rect", "line"]);

/** @param {string} id @returns {HTMLElement} */
export const $ = id => /** @type {HTMLElement} */ (document.getElementById(id));
/** @param {unknown} value */
export const isThere = value => value !== null && value !== undefined && value !== false && value !== "";

/**
 * An element with attributes and children; `css` is an object of properties, `on` one of listeners, a list the lines of an attribute.
 * @param {string} tag @param {Record<string, any>} given @param {...any} children
 */
export function make(tag, given = {}, ...children) {
  const it = DRAWN.has(tag) ? document.createElementNS(SVG, tag) : document.createElement(tag);
  for (const [key, value] of Object.entries(given)) {
    if (!isThere(value)) continue;
    if (key === "css") for (const [name, to] of Object.entries(value)) it.style.setProperty(name, String(to));
    else if (key === "on") for (const [event, does] of Object.entries(value)) it.addEventListener(event, does);
    else it.setAttribute(key, value === true ? "" : [value].flat().filter(isThere).map(one => seen(String(one))).join("\n"));
  }
  put(it, children);
  return it;
}
/** Adds children: texts, elements, lists of them, and nothing for what is not there. */
export function put(to, ...children) {
  for (const child of children.flat(9)) if (isThere(child)) to.append(child instanceof Node ? child : seen(String(child)));
  return to;
}
/** @param {string} id @param {...any} children */
export function fill(id, ...children) { const it = $(id); it.replaceChildren(); put(it, children); }

/** A text whose end says more than its start: the style cuts it in front where there is no room. @param {string} kind @param {any} words */
export const cutInFront = (kind, words, title = "") => make("span", {class: `${kind} front`, title}, make("bdi", {dir: "ltr"}, words));

/** A button. @param {any} words @param {() => void} does @param {Record<string, any>} given */
export const button = (words, does, given = {}) => make("button", {type: "button", ...given, on: {click: does}}, words);
