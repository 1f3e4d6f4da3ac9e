/** The address of the page: it names the chosen place, so that it can be sent to somebody who has the same file. */
import {isThere, make} from "./dom.js";
import {state} from "./state.js";

const PLACE_KEYS = /** @type {const} */ (["m", "n", "o", "a", "d", "e", "l"]);

/** @param {Record<string, number | null | undefined>} place */
export const addressOf = place => "#" + PLACE_KEYS.filter(key => isThere(place[key])).map(key => `${key}=${place[key]}`).join("&");
/** Goes to a place; the browser's back button leads back, unless it is only a step with a key. @param {Record<string, number | null>} place */
export function go(place, isStep = false) {
  const address = addressOf(place);
  if (address === location.hash || address === "#" && !location.hash) return;
  if (isStep) { history.replaceState(null, "", address); dispatchEvent(new HashChangeEvent("hashchange")); } else location.hash = address;
}
/** Reads the address. */
export function readPlace() {
  const said = Object.fromEntries(location.hash.slice(1).split("&").map(word => word.split("=")));
  for (const key of PLACE_KEYS) state.place[key] = /^\d{1,10}$/.test(said[key] ?? "") ? Number(said[key]) : null;
}
/** A link to a place. @param {Record<string, any>} place @param {...any} children */
export const link = (place, ...children) => make("a", {href: addressOf(place)}, children);
