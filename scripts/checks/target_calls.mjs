// Calls `run` of bindings/js for each run of a file, as target_calls.c does, in node and in a browser: `answers` yields the bytes that
// scripts/checks/target_runs.py reads. In node: target_calls.mjs MODULE RUNS writes them to standard output.
import { load } from "../../bindings/js/ppdb.mjs";

/** A reader of the numbers and bytes of a file of runs. */
function reader(data) {
  const view = new DataView(data.buffer, data.byteOffset, data.byteLength);
  let at = 0;
  const number = () => view.getUint32((at += 4) - 4, true);
  const bytes = (length) => data.subarray(at, (at += length));
  return { number, bytes };
}

function* runsOf(data) {
  const { number, bytes } = reader(data);
  const text = new TextDecoder();
  const blobs = Array.from({ length: number() }, () => bytes(number()));
  for (let left = number(); left > 0; left--) {
    const words = text.decode(bytes(number())).split("\0").slice(0, -1);
    const files = Array.from({ length: number() }, () => [text.decode(bytes(number())), blobs[number()]]);
    yield { words, files };
  }
}

function framed({ status, text, made }) {
  const parts = [new TextEncoder().encode(text), made ?? new Uint8Array()];
  const out = new Uint8Array(1 + parts.reduce((sum, part) => sum + 8 + part.length, 0));
  const view = new DataView(out.buffer);
  let at = 1;
  out[0] = status;
  for (const part of parts) {
    view.setBigUint64(at, BigInt(part.length), true);
    out.set(part, at + 8);
    at += 8 + part.length;
  }
  return out;
}

/** The answer to each run of a file. */
export async function* answers(module, data) {
  const ppdb = await load(module);
  for (const { words, files } of runsOf(data)) yield framed(ppdb.run(words, files));
}

if (typeof process !== "undefined" && process.argv[1] === new URL(import.meta.url).pathname) {
  const { readFileSync, writeSync } = await import("node:fs");
  const [module, runs] = process.argv.slice(2).map((name) => new Uint8Array(readFileSync(name)));
  for await (const answer of answers(module, runs)) for (let at = 0; at < answer.length; ) at += writeSync(1, answer, at);
}
