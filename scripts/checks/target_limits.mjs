// What ppdb.wasm does where memory or stack ends: target_limits.mjs MODULE FILE. It ends with how many checks failed. The module's own limits
// are too far away to reach in a moment, so copies of it get nearer ones.
import { readFileSync } from "node:fs";
import { Failed, Trapped, load } from "../../bindings/js/ppdb.mjs";

const PAGE = 65536, MEMORY = 5, GLOBALS = 6, MOST = 134217728;
const [moduleName, fileName] = process.argv.slice(2);
const module = new Uint8Array(readFileSync(moduleName));
const file = new Uint8Array(readFileSync(fileName));
let failed = 0;

function that(holds, what) {
  if (holds) return;
  failed += 1;
  console.error(`target_limits: ${what}`);
}

/** An unsigned number in LEB128, and where the next byte is. */
function number(bytes, at) {
  let value = 0, shift = 0;
  for (; ; shift += 7) {
    const byte = bytes[at++];
    value += (byte & 127) * 2 ** shift;
    if (byte < 128) return [value, at];
  }
}

/** A number in LEB128: below 64 in its last byte it may also be read as signed. */
function leb(value, last = 128) {
  const made = [];
  for (; value >= last; value = Math.floor(value / 128)) made.push((value & 127) | 128);
  return [...made, value];
}

/** The module with the body of one section made anew. */
function patched(kind, make) {
  for (let at = 8; at < module.length; ) {
    const [length, start] = number(module, at + 1);
    if (module[at] === kind) {
      const body = make(module.subarray(start, start + length));
      return Uint8Array.from([...module.subarray(0, at + 1), ...leb(body.length), ...body, ...module.subarray(start + length)]);
    }
    at = start + length;
  }
  throw new Error(`the module has no section ${kind}`);
}

/** A copy whose memory grows by so many pages at most. */
const narrow = (pages) => patched(MEMORY, (body) => {
  const [least] = number(body, 2);
  return [1, 1, ...leb(least), ...leb(least + pages)];
});

/** A copy with so many bytes of stack: the first global is the address at which the stack begins. */
const shallow = (bytes) => patched(GLOBALS, (body) => {
  const [, at] = number(body, 0);
  const [, end] = number(body, at + 3);
  return [...body.subarray(0, at + 3), ...leb(bytes, 64), ...body.subarray(end)];
});

function statusOf(call) {
  try {
    return call();
  } catch (error) {
    return error instanceof Failed ? error.status : error;
  }
}

async function memoryEnds() {
  const ppdb = await load(narrow(32));
  that(ppdb.run(["verify", "F"], { F: file }).status === 0, "a small file is verified in a small memory");
  const large = new Uint8Array(40 * PAGE);
  that(ppdb.run(["verify", "F"], { F: large }).status === 5, "a file above the memory gives status 5");
  that(statusOf(() => ppdb.verify(large)) === 5, "verify fails with status 5");
  that(statusOf(() => ppdb.lines(large, [])) === 5, "lines fails with status 5");
  that(ppdb.verify(file) === null && ppdb.run(["id", "F"], { F: file }).status === 0, "the next call works");
  const statuses = new Set();
  for (let pages = 0; pages < 60; pages++) {
    const tight = await load(narrow(pages));
    const { status, text, made } = tight.run(["rebuild", "F", "out"], { F: file });
    statuses.add(status);
    that(status === 0 ? made.length > 0 : status === 5 && text === "" && made === null, `rebuild with ${pages} pages more: status ${status}`);
    that(status === 0 || tight.run(["sample", "0"]).status !== 1, "the call after it works");
  }
  that(statuses.has(0), "rebuild works in enough memory");
}

async function addressesEnd() {
  const ppdb = await load(module);
  const most = new Uint8Array(MOST);
  const many = Array.from({ length: 40 }, (_, at) => [`F${at}`, most]);
  that(ppdb.run(["verify", "F0"], many).status === 5, "files above 4 GiB give status 5");
  that(ppdb.run(["verify", "F"], { F: new Uint8Array(MOST + 1) }).status === 7, "a file above the limit gives status 7");
  that(ppdb.verify(file) === null, "the next call works");
}

async function stackEnds() {
  const ppdb = await load(shallow(512));
  for (let again = 0; again < 3; again++) {
    that(statusOf(() => ppdb.run(["show", "F"], { F: file })) instanceof Trapped, "the end of the stack is an error");
  }
  that(ppdb.version > 0, "the next call works");
}

async function memoryIsGivenBack() {
  const ppdb = await load(module);
  const before = process.memoryUsage().rss;
  for (let call = 0; call < 3000; call++) ppdb.verify(file);
  for (let call = 0; call < 40; call++) ppdb.run(["verify", "F"], { F: new Uint8Array(MOST >> 1) });
  that(process.memoryUsage().rss - before < 1200 * 2 ** 20, "the memory of calls is given back");
}

for (const check of [memoryEnds, addressesEnd, stackEnds, memoryIsGivenBack]) await check();
console.log(`target_limits: ${failed} failed`);
process.exitCode = failed;
