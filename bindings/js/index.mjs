// The library over the module beside it: what `import { verify, lines, run } from "ppdb"` has.
import { load } from "./ppdb.mjs";

export { Failed, Ppdb, Status, Trapped, load } from "./ppdb.mjs";

const ppdb = await load();

export const version = ppdb.version;
export const verify = (file) => ppdb.verify(file);
export const lines = (file, frames) => ppdb.lines(file, frames);
export const run = (words, files) => ppdb.run(words, files);
