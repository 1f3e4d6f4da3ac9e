import type { Answer, Bytes, Fault, Frame, Line } from "./ppdb.mjs";

export * from "./ppdb.mjs";

/** The version of the library, as 1002003 for 1.2.3. */
export declare const version: number;
/** The first fault of a file, or null where it is accepted. Fails with status 5 or 7. */
export declare function verify(file: Bytes): Fault | null;
/** The line of each frame, in their order. Fails with status 1 where the file breaks a rule. */
export declare function lines(file: Bytes, frames: readonly Frame[]): Line[];
/** Runs a command, as `["show", "app.pdb", "--json"]`, over files by their names. */
export declare function run(words: readonly string[], files?: Record<string, Bytes> | Iterable<readonly [string, Bytes]>): Answer;
