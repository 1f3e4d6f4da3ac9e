// How long a call of ppdb.wasm takes: in node target-calls.mjs MODULE TIMES FILE MAP prints, for each command, the least milliseconds of
// processor time of the calls after the first, in which the engine compiles.
import { load } from "../bindings/js/ppdb.mjs";

const COMMANDS = {
  verify: ["verify", "F"], show: ["show", "F"], rebuild: ["rebuild", "F", "out"], remap: ["remap", "F", "M", "out"],
};

/** The least time of each command, by a clock in milliseconds. */
export async function leastTimes(module, files, times, clock) {
  const ppdb = await load(module);
  return Object.entries(COMMANDS).map(([name, words]) => {
    const spent = Array.from({ length: times + 1 }, () => {
      const begun = clock();
      const { status } = ppdb.run(words, files);
      if (status !== 0) throw new Error(`${name} ended with status ${status}`);
      return clock() - begun;
    });
    return [name, Math.min(...spent.slice(1))];
  });
}

if (typeof process !== "undefined" && process.argv[1] === new URL(import.meta.url).pathname) {
  const { readFileSync } = await import("node:fs");
  const [module, times, file, map] = process.argv.slice(2);
  const files = { F: new Uint8Array(readFileSync(file)), M: new Uint8Array(readFileSync(map)) };
  const clock = () => process.cpuUsage().user / 1000;
  for (const [name, least] of await leastTimes(new Uint8Array(readFileSync(module)), files, Number(times), clock)) console.log(name, least.toFixed(0));
}
