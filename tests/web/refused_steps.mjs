// Prints the analysis of change of two books whose calls of Write are refused, as JSON.
//
// The arguments are the WebAssembly module, both books, and for each call of Write in turn the
// number that it is refused with, 0 for none.
import { readFileSync } from "node:fs";
import { useCalls } from "../../web/src/answers.js";
import { openCalls } from "../../web/src/calls.js";
import { analyseChange } from "../../web/src/change_analysis.js";

const [module, last, current, ...refusals] = process.argv.slice(2);
const { instance } = await WebAssembly.instantiate(readFileSync(module), {});
const calls = openCalls(instance.exports);
const write = calls.write.bind(calls);
calls.write = (...given) => {
  const refusal = BigInt(refusals.shift());
  return refusal ? { refusal, place: 0n, length: 0n } : write(...given);
};
useCalls(calls);
const books = [last, current].map((path) => new Uint8Array(readFileSync(path)));
process.stdout.write(JSON.stringify(analyseChange(books[0], books[1]),
  (_, held) => (typeof held === "bigint" ? String(held) : held)));
