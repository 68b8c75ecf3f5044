// Answers calls of functions of web/src, one to a line of standard input, each as a line of JSON.
//
// A request is {"function": "messages.explain", "arguments": [...]}: the module of web/src, which
// is loaded when it is first named, and its function. An argument that is itself a request is what
// that gives. Bytes are {"base64": "..."}, whole numbers that may be beyond 2^53 {"bigint": "..."},
// doubles that JSON has no number for, or the digits of another, {"double": "..."}, both ways. The
// reply is {"value": ...}, or {"error": ...} with the error's name, message and own fields. The
// first argument of the command is the WebAssembly module; web/src/answers.js has its calls from
// there.
import { readFileSync } from "node:fs";
import { createInterface } from "node:readline";

const SOURCES = new URL("../../web/src/", import.meta.url);

/** @type {Map<string, Promise<any>>} */
const loaded = new Map();

/** A module of web/src by its name, loaded once. @param {string} name */
function moduleOf(name) {
  if (!loaded.has(name)) loaded.set(name, import(new URL(`${name}.js`, SOURCES).href));
  return loaded.get(name);
}

/** A value of a request. @param {any} held @returns {Promise<any>} */
async function taken(held) {
  if (Array.isArray(held)) return Promise.all(held.map(taken));
  if (held === null || typeof held !== "object") return held;
  if (typeof held.base64 === "string") return new Uint8Array(Buffer.from(held.base64, "base64"));
  if (typeof held.bigint === "string") return BigInt(held.bigint);
  if (typeof held.double === "string") return Number(held.double);
  if (typeof held.function === "string") return called(held);
  const names = Object.keys(held), values = await taken(Object.values(held));
  return Object.fromEntries(names.map((name, at) => [name, values[at]]));
}

/** What a function gives. @param {{function: string, arguments: any[]}} request */
async function called(request) {
  const [module, name] = request.function.split(".");
  const functions = await moduleOf(module);
  return functions[name](...await taken(request.arguments));
}

/** Is a double whole and beyond 2^53? Its digits in JSON are those of another whole number.
 * @param {number} held */
function isBeyond(held) {
  return Number.isInteger(held) && !Number.isSafeInteger(held);
}

/** A value as a reply has it: a map as a list of pairs, other objects by their own fields.
 * @param {any} held @returns {any} */
function given(held) {
  if (typeof held === "bigint") return { bigint: String(held) };
  if (typeof held === "number" && (!Number.isFinite(held) || isBeyond(held))) {
    return { double: String(held) };
  }
  if (typeof held === "function" || held === undefined) return null;
  if (held instanceof Uint8Array) return { base64: Buffer.from(held).toString("base64") };
  if (held instanceof Map) return given([...held]);
  if (Array.isArray(held) || ArrayBuffer.isView(held)) {
    return Array.from(/** @type {any} */ (held), given);
  }
  if (held === null || typeof held !== "object") return held;
  return Object.fromEntries(Object.entries(held).map(([name, each]) => [name, given(each)]));
}

/** The reply to a request. @param {{function: string, arguments: any[]}} request */
async function answered(request) {
  try {
    return { value: given(await called(request)) };
  } catch (error) {
    const { name: kind, message, stack } = error;
    return { error: { ...given(error), name: kind, message, stack } };
  }
}

/** Give web/src/answers.js the calls of a WebAssembly module. @param {string} path */
async function openModule(path) {
  const { openCalls } = await moduleOf("calls");
  const { useCalls } = await moduleOf("answers");
  const { instance } = await WebAssembly.instantiate(readFileSync(path), {});
  useCalls(openCalls(instance.exports));
}

if (process.argv[2]) await openModule(process.argv[2]);
for await (const line of createInterface({ input: process.stdin }))
  process.stdout.write(`${JSON.stringify(await answered(JSON.parse(line)))}\n`);
