/* node_answers.mjs MODULE: reads test vectors from standard input, a line of JSON for each, and writes its answers as a line of JSON. */
import { readFileSync } from "node:fs";
import { createInterface } from "node:readline";
import { load } from "../illcanon.js";
import { answers } from "./answers.js";

const calls = await load(readFileSync(process.argv[2]));
for await (const line of createInterface({ input: process.stdin })) process.stdout.write(`${JSON.stringify(answers(calls, JSON.parse(line)))}\n`);
process.stderr.write(`memory at the end: ${calls.memorySize} octets\n`);
