// Runs functions of a module, for node.py. Standard input has the module, and the names of functions, each with its
// memory, as hexadecimal text in JSON. It prints the memories afterwards.
import { readFileSync } from 'node:fs';

const { module, runs } = JSON.parse(readFileSync(0));
const { memory, ...functions } = new WebAssembly.Instance(
    new WebAssembly.Module(Buffer.from(module, 'hex')),
).exports;
const bytes = Buffer.from(memory.buffer);
const afterwards = runs.map(([name, before]) => {
    bytes.write(before, 'hex');
    functions[name]();
    return bytes.toString('hex', 0, before.length / 2);
});
console.log(JSON.stringify(afterwards));
