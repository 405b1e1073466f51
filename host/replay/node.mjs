// Runs a replay as WebAssembly: node node.mjs MODULE RECORDING
import fs from 'node:fs';

const [module, recording] = process.argv.slice(2);
const file = fs.openSync(recording);
let memory;
const machine = {
    machine_read: (to, many) => fs.readSync(file, new Uint8Array(memory.buffer, to, many)),
    machine_tell: (chars, many) => void process.stdout.write(Buffer.from(memory.buffer, chars, many)),
};
const { instance } = await WebAssembly.instantiate(fs.readFileSync(module), { env: machine });
memory = instance.exports.memory;
process.exitCode = instance.exports.replay();
