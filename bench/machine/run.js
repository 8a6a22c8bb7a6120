// Runs a program of this folder that was built for wasm32: node run.js PROGRAM. What it writes goes to standard output; its status is the program's.
'use strict';
const fs = require('fs');
let memory;
const host = { write: (at, count) => fs.writeSync(1, new Uint8Array(memory.buffer, at, count)) };
const program = new WebAssembly.Instance(new WebAssembly.Module(fs.readFileSync(process.argv[2])), { host }).exports;
memory = program.memory;
process.exitCode = program.run();
