#!/usr/bin/env node
// Runs a WebAssembly module of tests in Node 20, as a runner of cargo: tests/wasi.mjs MODULE ARGUMENT ..
import { readFileSync } from 'node:fs';
import { WASI } from 'node:wasi';

const [path, ...args] = process.argv.slice(2);
const preopens = { '/': '/', '.': process.cwd(), '..': `${process.cwd()}/..` };
const wasi = new WASI({ version: 'preview1', args: [path, ...args], env: process.env, preopens });
const module = new WebAssembly.Module(readFileSync(path));
process.exitCode = wasi.start(new WebAssembly.Instance(module, wasi.getImportObject()));
