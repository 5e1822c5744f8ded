// The cases in Node, and what needs Node: engines by what they lack, the module's results, and large inputs.
import assert from 'node:assert/strict';
import { execFileSync, spawn, spawnSync } from 'node:child_process';
import { once } from 'node:events';
import { closeSync, openSync, readFileSync, readSync } from 'node:fs';
import test from 'node:test';
import { runInNewContext } from 'node:vm';
import * as hex from '../dist/const_hex.js';
import { cases, resultOf } from './cases.js';

for (const [name, run] of Object.entries(cases)) test(name, run);

test('values of another realm', () => {
    const [bytes, target] = runInNewContext('[Uint8Array.of(1, 2), new Uint8Array(1)]');
    assert.equal(hex.encode(bytes) + hex.encode(bytes.buffer), '01020102');
    assert.equal(hex.decodeInto('ff', target)[0], 255);
});

/** Loads another instance of the package, in which `change` replaces the exports of the module. */
async function loadOver(change) {
    const { Instance } = WebAssembly;
    WebAssembly.Instance = function (module) { return { exports: change(new Instance(module).exports) }; };
    const loading = import(`../dist/const_hex.js?${Math.random()}`);
    return loading.finally(() => { WebAssembly.Instance = Instance; });
}

test('where the module does not run, the import succeeds, and each function says why', async () => {
    const { TextEncoder, TextDecoder, WebAssembly } = globalThis;
    const reject = () => { throw new WebAssembly.CompileError('blocked by the policy'); };
    for (const [change, reason] of [
        [{ TextEncoder: undefined }, 'TextEncoder or TextDecoder is missing'],
        [{ TextDecoder: undefined }, 'TextEncoder or TextDecoder is missing'],
        [{ WebAssembly: undefined }, 'the engine has no WebAssembly'],
        [{ WebAssembly: { validate: () => false } }, 'the engine has no WebAssembly with SIMD'],
        [{ WebAssembly: { validate: () => true, Module: reject } }, /policy or the engine does not allow WebAssembly/],
    ]) {
        Object.assign(globalThis, change);
        const loaded = await import(`../dist/const_hex.js?${Math.random()}`)
            .finally(() => Object.assign(globalThis, { TextEncoder, TextDecoder, WebAssembly }));
        const calls = ['decode', 'check', 'isHex'].map((name) => () => loaded[name]('6b'));
        calls.push(() => loaded.decode('6b'.repeat(100)), () => loaded.check('\u00e9'));
        calls.push(() => loaded.encode(Uint8Array.of(1)), () => loaded.decodeInto('6b', Uint8Array.of(1)));
        calls.push(() => loaded.decoder().push('6b'), () => loaded.decoder().end());
        for (const call of calls) {
            assert.throws(call, ({ message }) => /^const-hex-proved does not run here: /.test(message)
                && (reason.test ? reason.test(message) : message.endsWith(reason)), `${reason} ${call}`);
        }
    }
});

// Another version of rustc makes another module. Debian 12 has this one.
const rustc = spawnSync('rustc', ['--version'], { encoding: 'utf8' }).stdout ?? '';
const skip = !rustc.startsWith('rustc 1.63.0') && 'rustc 1.63.0 with the target wasm32-unknown-unknown is missing';
test('src/const_hex.wasm is what cargo makes', { skip }, () => {
    execFileSync(process.execPath, ['build.js', '--module', '--check'], { cwd: new URL('..', import.meta.url) });
});

// Each function that encodes, checks or decodes looks digits up by this instruction. The proof holds without it, too.
test('the module works by vectors', () => {
    const module = readFileSync(new URL('../src/const_hex.wasm', import.meta.url)).toString('latin1');
    const swizzles = module.split('\xfd\x0e').length - 1;
    assert(swizzles >= 30, `i8x16.swizzle occurs ${swizzles} times in the module`);
});

test('the memory keeps its size, and wipe clears all that calls left', async () => {
    let memory;
    const loaded = await loadOver((exports) => ({ memory } = exports));
    const view = Buffer.from(memory.buffer);
    const fresh = Buffer.from(view);
    for (const length of [1, 20, 32, 33, 2 ** 20]) {
        loaded.isHex(loaded.encode(loaded.decode('c9'.repeat(length)), { upper: true }) + 'g');
        loaded.decoder().push('c9c');
    }
    assert(view.includes('C9'));
    loaded.wipe();
    assert(view.equals(fresh));
    assert.equal(loaded.encode(loaded.decode('0x6b69')), '6b69');
    assert.equal(memory.buffer.byteLength, 2 ** 16);
    assert.throws(() => memory.grow(1), RangeError);
});

test('decodeInto leaves no bytes of a long text in arrays of its own', () => {
    const { Uint8Array } = globalThis;
    const allocated = [];
    const target = new Uint8Array(20000);
    globalThis.Uint8Array = class extends Uint8Array {
        constructor(...from) { allocated.push(super(...from)); }
    };
    try {
        for (const text of ['c9'.repeat(20000), `0x${'c9'.repeat(20000)}`]) hex.decodeInto(text, target);
        for (const text of [`${'c9'.repeat(20000)}zz`, 'c9'.repeat(20001), 'c'.repeat(39999)]) {
            assert.throws(() => hex.decodeInto(text, target), hex.HexError);
        }
    } finally {
        Object.assign(globalThis, { Uint8Array });
    }
    assert(allocated.length >= 5 && target.every((byte) => byte === 0xc9));
    for (const { buffer } of allocated) assert(new Uint8Array(buffer).every((byte) => byte === 0));
});

// A text has the length that it had at the start of the call, even if its buffer grows before or after it is copied.
test('a shared buffer that grows meanwhile', async () => {
    for (const [text, read, expected] of [
        ['6b'.repeat(20000), ({ decode }, buffer) => decode(buffer), '6b'.repeat(20000)],
        ['zz', ({ decode }, buffer) => decode(new Uint8Array(buffer)), "HexError: invalid character 'z' at position 0"],
    ]) {
        const buffer = new SharedArrayBuffer(text.length, { maxByteLength: 2 ** 17 });
        Buffer.from(buffer).write(text);
        const loaded = await loadOver((exports) => ({
            ...exports,
            const_hex_decoder_update: (...values) => {
                if (buffer.byteLength === text.length) buffer.grow(2 ** 16 + 1);
                return exports.const_hex_decoder_update(...values);
            },
        }));
        assert.equal(resultOf(() => read(loaded, buffer)), expected);
    }
    const typedArrayPrototype = Object.getPrototypeOf(Uint8Array.prototype);
    const { set } = typedArrayPrototype;
    for (const [call, expected] of [
        [(array) => hex.encode(array), '36623639'],
        [(array) => hex.decode(array), '6b69'],
        [(array) => hex.decodeInto(array, new Uint8Array(2)), '6b69'],
    ]) {
        const buffer = new SharedArrayBuffer(4, { maxByteLength: 2 ** 17 });
        Buffer.from(buffer).write('6b69');
        typedArrayPrototype.set = function (...values) {
            buffer.grow(2 ** 17);
            return Reflect.apply(set, this, values);
        };
        try {
            assert.equal(resultOf(() => call(new Uint8Array(buffer))), expected);
        } finally {
            typedArrayPrototype.set = set;
        }
    }
});

test('options are properties of the object itself', async () => {
    Object.assign(Object.prototype, { prefix: true, upper: true });
    try {
        const stream = hex.encoderStream({});
        const writer = stream.writable.getWriter();
        writer.write(Uint8Array.of(0xab));
        const { value } = await stream.readable.getReader().read();
        const texts = [undefined, {}, { upper: false }].map((options) => hex.encode(Uint8Array.of(0xab), options));
        assert.deepEqual([value, ...texts], ['ab', 'ab', 'ab', 'ab']);
    } finally {
        delete Object.prototype.prefix;
        delete Object.prototype.upper;
    }
});

// A program that handles keys. It notes and prints the complement of each array, which is no copy of a key in memory.
// V8 keeps arrays of at most 64 bytes on its heap, until their `buffer` is read.
const PROGRAM_WITH_KEYS = `
    import * as hex from ${JSON.stringify(new URL('../dist/const_hex.js', import.meta.url))};
    const complements = [];
    const note = (array) => complements.push(Array.from(array, (byte) => byte ^ 255));
    const arrayOf = (size, byteAt) => {
        const array = new Uint8Array(size);
        for (let index = 0; index < size; index++) array[index] = byteAt();
        note(array);
        return array;
    };
    const random = () => Math.random() * 256;
    const digit = () => '0123456789abcdef'.charCodeAt(Math.random() * 16);
    for (const size of [16, 32, 64, 65, 100]) {
        globalThis['kept' + size] = arrayOf(size, random);
        const [key, text, target] = [arrayOf(size, random), arrayOf(2 * size, digit), new Uint8Array(size)];
        hex.encode(key);
        hex.isHex(text);
        note(hex.decodeInto(text, target));
        for (const array of [key, text, target, hex.decode(text)]) array.fill(0);
    }
    hex.wipe();
    console.log(JSON.stringify(complements));
    setInterval(() => {}, 1e6);`;

const noLinux = process.platform !== 'linux' && 'only Linux shows the memory of a process';
test('no copy of a key is left once it is cleared', { skip: noLinux }, async () => {
    const child = spawn(process.execPath, ['--input-type=module', '--eval', PROGRAM_WITH_KEYS]);
    try {
        const [printed] = await once(child.stdout, 'data');
        const arrays = JSON.parse(printed).map((complement) => Buffer.from(complement.map((byte) => byte ^ 255)));
        const counts = countIn(child.pid, arrays.map((array) => array.subarray(-16)));
        // Of each four arrays the first one was not cleared.
        const isRight = counts.every((count, index) => (count > 0) === (index % 4 === 0));
        assert(isRight, `copies of arrays for 16, 32, 64, 65 and 100 bytes: ${counts}`);
    } finally {
        child.kill();
    }
});

/** Returns how often each pattern occurs in the memory of a process. */
function countIn(pid, patterns) {
    const file = openSync(`/proc/${pid}/mem`);
    const counts = patterns.map(() => 0);
    for (const line of readFileSync(`/proc/${pid}/maps`, 'latin1').trim().split('\n')) {
        const [, start, end] = /^(\w+)-(\w+) r(?!.*\[v)/.exec(line)?.map((number) => Number(`0x${number}`)) ?? [];
        if (start === undefined) continue;
        const region = Buffer.alloc(end - start);
        readSync(file, region, 0, region.length, start);
        patterns.forEach((pattern, number) => {
            for (let at = -1; (at = region.indexOf(pattern, at + 1)) >= 0;) counts[number] += 1;
        });
    }
    closeSync(file);
    return counts;
}

test('a HexError where the prototypes of errors are frozen', () => {
    const code = `import { decode } from ${JSON.stringify(new URL('../dist/const_hex.js', import.meta.url))};
        for (const { prototype } of [Error, SyntaxError]) Object.freeze(prototype);
        try { decode('zz'); } catch (error) { console.log(error.name, error.message); }`;
    const printed = execFileSync(process.execPath, ['--input-type=module', '--eval', code], { encoding: 'utf8' });
    assert.equal(printed, "HexError invalid character 'z' at position 0\n");
});

// Buffers of zeros take no physical memory until they are written.
test('lengths above 2^31', async () => {
    const [even, odd] = [new Uint8Array(2 ** 31 + 2), new Uint8Array(2 ** 31 + 1)];
    for (const [expected, call] of [
        ['!InvalidHexCharacter 0x00 0', () => hex.decode(even)],
        ['!OddLength', () => hex.decode(odd)],
        ['!InvalidHexCharacter 0x00 0', () => hex.decodeInto(even, odd.subarray(0, 2 ** 30 + 1))],
        ['!InvalidStringLength', () => hex.decodeInto(even, odd.subarray(0, 2 ** 30))],
        ['!InvalidStringLength', () => hex.decodeInto('6b', even)],
    ]) assert.equal(resultOf(call), expected, call);
    // A mock of the module that decodes each chunk to no bytes: only the array for the result is that large.
    let chunks = 0;
    const functions = { const_hex_decoder_update: () => ++chunks, const_hex_decoder_finish: () => 1 };
    const { decode } = await loadOver((exports) => ({ ...exports, ...functions }));
    assert.equal(decode(even).length, 0);
    assert.equal(chunks, 2 ** 16 + 1);
    assert.throws(() => hex.encode(even), RangeError); // No string is that long.
});

test('positions above 2^31 and 2^32', () => {
    const chunk = Buffer.alloc(2 ** 26, '6b');
    for (const [count, index] of [[32, 2 ** 31 + 1], [64, 2 ** 32 - 1]]) {
        const { push, end } = hex.decoder();
        for (let left = count; left > 0; left--) push(chunk);
        const expected = `!InvalidHexCharacter 0x67 ${index}`;
        for (const call of [() => push('6g'), end]) assert.equal(resultOf(call), expected);
    }
});

