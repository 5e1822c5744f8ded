// Tests that run in Node and in a browser: each is a function that throws if it fails.
import * as hex from '../dist/const_hex.js';

const { check, decode, decodeInto, decoder, decoderStream, encode, encoderStream, HexError, isHex } = hex;
const TABLE = new URL('../../crates/const_hex_vectors/data/vectors.tsv', import.meta.url);
const CHUNK = 32768; // The characters that are decoded at a time. Half as many bytes are encoded.
const CANARY = 0xee; // The bytes of a target before a call.
const utf8 = (string) => new TextEncoder().encode(string);
const stringOf = (bytes) => new TextDecoder('utf-8', { ignoreBOM: true }).decode(bytes);
const KIWI = utf8('kiwi');

function equal(actual, expected, what = '') {
    if (actual !== expected) throw new Error(`${what}: ${actual}, expected ${expected}`.slice(0, 500));
}

/** Returns the result of a call, or its error. */
function outcome(call) {
    try {
        return call();
    } catch (error) {
        return error;
    }
}

const digitsOf = (bytes) => Array.from(bytes, (byte) => byte.toString(16).padStart(2, '0')).join('');

/** Returns bytes of which each is unlike its neighbours. */
const bytesOf = (length) => new Uint8Array(length).map((_, index) => (index * 37 + length) ^ (index >> 8));

/** Returns a result or an error as the table shows it. */
function shown(value) {
    if (value instanceof Uint8Array) return digitsOf(value);
    if (!(value instanceof HexError)) return String(value);
    return `!${value.kind}` + ('index' in value ? ` 0x${digitsOf([value.byte])} ${value.index}` : '');
}

export const resultOf = (call) => shown(outcome(call));

/** Returns the error of a text whose first invalid character, at an index, begins with this byte. */
function errorAt(text, index, [byte]) {
    return utf8(text).length % 2 === 1 ? '!OddLength' : `!InvalidHexCharacter 0x${digitsOf([byte])} ${index}`;
}

/** Compares the result of each function that reads a text with the expected one, as the table shows it. */
function compare(text, expected) {
    const fails = expected.startsWith('!');
    equal(resultOf(() => decode(text)), expected, text);
    equal(resultOf(() => check(text)), fails ? expected : 'undefined', text);
    equal(isHex(text), !fails, text);
    if (!fails) compareInto(text, expected.length / 2, expected);
    compareInto(text, text.length + 1, expected === '!OddLength' ? expected : '!InvalidStringLength');
}

/** Does the same for `decodeInto`, which leaves the target unchanged after an error. */
function compareInto(text, length, expected) {
    const target = new Uint8Array(length).fill(CANARY);
    equal(resultOf(() => decodeInto(text, target)), expected, text);
    if (expected.startsWith('!')) equal(target.every((byte) => byte === CANARY), true, text);
}

/** Decodes a text that is split at these indices, and returns the digits of all bytes. */
function decodeInChunks(text, ...cuts) {
    const { push, end } = decoder();
    const parts = [0, ...cuts].map((cut, index) => push(text.slice(cut, cuts[index] ?? text.length)));
    end();
    return parts.map(digitsOf).join('');
}

/** Returns the bytes that a cell of the table shows. */
function cellBytes(cell) {
    const parts = cell === '""' ? [] : cell.match(/\\x..|./g);
    return Uint8Array.from(parts, (part) => (part[1] ? Number(`0${part.slice(1)}`) : part.charCodeAt()));
}

/** By the first word of a line of the table, a function that tests the line. Other lines are for what this package does
 * not have, and for long texts, as `longTexts` is. */
const operations = {
    write(bytes, digits) {
        for (const [prefix, upper] of [[false, false], [false, true], [true, false], [true, true]]) {
            const text = (prefix ? '0x' : '') + (upper ? digits.toUpperCase() : digits);
            equal(encode(bytes, { prefix, upper }), text);
            compare(text, digits);
        }
    },
    read: compare,
    'read-into': (text, expected, size) => compareInto(text, size, expected),
    'read-chunks'(text, expected) {
        if (typeof text === 'string' && /[\ud800-\udfff]/.test(text)) return; // Half of a pair has no UTF-8.
        for (let cut = 0; cut <= text.length; cut++) {
            equal(resultOf(() => decodeInChunks(text, cut)), expected, text);
        }
    },
    message(text, expected, size) {
        const call = () => (size === undefined ? decode(text) : decodeInto(text, new Uint8Array(size)));
        equal(outcome(call).message, expected);
    },
};

async function tableOfTestVectors() {
    const isFile = TABLE.protocol === 'file:';
    const read = isFile ? (await import('node:fs')).readFileSync : async (url) => (await fetch(url)).text();
    const table = await read(TABLE, 'utf8');
    const count = { write: 0, read: 0, 'read-into': 0, 'read-chunks': 0, message: 0 };
    for (const line of table.split('\n')) {
        const [kind, input, result] = line.split('\t');
        const [operation, number] = kind.split(' ');
        if (!(operation in operations)) continue;
        const [bytes, output] = [input, result].map(cellBytes);
        const expected = operation.startsWith('read') && !result.startsWith('!') ? digitsOf(output) : stringOf(output);
        const isText = operation !== 'write' && digitsOf(utf8(stringOf(bytes))) === digitsOf(bytes);
        const forms = isText ? [bytes, stringOf(bytes)] : [bytes];
        for (const form of forms) operations[operation](form, expected, number && Number(number));
        count[operation] += 1;
    }
    for (const [operation, lines] of Object.entries(count)) equal(lines > 20, true, operation);
}

function longTexts() {
    for (const length of [CHUNK / 2 - 1, CHUNK / 2, CHUNK / 2 + 1, CHUNK, 2 ** 17 - 1, 2 ** 17 + 1]) {
        const bytes = bytesOf(length);
        const digits = digitsOf(bytes);
        operations.write(bytes, digits);
        for (const form of [digits, utf8(`0x${digits}`)]) {
            compare(form, digits);
            for (const cuts of [[1], [3, 4], [CHUNK + 1], [1, CHUNK + 1], [7, CHUNK + 8]]) {
                equal(decodeInChunks(form, ...cuts), digits, `${length} ${cuts}`);
            }
        }
    }
}

/** Compares the results for digits with an invalid character inserted at an index. */
function compareInvalid(digits, index) {
    for (const invalid of ['g', '\u00e9', '\u0130', '\u20ac', '\u{1f95d}', '\ud800', '\udc00']) {
        for (const suffix of ['', '0', '\u00e9']) {
            const text = digits.slice(0, index) + invalid + digits.slice(index) + suffix;
            const expected = errorAt(text, index, utf8(invalid));
            for (const form of [text, utf8(text)]) compare(form, expected);
            compareInto(text, utf8(text).length >> 1, expected);
        }
    }
}

function invalidCharacters() {
    // Texts up to a length are copied by a loop, and longer ones at once.
    for (const length of [1, 8, 9, 48, 49]) {
        for (let index = 0; index <= 2 * length; index++) compareInvalid(digitsOf(bytesOf(length)), index);
    }
    const digits = 'ab'.repeat(CHUNK + 4);
    for (let near = -5; near < 5; near++) {
        for (const index of [CHUNK + near, 2 * CHUNK + near]) compareInvalid(digits, index);
        // In code units the text may be no longer than a chunk, though it is in bytes.
        compareInvalid(digits.slice(0, CHUNK + near), CHUNK + near);
    }
}

function arraysAndViews() {
    // A subclass whose properties are not those of the array.
    class Overridden extends Uint8Array {
        get length() { return 2 ** 31; }
        get buffer() { return new ArrayBuffer(9); }
        static get [Symbol.species]() { return Array; }
    }
    const copy = (bytes) => bytes.slice().buffer;
    const share = (bytes) => {
        const { buffer } = new WebAssembly.Memory({ initial: 2, maximum: 2, shared: true });
        new Uint8Array(buffer, 5).set(bytes);
        return new Uint8Array(buffer, 5, bytes.length);
    };
    for (const make of [copy, share, (data) => data, (data) => new Overridden(data),
        (data) => new Uint8ClampedArray(data), (data) => Uint8Array.of(0, ...data, 0).subarray(1, -1),
        (data) => new Uint16Array(copy(data)), (data) => new DataView(share(data).buffer, 5, data.length)]) {
        for (const bytes of [KIWI, new Uint8Array(50000).fill(0xab)]) {
            const digits = digitsOf(bytes);
            equal(encode(make(bytes)), digits, make);
            equal(resultOf(() => decode(make(utf8(digits)))), digits, make);
        }
    }
    equal(Object.entries(decodeInto('6b69', new Overridden(2))).join(), '0,107,1,105');
    const result = decode('6b697769');
    decode('ffffffff');
    equal([result.constructor.name, result.buffer.byteLength, result].join(), 'Uint8Array,4,107,105,119,105');
}

const intoOne = (text) => decodeInto(text, new Uint8Array(1));
const callers = [encode, decode, isHex, check, intoOne, (text) => decoder().push(text)];
const isTypeError = (call, what) => equal(outcome(call) instanceof TypeError, true, what);

function otherTypes() {
    const others = [undefined, null, 5, 5n, true, {}, [1, 2], { length: 2 }, () => 0, Symbol('a'),
        new Proxy(KIWI, {}), Object.create(Uint8Array.prototype), Object.create(ArrayBuffer.prototype)];
    for (const call of callers) others.forEach((other, number) => isTypeError(() => call(other), number));
    const targets = [...others, '6b', new ArrayBuffer(1), new Int8Array(1), new Uint16Array(1)];
    targets.forEach((target, number) => isTypeError(() => decodeInto('6b', target), number));
    equal(outcome(() => encode('6b')).message, 'encode takes bytes: a Uint8Array, another view, or a buffer');
    for (const options of [undefined, null, {}, { prefix: undefined, upper: false }]) {
        equal(encode(KIWI, options), '6b697769');
    }
    equal([KIWI, KIWI].map(hex.bytesToHex).join(), '6b697769,6b697769');
    equal(hex.hexToBytes, decode);
}

function detachedBuffers() {
    for (const size of [0, 4, 40000, 100000]) {
        const buffer = new ArrayBuffer(size);
        const shrunk = new ArrayBuffer(size + 8, { maxByteLength: 200000 });
        const views = [Uint8Array, Uint16Array, DataView].map((type) => new type(buffer));
        const tooShort = [Uint8Array, Uint16Array, DataView].map((type) => new type(shrunk, 4, 2));
        structuredClone(buffer, { transfer: [buffer] });
        shrunk.resize(2);
        for (const view of [buffer, ...views, ...tooShort]) {
            for (const call of callers) isTypeError(() => call(view), `${size} ${call}`);
        }
        for (const target of [views[0], tooShort[0]]) {
            for (const text of ['', '6b', '6b69']) isTypeError(() => decodeInto(text, target), text);
        }
    }
    const grown = new Uint8Array(new ArrayBuffer(2, { maxByteLength: 8 }));
    grown.buffer.resize(4);
    equal(encode(grown), '00000000');
}

function overlap() {
    for (const digits of ['6b697769', '6b69'.repeat(50000)]) {
        const text = utf8(`0x${digits}`);
        equal(digitsOf(decodeInto(text, text.subarray(1, 1 + digits.length / 2))), digits);
    }
    const target = new Uint8Array(4).fill(CANARY);
    decodeInto('6b69', target.subarray(1, 3));
    equal(digitsOf(target), 'ee6b69ee');
}

function failedAllocation() {
    const { Uint8Array } = globalThis;
    const typedArrayPrototype = Object.getPrototypeOf(Uint8Array.prototype);
    const { slice } = typedArrayPrototype;
    function fail() { throw new RangeError('no memory'); }
    for (const start of ['0x6', '0x6b', '0', '6b6']) {
        for (const next of ['b6', 'b6'.repeat(CHUNK)]) {
            const { push, end } = decoder();
            const first = push(start);
            [globalThis.Uint8Array, typedArrayPrototype.slice] = [fail, fail];
            const { message } = outcome(() => push(next));
            [globalThis.Uint8Array, typedArrayPrototype.slice] = [Uint8Array, slice];
            equal(message, 'no memory');
            const text = `${start}b69${start.length % 2 ? '' : '0'}`;
            equal(digitsOf(first) + digitsOf(push(text.slice(start.length))), digitsOf(decode(text)), start);
            end();
            equal(resultOf(() => push('61g')), `!InvalidHexCharacter 0x67 ${text.length + 2}`);
        }
    }
}

function severalDecoders() {
    const [one, other] = [decoder(), decoder()];
    equal(resultOf(() => one.push('0x6')) + resultOf(() => other.push('6b')), '6b');
    equal(resultOf(() => one.end()), '!OddLength');
    other.end();
    decode('6b');
    isTypeError(() => one.push(5));
    equal(resultOf(() => one.push('b')) + resultOf(() => other.push('6b')), '6b6b');
    one.end();
    for (const chunk of ['0x\u00e9', '', '00']) {
        equal(resultOf(() => other.push(chunk)), '!InvalidHexCharacter 0x78 5');
    }
    equal(outcome(() => other.end()).message, "invalid character 'x' at position 5");
}

async function streams() {
    async function through(stream, chunks, show) {
        const pull = (source) => (chunks.length ? source.enqueue(chunks.shift()) : source.close());
        let all = '';
        for await (const chunk of new ReadableStream({ pull }).pipeThrough(stream)) all += show(chunk);
        return all;
    }
    const read = (...chunks) => through(decoderStream(), chunks, digitsOf);
    const write = (options, ...chunks) => through(encoderStream(options), chunks, String);
    equal(await write(undefined, KIWI, KIWI.buffer), '6b6977696b697769');
    equal(await write({ prefix: true, upper: true }, KIWI, KIWI.subarray(1)), '0x6B697769697769');
    equal(await write({ prefix: true }), '0x');
    equal(await write(null, '6b').catch(({ name }) => name), 'TypeError');
    equal(await read('0', utf8('x6b6'), '97', '769'), '6b697769');
    equal(await read('6b', '6').catch(shown), '!OddLength');
    equal(await read('6b', '6z').catch(shown), '!InvalidHexCharacter 0x7a 3');
}

function errors() {
    const error = outcome(() => decode('6b\u00e9'));
    equal(`${error}`, "HexError: invalid character '\u00c3' at position 2");
    equal(error instanceof SyntaxError, true);
}

export const cases = { tableOfTestVectors, longTexts, invalidCharacters, arraysAndViews, otherTypes, detachedBuffers,
    overlap, failedAllocation, severalDecoders, streams, errors };
