// Encodes and decodes hexadecimal text by three functions of a formally verified module. index.d.ts describes what
// this file exports.
//
// The module has 64 KiB of memory, which never grows. A call copies its input there, one chunk after another,
// and copies the output back.

const MODULE = ''; // `npm run build` puts the module here, in base64.

// The memory begins with the module's stack.
const STACK_SIZE = 4096;
const { memory, __heap_base, const_hex_encode, const_hex_decoder_update, const_hex_decoder_finish } = load();

// How many bytes are encoded or decoded at a time, and how many characters their text has.
const BYTES_CHUNK = 2 ** 14;
const TEXT_CHUNK = 2 * BYTES_CHUNK;

// The flag for a prefix is also the number of its characters.
const [UPPER, PREFIX, NO_NUL] = [1, 2, 4];
const [ODD_LENGTH, INVALID_LENGTH, INVALID_CHARACTER] = [1, 2, 3];
const KINDS = [undefined, 'OddLength', 'InvalidStringLength', 'InvalidHexCharacter'];
const MESSAGES = [undefined, 'odd number of digits', 'invalid string length'];

// Addresses in the memory, in which the module's constants follow its stack: of a `struct const_hex_decoder`, of the
// number of bytes that it wrote, of a `struct const_hex_error`, and of the buffers for bytes and text.
const DECODER = 16 * Math.ceil(__heap_base.value / 16);
const [WRITTEN, ERROR] = [DECODER + 8, DECODER + 16];
const BYTES = DECODER + 32;
const TEXT = BYTES + BYTES_CHUNK + 16;
// The position in the text, and the pending digit with a status. Both are 0 in a new decoder.
const decoderWords = new Uint32Array(memory.buffer, DECODER, 2);
const writtenWord = new Uint32Array(memory.buffer, WRITTEN, 1);
// The kind, the byte and the index.
const errorWords = new Uint32Array(memory.buffer, ERROR, 3);
const bytes = new Uint8Array(memory.buffer, BYTES, BYTES_CHUNK + 1);
// A view of their front, as long as `decodeInto` last needed it: it takes longer to create a view than to copy.
let cachedView = bytes;
// The last character of a chunk may have four bytes.
const text = new Uint8Array(memory.buffer, TEXT, TEXT_CHUNK + 4);

const { Buffer } = globalThis.process?.versions?.node ? globalThis : {};
const textBuffer = Buffer?.from(memory.buffer, TEXT, text.length);
// Without it each function of the module throws.
const textEncoder = globalThis.TextEncoder ? new TextEncoder() : { encodeInto: const_hex_decoder_update };
const textDecoder = globalThis.TextDecoder && new TextDecoder();

// Up to this length a loop copies text, since calls into the engine have an overhead.
const MAX_LOOP_LENGTH = Buffer ? 16 : 96;
// From this number of bytes on, Node concatenates chunks of text faster in a Buffer than as strings.
const MIN_BUFFER_LENGTH = Buffer ? 2 ** 17 : Infinity;

// These getters of the prototype ignore properties of an array itself or of a subclass.
const { prototype: typedArrayPrototype } = Object.getPrototypeOf(Uint8Array);
const getterOf = (name) => Object.getOwnPropertyDescriptor(typedArrayPrototype, name).get;
const [typeOf, lengthOf] = [getterOf(Symbol.toStringTag), getterOf('length')];
const [bufferOf, offsetOf] = [getterOf('buffer'), getterOf('byteOffset')];

export class HexError extends SyntaxError {
    name = 'HexError'; // An assignment would fail where `SyntaxError.prototype` is frozen.

    constructor(kind, position) {
        super(MESSAGES[kind] ?? describe(position));
        this.kind = KINDS[kind];
        Object.assign(this, position);
    }
}

export function encode(input, options) {
    return encodeBytes(input, flagsOf(options));
}

function encodeBytes(input, flags) {
    const { value, length } = bytesIn(input, 'encode takes bytes: a Uint8Array, another view, or a buffer');
    if (length <= BYTES_CHUNK) return textAsString(encodeChunk(value, length, flags));
    // Text that is too long for a string of the engine throws a RangeError when strings are concatenated.
    const usesBuffer = length >= MIN_BUFFER_LENGTH && length < 2 ** 27;
    const buffer = usesBuffer ? Buffer.allocUnsafeSlow(2 * length + (flags & PREFIX)) : undefined;
    let string = '';
    let offset = 0;
    for (let index = 0; index < length; index += BYTES_CHUNK) {
        const chunk = value.subarray(index, index + BYTES_CHUNK);
        const count = encodeChunk(chunk, chunk.length, index === 0 ? flags : flags & ~PREFIX);
        if (buffer) buffer.set(text.subarray(0, count), offset);
        else string += textAsString(count);
        offset += count;
    }
    return buffer ? buffer.toString('latin1') : string;
}

export function decode(input) {
    const source = sourceOf(input);
    loadDecoder(0, 0);
    const output = decodeSource(source);
    if (!output || !isComplete()) throw errorOf(source);
    return output;
}

export function decodeInto(input, target) {
    if (typeOf.call(target) !== 'Uint8Array') throw new TypeError('the target is not a Uint8Array');
    const length = lengthOf.call(target);
    if (length === 0) typedArrayPrototype.keys.call(target); // Throws if the target's buffer is detached or too short.
    const source = sourceOf(input);
    loadDecoder(0, 0);
    const output = decodeSource(source, true);
    try {
        if (!output || !isComplete()) throw errorOf(source, length);
        if (output.length !== length) throw new HexError(INVALID_LENGTH);
        typedArrayPrototype.set.call(target, output);
        return target;
    } finally {
        if (output !== cachedView) output?.fill(0);
    }
}

export function decoder() {
    let [positionWord, pendingWord] = [0, 0];
    return {
        push(chunk) {
            const source = sourceOf(chunk);
            loadDecoder(positionWord, pendingWord);
            const output = decodeSource(source);
            // Only after the output is allocated: if that fails, the chunk can be pushed again.
            [positionWord, pendingWord] = decoderWords;
            if (!output) throw errorOf();
            return output;
        },
        end() {
            loadDecoder(positionWord, pendingWord);
            if (!isComplete()) throw errorOf();
        },
    };
}

export function encoderStream(options) {
    let flags = flagsOf(options);
    const transform = (chunk, controller) => {
        controller.enqueue(encodeBytes(chunk, flags));
        flags &= ~PREFIX;
    };
    const flush = (controller) => { if (flags & PREFIX) controller.enqueue('0x'); };
    return new TransformStream({ transform, flush });
}

export function decoderStream() {
    const { push, end } = decoder();
    const transform = (chunk, controller) => controller.enqueue(push(chunk));
    return new TransformStream({ transform, flush: end });
}

export function check(input) {
    const source = sourceOf(input);
    if (!isValid(source)) throw errorOf(source);
}

export const isHex = (input) => isValid(sourceOf(input));

export function wipe() {
    // The constants, between the stack and the decoder, stay.
    new Uint8Array(memory.buffer).fill(0, 0, STACK_SIZE).fill(0, DECODER);
}

export { encode as bytesToHex, decode as hexToBytes };

/** Returns what the module exports, or functions that throw an error with the reason why it cannot run here. */
function load() {
    if (!globalThis.TextEncoder || !globalThis.TextDecoder) return unusable('TextEncoder or TextDecoder is missing');
    if (!globalThis.WebAssembly) return unusable('the engine has no WebAssembly');
    try {
        const module = Uint8Array.from(atob(MODULE), (character) => character.charCodeAt());
        if (!WebAssembly.validate(module)) return unusable('the engine has no WebAssembly with SIMD');
        return new WebAssembly.Instance(new WebAssembly.Module(module)).exports;
    } catch (cause) {
        return unusable('a policy or the engine does not allow WebAssembly to be compiled', cause);
    }
}

/** Returns stand-ins for the exports of the module, whose functions throw an error. */
function unusable(reason, cause) {
    const fail = () => { throw new Error(`const-hex-proved does not run here: ${reason}`, { cause }); };
    const names = ['encode', 'decoder_update', 'decoder_finish'];
    const functions = Object.fromEntries(names.map((name) => [`const_hex_${name}`, fail]));
    return { memory: { buffer: new ArrayBuffer(2 ** 16) }, __heap_base: { value: STACK_SIZE }, ...functions };
}

/** Returns the flags for the options, of which only properties of the object itself count. */
function flagsOf(options) {
    const flagFor = (name, flag) => (Object.hasOwn(options, name) && options[name] ? flag : 0);
    return options ? NO_NUL | flagFor('prefix', PREFIX) | flagFor('upper', UPPER) : NO_NUL;
}

/** Encodes at most a chunk of bytes into `text`, and returns how many characters it is. */
function encodeChunk(array, length, flags) {
    copyBytes(array, length, bytes);
    if (!const_hex_encode(BYTES, length, TEXT, text.length, flags)) throw new Error('encoding failed');
    return 2 * length + (flags & PREFIX);
}

/** Copies the first bytes of an array to the front of the destination, which may then have some more bytes of it. */
function copyBytes(array, length, destination) {
    try {
        destination.set(array);
    } catch (error) {
        if (!(error instanceof RangeError)) throw error; // The array's buffer is detached or too short.
        // Another thread has let a shared buffer grow. No other array's buffer is read: V8 would allocate one for a
        // short array, and leave a copy of the bytes on its heap.
        destination.set(new Uint8Array(bufferOf.call(array), offsetOf.call(array), length));
    }
}

/** Sets the decoder in the memory; two zeros are a new one. */
function loadDecoder(positionWord, pendingWord) {
    decoderWords[0] = positionWord;
    decoderWords[1] = pendingWord;
}

/**
 * Returns the bytes that a source decodes to, or undefined after an error. If the caller copies them, the result may be
 * a view of the module's memory or of a larger array. No other array keeps any of them.
 */
function decodeSource(source, isCopied = false) {
    let count = decodeChunk(source, 0);
    if (count < 0) return undefined;
    if (source.length <= TEXT_CHUNK) return isCopied ? viewOf(count) : bytes.slice(0, count);
    const output = new Uint8Array(count + Math.ceil(source.length / 2) - BYTES_CHUNK);
    let offset = 0;
    for (let index = TEXT_CHUNK; count >= 0; index += TEXT_CHUNK) {
        output.set(bytes.subarray(0, count), offset);
        offset += count;
        if (index >= source.length) break;
        count = decodeChunk(source, index);
    }
    if (count >= 0 && (isCopied || offset === output.length)) return output.subarray(0, offset);
    const result = count < 0 ? undefined : output.slice(0, offset);
    output.fill(0);
    return result;
}

/** Returns a view of the first of `bytes`. */
function viewOf(count) {
    if (cachedView.length !== count) cachedView = bytes.subarray(0, count);
    return cachedView;
}

/** Decodes the chunk at an index into `bytes`, and returns how many bytes it is, or -1 after an error. */
function decodeChunk(source, index) {
    const length = copyChunk(source, index);
    const isDecoded = const_hex_decoder_update(DECODER, TEXT, length, BYTES, bytes.length, WRITTEN, ERROR);
    return isDecoded ? writtenWord[0] : -1;
}

/** Returns whether the chunks that the decoder in the memory has read form a complete text. */
const isComplete = () => const_hex_decoder_finish(DECODER, ERROR) === 1;

/** Returns whether a source can be decoded, without an output. */
function isValid(source) {
    loadDecoder(0, 0);
    let index = 0;
    do {
        if (decodeChunk(source, index) < 0) return false;
        index += TEXT_CHUNK;
    } while (index < source.length);
    return isComplete();
}

/** Copies the chunk at an index into `text`, and returns its length. */
function copyChunk({ value, length: total }, index) {
    const length = Math.min(total - index, TEXT_CHUNK);
    if (typeof value !== 'string') {
        copyBytes(length < total ? value.subarray(index, index + length) : value, length, text);
    } else if (length > MAX_LOOP_LENGTH || !copyAscii(value, index, length)) {
        // No character has fewer bytes in UTF-8 than code units, so the first `length` bytes have an invalid character
        // if these units have. One unit more is encoded, so that no surrogate pair is split.
        textEncoder.encodeInto(value.slice(index, index + length + 1), text);
    }
    return length;
}

/** Copies code units into `text`, and returns whether all are ASCII. */
function copyAscii(string, start, length) {
    let allBits = 0;
    for (let index = 0; index < length; index++) {
        const unit = string.charCodeAt(start + index);
        text[index] = unit;
        allBits |= unit;
    }
    return allBits < 128;
}

/** Returns the first characters of `text`. */
function textAsString(length) {
    if (textBuffer) return textBuffer.toString('latin1', 0, length);
    if (length > MAX_LOOP_LENGTH) return textDecoder.decode(text.subarray(0, length));
    const units = new Array(length);
    for (let index = 0; index < length; index++) units[index] = text[index];
    return String.fromCharCode.apply(null, units);
}

/** Returns the text and its present length: another thread may let the buffer of an array grow. */
const sourceOf = (input) => (
    typeof input === 'string' ? { value: input, length: input.length } : bytesIn(input, 'not text or bytes')
);

/** Returns the bytes of a buffer or of a view and their number, or throws a TypeError with the message. */
function bytesIn(value, message) {
    const type = typeOf.call(value);
    const length = type === 'Uint8Array' ? lengthOf.call(value) : Infinity;
    // Copying throws if the array's buffer is detached or too short.
    if (length <= BYTES_CHUNK) return { value, length };
    try {
        if (type) typedArrayPrototype.keys.call(value); // Throws if the array's buffer is detached or too short.
        const view = ArrayBuffer.isView(value) ? value : new DataView(value);
        const get = (name) => Reflect.get(type ? typedArrayPrototype : DataView.prototype, name, view);
        const array = new Uint8Array(get('buffer'), get('byteOffset'), get('byteLength'));
        return { value: array, length: array.length };
    } catch (cause) {
        const hint = typeof value === 'object' ? ' (or the buffer is detached or too short)' : '';
        throw new TypeError(message + hint, { cause });
    }
}

/** Returns the error that the module stored, or for a whole text an error of its length, which takes precedence. */
function errorOf(source, targetLength) {
    const [kind, byte, index] = errorWords;
    if (source !== undefined) {
        const { value } = source;
        const isString = typeof value === 'string';
        const length = isString ? utf8Length(value) : source.length;
        const start = isString ? value : String.fromCharCode(value[0], value[1]);
        const digitCount = /^0x/i.test(start) ? length - 2 : length;
        if (length % 2 === 1) return new HexError(ODD_LENGTH);
        if (targetLength !== undefined && digitCount !== 2 * targetLength) return new HexError(INVALID_LENGTH);
    }
    return new HexError(kind, kind === INVALID_CHARACTER ? { index, byte } : undefined);
}

/** Returns how many bytes a string has in UTF-8. */
function utf8Length(string) {
    let length = 0;
    for (let index = 0; index < string.length; ) {
        const { read, written } = textEncoder.encodeInto(string.slice(index), text);
        index += read;
        length += written;
    }
    return length;
}

const ESCAPES = { '\0': '0', '\t': 't', '\n': 'n', '\r': 'r', "'": "'", '\\': '\\' };

/** Returns the message for an invalid character. */
function describe({ byte, index }) {
    const character = String.fromCharCode(byte);
    const escape = `\\${ESCAPES[character] ?? `u{${byte.toString(16)}}`}`;
    const shown = /[\0-\x1f'\\\x7f-\xa0\xad]/.test(character) ? escape : character;
    return `invalid character '${shown}' at position ${index}`;
}
