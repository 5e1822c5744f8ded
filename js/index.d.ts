/**
 * Bytes: a Uint8Array, another view of a buffer, or a whole buffer. A function that takes bytes or text throws
 * a TypeError if the argument has another type, or if its buffer is detached or has become too short. Where the
 * engine or a policy does not let the module run, it throws an Error that names the reason.
 */
export type Bytes = ArrayBufferView | ArrayBufferLike;
/** Text: a string, or its bytes. It may begin with `0x` or `0X`, and may mix uppercase and lowercase digits. */
export type Text = string | Bytes;
/** A new array over a buffer that is not shared. From TypeScript 5.7 on this is `Uint8Array<ArrayBuffer>`. */
export type NewBytes = ReturnType<typeof Uint8Array.of>;

/**
 * Returns two digits for each byte: `encode(Uint8Array.of(107, 105), { prefix: true })` returns `'0x6b69'`.
 * With `upper` the digits are uppercase.
 *
 * @throws {RangeError} if the text is longer than a string can be
 */
export function encode(bytes: Bytes, options: { prefix: true; upper?: boolean }): `0x${string}`;
export function encode(bytes: Bytes, options?: EncodeOptions | null): string;

/** Options count only as properties of the object itself, not of its prototype. */
export interface EncodeOptions {
    /** Whether the text begins with `0x`. */
    prefix?: boolean;
    /** Whether the digits are uppercase. */
    upper?: boolean;
}

/**
 * Returns the bytes that the text decodes to: `decode('0x6b69')` returns 107 and 105.
 *
 * @throws {HexError} if the length is odd, or a character is not a digit
 * @throws {RangeError} if memory cannot be allocated
 */
export function decode(text: Text): NewBytes;

/**
 * Fills `target` with the bytes that the text decodes to, and returns it. After an error it is unchanged.
 *
 * @throws {HexError} if the length is odd, the text does not decode to exactly `target.length` bytes, or a
 *     character is not a digit
 * @throws {RangeError} if memory cannot be allocated. Text of up to 32,768 characters needs none
 */
export function decodeInto<Target extends Uint8Array>(text: Text, target: Target): Target;

/**
 * Returns a decoder for text that arrives in chunks, split anywhere. It accepts a prefix only at the start of
 * the whole text, while `decode` would accept one at the start of every chunk.
 *
 *     const { push, end } = decoder();
 *     push('0x6'); // Uint8Array []
 *     push('b69'); // Uint8Array [107, 105]
 *     end();
 */
export function decoder(): Decoder;

export interface Decoder {
    /**
     * Decodes the next chunk, and returns the new bytes. Throws a HexError if a character is not a digit,
     * with its position in the whole text, and again in each later call. After any other error the chunk may
     * be pushed again.
     */
    push(chunk: Text): NewBytes;
    /** Throws a HexError if a digit is left over, or again the HexError that `push` threw. */
    end(): void;
}

/**
 * Returns a stream that encodes chunks of bytes: `blob.stream().pipeThrough(encoderStream({ prefix: true }))`.
 * The type `TransformStream` is in TypeScript's library `dom`, and in `@types/node`.
 */
export function encoderStream(options?: EncodeOptions | null): TransformStream<Bytes, string>;

/** Returns a stream that decodes chunks of text: `response.body.pipeThrough(decoderStream())`. */
export function decoderStream(): TransformStream<Text, NewBytes>;

/** Throws what `decode` would throw for the text, except for a RangeError. Returns nothing. */
export function check(text: Text): void;

declare const decodes: unique symbol;
/** A string that `decode` accepts: `isHex` narrows a string to this type. */
export type HexString = string & { readonly [decodes]: true };

/** Returns whether `decode` accepts the text. Throws a TypeError for anything but text or bytes. */
export function isHex<Given extends string>(text: Given): text is Given & HexString;
export function isHex(text: Text): boolean;

/** Clears what earlier calls left in the module's memory: at most the last 48 KiB of inputs and outputs. */
export function wipe(): void;

/** `encode` and `decode`. Other packages' functions of these names treat `0x` and odd lengths differently. */
export { encode as bytesToHex, decode as hexToBytes };

/** The error for text that cannot be decoded. */
export class HexError extends SyntaxError {
    readonly name: 'HexError';
    readonly kind: 'OddLength' | 'InvalidStringLength' | 'InvalidHexCharacter';
    /** For `'InvalidHexCharacter'`, its position, counting the prefix. A greater one is 4294967295. */
    readonly index?: number;
    /** For `'InvalidHexCharacter'`, the first byte of the character in UTF-8. */
    readonly byte?: number;
    private constructor();
}
