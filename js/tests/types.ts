// Compiled, and not run.
import { bytesToHex, check, decode, decodeInto, decoder, decoderStream, encode, encoderStream } from 'const-hex-proved';
import { HexError, type HexString, hexToBytes, isHex, wipe } from 'const-hex-proved';

const text: `0x${string}` = encode(new Uint8Array(2), { prefix: true });
const plain: string = encode(new Uint8Array(2), null);
const bytes: Uint8Array = decode(text);
// From TypeScript 5.9 on, these take an array only if its buffer is known not to be shared.
crypto.subtle.digest('SHA-256', decode(text));
crypto.subtle.importKey('raw', hexToBytes(text), 'AES-GCM', false, ['encrypt']);
new Blob([decoder().push('6b')]);
const digest: Promise<string> = crypto.subtle.digest('SHA-256', bytes).then(bytesToHex);
class Mine extends Uint8Array {}
const mine: Mine = decodeInto(text, new Mine(2));
const stream: ReadableStream<Uint8Array> | undefined = new Response('').body?.pipeThrough(decoderStream());
const nothing: void[] = [check(text), wipe(), decoder().end()];
const indexOf = (error: unknown) => error instanceof HexError && error.kind === 'OddLength' && error.index;
const isValid: boolean = isHex(new DataView(bytes.buffer));
const narrowed = (line: string): HexString | number => (isHex(line) ? line : line.length);
const prefixed = (line: `0x${string}`): (`0x${string}` & HexString) | null => (isHex(line) ? line : null);
// @ts-expect-error: a string that `isHex` has not checked
const unseen: HexString = plain;
// @ts-expect-error: not a text
decode(5);
// @ts-expect-error: no such option
encode(bytes, { lower: true });
// @ts-expect-error: a private constructor
new HexError();
const encoded: ReadableStream<string> = new Blob([]).stream().pipeThrough(encoderStream({ upper: true }));
export { digest, encoded, indexOf, isValid, mine, narrowed, nothing, plain, prefixed, stream, unseen };
