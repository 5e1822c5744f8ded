// Prints the nanoseconds of a call of the package for JavaScript, and of Node's own, by the number of bytes: the least
// of rounds in which all calls take turns. From the top: node js/build.js && node bench/speed.mjs
import { decode, encode } from '../js/dist/const_hex.js';

// Reading a character lets the engine copy a string that it has only linked together.
const CALLS = {
    "buffer.toString('hex')": ({ bytes }) => bytes.toString('hex').charCodeAt(0),
    encode: ({ bytes }) => encode(bytes).charCodeAt(0),
    "Buffer.from(text, 'hex')": ({ text }) => Buffer.from(text, 'hex')[0],
    decode: ({ text }) => decode(text)[0],
};
const [ROUNDS, CALLS_PER_ROUND] = [400, 1_000];

let sink = 0;

function timeOf(call, input) {
    const start = process.hrtime.bigint();
    for (let count = 0; count < CALLS_PER_ROUND; count++) sink ^= call(input);
    return Number(process.hrtime.bigint() - start) / CALLS_PER_ROUND;
}

const rows = {};
for (const size of [20, 32, 256, 4096]) {
    const bytes = Buffer.from(Array.from({ length: size }, (_, index) => (index * index * 7 + (index >> 3)) & 255));
    const input = { bytes, text: bytes.toString('hex') };
    const least = Object.fromEntries(Object.keys(CALLS).map((name) => [name, Infinity]));
    for (let round = 0; round < ROUNDS; round++) {
        for (const name in CALLS) least[name] = Math.min(least[name], timeOf(CALLS[name], input));
    }
    rows[size] = least;
}
console.table(rows);
// So that no call is left out as one without an effect.
if (sink === -1) console.log();
