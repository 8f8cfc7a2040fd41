// Byte strings to try: records with values at the edges, in any order, perhaps cut or behind a byte that is no kind.

import { bytesOf } from '../src/records.js';

// A generator of the same numbers for the same seed (xorshift).
export function generator(seed) {
    let state = BigInt.asUintN(64, BigInt(seed) * 0x9e3779b97f4a7c15n + 1n);
    return (count) => {
        state ^= BigInt.asUintN(64, state << 13n);
        state ^= state >> 7n;
        state ^= BigInt.asUintN(64, state << 17n);
        return Number((state >> 11n) % BigInt(count));
    };
}

const oneOf = (random, values) => values[random(values.length)];

const EDGES = [
    0, 1, -1, 20, 60, 483, 644, 2000, 2001, 10000, 10001, -10000, -10001, 12000, 12001, 60000, 60001, 150000, 150001,
    480000, 480001, -480000, -480001, 12000000, -12000001, 2 ** 31 - 1, -(2 ** 31),
];
const TIMES = [0, 1, 30, 60, 61, 600, 601, 65534, 65535];

const four = (random) => (random(3) === 0 ? random(2 ** 32) - 2 ** 31 : oneOf(random, EDGES));
const two = (random) => (random(4) === 0 ? random(2 ** 16) : oneOf(random, TIMES));
const byte = (random) => (random(3) === 0 ? random(256) : random(20));

const VALUES = {
    encounter: (random) => ({ r: four(random), h: four(random), c: four(random), v: four(random), vi: four(random) }),
    puck: (random) => ({ p: four(random), k: four(random) }),
    'delay acceleration': (random) => ({ e: four(random) }),
    coded: (random) => ({ code: byte(random), limit: two(random) }),
    free: (random) => ({
        sides: oneOf(random, [1, 1, 2, 2, byte(random)]),
        sense: oneOf(random, [0, 1, byte(random)]),
        target: four(random),
        upperTarget: oneOf(random, [0, four(random)]),
        strength: four(random),
        upperStrength: oneOf(random, [0, four(random)]),
        delay: two(random),
        limit: two(random),
    }),
};

function anyRecord(random) {
    const kind = oneOf(random, Object.keys(VALUES));
    return { kind, values: VALUES[kind](random) };
}

const anyBytes = (random, length) => Uint8Array.from({ length }, () => random(256));

// Whole sheets, most of them.
export function anySheet(random) {
    const bytes = bytesOf(Array.from({ length: random(12) }, () => anyRecord(random)));
    switch (random(6)) {
        case 0:
            return bytes.slice(0, random(bytes.length + 1));
        case 1:
            return bytesOf([bytes, anyBytes(random, random(80))].map((part) => ({ kind: 'bytes', values: { bytes: part } })));
        default:
            return bytes;
    }
}
