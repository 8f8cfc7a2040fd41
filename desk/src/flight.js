// A candidate's flight: its text, what the judge says of it, and its path to draw.

import { readValue } from './units.js';

const BAD_FLIGHT = 'no stretch or more than 64, a stretch outside its limits (33 1/3 ft/s2 up or down, 1 s to 600 s), or more than 600 s in all';

function readStretch(text) {
    const found = /^(.*\S)\s+for\s+(\S.*)$/i.exec(text);
    if (!found) {
        return { faults: [`"${text}" is no stretch, such as 8.05 ft/s2 for 5 s`], notes: [] };
    }
    const values = [readValue(found[1], 'acceleration'), readValue(found[2], 'time')];
    return {
        stretch: values.map(({ value }) => value),
        faults: values.flatMap(({ fault }) => fault ?? []),
        notes: values.flatMap(({ note }) => note ?? []),
    };
}

// "8.05 ft/s2 for 5 s, 0 ft/s2 for 20 s": pairs of an upward acceleration and seconds, or what can't be read.
export function readFlight(text) {
    const read = text
        .split(/,\s+|;|\n/)
        .map((part) => part.trim().replace(/,$/, ''))
        .filter((part) => part !== '')
        .map(readStretch);
    return {
        stretches: read.map(({ stretch }) => stretch),
        faults: read.flatMap(({ faults }) => faults),
        notes: read.flatMap(({ notes }) => notes),
    };
}

// What the judge says of a flight, in sentences.
export function flownText({ refusal, obeys, inside, second }) {
    if (refusal === 18) {
        return `Refused, 18: ${BAD_FLIGHT}.`;
    }
    if (refusal !== 0) {
        return `Refused, ${refusal}: the question is refused.`;
    }
    const entered = inside ? `Inside the puck for the first time in second ${second}, at ${second} s or later but before ${second + 1} s.` : 'Never inside the puck up to its end.';
    return `${obeys ? 'Obeys' : 'Does not obey'} the advice. ${entered}`;
}

// Its path to draw, in the view that moves with the intruder: where it is and how fast, from stretch to stretch.
export function flightPath(stretches, { v, vi }) {
    let [start, height, speed] = [0, 0, v - vi];
    const path = stretches.map(([acceleration, seconds]) => {
        const [from, base, first] = [start, height, speed];
        start += seconds;
        height += first * seconds + (acceleration * seconds * seconds) / 2;
        speed += acceleration * seconds;
        return {
            from,
            height: (t) => base + first * (t - from) + (acceleration * (t - from) ** 2) / 2,
            slope: (t) => first + acceleration * (t - from),
            turn: acceleration === 0 ? null : from - first / acceleration,
        };
    });
    return { path, end: start };
}
