// Which field of a refused record is bad: in its words for each refusal, and found for every record that the judge refuses.

import assert from 'node:assert/strict';
import { test } from 'node:test';
import { answersOf } from '../src/answers.js';
import { faultsOf } from '../src/faults.js';
import { recordsOf } from '../src/records.js';
import { readText } from '../src/text.js';
import { anySheet, generator } from './generate.mjs';
import { judge } from './judge.mjs';
import { sheetNames, sheetOf } from './sheets.mjs';

const encounter = (fields = {}) => {
    const given = { ahead: '5000 ft', height: '0 ft', closing: '100 ft/s', own: '0 ft/min', intruder: '0 ft/min', ...fields };
    return `encounter ${Object.entries(given).map(([word, value]) => `${word} ${value}`).join(', ')}`;
};
const free = (fields) => `free ${fields}`;

// A line, the refusal that the judge answers, and the faults; where a code asks of the encounter, that is the line before.
const CASES = [
    [encounter({ ahead: '200000 1/60 ft' }), 1, ['ahead', 'ahead 200000 1/60 ft is outside its limits, -200000 ft to 200000 ft']],
    [encounter({ height: '9000 ft' }), 1, ['height', 'height 9000 ft is outside its limits, -8000 ft to 8000 ft']],
    [encounter({ closing: '-1 ft/s' }), 1, ['closing', 'closing -1 ft/s is outside its limits, 0 ft/s to 2500 ft/s']],
    [encounter({ own: '10001 ft/min' }), 1, ['own', 'own 10001 ft/min is outside its limits, -10000 ft/min to 10000 ft/min']],
    [
        encounter({ height: '-8001 ft', intruder: '-10001 ft/min' }),
        1,
        ['height', 'height -8001 ft is outside its limits, -8000 ft to 8000 ft'],
        ['intruder', 'intruder -10001 ft/min is outside its limits, -10000 ft/min to 10000 ft/min'],
    ],
    [
        'puck radius 1200 ft, half height 0 ft',
        2,
        ['radius', 'radius 1200 ft is outside its limits, 0 ft to 1000 ft'],
        ['half height', 'half height 0 ft is outside its limits, 1/60 ft to 200 ft'],
    ],
    ['delay acceleration 40 ft/s2', 3, ['delay acceleration', 'delay acceleration 40 ft/s2 is outside its limits, 0 ft/s2 to 33 1/3 ft/s2']],
    [
        free('sides 3 sense 9, target 0 ft/min, upper target 0 ft/min, strength 1 ft/s2, upper strength 0 ft/s2'),
        4,
        ['sides', 'sides 3 is neither one-sided (1) nor two-sided (2)'],
        ['sense', 'sense 9 is neither descend (0) nor climb (1)'],
    ],
    [
        free('two-sided sense 9, target 500 ft/min, upper target 0 ft/min, strength 1 ft/s2, upper strength 1 ft/s2'),
        4,
        ['sense', 'sense 9 is neither descend (0) nor climb (1)'],
    ],
    [free('one-sided climb, target 12000 ft/min, strength 1 ft/s2'), 5, ['target', 'target 12000 ft/min is outside its limits, -10000 ft/min to 10000 ft/min']],
    [
        free('two-sided climb, target 0 ft/min, upper target 12000 ft/min, strength 1 ft/s2, upper strength 1 ft/s2'),
        5,
        ['upper target', 'upper target 12000 ft/min is outside its limits, -10000 ft/min to 10000 ft/min'],
    ],
    [
        free('one-sided climb, target 0 ft/min, strength 0 ft/s2, delay 61 s, limit 601 s'),
        14,
        ['strength', 'strength 0 ft/s2 is outside its limits, 1/60 ft/s2 to 33 1/3 ft/s2'],
        ['delay', 'delay 61 s is outside its limits, 0 s to 60 s'],
        ['limit', 'limit 601 s is outside its limits, 0 s to 600 s, or no limit'],
    ],
    [
        free('two-sided climb, target 0 ft/min, upper target 0 ft/min, strength 1 ft/s2, upper strength 40 ft/s2'),
        14,
        ['upper strength', 'upper strength 40 ft/s2 is outside its limits, 1/60 ft/s2 to 33 1/3 ft/s2'],
    ],
    [
        free('two-sided climb, target 0 ft/min, upper target 0 ft/min, strength 16.1 ft/s2, upper strength 8.05 ft/s2'),
        14,
        ['upper strength', 'upper strength 8.05 ft/s2 is below strength 16.1 ft/s2'],
    ],
    [
        free('two-sided descend, target -1500 ft/min, upper target -500 ft/min, strength 8.05 ft/s2, upper strength 8.05 ft/s2'),
        15,
        ['upper target', 'upper target -500 ft/min falls short of target -1500 ft/min in the sense descend'],
    ],
    [
        free('one-sided descend, target -1500 ft/min, upper target -2500 ft/min, strength 8.05 ft/s2, upper strength 4 ft/s2'),
        16,
        ['upper target', 'upper target -2500 ft/min is not 0, and the question is one-sided'],
        ['upper strength', 'upper strength 4 ft/s2 is not 0, and the question is one-sided'],
    ],
    [free('one-sided climb, target 0 ft/min, strength 1 ft/s2, limit 601 s'), 6, ['limit', 'limit 601 s is outside its limits, 0 s to 600 s, or no limit']],
    ['CL1500 limit 900 s', 6, ['limit', 'limit 900 s is outside its limits, 0 s to 600 s, or no limit']],
    ['code 200 limit 900 s', 8, ['code', 'code 200 names no advisory: codes are 1 to 18'], ['limit', 'limit 900 s is outside its limits, 0 s to 600 s, or no limit']],
    ['COC', 9, ['code', 'COC, code 17, has a name and is not judged']],
    ['MCL', 17, ['code', 'MCL is not issued to an ownship going down, own -100 ft/min'], '-100 ft/min'],
    ['MDES', 17, ['code', 'MDES is not issued to an ownship going up, own 100 ft/min'], '100 ft/min'],
];

test('each refused field in its words', () => {
    for (const [line, refusal, ...rest] of CASES) {
        const own = typeof rest.at(-1) === 'string' ? rest.pop() : '0 ft/min';
        const { bytes } = readText(`${encounter({ own })}\n${line}\n`);
        const [met, record] = recordsOf(bytes);
        const { answers } = answersOf(judge.words(bytes).text);
        assert.deepEqual(answers.map((answer) => answer.refusal), [refusal], line);
        assert.deepEqual(faultsOf(record, judge, met.values), rest.map(([field, text]) => ({ field, text })), line);
    }
});

const FIELDS_OF = {
    1: ['ahead', 'height', 'closing', 'own', 'intruder'],
    2: ['radius', 'half height'],
    3: ['delay acceleration'],
    4: ['sides', 'sense'],
    5: ['target', 'upper target'],
    6: ['delay', 'limit'],
    8: ['code'],
    9: ['code'],
    14: ['strength', 'upper strength'],
    15: ['upper target'],
    16: ['upper target', 'upper strength'],
    17: ['code'],
};

// Of every record of a sheet that is not refused whole: a fault exactly where the judge refuses it, and of a field that the refusal is about.
function holdFaults(bytes, name, seen) {
    const { refused, answers } = answersOf(judge.words(bytes).text);
    if (refused) {
        return;
    }
    const records = recordsOf(bytes);
    const byRecord = new Map(answers.map((answer) => [answer.record, answer]));
    records.forEach((record, index) => {
        const answer = byRecord.get(index + 1);
        const refusal = answer?.refusal ?? 0;
        if (refusal === 7) {
            return;
        }
        const encounterHeld = answer?.asked ? records[answer.asked.record - 1].values : null;
        const fields = faultsOf(record, judge, encounterHeld).map(({ field }) => field);
        const told = refusal === 0 ? fields.length === 0 : fields.some((field) => FIELDS_OF[refusal].includes(field));
        assert.ok(told, `${name}, record ${index + 1}: ${refusal}, ${fields}`);
        seen.add(refusal);
    });
}

test('a field is found for every record that is refused, and none for one that is not', () => {
    const seen = new Set();
    for (const name of sheetNames()) {
        holdFaults(sheetOf(name), name, seen);
    }
    const random = generator(3);
    for (let count = 0; count < 3000; count += 1) {
        holdFaults(anySheet(random), `generated ${count}`, seen);
    }
    assert.deepEqual([...seen].sort((a, b) => a - b), [0, ...Object.keys(FIELDS_OF).map(Number)]);
});
