// The words taken apart, held against the sheet's records, the answer's bytes and the judge's answers to plain numbers.

import assert from 'node:assert/strict';
import { test } from 'node:test';
import { answersOf, askedOf } from '../src/answers.js';
import { codeName, NAMES } from '../src/fields.js';
import { bytesOf, recordsOf } from '../src/records.js';
import { readText } from '../src/text.js';
import { anySheet, generator } from './generate.mjs';
import { judge } from './judge.mjs';
import { sheetNames, sheetOf } from './sheets.mjs';

const WORDS = `answer 1: refused, 1: an encounter field is outside its limits
    record 1 at byte 0, encounter: r 12000001, h 0, c 0, v 0, vi 0
answer 2: conflict on both sides: lower at 0 s, upper at 24 3/8 s
    lower: at the start; the intruder is 300.0 ft above, where only more than 100 ft below is clear
    upper: at the time limit; the intruder is 29.7 ft above, closer than 100 ft
    2 1/2 s is a conflict time on the lower side and not on the upper; the judge shows 0 s on the lower side and 24 3/8 s on the upper
    record 3 at byte 42, coded question: code 12 CL1500, limit 30 s
    asked of the encounter in record 2: r 0, h 6000, c 0, v 0, vi 0
    warning: the puck in record 2 was refused, so the one before it holds
    warning: the delay acceleration in record 2 was refused, so the one before it holds
records 3, answers 2
`;

test('each part of an answer', () => {
    const { refused, answers, records } = answersOf(WORDS);
    assert.equal(refused, null);
    assert.equal(records, 3);
    assert.deepEqual(answers, [
        {
            number: 1,
            text: 'refused, 1: an encounter field is outside its limits',
            refusal: 1,
            meaning: [],
            named: null,
            record: 1,
            byte: 0,
            given: 'encounter: r 12000001, h 0, c 0, v 0, vi 0',
            asked: null,
            warnings: [],
        },
        {
            number: 2,
            text: 'conflict on both sides: lower at 0 s, upper at 24 3/8 s',
            refusal: null,
            meaning: [
                'lower: at the start; the intruder is 300.0 ft above, where only more than 100 ft below is clear',
                'upper: at the time limit; the intruder is 29.7 ft above, closer than 100 ft',
            ],
            named:
                '2 1/2 s is a conflict time on the lower side and not on the upper; ' +
                'the judge shows 0 s on the lower side and 24 3/8 s on the upper',
            record: 3,
            byte: 42,
            given: 'coded question: code 12 CL1500, limit 30 s',
            asked: { record: 2, text: 'r 0, h 6000, c 0, v 0, vi 0' },
            warnings: [
                'the puck in record 2 was refused, so the one before it holds',
                'the delay acceleration in record 2 was refused, so the one before it holds',
            ],
        },
    ]);
});

test('a sheet that is refused whole', () => {
    const refusedOf = (bytes) => answersOf(judge.words(bytes).text).refused;
    assert.deepEqual(refusedOf(new Uint8Array(8193)), {
        text: 'refused, 10: it is longer than 8192 bytes',
        refusal: 10,
        record: null,
        byte: null,
    });
    assert.deepEqual(refusedOf(Uint8Array.of(4, 12, 255, 255, 6)), {
        text: 'refused, 11: a record has an unknown kind',
        refusal: 11,
        record: 2,
        byte: 4,
    });
    assert.deepEqual(refusedOf(Uint8Array.of(4, 12, 255)), { text: 'refused, 12: a record is cut short', refusal: 12, record: 1, byte: 0 });
});

test('an empty sheet', () => {
    assert.deepEqual(answersOf(judge.words(new Uint8Array(0)).text), { refused: null, answers: [], records: 0 });
});

// The answer's bytes, each record as words would begin: the independent way to what the words must say.
const SIDES = { 1: 'clear on the lower side', 2: 'clear on the upper side', 3: 'clear on both sides' };
const SIZES = { 65: 2, 66: 13, 67: 25, 68: 2 };

function timeAt(view, at) {
    const [seconds, remainder, divisor] = [0, 4, 8].map((offset) => view.getUint32(at + offset));
    return remainder === 0 ? `${seconds} s` : `${seconds} ${remainder}/${divisor} s`;
}

function beginningAt(view, at) {
    switch (view.getUint8(at)) {
        case 65:
            return SIDES[view.getUint8(at + 1)];
        case 66:
            return `conflict at ${timeAt(view, at + 1)}`;
        case 67:
            return `conflict on both sides: lower at ${timeAt(view, at + 1)}, upper at ${timeAt(view, at + 13)}`;
        default:
            return `refused, ${view.getUint8(at + 1)}:`;
    }
}

function beginningsOf(answer) {
    const view = new DataView(answer.buffer, answer.byteOffset, answer.byteLength);
    const beginnings = [];
    for (let at = 0; at < answer.length; at += SIZES[view.getUint8(at)]) {
        beginnings.push(beginningAt(view, at));
    }
    return beginnings;
}

function holdWhole(bytes, name) {
    const { refused, answers, records } = answersOf(judge.words(bytes).text);
    const { refusal, answer } = judge.answer(bytes);
    assert.equal(refused?.refusal ?? 0, refusal, name);
    if (refused) {
        return;
    }
    const given = recordsOf(bytes);
    assert.equal(records, given.length, name);
    assert.deepEqual(answers.map(({ number }) => number), answers.map((_, index) => index + 1), name);
    assert.deepEqual(answers.map(({ byte }) => byte), answers.map(({ record }) => given[record - 1].at), name);
    const beginnings = answers.map(({ text, refusal: why }) => (why === null ? text : text.slice(0, text.indexOf(':') + 1)));
    assert.deepEqual(beginnings, beginningsOf(answer), name);
}

// What a question was asked of, by the judge's answer to these plain numbers.
function holdAsked(bytes, name) {
    const { refused, answers } = answersOf(judge.words(bytes).text);
    if (refused) {
        return;
    }
    const records = recordsOf(bytes);
    const questions = records.flatMap(({ kind }, index) => (kind === 'coded' || kind === 'free' ? [index + 1] : []));
    const asked = askedOf(records, answers, judge);
    assert.deepEqual(asked.map(({ record }) => record), questions, name);
    for (const { record, answer, q } of asked) {
        assert.equal(answer.record, record, name);
        if (q === null) {
            assert.ok([7, 8, 9, 17].includes(answer.refusal), name);
            continue;
        }
        const { kind, number, lower, upper } = judge.plain(q);
        const shown = ({ seconds, remainder, divisor }) => (remainder === 0 ? `${seconds} s` : `${seconds} ${remainder}/${divisor} s`);
        const text = {
            65: SIDES[number],
            66: `conflict at ${shown(lower)}`,
            67: `conflict on both sides: lower at ${shown(lower)}, upper at ${shown(upper)}`,
            68: `refused, ${number}:`,
        }[kind];
        assert.ok(answer.text.startsWith(text), `${name}: ${answer.text}, not ${text}`);
    }
}

test('the sheets of the repository', () => {
    for (const name of sheetNames()) {
        holdWhole(sheetOf(name), name);
        holdAsked(sheetOf(name), name);
    }
});

test('generated sheets', () => {
    const random = generator(4);
    for (let count = 0; count < 3000; count += 1) {
        const bytes = anySheet(random);
        holdWhole(bytes, `generated ${count}`);
        holdAsked(bytes, `generated ${count}`);
    }
});

test('an instant that is named', () => {
    const { bytes } = readText('encounter ahead 0 ft, height 0 ft, closing 0 ft/s, own 0 ft/min, intruder 0 ft/min\nCL1500\nCL1500 limit 2 s\n');
    const named = answersOf(judge.words(bytes, '2.5').text).answers.map((answer) => answer.named);
    assert.deepEqual(named, ['2 1/2 s is a conflict time; the judge shows 0 s', '2 1/2 s is outside the window']);
});

test('the names of codes are those of the words', () => {
    const codes = Array.from({ length: 32 }, (_, row) => Array.from({ length: 8 }, (_, column) => row * 8 + column)).flat();
    const bytes = bytesOf(codes.map((code) => ({ kind: 'coded', values: { code, limit: 30 } })));
    const { answers } = answersOf(judge.words(bytes).text);
    assert.equal(answers.length, 256);
    assert.equal(NAMES.length, 18);
    for (const [index, { given }] of answers.entries()) {
        const name = codeName(codes[index]);
        const said = name.startsWith('code ') ? name : `code ${codes[index]} ${name}`;
        assert.equal(given, `coded question: ${said}, limit 30 s`);
    }
});
