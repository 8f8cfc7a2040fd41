// The samples: their binary sheets are up to date, and their answers are those that stand in their comments.

import assert from 'node:assert/strict';
import { execFileSync } from 'node:child_process';
import fs from 'node:fs';
import { test } from 'node:test';
import { fileURLToPath } from 'node:url';
import { answersOf } from '../src/answers.js';
import { readText } from '../src/text.js';
import { judge } from './judge.mjs';

const FOLDER = new URL('../samples/', import.meta.url);
const NAMES = ['article', 'lesson', 'm1-m15'];

const textOf = (name) => fs.readFileSync(new URL(`${name}.txt`, FOLDER), 'utf8');

// "# M1: clear on the lower side", and below it what that means and the warnings, five spaces in.
function expectedOf(text) {
    const expected = [];
    for (const line of text.split('\n')) {
        const first = /^# ([^:#]+): ((?:clear|conflict|refused).*)$/.exec(line);
        if (first) {
            expected.push({ name: first[1], text: first[2], below: [] });
        } else if (line.startsWith('#     ')) {
            expected.at(-1).below.push(line.slice(6));
        }
    }
    return expected;
}

const answersIn = (name) => answersOf(judge.words(readText(textOf(name)).bytes).text).answers;

// A clear answer with a window and without, the sides of a two-sided one, the moments of each side, how near the intruder is, and a warning of each setting.
const KINDS = [
    /^the intruder never comes within 500 ft$/m,
    /^the intruder does not come within 500 ft up to the limit$/m,
    /^the intruder is more than 100 ft below whenever it is within 500 ft$/m,
    /^the intruder is more than 100 ft above whenever it is within 500 ft$/m,
    /^the intruder is more than 100 ft below whenever it is within 500 ft, up to the limit$/m,
    /^the intruder is more than 100 ft below the lower path whenever it is within 500 ft$/m,
    /^the intruder is more than 100 ft above the upper path whenever it is within 500 ft$/m,
    /^clear on both sides$/m,
    /^at the start; /m,
    /^as the intruder comes within 500 ft; /m,
    /^as the delay ends; /m,
    /^as the ownship's vertical speed comes to the intruder's; /m,
    /^at the time limit; /m,
    /^at the last instant within 500 ft; /m,
    /^the first whole second in conflict; /m,
    /^lower: at the start; /m,
    /^lower: as the intruder comes within 500 ft; /m,
    /^upper: at the start; /m,
    /^upper: as the intruder comes within 500 ft; /m,
    /^upper: at the time limit; /m,
    /^upper: at the last instant within 500 ft; /m,
    /^upper: the first whole second in conflict; /m,
    /, closer than 100 ft$/m,
    /, on the puck's edge$/m,
    /, where only more than 100 ft above is clear$/m,
    /, where only more than 100 ft below is clear$/m,
    / level with the ownship, /m,
    /^warning: the encounter in record \d+ was refused, /m,
    /^warning: the puck in record \d+ was refused, /m,
    /^warning: the delay acceleration in record \d+ was refused, /m,
];

test('the binary sheets are up to date', () => {
    execFileSync(process.execPath, [fileURLToPath(new URL('make.mjs', FOLDER)), '--check']);
    const texts = fs.readdirSync(FOLDER).filter((name) => name.endsWith('.txt'));
    assert.deepEqual(texts, NAMES.map((name) => `${name}.txt`));
});

for (const name of NAMES) {
    test(`the answers to ${name} are those that it tells`, () => {
        const expected = expectedOf(textOf(name));
        const said = answersIn(name).map(({ text, meaning, warnings }) => ({
            text,
            below: [...meaning, ...warnings.map((warning) => `warning: ${warning}`)],
        }));
        assert.deepEqual(said, expected.map(({ text, below }) => ({ text, below })));
    });
}

test('M1 to M15 are all there', () => {
    const names = expectedOf(textOf('m1-m15')).map(({ name }) => name);
    assert.deepEqual(names, Array.from({ length: 15 }, (_, index) => `M${index + 1}`));
});

test('the lesson numbers its answers and has one of each kind', () => {
    const expected = expectedOf(textOf('lesson'));
    assert.deepEqual(expected.map(({ name }) => name), expected.map((_, index) => `Answer ${index + 1}`));
    const { lines } = readText(textOf('lesson'));
    const answers = answersIn('lesson');
    const refusals = answers.flatMap(({ refusal }) => refusal ?? []);
    assert.deepEqual([...new Set(refusals)].sort((a, b) => a - b), [1, 2, 3, 4, 5, 6, 7, 8, 9, 14, 15, 16, 17]);
    const encounters = lines.filter(({ record }) => record?.kind === 'encounter').length;
    assert.equal(encounters - refusals.filter((refusal) => refusal === 1).length, 12);
    const said = expected.flatMap(({ text, below }) => [text, ...below]).join('\n');
    for (const kind of KINDS) {
        assert.match(said, kind);
    }
});
