// A sheet judged: each answer with its line, its settings and its lines in the judge's words; and a question by itself is answered as in its sheet.

import assert from 'node:assert/strict';
import fs from 'node:fs';
import test from 'node:test';

import { answersOf } from '../src/answers.js';
import { judgedSheet, linesOf, sheetOfOne } from '../src/sheet.js';
import { readText, writeText } from '../src/text.js';
import { generator, anySheet } from './generate.mjs';
import { judge } from './judge.mjs';

const folder = new URL('../samples/', import.meta.url);
const samples = fs.readdirSync(folder).filter((name) => name.endsWith('.txt')).map((name) => fs.readFileSync(new URL(name, folder), 'utf8'));
const random = generator(11);
const texts = [...samples, ...Array.from({ length: 400 }, () => writeText(anySheet(random)))];

test('a question by itself is answered as in its sheet', () => {
    let asked = 0;
    for (const text of texts) {
        for (const entry of judgedSheet(judge, text).entries.filter(({ q }) => q)) {
            const { p, k, e } = entry.q;
            assert.deepEqual(entry.settings, { p, k, e });
            const [alone] = answersOf(judge.words(sheetOfOne(entry)).text).answers;
            assert.equal(alone.text, entry.answer.text);
            assert.deepEqual(alone.meaning, entry.answer.meaning);
            asked += 1;
        }
    }
    assert.ok(asked > 40, `${asked} questions`);
});

test('each answer has the line of its record', () => {
    for (const text of samples) {
        const lines = text.split('\n');
        for (const { line, record } of judgedSheet(judge, text).entries) {
            assert.deepEqual(readText(lines[line - 1]).lines[0].record.values, record.values);
        }
    }
});

test('a line of bytes may hold several records', () => {
    const { entries } = judgedSheet(judge, 'CL1500\nbytes 04 0B 00 1E 04 0C 00 1E\nDNC\n');
    assert.deepEqual(entries.map(({ number, line, title }) => [number, line, title]), [[1, 1, 'CL1500'], [2, 2, 'DES1500 limit 30 s'], [3, 2, 'CL1500 limit 30 s'], [4, 3, 'DNC']]);
});

test('the lines of an answer are the very lines of the words', () => {
    for (const text of texts.slice(0, 60)) {
        const { words, entries } = judgedSheet(judge, text);
        const all = entries.flatMap(({ number }) => linesOf(words, number));
        assert.deepEqual(all, words.split('\n').filter((line) => /^(answer| {4})/.test(line) && entries.length > 0));
    }
});
