// A sheet's text, judged: each answer with the record and the line that it is of.

import { FIRST_ACCELERATION, FIRST_PUCK, answersOf, askedOf } from './answers.js';
import { faultsOf } from './faults.js';
import { bytesOf, recordsOf } from './records.js';
import { readText, textOfRecord } from './text.js';

const isQuestion = ({ kind }) => kind === 'coded' || kind === 'free';

function toneOf({ refusal, text }) {
    if (refusal !== null) {
        return 'refused';
    }
    return text.startsWith('clear') ? 'clear' : 'conflict';
}

// Of each record the puck and the delay acceleration that hold there, refused questions' too. An accepted setting has no answer.
function settingsOf(records, answers) {
    const answered = new Set(answers.map(({ record }) => record));
    let settings = { ...FIRST_PUCK, ...FIRST_ACCELERATION };
    return records.map(({ kind, values }, index) => {
        if ((kind === 'puck' || kind === 'delay acceleration') && !answered.has(index + 1)) {
            settings = { ...settings, ...values };
        }
        return settings;
    });
}

// The line of a record; one of bytes may hold several.
function lineOf(byte, { lines, lineAt }) {
    return lineAt.get(byte) ?? lines.findLast(({ at }) => at <= byte).number;
}

function entryOf(answer, known) {
    const { records, settings, questions, judge } = known;
    const record = records[answer.record - 1];
    const encounter = answer.asked && records[answer.asked.record - 1].values;
    return {
        answer,
        number: answer.number,
        tone: toneOf(answer),
        record,
        isQuestion: isQuestion(record),
        line: lineOf(answer.byte, known),
        title: textOfRecord(record),
        encounter,
        settings: settings[answer.record - 1],
        q: answer.refusal === null ? questions.get(answer.record) : null,
        faults: answer.refusal === null ? [] : faultsOf(record, judge, encounter),
    };
}

// The lines of the judge's words that are of an answer.
export function linesOf(words, number) {
    const lines = words.split('\n');
    const first = lines.findIndex((line) => line.startsWith(`answer ${number}: `));
    const after = lines.slice(first + 1).findIndex((line) => !line.startsWith('    '));
    return lines.slice(first, first + 1 + after);
}

export function judgedSheet(judge, text) {
    const read = readText(text);
    const began = performance.now();
    const words = judge.words(read.bytes).text;
    const milliseconds = performance.now() - began;
    const { refused, answers } = answersOf(words);
    const records = recordsOf(read.bytes);
    const questions = new Map(refused ? [] : askedOf(records, answers, judge).map(({ record, q }) => [record, q]));
    const lines = read.lines.filter(({ at }) => at !== null);
    const lineAt = new Map(lines.map(({ at, number }) => [at, number]));
    const settings = settingsOf(records, answers);
    const known = { records, settings, lines, lineAt, questions, judge };
    return { text, read, words, refused, records, milliseconds, entries: answers.map((answer) => entryOf(answer, known)) };
}

// A sheet of one question alone, with the encounter and the settings that hold for it.
export function sheetOfOne({ record, encounter, settings: { p, k, e } }) {
    return bytesOf([
        { kind: 'puck', values: { p, k } },
        { kind: 'delay acceleration', values: { e } },
        { kind: 'encounter', values: encounter },
        record,
    ]);
}
