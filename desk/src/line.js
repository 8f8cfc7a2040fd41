// A line of a sheet's text, read: one record, or none; comments from # on.

import { FIELDS, NAMES, SENSES, SIDES, unsaid } from './fields.js';
import { NO_LIMIT, layoutOf } from './records.js';
import { listed, readValue, writeValue } from './units.js';

const flag = (text, name, value) => ({ text, name, value });
const NO_LIMIT_FLAG = flag('no limit', 'limit', NO_LIMIT);

// What stands for a value by itself.
const FLAGS = {
    coded: [NO_LIMIT_FLAG],
    free: [
        NO_LIMIT_FLAG,
        ...Object.entries(SIDES).map(([value, text]) => flag(text, 'sides', Number(value))),
        ...Object.entries(SENSES).map(([value, text]) => flag(text, 'sense', Number(value))),
    ],
};

// What a line starts with, each by its lower case.
const KIND_WORDS = ['encounter', 'puck', 'delay acceleration', 'free', 'code', 'bytes'];
const HEADS = new Map([...KIND_WORDS, ...NAMES].map((head) => [head.toLowerCase(), head]));

const A_KIND = {
    encounter: 'an encounter',
    puck: 'a puck',
    coded: 'a question by code',
    free: 'a free question',
};

const newLine = () => ({ values: {}, given: new Set(), notes: [], faults: [] });

function addFault(line, field, text) {
    line.faults.push({ field, text });
}

// Whether text starts with a word or words, in any case, that end there.
function startsWith(text, words) {
    const next = text[words.length] ?? ' ';
    return text.slice(0, words.length).toLowerCase() === words.toLowerCase() && (next === ' ' || next === ',');
}

const afterStart = (text, words) => text.slice(words.length).replace(/^[ ,]+/, '');

// Takes note that a field is given; false where it was before.
function giveOnce(line, field, word) {
    if (line.given.has(field)) {
        addFault(line, word, `"${word}" is given twice`);
        return false;
    }
    line.given.add(field);
    return true;
}

// The least and the greatest value that a field's bytes hold; the greatest limit means none.
function held(kind, name) {
    const { size, signed } = layoutOf(kind).fields[name];
    const count = 2 ** (8 * size);
    const [least, greatest] = signed ? [-count / 2, count / 2 - 1] : [0, count - 1];
    return name === 'limit' ? [least, greatest - 1] : [least, greatest];
}

function setHeld(line, kind, { word, name, value, shown, write }) {
    const [least, greatest] = held(kind, name);
    if (value < least || greatest < value) {
        addFault(line, word, `${word} ${shown} is beyond what a sheet can hold, ${write(least)} to ${write(greatest)}`);
    } else {
        line.values[name] = value;
    }
}

function readMeasured(line, kind, { word, name, quantity }, text) {
    if (!giveOnce(line, name, word)) {
        return;
    }
    if (text === '') {
        addFault(line, word, `"${word}" has no value`);
        return;
    }
    const { value, note, fault } = readValue(text, quantity);
    if (fault) {
        addFault(line, word, `${word} ${fault}`);
    } else if (name === 'limit' && value === NO_LIMIT) {
        addFault(line, word, `limit ${text} means no limit in a sheet: write "no limit"`);
    } else {
        const write = (bound) => writeValue(bound, quantity);
        setHeld(line, kind, { word, name, value, shown: text, write });
    }
    if (note) {
        line.notes.push(`${word} ${note}`);
    }
}

// A number without a unit, that of a code, of sides or of a sense.
function readPlain(line, kind, name, digits) {
    if (giveOnce(line, name, name)) {
        setHeld(line, kind, { word: name, name, value: Number(digits), shown: digits, write: String });
    }
}

// A word that stands for a value, or "sides 7", at the start of a part; the rest of it, or null where there is none.
function readFlag(line, kind, part) {
    const found = (FLAGS[kind] ?? []).find(({ text }) => startsWith(part, text));
    if (found) {
        if (giveOnce(line, found.name, found.name)) {
            line.values[found.name] = found.value;
        }
        return afterStart(part, found.text);
    }
    const plain = kind === 'free' && /^(sides|sense) (\d+)(?= |$)/i.exec(part);
    if (!plain) {
        return null;
    }
    readPlain(line, kind, plain[1].toLowerCase(), plain[2]);
    return afterStart(part, plain[0]);
}

function readPart(line, kind, part) {
    let rest = part;
    while (rest !== '') {
        const after = readFlag(line, kind, rest);
        if (after === null) {
            break;
        }
        rest = after;
    }
    if (rest === '') {
        return;
    }
    const field = FIELDS[kind].find(({ word }) => startsWith(rest, word));
    if (field) {
        readMeasured(line, kind, field, afterStart(rest, field.word));
    } else {
        const words = FIELDS[kind].map(({ word }) => word);
        addFault(line, null, `"${rest}" is no field of ${A_KIND[kind]}, which has ${listed(words, 'and')}`);
    }
}

// A comma before a digit is one inside a number.
function readParts(line, kind, text) {
    for (const part of text.split(/,(?=\D|$)/)) {
        readPart(line, kind, part.trim());
    }
}

// What is missing where a field has no value, by its name.
const MISSING = { sides: '"one-sided" or "two-sided"', sense: '"climb" or "descend"' };

function addMissing(line, kind, name) {
    const { word = name } = FIELDS[kind].find((field) => field.name === name) ?? {};
    addFault(line, word, `${MISSING[name] ?? `"${word}"`} is missing`);
}

// The fields that are not given: they go without saying, or are missing. Without its sides, a question does not say if it has upper fields.
function fillIn(line, kind) {
    const { given, values } = line;
    for (const name of Object.keys(layoutOf(kind).fields)) {
        if (given.has(name)) {
            continue;
        }
        const value = unsaid(name, values.sides);
        if (value !== undefined) {
            values[name] = value;
        } else if (!name.startsWith('upper') || given.has('sides')) {
            addMissing(line, kind, name);
        }
    }
}

function readFields(line, kind, text) {
    readParts(line, kind, text);
    fillIn(line, kind);
    return kind;
}

function readCode(line, text) {
    const found = /^(\d+)(?=[ ,]|$)/.exec(text);
    if (!found) {
        addFault(line, 'code', `"${`code ${text}`.trim()}" has no number, 0 to 255`);
        return 'coded';
    }
    readPlain(line, 'coded', 'code', found[1]);
    return readFields(line, 'coded', afterStart(text, found[1]));
}

function readName(line, name, text) {
    line.given.add('code');
    line.values.code = NAMES.indexOf(name) + 1;
    return readFields(line, 'coded', text);
}

function readBytes(line, text) {
    const digits = text.replaceAll(' ', '');
    if (digits === '' || !/^([0-9a-f]{2})+$/i.test(digits)) {
        addFault(line, null, `"${`bytes ${text}`.trim()}" is no row of bytes, each two hex digits`);
    } else {
        line.values.bytes = Uint8Array.from(digits.match(/../g), (byte) => parseInt(byte, 16));
    }
    return 'bytes';
}

// Reads a line's words and says of which kind they are; null where that is unknown.
function readWords(line, text) {
    const head = HEADS.get(/^(delay acceleration(?=[ ,]|$)|[^ ,]*)/i.exec(text)[0].toLowerCase());
    const rest = head === undefined ? '' : afterStart(text, head);
    switch (head) {
        case undefined:
            addFault(line, null, `"${text}" is no record: a line starts with ${listed([...KIND_WORDS, "an advisory's name"])}`);
            return null;
        case 'code':
            return readCode(line, rest);
        case 'bytes':
            return readBytes(line, rest);
        case 'delay acceleration':
            readMeasured(line, head, FIELDS[head][0], rest);
            return head;
        case 'encounter':
        case 'puck':
        case 'free':
            return readFields(line, head, rest);
        default:
            return readName(line, head, rest);
    }
}

export function readLine(text) {
    const words = text.replace(/#.*/, '').replace(/\s+/g, ' ').trim();
    const line = newLine();
    const kind = words === '' ? null : readWords(line, words);
    const { values, notes, faults } = line;
    const record = kind !== null && faults.length === 0 ? { kind, values } : null;
    return { record, notes, faults };
}
