// A sheet as text: one line a record.

import { FIELDS, codeName, senseName, sidesName, unsaid } from './fields.js';
import { readLine } from './line.js';
import { NO_LIMIT, bytesOf, recordsOf } from './records.js';
import { writeValue } from './units.js';

const BYTES_A_LINE = 32;

// ---- reading

// Lines that were read before: while a sheet is typed, all but one stay as they are.
const known = new Map();
const KNOWN_AT_MOST = 10000;

function readKnown(text) {
    if (!known.has(text)) {
        if (known.size === KNOWN_AT_MOST) {
            known.clear();
        }
        known.set(text, readLine(text));
    }
    return known.get(text);
}

// The lines, and the bytes of those before the first that can't be read, with each one's place in them.
export function readText(text) {
    const lines = text
        .split(/\r\n|\r|\n/)
        .map((line, index) => ({ number: index + 1, at: null, length: null, ...readKnown(line) }));
    const fault = lines.findIndex(({ faults }) => faults.length > 0);
    const parts = [];
    let at = 0;
    for (const line of fault < 0 ? lines : lines.slice(0, fault)) {
        if (line.record) {
            const part = bytesOf([line.record]);
            line.at = at;
            line.length = part.length;
            parts.push({ kind: 'bytes', values: { bytes: part } });
            at += part.length;
        }
    }
    return { lines, bytes: bytesOf(parts), whole: fault < 0 };
}

// ---- writing

function writeFields(kind, values, left = () => false) {
    return FIELDS[kind]
        .filter(({ name }) => !left(name))
        .map(({ word, name, quantity }) => `${word} ${writeValue(values[name], quantity)}`);
}

function writeFree(values) {
    const left = (name) => values[name] === unsaid(name, values.sides);
    return [`free ${sidesName(values.sides)} ${senseName(values.sense)}`, ...writeFields('free', values, left)].join(', ');
}

function writeCoded({ code, limit }) {
    return limit === NO_LIMIT ? codeName(code) : `${codeName(code)} limit ${writeValue(limit, 'time')}`;
}

function writeBytes({ bytes }) {
    const lines = [];
    for (let at = 0; at < bytes.length; at += BYTES_A_LINE) {
        const row = Array.from(bytes.slice(at, at + BYTES_A_LINE), (byte) => byte.toString(16).padStart(2, '0').toUpperCase());
        lines.push(`bytes ${row.join(' ')}`);
    }
    return lines.join('\n');
}

// A record's line; that of bytes that are no record may be more than one.
export function textOfRecord({ kind, values }) {
    switch (kind) {
        case 'coded':
            return writeCoded(values);
        case 'free':
            return writeFree(values);
        case 'bytes':
            return writeBytes(values);
        case 'delay acceleration':
            return writeFields(kind, values).join('');
        default:
            return `${kind} ${writeFields(kind, values).join(', ')}`;
    }
}

export function writeText(bytes) {
    return recordsOf(bytes).map((record) => `${textOfRecord(record)}\n`).join('');
}
