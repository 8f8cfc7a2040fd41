// The binary sheet: records one after the other, each a byte of kind and a body of big-endian numbers.

export const NO_LIMIT = 65535;

// Of each kind its byte, and the fields of its body: a name, how many bytes it has, and whether it is signed.
const FOUR = { size: 4, signed: true };
const TWO = { size: 2, signed: false };
const ONE = { size: 1, signed: false };

const KINDS = [
    { kind: 'encounter', byte: 1, fields: { r: FOUR, h: FOUR, c: FOUR, v: FOUR, vi: FOUR } },
    { kind: 'puck', byte: 2, fields: { p: FOUR, k: FOUR } },
    { kind: 'delay acceleration', byte: 3, fields: { e: FOUR } },
    { kind: 'coded', byte: 4, fields: { code: ONE, limit: TWO } },
    {
        kind: 'free',
        byte: 5,
        fields: {
            sides: ONE,
            sense: ONE,
            target: FOUR,
            upperTarget: FOUR,
            strength: FOUR,
            upperStrength: FOUR,
            delay: TWO,
            limit: TWO,
        },
    },
];

export function layoutOf(kind) {
    return KINDS.find((layout) => layout.kind === kind);
}

function bodySize(layout) {
    return Object.values(layout.fields).reduce((sum, field) => sum + field.size, 0);
}

function readField(view, at, { size, signed }) {
    if (size === 1) {
        return view.getUint8(at);
    }
    return signed ? view.getInt32(at) : view.getUint16(at);
}

function writeField(view, at, { size, signed }, value) {
    if (size === 1) {
        view.setUint8(at, value);
    } else if (signed) {
        view.setInt32(at, value);
    } else {
        view.setUint16(at, value);
    }
}

// The record at a position, or null where its kind is unknown or its body cut short.
function recordAt(bytes, at) {
    const layout = KINDS.find(({ byte }) => byte === bytes[at]);
    if (!layout || bytes.length < at + 1 + bodySize(layout)) {
        return null;
    }
    const view = new DataView(bytes.buffer, bytes.byteOffset, bytes.byteLength);
    const values = {};
    let position = at + 1;
    for (const [name, field] of Object.entries(layout.fields)) {
        values[name] = readField(view, position, field);
        position += field.size;
    }
    return { kind: layout.kind, at, length: position - at, values };
}

// Every byte string has records: from the first that is none on, the rest is one of kind 'bytes'.
export function recordsOf(bytes) {
    const records = [];
    let at = 0;
    while (at < bytes.length) {
        const record = recordAt(bytes, at) ?? {
            kind: 'bytes',
            at,
            length: bytes.length - at,
            values: { bytes: bytes.slice(at) },
        };
        records.push(record);
        at += record.length;
    }
    return records;
}

function bytesOfRecord({ kind, values }) {
    if (kind === 'bytes') {
        return values.bytes;
    }
    const layout = layoutOf(kind);
    const bytes = new Uint8Array(1 + bodySize(layout));
    const view = new DataView(bytes.buffer);
    bytes[0] = layout.byte;
    let position = 1;
    for (const [name, field] of Object.entries(layout.fields)) {
        writeField(view, position, field, values[name]);
        position += field.size;
    }
    return bytes;
}

export function bytesOf(records) {
    const parts = records.map(bytesOfRecord);
    const bytes = new Uint8Array(parts.reduce((sum, part) => sum + part.length, 0));
    let at = 0;
    for (const part of parts) {
        bytes.set(part, at);
        at += part.length;
    }
    return bytes;
}
