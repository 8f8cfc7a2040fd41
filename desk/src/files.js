// Sheets from files and into files: the text, and the binary sheet.

import { writeText } from './text.js';

const HEAD_WORDS = /^(#|encounter\b|puck\b|delay acceleration\b|code\b|free\b|bytes\b|[A-Z]{2,4}\d*\b)/i;

// UTF-8, or null where the bytes are none.
function decoded(bytes) {
    try {
        return new TextDecoder('utf-8', { fatal: true }).decode(bytes);
    } catch {
        return null;
    }
}

// A name ending in .txt or .sheet decides; otherwise a text that begins as a sheet's text does is one.
function isText(name, text) {
    if (/\.txt$/i.test(name)) {
        return text !== null;
    }
    if (/\.sheet$/i.test(name) || text === null) {
        return false;
    }
    return text.trim() === '' || HEAD_WORDS.test(text.trimStart());
}

// The text of a file's sheet.
export async function openedText(file) {
    const bytes = new Uint8Array(await file.arrayBuffer());
    const text = decoded(bytes);
    return isText(file.name, text) ? text : writeText(bytes);
}

export function save(name, content, type) {
    const address = URL.createObjectURL(new Blob([content], { type }));
    const link = document.createElement('a');
    link.href = address;
    link.download = name;
    link.click();
    setTimeout(() => URL.revokeObjectURL(address), 10000);
}
