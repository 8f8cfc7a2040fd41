// What is said of a whole sheet: counts, a refusal, lines that can't be read, and how each line is marked.

import { make } from './dom.js';

const MOST_ITEMS = 300;

const plural = (count, name) => `${count} ${name}${count === 1 ? '' : 's'}`;

export function countsText({ refused, records, entries }) {
    if (refused) {
        return 'No answers: the sheet is refused';
    }
    const of = (tone) => entries.filter((entry) => entry.tone === tone).length;
    const kinds = [`${of('clear')} clear`, plural(of('conflict'), 'conflict'), `${of('refused')} refused`];
    return `${plural(records.length, 'record')}, ${plural(entries.length, 'answer')}: ${kinds.join(', ')}`;
}

function refusedText({ refused, read }) {
    const line = refused.byte !== null && read.lines.findLast(({ at }) => at !== null && at <= refused.byte)?.number;
    const place = line ? ` (record ${refused.record} at byte ${refused.byte}, line ${line})` : '';
    return `sheet ${refused.text}${place}.`;
}

function stoppedText({ read }) {
    const { number } = read.lines.find(({ faults }) => faults.length > 0);
    return `Line ${number} cannot be read: the lines before it are judged, those from it on are not.`;
}

export function remarksOn(sheet) {
    return [...(sheet.refused ? [refusedText(sheet)] : []), ...(sheet.read.whole ? [] : [stoppedText(sheet)])];
}

function itemOf({ number, text, kind }) {
    const place = make('button', { type: 'button', 'data-line': number }, `line ${number}`);
    return make('li', { class: kind, 'data-line': number }, place, ' ', text);
}

// Each fault and each note, with a button that goes to its line.
export function faultItems({ lines }) {
    const items = lines.flatMap(({ number, faults, notes }) => [
        ...faults.map(({ text }) => ({ number, text, kind: 'fault' })),
        ...notes.map((text) => ({ number, text, kind: 'note' })),
    ]);
    const left = items.length - MOST_ITEMS;
    const more = left > 0 ? [make('li', { class: 'more' }, `and ${left} more`)] : [];
    return [...items.slice(0, MOST_ITEMS).map(itemOf), ...more];
}

// The classes of each line's mark.
export function lineKinds({ read, entries }) {
    const stop = read.lines.findIndex(({ faults }) => faults.length > 0);
    const refused = new Set(entries.filter(({ tone }) => tone === 'refused').map(({ line }) => line));
    return read.lines.map(({ number, faults, notes }, index) => {
        const unread = stop >= 0 && index >= stop ? 'unread' : '';
        const kind = faults.length > 0 ? 'faulty' : refused.has(number) ? 'refused' : notes.length > 0 ? 'noted' : '';
        return `${unread} ${kind}`;
    });
}

// Says it again only where it is new, so that readers who listen hear it once.
export function say(element, texts) {
    const said = [...element.children].map(({ textContent }) => textContent);
    if (said.join('\n') !== texts.join('\n')) {
        element.replaceChildren(...texts.map((text) => make('p', {}, text)));
    }
}
