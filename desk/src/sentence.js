// An answer as a sentence: the judge's words, in the order that the judge has them.

import { make } from './dom.js';

const part = (kind, text) => make('span', { class: kind }, text);

// Where there are several meanings, one a side, each has a line of its own.
export function sentenceOf({ text, meaning }) {
    const parting = () => (meaning.length > 1 ? [', ', make('br')] : [', ']);
    const meant = meaning.flatMap((line) => [...parting(), part('meaning', line)]);
    return make('p', { class: 'sentence' }, part('verdict', text), ...meant, '.');
}

export const plainSentence = ({ text, meaning }) => `${[text, ...meaning].join(', ')}.`;

// What else there is to say of an entry: a bad field and its limit, and each warning.
const remarkTexts = ({ faults, answer }) => [
    ...faults.map(({ text }) => ({ kind: 'fault', text: `${text}.` })),
    ...answer.warnings.map((text) => ({ kind: 'warning', text: `warning: ${text}.` })),
];

export const remarksOf = (entry) => remarkTexts(entry).map(({ kind, text }) => make('p', { class: kind }, text));

// All of it in one text.
export const spokenText = (entry) => [`${entry.title}:`, plainSentence(entry.answer), ...remarkTexts(entry).map(({ text }) => text)].join(' ');

export const askedText = ({ answer }) => answer.asked && `asked of the encounter in record ${answer.asked.record}: ${answer.asked.text}`;
