// What the records and their fields are called in a sheet's text, and what the fields measure.

import { NO_LIMIT } from './records.js';

// The catalogue's names, from code 1 on.
export const NAMES = [
    'DNC2000', 'DND2000', 'DNC1000', 'DND1000', 'DNC500', 'DND500', 'DNC', 'DND', 'MDES',
    'MCL', 'DES1500', 'CL1500', 'SDES1500', 'SCL1500', 'SDES2500', 'SCL2500', 'COC', 'MTLO',
];

const field = (word, name, quantity) => ({ word, name, quantity });

// Of each kind the fields that have a value with a unit, as they are written, in order.
export const FIELDS = {
    encounter: [
        field('ahead', 'r', 'length'),
        field('height', 'h', 'length'),
        field('closing', 'c', 'closing speed'),
        field('own', 'v', 'vertical speed'),
        field('intruder', 'vi', 'vertical speed'),
    ],
    puck: [field('radius', 'p', 'length'), field('half height', 'k', 'length')],
    'delay acceleration': [field('delay acceleration', 'e', 'acceleration')],
    coded: [field('limit', 'limit', 'time')],
    free: [
        field('target', 'target', 'vertical speed'),
        field('upper target', 'upperTarget', 'vertical speed'),
        field('strength', 'strength', 'acceleration'),
        field('upper strength', 'upperStrength', 'acceleration'),
        field('delay', 'delay', 'time'),
        field('limit', 'limit', 'time'),
    ],
};

export const SIDES = { 1: 'one-sided', 2: 'two-sided' };
export const SENSES = { 0: 'descend', 1: 'climb' };

// "DES1500", or "code 200" where the code has no name.
export function codeName(code) {
    return NAMES[code - 1] ?? `code ${code}`;
}

// "climb", or "sense 9" where the number has no word.
export const sidesName = (sides) => SIDES[sides] ?? `sides ${sides}`;
export const senseName = (sense) => SENSES[sense] ?? `sense ${sense}`;

// What goes without saying: no delay, no limit, and what a one-sided question has not.
export const unsaid = (name, sides) =>
    ({ delay: 0, limit: NO_LIMIT, ...(sides === 1 ? { upperTarget: 0, upperStrength: 0 } : {}) })[name];
