// Which field of a refused record is bad, and what is allowed. The judge is asked, with the record's other fields at values that it accepts.

import { FIELDS, codeName, senseName } from './fields.js';
import { LIMITS } from './limits.js';
import { NO_LIMIT } from './records.js';
import { writeValue } from './units.js';

const REFUSED = 68;

const ONE_SIDED = {
    r: 0, h: 0, c: 0, v: 0, vi: 0, p: 0, k: 1, e: 0,
    sides: 1, sense: 1, target: 0, upperTarget: 0, strength: 1, upperStrength: 0, delay: 0, limit: NO_LIMIT,
};
const TWO_SIDED = { ...ONE_SIDED, sides: 2, upperStrength: 1 };

// The refusal of an accepted question but for some fields; 0 where it is none.
function refusalWith(judge, base, fields) {
    const { kind, number } = judge.plain({ ...base, ...fields });
    return kind === REFUSED ? number : 0;
}

const fieldOf = (kind, name) => FIELDS[kind].find((field) => field.name === name);

function shown(kind, name, value) {
    const { word, quantity } = fieldOf(kind, name);
    return `${word} ${writeValue(value, quantity)}`;
}

function outside(kind, name, value) {
    const { word, quantity } = fieldOf(kind, name);
    const [least, greatest] = LIMITS[name].map((bound) => writeValue(bound, quantity));
    const none = name === 'limit' ? ', or no limit' : '';
    return { field: word, text: `${shown(kind, name, value)} is outside its limits, ${least} to ${greatest}${none}` };
}

// An upper field by itself is tested with the lower one at a value beside which it is no fault.
function refusesAlone(judge, values, name) {
    const base = name.startsWith('upper') ? TWO_SIDED : ONE_SIDED;
    const beside = name === 'upperTarget' ? { target: values.upperTarget } : {};
    return refusalWith(judge, base, { ...beside, [name]: values[name] }) !== 0;
}

function sidesFaults({ sides, sense }, judge) {
    const faults = [];
    if (refusalWith(judge, ONE_SIDED, { sides }) === 4) {
        faults.push({ field: 'sides', text: `sides ${sides} is neither one-sided (1) nor two-sided (2)` });
    }
    if (refusalWith(judge, ONE_SIDED, { sense }) === 4) {
        faults.push({ field: 'sense', text: `sense ${sense} is neither descend (0) nor climb (1)` });
    }
    return faults;
}

// One-sided, an upper field is 0.
function unusedFaults(values, judge) {
    return ['upperTarget', 'upperStrength']
        .filter((name) => refusalWith(judge, ONE_SIDED, { [name]: values[name] }) !== 0)
        .map((name) => ({
            field: fieldOf('free', name).word,
            text: `${shown('free', name, values[name])} is not 0, and the question is one-sided`,
        }));
}

// Two-sided, the upper fields agree with the lower; asked where both are good by themselves.
function pairFaults(values, judge, bad) {
    const { sense, target, upperTarget, strength, upperStrength } = values;
    const faults = [];
    const good = (...names) => !names.some((name) => bad.includes(name));
    if (good('strength', 'upperStrength') && refusalWith(judge, TWO_SIDED, { strength, upperStrength }) !== 0) {
        const texts = [shown('free', 'upperStrength', upperStrength), shown('free', 'strength', strength)];
        faults.push({ field: 'upper strength', text: `${texts[0]} is below ${texts[1]}` });
    }
    if (good('target', 'upperTarget') && refusalWith(judge, TWO_SIDED, { sense, target, upperTarget }) === 15) {
        const texts = [shown('free', 'upperTarget', upperTarget), shown('free', 'target', target)];
        faults.push({ field: 'upper target', text: `${texts[0]} falls short of ${texts[1]} in the sense ${senseName(sense)}` });
    }
    return faults;
}

function freeFaults(values, judge) {
    const upper = values.sides === 2 ? ['upperTarget', 'upperStrength'] : [];
    const names = ['target', 'strength', ...upper, 'delay', 'limit'];
    const bad = names.filter((name) => refusesAlone(judge, values, name));
    return [
        ...sidesFaults(values, judge),
        ...bad.map((name) => outside('free', name, values[name])),
        ...(values.sides === 1 ? unusedFaults(values, judge) : []),
        ...(values.sides === 2 ? pairFaults(values, judge, bad) : []),
    ];
}

const CODE_FAULTS = {
    8: ({ code }) => `code ${code} names no advisory: codes are 1 to 18`,
    9: ({ code }) => `${codeName(code)}, code ${code}, has a name and is not judged`,
    17: ({ code }, { v }) =>
        `${codeName(code)} is not issued to an ownship going ${v < 0 ? 'down' : 'up'}, own ${writeValue(v, 'vertical speed')}`,
};

function codedFaults(values, judge, encounter) {
    const { refusal } = judge.codedQuestion(values.code, encounter ? encounter.v : 0, values.limit);
    return [
        ...(refusal in CODE_FAULTS ? [{ field: 'code', text: CODE_FAULTS[refusal](values, encounter) }] : []),
        ...(refusesAlone(judge, values, 'limit') ? [outside('coded', 'limit', values.limit)] : []),
    ];
}

// The faults of a record that the judge refuses; none where it is accepted, or refused for want of an encounter. A code may ask of the encounter that holds.
export function faultsOf(record, judge, encounter = null) {
    const { kind, values } = record;
    switch (kind) {
        case 'bytes':
            return [];
        case 'coded':
            return codedFaults(values, judge, encounter);
        case 'free':
            return freeFaults(values, judge);
        default:
            return Object.keys(values)
                .filter((name) => refusesAlone(judge, values, name))
                .map((name) => outside(kind, name, values[name]));
    }
}
