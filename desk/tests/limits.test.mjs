// The limits that are shown, held against the judge: it accepts both edges of each and refuses one step beyond.

import assert from 'node:assert/strict';
import { test } from 'node:test';
import { FIELDS } from '../src/fields.js';
import { LIMITS } from '../src/limits.js';
import { NO_LIMIT } from '../src/records.js';
import { judge } from './judge.mjs';

const REFUSED = 68;

const BASE = {
    r: 300000, h: 100, c: 10000, v: 0, vi: 0, p: 30000, k: 6000, e: 966,
    sides: 2, sense: 1, target: 0, upperTarget: 0, strength: 1, upperStrength: 2000, delay: 0, limit: NO_LIMIT,
};

const REFUSALS = {
    r: 1, h: 1, c: 1, v: 1, vi: 1, p: 2, k: 2, e: 3,
    target: 5, upperTarget: 5, strength: 14, upperStrength: 14, delay: 6, limit: 6,
};

// An upper target does not fall short of a target that is the same.
function atEdge(name, value) {
    const both = name === 'target' || name === 'upperTarget' ? { target: value, upperTarget: value } : {};
    return { ...BASE, ...both, [name]: value };
}

test('every field that a text has is in the table', () => {
    const named = Object.values(FIELDS).flat().map(({ name }) => name);
    assert.deepEqual(Object.keys(LIMITS).sort(), [...new Set(named)].sort());
    assert.deepEqual(Object.keys(REFUSALS).sort(), Object.keys(LIMITS).sort());
});

test('the judge accepts each edge and refuses one beyond', () => {
    for (const [name, [least, greatest]] of Object.entries(LIMITS)) {
        for (const value of [least, greatest]) {
            assert.notEqual(judge.plain(atEdge(name, value)).kind, REFUSED, `${name} ${value}`);
        }
        for (const value of [least - 1, greatest + 1]) {
            const { kind, number } = judge.plain({ ...BASE, [name]: value });
            assert.deepEqual([kind, number], [REFUSED, REFUSALS[name]], `${name} ${value}`);
        }
    }
});

test('no limit is 65535 alone', () => {
    assert.notEqual(judge.plain({ ...BASE, limit: NO_LIMIT }).kind, REFUSED);
    assert.equal(judge.plain({ ...BASE, limit: NO_LIMIT - 1 }).kind, REFUSED);
});
