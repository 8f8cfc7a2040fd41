// A candidate's flight: its text, what is said of it, and its path.

import assert from 'node:assert/strict';
import test from 'node:test';

import { flightPath, flownText, readFlight } from '../src/flight.js';
import { heightAt } from '../src/scene.js';
import { judge } from './judge.mjs';

const M5 = {
    r: 0, h: -7000, c: 10000, v: -1000, vi: 0, p: 30000, k: 6000, e: 966,
    sides: 1, sense: 1, target: 0, upperTarget: 0, strength: 500, upperStrength: 0, delay: 0, limit: 65535,
};

test('a flight is read, with its faults', () => {
    assert.deepEqual(readFlight('8 1/3 ft/s2 for 2 s, 0 g for 20 s').stretches, [[500, 2], [0, 20]]);
    assert.deepEqual(readFlight('-8.05 ft/s2 for 5 s;\n0 grains/s2 for 1 s,').stretches, [[-483, 5], [0, 1]]);
    assert.deepEqual(readFlight('8 ft/s2').faults, ['"8 ft/s2" is no stretch, such as 8.05 ft/s2 for 5 s']);
    assert.equal(readFlight('8.33 ft/s2 for 5 s, 1 ft/s2 for 2 ft').faults.length, 2);
    assert.equal(readFlight('~8.33 ft/s2 for 5 s').notes.length, 1);
});

test('what the judge says of a flight', () => {
    const said = (stretches, q = M5) => flownText(judge.flight(q, stretches));
    assert.equal(said([[500, 2], [0, 20]]), 'Obeys the advice. Inside the puck for the first time in second 2, at 2 s or later but before 3 s.');
    assert.equal(said([[2000, 1], [0, 20]]), 'Obeys the advice. Never inside the puck up to its end.');
    assert.equal(said([[499, 2], [0, 20]]), 'Does not obey the advice. Inside the puck for the first time in second 1, at 1 s or later but before 2 s.');
    assert.match(said(Array.from({ length: 70 }, () => [0, 1])), /^Refused, 18: /);
    assert.match(said([]), /^Refused, 18: /);
    assert.equal(said([[0, 1]], { ...M5, k: 0 }), 'Refused, 2: the question is refused.');
});

test('a flight is drawn from stretch to stretch', () => {
    const { path, end } = flightPath([[500, 2], [0, 20]], { v: -1000, vi: 500 });
    assert.equal(end, 22);
    assert.deepEqual([0, 1, 2, 4].map((t) => heightAt(path, t)), [0, -1250, -2000, -3000]);
    assert.deepEqual([path[0].turn, path[1].turn], [3, null]);
});
