// What the page itself works out for a picture: the ends of the window, held against the judge; which way is up; and times.

import assert from 'node:assert/strict';
import test from 'node:test';

import { heightAt, sceneOf } from '../src/scene.js';
import { fractionOf, leadingTime, secondsOf, timeOf, timeText } from '../src/times.js';
import { judge } from './judge.mjs';

const M5 = {
    r: 0, h: -7000, c: 10000, v: -1000, vi: 0, p: 30000, k: 6000, e: 966,
    sides: 1, sense: 1, target: 0, upperTarget: 0, strength: 500, upperStrength: 0, delay: 0, limit: 65535,
};

const choice = (values, index) => values[index % values.length];

// Encounters of every kind, those at an edge too, with and without a limit.
const QUESTIONS = Array.from({ length: 3000 }, (_, i) => ({
    ...M5,
    r: choice([0, 1, -1, 30000, 30001, -30000, -30001, 29999, 300000, 12000000, -12000000, 7], i),
    c: choice([0, 1, 3, 7000, 10000, 150000, 9973], Math.floor(i / 12)),
    p: choice([0, 1, 30000, 60000, 12345], Math.floor(i / 84)),
    limit: choice([65535, 0, 1, 30, 600, 43, 4], Math.floor(i / 420)),
}));

const inWindow = (q, seconds) => judge.at(q, BigInt(seconds), 1n).inWindow;

test('where the window begins and ends is what the judge says', () => {
    for (const q of QUESTIONS) {
        const { window } = sceneOf(judge, q);
        if (window === null) {
            assert.ok([0, 1, 3, 43, 600, 80000].every((seconds) => !inWindow(q, seconds)), JSON.stringify(q));
            continue;
        }
        const start = secondsOf(window.start);
        assert.ok(judge.at(q, ...fractionOf(window.start)).inWindow);
        assert.ok(start === 0 || !inWindow(q, Math.ceil(start) - 1), JSON.stringify(q));
        if (window.end === null) {
            assert.ok(inWindow(q, 201680060), JSON.stringify(q));
        } else {
            assert.ok(judge.at(q, ...fractionOf(window.end)).inWindow);
            assert.ok(!inWindow(q, Math.floor(secondsOf(window.end)) + 1), JSON.stringify(q));
        }
    }
});

test('the path is turned back for a descent', () => {
    const climb = sceneOf(judge, M5);
    const descent = sceneOf(judge, { ...M5, h: 7000, v: 1000, sense: 0 });
    assert.equal(heightAt(climb.paths[0].path, 2), -1000);
    assert.equal(heightAt(descent.paths[0].path, 2), 1000);
    assert.deepEqual(climb.shown, [{ side: 'lower', time: { seconds: 2, remainder: 0, divisor: 1 } }]);
    assert.deepEqual(descent.shown, climb.shown);
});

test('a time is written as the judge writes it, and read again', () => {
    for (const [n, m, text] of [[0, 7, '0 s'], [195, 8, '24 3/8 s'], [54, 2, '27 s'], [3, 9, '0 1/3 s']]) {
        const time = timeOf(n, m);
        assert.equal(timeText(time), text);
        assert.deepEqual(leadingTime(`${text} is outside the window`), time);
    }
    assert.equal(leadingTime('5/0 s is out of the judge\u2019s reach'), null);
});
