// Values with units: what is read, exactly, what is refused in which words, and how values are written.

import assert from 'node:assert/strict';
import { test } from 'node:test';
import { readValue, writeValue } from '../src/units.js';

const reads = (quantity, cases) => {
    for (const [text, value] of cases) {
        assert.deepEqual(readValue(text, quantity), { value, note: null }, text);
    }
};

const faults = (quantity, cases) => {
    for (const [text, fault] of cases) {
        assert.deepEqual(readValue(text, quantity), { fault }, text);
    }
};

test('numbers in each form', () => {
    reads('length', [
        ['12 ft', 720],
        ['-12.5 ft', -750],
        ['+12.5 ft', 750],
        ['8 1/3 ft', 500],
        ['-1/3 ft', -20],
        ['-8 1/3 ft', -500],
        ['\u22128 1/3 ft', -500],
        ['- 5 ft', -300],
        ['5,000 ft', 300000],
        ['-1,234,567 ft', -74074020],
        ['1,000.5 ft', 60030],
        ['0.50 ft', 30],
        ['4/6 ft', 40],
        ['0 ft', 0],
        ['-0 ft', 0],
        ['5ft', 300],
        ['  5   ft ', 300],
        ['5 FT', 300],
        ['7 grains', 7],
        ['1 grain', 1],
        ['~5 ft', 300],
    ]);
});

test('units of each quantity', () => {
    reads('vertical speed', [
        ['-1000 ft/min', -1000],
        ['10 ft/s', 600],
        ['1143 kt', 115750],
        ['-1143 kt', -115750],
        ['1500 grains/s', 1500],
        ['1 grain/s', 1],
    ]);
    reads('closing speed', [
        ['166 2/3 ft/s', 10000],
        ['571.5 kt', 57875],
        ['9 ft/min', 9],
        ['9 grains/s', 9],
    ]);
    reads('acceleration', [
        ['16.1 ft/s2', 966],
        ['16.1 ft/s²', 966],
        ['16.1 ft/s^2', 966],
        ['1 g', 1932],
        ['0.25 g', 483],
        ['1/4 G', 483],
        ['g/4', 483],
        ['g/3', 644],
        ['-g/2', -966],
        ['500 grains/s2', 500],
        ['500 grains/s²', 500],
    ]);
    reads('time', [
        ['30 s', 30],
        ['60/2 s', 30],
    ]);
});

// 1 kt is 1,852 m an hour, and a foot 0.3048 m, of 60 grains: 1852 / 0.3048 / 3600 × 60.
test('a knot is exact', () => {
    const perHour = 1852n * 10000n * 60n;
    assert.equal(perHour * 1143n, 115750n * 3048n * 3600n);
    assert.match(readValue('1 kt', 'closing speed').fault, /^1 kt is 101 307\/1143 grains\/s, /);
});

test('a value that is no whole number says what it is, and what is next to it', () => {
    faults('closing speed', [
        [
            '100 kt',
            '100 kt is 10126 982/1143 grains/s, no whole number of grains; next to it are 168 23/30 ft/s (10126 grains/s) and ' +
                '168 47/60 ft/s (10127 grains/s); ~100 kt takes the nearest',
        ],
    ]);
    faults('vertical speed', [
        [
            '-0.5 ft/min',
            '-0.5 ft/min is -1/2 grains/s, no whole number of grains; next to it are -1 ft/min (-1 grain/s) and 0 ft/min (0 grains/s); ' +
                '~-0.5 ft/min takes the nearest',
        ],
    ]);
    faults('acceleration', [
        [
            'g/5',
            'g/5 is 386 2/5 grains/s2, no whole number of grains; next to it are 6 13/30 ft/s2 (386 grains/s2) and ' +
                '6.45 ft/s2 (387 grains/s2); ~g/5 takes the nearest',
        ],
    ]);
    faults('time', [['2.5 s', '2.5 s is 2 1/2 s, no whole number of seconds; next to it are 2 s and 3 s; ~2.5 s takes the nearest']]);
});

test('~ takes the nearest and says so', () => {
    assert.deepEqual(readValue('~100 kt', 'closing speed'), {
        value: 10127,
        note: '~100 kt is 10126 982/1143 grains/s; 168 47/60 ft/s (10127 grains/s) is taken',
    });
    const taken = (text) => readValue(text, 'length').value;
    assert.deepEqual(['~0.4 grains', '~0.5 grains', '~-0.5 grains', '~-0.4 grains', '~1.5 grains'].map(taken), [0, 1, -1, 0, 2]);
});

test('what is no value is said', () => {
    faults('length', [
        ['500', '"500" has no unit: it is in ft or grains'],
        ['0', '"0" has no unit: it is in ft or grains'],
        ['500 s', '"500 s" has another unit: it is in ft or grains'],
        ['500 constructor', '"500 constructor" has another unit: it is in ft or grains'],
        ['500 ft height 5 ft', '"500 ft height 5 ft" is more than one number in ft or grains'],
        ['1e3 ft', '"1e3 ft" has another unit: it is in ft or grains'],
    ]);
    faults('acceleration', [['9 m/s2', '"9 m/s2" has another unit: it is in ft/s2, g or grains/s2']]);
    faults('length', [
        ['g/4', '"g/4" has another unit: it is in ft or grains'],
        ['0x5 ft', '"0x5 ft" has another unit: it is in ft or grains'],
    ]);
    for (const text of ['', 'ft', 'five ft', '1.ft', '.5 ft', '12,5 ft', '1,0000 ft', '1/0 ft', '1 2 ft', '1/2/3 ft', '--5 ft', '5 5.5 ft', '~ ft', '-']) {
        faults('length', [[text, `"${text}" is no number with a unit, such as 12, -12.5 or 8 1/3 ft`]]);
    }
});

test('values as they are written', () => {
    const written = [
        [300000, 'length', '5000 ft'],
        [32250, 'length', '537.5 ft'],
        [32249, 'length', '537 29/60 ft'],
        [-20, 'length', '-1/3 ft'],
        [-3, 'length', '-0.05 ft'],
        [0, 'length', '0 ft'],
        [10000, 'closing speed', '166 2/3 ft/s'],
        [-1000, 'vertical speed', '-1000 ft/min'],
        [483, 'acceleration', '8.05 ft/s2'],
        [500, 'acceleration', '8 1/3 ft/s2'],
        [966, 'acceleration', '16.1 ft/s2'],
        [65534, 'time', '65534 s'],
    ];
    for (const [value, quantity, text] of written) {
        assert.equal(writeValue(value, quantity), text);
    }
});

test('what is written is read again', () => {
    const quantities = ['length', 'closing speed', 'vertical speed', 'acceleration', 'time'];
    const edges = [-(2 ** 31), 2 ** 31 - 1, 1e7, -1e7];
    for (const quantity of quantities) {
        for (let value = -200; value <= 200; value += 1) {
            reads(quantity, [[writeValue(value, quantity), value]]);
        }
        reads(quantity, edges.map((value) => [writeValue(value, quantity), value]));
    }
});
