// Each refusal with its number, the field and what is allowed.
import assert from 'node:assert/strict';
import { test } from 'node:test';
import { fullSheet, nativeWords, openBytes, openDesk, record, rows, useBrowser, write } from '../page.mjs';

useBrowser();

const MEET = 'encounter ahead 5000 ft, height 500 ft, closing 100 ft/s, own 0 ft/min, intruder 0 ft/min\n';
const ONE = 'free one-sided climb, target 0 ft/min, strength 8 1/3 ft/s2';
const TWO = 'free two-sided climb, target 500 ft/min, upper target 1000 ft/min, strength 8 1/3 ft/s2, upper strength 10 ft/s2';

// Of each refusal a sheet whose last answer is that, and what must be said of the field and its limits.
const CASES = [
    [1, MEET.replace('height 500 ft', 'height 9000 ft'), [/height/, /8,?000 ft/]],
    [1, MEET.replace('ahead 5000 ft', 'ahead 200001 ft'), [/ahead/, /200,?000 ft/]],
    [1, MEET.replace('closing 100', 'closing 2501'), [/closing/, /2,?500 ft\/s/]],
    [1, MEET.replace('own 0', 'own -10001'), [/own/, /10,?000 ft\/min/]],
    [1, MEET.replace('intruder 0', 'intruder 10001'), [/intruder/, /10,?000 ft\/min/]],
    [2, 'puck radius 1001 ft, half height 100 ft\n', [/radius/, /1,?000 ft/]],
    [2, 'puck radius 500 ft, half height 0 ft\n', [/half height/, /1\/60 ft/, /200 ft/]],
    [3, 'delay acceleration 40 ft/s2\n', [/delay acceleration/, /33 1\/3 ft\/s2/]],
    [4, `${MEET}${ONE.replace('one-sided', 'sides 7')}, upper target 0 ft/min, upper strength 8 1/3 ft/s2\n`, [/sides/]],
    [4, `${MEET}${ONE.replace('climb', 'sense 9')}\n`, [/sense/]],
    [5, `${MEET}${ONE.replace('target 0', 'target 10001')}\n`, [/target/, /10,?000 ft\/min/]],
    [5, `${MEET}${TWO.replace('upper target 1000', 'upper target 10001')}\n`, [/upper target/, /10,?000 ft\/min/]],
    [6, `${MEET}${ONE}, delay 61 s\n`, [/delay/, /60 s/]],
    [6, `${MEET}${ONE}, limit 601 s\n`, [/limit/, /600 s/]],
    [6, `${MEET}CL1500 limit 601 s\n`, [/limit/, /600 s/]],
    [7, 'CL1500\n', [/encounter/]],
    [7, `${ONE}\n`, [/encounter/]],
    [8, `${MEET}code 200\n`, [/code/, /18/]],
    [9, `${MEET}COC\n`, [/17|COC/]],
    [14, `${MEET}${ONE.replace('8 1/3', '0')}\n`, [/strength/, /1\/60 ft\/s2/]],
    [14, `${MEET}${TWO.replace('upper strength 10', 'upper strength 8')}\n`, [/upper strength/, /8 1\/3 ft\/s2/]],
    [15, `${MEET}${TWO.replace('upper target 1000', 'upper target 499')}\n`, [/upper target/, /500 ft\/min/]],
    [16, `${MEET}${ONE}, upper target 1 ft/min\n`, [/upper target/]],
    [16, `${MEET}${ONE}, upper strength 1 ft/s2\n`, [/upper strength/]],
    [17, `${MEET.replace('own 0', 'own -1')}MCL\n`, [/MCL|code 10/]],
    [17, `${MEET.replace('own 0', 'own 1')}MDES\n`, [/MDES|code 9/]],
];

// One page for all.
let opened;
const desk = () => (opened ??= openDesk());

CASES.forEach(([number, sheet, said], index) => {
    test(`refusal ${number}, ${sheet.trim().split('\n').at(-1).slice(0, 60)} (case ${index + 1})`, async () => {
        const page = await desk();
        await write(page, sheet);
        const row = (await rows(page)).at(-1);
        assert.match(row.verdict, new RegExp(`refused, ${number}:`, 'i'));
        const detail = await page.evaluate((answer) => {
            document.querySelector(`#answers [data-answer="${answer}"]`).click();
            return document.querySelector('#detail').textContent;
        }, row.answer);
        for (const words of said) assert.match(`${row.faults.join(' ')} ${row.text} ${detail}`.replaceAll('−', '-'), words);
    });
});

test('a refused record leaves the sheet to go on, and the older encounter is warned of', async () => {
    const page = await desk();
    await write(page, `${MEET}${MEET.replace('height 500', 'height 9000')}CL1500\n`);
    const [refused, answered] = await rows(page);
    assert.match(refused.verdict, /refused, 1:/i);
    assert.match(answered.verdict, /^(clear|conflict)/i);
    assert.match(answered.warnings.join(' '), /the encounter in record 2 was refused, so the one before it holds/i);
});

const WHOLE = {
    10: Buffer.concat([fullSheet(), record.coded(3)]),
    11: Buffer.concat([record.encounter(0, 0, 0, 0, 0), record.coded(12), Buffer.of(77)]),
    12: Buffer.concat([record.encounter(0, 0, 0, 0, 0), record.coded(12), Buffer.of(5, 1)]),
};

for (const [number, bytes] of Object.entries(WHOLE)) {
    test(`refusal ${number} of the whole sheet`, async () => {
        const page = await desk();
        await openBytes(page, bytes);
        assert.deepEqual(await rows(page), []);
        const shown = await page.evaluate(() => document.body.innerText);
        assert.match(shown, new RegExp(`refused, ${number}:`, 'i'));
        const place = nativeWords(bytes).refused[1];
        if (place) assert.ok(shown.includes(place.trim()) || /line \d+/.test(shown), `the page does not say where: ${place}`);
    });
}

test('after a whole sheet is refused, the next one is answered', async () => {
    const page = await desk();
    await openBytes(page, WHOLE[11]);
    await write(page, `${MEET}CL1500\n`);
    assert.equal((await rows(page)).length, 1);
    assert.ok(!/refused, 11/.test(await page.evaluate(() => document.body.innerText)));
});
