// The samples that the page offers: M1 to M15 show document 01's answers; the lesson has one of each kind.
import assert from 'node:assert/strict';
import { test } from 'node:test';
import { marks, openDesk, rows, settled, useBrowser } from '../page.mjs';

useBrowser();

const EXAMPLES = [
    'clear', 'conflict at 27 s', 'clear', 'clear', 'conflict at 2 s', 'conflict at 0 s', 'clear', 'conflict at 1 s', 'conflict at 1 s', 'conflict at 15 s',
    'conflict at 38 4/7 s', 'clear on the upper side', 'conflict on both sides: lower at 0 s, upper at 0 s', 'clear', 'conflict at 0 s',
];

// Chooses a sample by a part of its name, as a hand would.
async function take(page, part) {
    const value = await page.evaluate((wanted) => [...document.querySelectorAll('#sample option')].find((option) => new RegExp(wanted, 'i').test(option.textContent))?.value, part);
    assert.ok(value !== undefined, `no sample ${part}`);
    await page.evaluate((chosen) => {
        const select = document.querySelector('#sample');
        select.value = chosen;
        select.dispatchEvent(new Event('input', { bubbles: true }));
        select.dispatchEvent(new Event('change', { bubbles: true }));
    }, value);
    await settled(page);
    return rows(page);
}

let shown;
async function examples() {
    shown ??= await take(await openDesk(), 'M1\\b.*M15');
    return shown;
}

EXAMPLES.forEach((expected, index) => {
    test(`M${index + 1} shows ${expected}`, async () => {
        const row = (await examples())[index];
        const said = row.verdict.toLowerCase().replace(/\.$/, '');
        if (expected === 'clear') assert.match(said, /^clear( on the lower side)?$/);
        else assert.equal(said, expected);
    });
});

test('the samples have no faulty line, and M1 to M15 are fifteen answers', async () => {
    assert.equal((await examples()).length, 15);
    const page = await openDesk();
    for (const name of ['M1\\b.*M15', 'article', 'lesson']) {
        await take(page, name);
        assert.deepEqual((await marks(page)).filter(({ text }) => !/refus/i.test(text)), []);
    }
});

test('the article has its two encounters', async () => {
    const all = await take(await openDesk(), 'article');
    assert.ok(all.length >= 2);
    for (const row of all) assert.match(row.verdict, /^(clear|conflict)/i);
});

test('the lesson has one of each kind of answer', async () => {
    const all = await take(await openDesk(), 'lesson');
    const said = all.map((row) => `${row.verdict} ${row.meaning} ${row.warnings.join(' ')}`).join('\n');
    const kinds = [
        /clear on the lower side/i, /clear on the upper side/i, /clear on both sides/i, /never comes within/, /at the start/, /as the intruder comes within/, /as the delay ends/,
        /as the ownship's vertical speed comes to the intruder's/, /at the time limit|at the last instant within/, /the first whole second in conflict/,
        /conflict on both sides/i, /the encounter in record \d+ was refused/,
        ...[1, 2, 3, 4, 5, 6, 7, 8, 9, 14, 15, 16, 17].map((number) => new RegExp(`refused, ${number}:`, 'i')),
    ];
    for (const kind of kinds) assert.match(said, kind);
});
