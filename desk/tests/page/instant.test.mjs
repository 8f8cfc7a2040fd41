// A candidate's own instant, and a candidate's flight: what the judge says of them.
import assert from 'node:assert/strict';
import { test } from 'node:test';
import { readFileSync } from 'node:fs';
import { choose, nativeWords, openDesk, openPath, sample, useBrowser } from '../page.mjs';

useBrowser();

// Puts text into a field of the detail, as typed, and takes what is said of it once that no longer changes.
async function say(page, field, output, text) {
    await page.evaluate((name) => { document.querySelector(name).focus(); document.querySelector(name).select(); }, field);
    if (text === '') await page.press('Delete');
    else await page.insert(text);
    return page.evaluate(async (name) => {
        const said = () => document.querySelector(name).textContent.replace(/\s+/g, ' ').trim();
        await new Promise((done) => setTimeout(done, 80));
        for (let last = null; last !== said(); await new Promise((done) => setTimeout(done, 30))) last = said();
        return said();
    }, output);
}

const bytes = readFileSync(sample('m1-m15.sheet'));
const plain = (text) => text.replace(/\.$/, '').toLowerCase();

for (const at of ['0', '2', '17 1/2', '17.5', '35/2', '27', '30', '600', '38 4/7', '1/3']) {
    test(`the instant ${at} is what the program says, of each of M1 to M15`, async () => {
        const page = await openDesk();
        await openPath(page, sample('m1-m15.sheet'));
        for (const { answer, standing } of nativeWords(bytes, at).answers) {
            await choose(page, answer);
            const said = plain(await say(page, '#instant', '#standing', at));
            assert.ok(said.includes(plain(standing)), `M${answer}: "${said}" is not "${standing}"`);
        }
    });
}

for (const text of ['soon', '1/0', '-1', '17 1/2 s x', '99999999999999999999', '1..5']) {
    test(`the instant "${text}" is none, and that is said`, async () => {
        const page = await openDesk();
        await openPath(page, sample('m1-m15.sheet'));
        await choose(page, 1);
        assert.match(await say(page, '#instant', '#standing', text), /no instant|an instant is|out of the judge's reach|no time/i);
        assert.deepEqual(page.seen.errors, []);
    });
}

test('a typed instant is marked in the picture, and the mark goes with it', async () => {
    const page = await openDesk();
    await openPath(page, sample('m1-m15.sheet'));
    await choose(page, 5);
    const marks = () => page.evaluate(() => document.querySelector('#detail svg.picture').outerHTML);
    const none = await marks();
    await say(page, '#instant', '#standing', '1 1/2');
    const marked = await marks();
    assert.notEqual(marked, none);
    assert.match(marked, /1 1\/2/);
    await say(page, '#instant', '#standing', '');
    assert.ok(!/1 1\/2/.test(await marks()));
});

// README's flights of M5.
for (const [flight, expected] of [
    ['8 1/3 ft/s2 for 2 s, 0 ft/s2 for 30 s', [/obeys/i, /inside the puck .*second 2/i]],
    ['33 1/3 ft/s2 for 1 s, 0 ft/s2 for 30 s', [/obeys/i, /never inside/i]],
    ['499 grains/s2 for 2 s, 0 ft/s2 for 30 s', [/does not obey/i, /inside the puck .*second 1/i]],
]) {
    test(`the flight ${flight}, of M5`, async () => {
        const page = await openDesk();
        await openPath(page, sample('m1-m15.sheet'));
        await choose(page, 5);
        const said = await say(page, '#flight', '#flown', flight);
        for (const words of expected) assert.match(said, words);
        if (/^\^?obeys/.test(expected[0].source)) assert.ok(!/does not obey/i.test(said));
    });
}

test('a flight outside its sizes is refused with 18', async () => {
    const page = await openDesk();
    await openPath(page, sample('m1-m15.sheet'));
    await choose(page, 5);
    assert.match(await say(page, '#flight', '#flown', '8 1/3 ft/s2 for 601 s'), /18/);
});

test('a flight that cannot be read says so', async () => {
    const page = await openDesk();
    await openPath(page, sample('m1-m15.sheet'));
    await choose(page, 5);
    assert.ok((await say(page, '#flight', '#flown', 'up and away')).length > 5);
    assert.deepEqual(page.seen.errors, []);
});

test('a two-sided question takes no flight, and says so or shows no field for one', async () => {
    const page = await openDesk();
    await openPath(page, sample('m1-m15.sheet'));
    await choose(page, 13);
    const field = await page.evaluate(() => { const flight = document.querySelector('#flight'); return !!flight && !flight.disabled && flight.offsetParent !== null; });
    if (field) assert.match(await say(page, '#flight', '#flown', '8 1/3 ft/s2 for 2 s'), /one-sided/i);
});
