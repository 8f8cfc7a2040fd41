// A full sheet of 2,042 questions: how long from the keystroke to the answers, and how smoothly they scroll.
import assert from 'node:assert/strict';
import { test } from 'node:test';
import { fullSheet, openBytes, openDesk, rows, settled, sheetText, status, useBrowser, write } from '../page.mjs';

useBrowser();

async function full() {
    const page = await openDesk();
    await openBytes(page, fullSheet());
    return page;
}

// What the page's thread has worked so far, in milliseconds of a processor: other programs on the machine don't count.
async function worked(page) {
    const { metrics } = await page.send('Performance.getMetrics');
    return 1000 * metrics.find(({ name }) => name === 'TaskDuration').value;
}

const middle = (times) => times.sort((a, b) => a - b)[Math.floor(times.length / 2)];
const ms = (time) => `${time.toFixed(0)} ms`;

// In the page: one edit in the first line; milliseconds until the counts and the answer at hand are there, and until all answers are.
const edit = async (height) => {
    const sheet = document.querySelector('#sheet');
    const answers = document.querySelector('#answers');
    const counted = new Promise((done) => new MutationObserver(() => done(performance.now())).observe(document.querySelector('#status'), { childList: true, subtree: true, characterData: true }));
    const begun = performance.now();
    sheet.setRangeText(`encounter ahead 5000 ft, height ${height} ft`, 0, sheet.value.indexOf(', closing'), 'end');
    sheet.dispatchEvent(new InputEvent('input', { bubbles: true }));
    const first = (await counted) - begun;
    while (answers.getAttribute('aria-busy') === 'true') await new Promise((done) => setTimeout(done, 0));
    return { first, all: performance.now() - begun };
};

test('a full sheet is judged in less than 100 ms', async (t) => {
    const page = await full();
    assert.equal((await rows(page)).length, 2042);
    const times = await page.evaluate(async (bytes) => {
        const sheet = Uint8Array.from(bytes);
        return Array.from({ length: 9 }, () => { const begun = performance.now(); window.desk.judge.words(sheet); return performance.now() - begun; }).sort((a, b) => a - b);
    }, [...fullSheet()]);
    t.diagnostic(`judging 2,042 questions: ${times[4].toFixed(1)} ms (${times[0].toFixed(1)} to ${times[8].toFixed(1)} ms)`);
    assert.ok(times[0] < 100, `${times[0]} ms`);
});

test('from the keystroke to 2,042 answers', async (t) => {
    const page = await full();
    await page.send('Performance.enable', { timeDomain: 'threadTicks' });
    const passed = [];
    const work = [];
    for (let turn = 0; turn < 7; turn += 1) {
        const before = await worked(page);
        passed.push(await page.evaluate(edit, turn % 2 ? '-50' : '51'));
        work.push((await worked(page)) - before);
    }
    const [first, all] = ['first', 'all'].map((name) => ms(middle(passed.map((times) => times[name]))));
    t.diagnostic(`from the input event to the counts: ${first}, to all answers: ${all}, of which work ${ms(middle(work))}; the page says: ${await status(page)}`);
    assert.ok(middle(work) < 1500, `${ms(middle(work))} of work`);
});

test('a key in a full sheet is shown at once', async (t) => {
    const page = await full();
    await page.send('Performance.enable', { timeDomain: 'threadTicks' });
    await page.evaluate(() => { const sheet = document.querySelector('#sheet'); sheet.focus(); sheet.setSelectionRange(sheet.value.length, sheet.value.length); });
    const before = await worked(page);
    await page.type('# a note');
    await settled(page);
    const work = ((await worked(page)) - before) / 8;
    t.diagnostic(`work a key: ${ms(work)}`);
    assert.ok(work < 300, ms(work));
    assert.match(await sheetText(page), /# a note$/);
});

// In the page: scrolls the answers step by step, a frame each, and gives the frames' times; then to the end.
const scroll = async (steps) => {
    let scroller = document.querySelector('#answers');
    while (scroller && !(scroller.scrollHeight > scroller.clientHeight + 10 && /auto|scroll/.test(getComputedStyle(scroller).overflowY))) scroller = scroller.parentElement;
    scroller ??= document.scrollingElement;
    const frames = [];
    let last = await new Promise(requestAnimationFrame);
    for (const by of steps) {
        scroller.scrollTop += by;
        const now = await new Promise(requestAnimationFrame);
        frames.push(now - last);
        last = now;
    }
    return { frames, moved: scroller.scrollTop };
};

const lastIsSeen = () => {
    const { top, bottom } = [...document.querySelectorAll('#answers [data-answer]')].at(-1).getBoundingClientRect();
    return top < innerHeight && bottom > 0;
};

test('2,042 answers scroll smoothly to their end', async (t) => {
    const page = await full();
    await page.send('Performance.enable', { timeDomain: 'threadTicks' });
    const steps = [...Array(60).fill(400), ...Array(60).fill(-300)];
    const before = await worked(page);
    const { frames } = await page.evaluate(scroll, steps);
    const work = ((await worked(page)) - before) / steps.length;
    const { moved } = await page.evaluate(scroll, Array(8).fill(10000000));
    const slow = frames.filter((time) => time > 50).length;
    t.diagnostic(`a frame: ${ms(middle(frames))}, of which work ${work.toFixed(1)} ms; ${slow} of ${frames.length} frames above 50 ms; ${Math.round(moved)} px in all`);
    assert.ok(moved > 2042 * 10, 'the list scrolls');
    assert.ok(await page.evaluate(lastIsSeen), 'its end is reached');
    assert.ok(work < 50, ms(work));
});

test('a full sheet as text comes and goes', async () => {
    const page = await full();
    const text = await sheetText(page);
    await write(page, '');
    assert.equal((await rows(page)).length, 0);
    await write(page, text);
    assert.equal((await rows(page)).length, 2042);
});
