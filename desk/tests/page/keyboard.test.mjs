// The keyboard alone reaches and uses everything.
import assert from 'node:assert/strict';
import { writeFileSync } from 'node:fs';
import { join } from 'node:path';
import { test } from 'node:test';
import { until } from '../browser.mjs';
import { choose, openDesk, openPath, rows, sample, settled, sheetText, useBrowser, world } from '../page.mjs';

useBrowser();

// In the page: what the keyboard should reach, each by a name of its own.
const controls = () => {
    const shown = (element) => element.checkVisibility({ checkOpacity: false, checkVisibilityCSS: true }) && !element.closest('[inert], [hidden]');
    return [...document.querySelectorAll('button, select, input, textarea, summary, a[href], [contenteditable=true]')]
        .filter((element) => shown(element) && !element.disabled && element.type !== 'hidden' && element.tabIndex >= 0)
        .map((element) => element.id || `${element.tagName} ${element.textContent.trim().slice(0, 30)}`);
};

const focused = () => {
    const element = document.activeElement;
    const { outlineStyle, outlineWidth, boxShadow } = getComputedStyle(element);
    return {
        name: element.id || `${element.tagName} ${element.textContent.trim().slice(0, 30)}`,
        tag: element.tagName,
        ring: (outlineStyle !== 'none' && parseFloat(outlineWidth) > 0) || boxShadow !== 'none',
        width: element.getBoundingClientRect().width,
    };
};

const reach = async (page, name) => {
    await page.evaluate(() => { document.activeElement.blur(); scrollTo(0, 0); });
    await page.evaluate(() => { document.body.tabIndex = -1; document.body.focus(); document.body.removeAttribute('tabindex'); });
    for (let step = 0; step < 120; step += 1) {
        await page.press('Tab');
        if ((await page.evaluate(focused)).name === name) return;
    }
    throw new Error(`Tab does not reach ${name}`);
};

test('Tab reaches every control, and each shows that it has the focus', async () => {
    const page = await openDesk();
    await openPath(page, sample('lesson.sheet'));
    await choose(page, 1);
    const wanted = await page.evaluate(controls);
    const met = new Map();
    await page.evaluate(() => { document.activeElement.blur(); });
    for (let step = 0; step < 150; step += 1) {
        await page.press('Tab');
        const now = await page.evaluate(focused);
        if (!met.has(now.name)) met.set(now.name, now);
    }
    assert.deepEqual(wanted.filter((name) => !met.has(name)), [], 'not reached');
    const dim = [...met.values()].filter(({ ring, tag }) => !ring && !['BODY', 'HTML'].includes(tag)).map(({ name }) => name);
    assert.deepEqual(dim, [], 'without a mark of the focus');
});

test('the first Tab offers to skip to the sheet or the answers', async () => {
    const page = await openDesk();
    await page.evaluate(() => document.activeElement.blur());
    await page.press('Tab');
    const { tag, width } = await page.evaluate(focused);
    assert.equal(tag, 'A');
    assert.ok(width > 20, 'the link is seen while it has the focus');
    await page.press('Enter');
    assert.notEqual(await page.evaluate(() => location.hash), '');
});

test('arrow keys go through the answers, and the picture follows', async () => {
    const page = await openDesk();
    await openPath(page, sample('m1-m15.sheet'));
    await page.evaluate(() => document.activeElement.blur());
    let there = false;
    for (let step = 0; step < 60 && !there; step += 1) {
        await page.press('Tab');
        there = await page.evaluate(() => document.querySelector('#answers').contains(document.activeElement) || document.activeElement.id === 'answers');
    }
    assert.ok(there, 'Tab reaches the answers');
    const chosen = () => page.evaluate(() => Number(document.querySelector('#answers [aria-selected=true]')?.dataset.answer ?? 0));
    await page.press('ArrowDown');
    const first = await chosen();
    assert.ok(first > 0, 'one is chosen');
    const before = await page.evaluate(() => document.querySelector('#detail').textContent);
    await page.press('ArrowDown');
    assert.equal(await chosen(), first + 1);
    await until(async () => (await page.evaluate(() => document.querySelector('#detail').textContent)) !== before, 'another picture');
    await page.press('ArrowUp');
    assert.equal(await chosen(), first);
    await page.press('End');
    assert.equal(await chosen(), 15);
    await page.press('Home');
    assert.equal(await chosen(), 1);
});

test('Tab leaves the sheet and does not stay in it', async () => {
    const page = await openDesk();
    await page.evaluate(() => document.querySelector('#sheet').focus());
    const before = await sheetText(page);
    await page.press('Tab');
    assert.notEqual((await page.evaluate(focused)).name, 'sheet');
    assert.equal(await sheetText(page), before);
});

test('a sheet is written, a question chosen, an instant and a flight given by keys alone', async () => {
    const page = await openDesk();
    await reach(page, 'sheet');
    await page.press('a', 'control');
    await page.press('Delete');
    await page.type('encounter ahead 0 ft, height -116 2/3 ft, closing 166 2/3 ft/s, own -1000 ft/min, intruder 0 ft/min\nfree one-sided climb, target 0 ft/min, strength 8 1/3 ft/s2\n');
    await settled(page);
    assert.equal((await rows(page)).length, 1);
    let there = false;
    for (let step = 0; step < 60 && !there; step += 1) {
        await page.press('Tab');
        there = await page.evaluate(() => document.querySelector('#answers').contains(document.activeElement) || document.activeElement.id === 'answers');
    }
    await page.press('ArrowDown');
    await page.press('Enter');
    await until(() => page.evaluate(() => document.querySelector('#detail svg.picture') !== null), 'the picture');
    await reach(page, 'instant');
    await page.type('2 1/2');
    await until(() => page.evaluate(() => /2 1\/2 s is a conflict time/.test(document.querySelector('#standing').textContent)), 'what holds at 2 1/2');
    await reach(page, 'flight');
    await page.type('8 1/3 ft/s2 for 2 s, 0 ft/s2 for 20 s');
    await until(() => page.evaluate(() => /obeys/i.test(document.querySelector('#flown').textContent)), 'what the flight is');
});

test('buttons work by Enter and by Space, and the sample by its keys', async () => {
    const page = await openDesk();
    await openPath(page, sample('article.sheet'));
    await reach(page, 'print-key');
    await page.press('Enter');
    assert.equal(await page.evaluate(() => window.printed), 1);
    await reach(page, 'print-copy');
    await page.press(' ');
    assert.equal(await page.evaluate(() => window.printed), 2);
    await page.evaluate(() => window.dispatchEvent(new Event('afterprint')));
    await reach(page, 'save-text');
    assert.ok((await page.saved(() => page.press('Enter'))).bytes.length > 0);
    await reach(page, 'theme');
    const colour = () => page.evaluate(() => getComputedStyle(document.body).backgroundColor);
    const before = await colour();
    await page.press('Enter');
    if (await colour() === before) await page.press('Enter');
    assert.notEqual(await colour(), before);
    await reach(page, 'sample');
    const text = await sheetText(page);
    for (let step = 0; step < 4 && (await sheetText(page)) === text; step += 1) {
        await page.press('ArrowDown');
        await settled(page);
    }
    assert.notEqual(await sheetText(page), text);
});

test('each details opens by Enter', async () => {
    const page = await openDesk();
    await openPath(page, sample('m1-m15.sheet'));
    await choose(page, 1);
    const summaries = await page.evaluate(() => [...document.querySelectorAll('summary')].filter((summary) => summary.checkVisibility()).length);
    assert.ok(summaries > 0);
    const opened = await page.evaluate(() => { const summary = [...document.querySelectorAll('summary')].find((one) => one.checkVisibility()); summary.focus(); return summary.parentElement.open; });
    await page.press('Enter');
    assert.notEqual(await page.evaluate(() => document.activeElement.parentElement.open), opened);
});

test('the file control opens a file that is chosen', async () => {
    const page = await openDesk();
    const path = join(world.folder, 'keys.txt');
    writeFileSync(path, 'CL1500\n');
    await openPath(page, path);
    assert.equal(await sheetText(page), 'CL1500\n');
});
