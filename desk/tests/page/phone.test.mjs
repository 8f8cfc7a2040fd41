// On a phone: nothing but a picture scrolls sideways, and everything can be touched.
import assert from 'node:assert/strict';
import { test } from 'node:test';
import { choose, openDesk, openPath, rows, sample, useBrowser, write } from '../page.mjs';

useBrowser();

const sideways = () => ({
    page: document.documentElement.scrollWidth - document.documentElement.clientWidth,
    over: [...document.querySelectorAll('body *')].filter((element) => {
        const { right, width } = element.getBoundingClientRect();
        const clipped = (() => { for (let at = element.parentElement; at; at = at.parentElement) if (/auto|scroll|hidden|clip/.test(getComputedStyle(at).overflowX)) return true; return false; })();
        return width > 0 && right > document.documentElement.clientWidth + 1 && !clipped && element.checkVisibility({ checkVisibilityCSS: true }) && getComputedStyle(element).position !== 'absolute';
    }).slice(0, 5).map((element) => element.outerHTML.slice(0, 80)),
});

for (const width of [360, 320, 768, 1024]) {
    test(`${width} wide: the page does not scroll sideways`, async () => {
        const page = await openDesk({ width, height: 740, mobile: width < 700 });
        for (const name of ['lesson.sheet', 'm1-m15.sheet']) {
            await openPath(page, sample(name));
            for (const row of (await rows(page)).slice(0, 4)) {
                await choose(page, row.answer);
                assert.deepEqual(await page.evaluate(sideways), { page: 0, over: [] }, `${name}, answer ${row.answer}`);
            }
            await page.evaluate(() => document.querySelectorAll('details').forEach((details) => { details.open = true; }));
            assert.deepEqual(await page.evaluate(sideways), { page: 0, over: [] }, `${name}, with all opened`);
        }
        await write(page, `${'nonsense'.repeat(40)}\nCL1500\n`);
        assert.equal((await page.evaluate(sideways)).page, 0);
    });
}

test('on a phone the sheet, the answers and the picture are all to be had', async () => {
    const page = await openDesk({ width: 360, height: 740, mobile: true });
    await openPath(page, sample('m1-m15.sheet'));
    await choose(page, 5);
    await page.click('#detail svg.picture');
    await page.click('#instant');
    await page.insert('2 1/2');
    await page.evaluate(() => new Promise((done) => setTimeout(done, 200)));
    assert.match(await page.evaluate(() => document.querySelector('#standing').textContent), /2 1\/2 s is a conflict time/);
    await page.click('#sheet');
    assert.equal(await page.evaluate(() => document.activeElement.id), 'sheet');
});

test('on a phone buttons are at least 24 px high, and a field\'s text 16 px, so that it is not zoomed', async () => {
    const page = await openDesk({ width: 360, height: 740, mobile: true });
    await openPath(page, sample('m1-m15.sheet'));
    await choose(page, 1);
    const small = await page.evaluate(() => {
        const shown = (selector) => [...document.querySelectorAll(selector)].filter((control) => control.checkVisibility({ checkOpacity: true }));
        const low = shown('button, select, summary').filter((control) => control.getBoundingClientRect().height < 24);
        const fine = shown('input:not([type=file]), textarea, select').filter((field) => parseFloat(getComputedStyle(field).fontSize) < 16);
        return [...low, ...fine].map((control) => control.id || control.textContent.trim());
    });
    assert.deepEqual(small, []);
});
