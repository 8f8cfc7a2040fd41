// A sheet written by the keyboard, and what is said of its lines.
import assert from 'node:assert/strict';
import { test } from 'node:test';
import { marks, openDesk, rows, settled, status, useBrowser, write } from '../page.mjs';

useBrowser();

const WHOLE_EXAMPLE = `encounter ahead 0 ft, height -116 2/3 ft, closing 166 2/3 ft/s, own -1000 ft/min, intruder 0 ft/min
free one-sided climb, target 0 ft/min, strength 8 1/3 ft/s2
`;

test('a sheet typed key by key gives its answer', async () => {
    const page = await openDesk();
    await page.evaluate(() => { document.querySelector('#sheet').focus(); document.querySelector('#sheet').select(); });
    await page.press('Delete');
    await page.type(WHOLE_EXAMPLE);
    await settled(page);
    const [row, ...others] = await rows(page);
    assert.deepEqual(others, []);
    assert.match(row.verdict, /^conflict at 2 s/i);
    assert.match(row.meaning, /on the puck's edge/);
    assert.equal(row.answer, 1);
    assert.equal(row.record, 2);
});

test('an edit of one figure changes the answer', async () => {
    const page = await openDesk();
    await write(page, WHOLE_EXAMPLE);
    await page.evaluate(() => {
        const sheet = document.querySelector('#sheet');
        const at = sheet.value.indexOf('-116 2/3');
        sheet.setSelectionRange(at, at + '-116 2/3'.length);
    });
    await page.insert('-116 41/60');
    await settled(page);
    assert.match((await rows(page))[0].verdict, /^clear/i);
});

test('comments, blank lines, other cases, orders, units and signs are read', async () => {
    const page = await openDesk();
    await write(page, `# a lesson\n\nENCOUNTER Height −7,000 grains, own -1000 ft/min, ahead 0 ft, intruder 0 kt, closing 10000 grains/s   # as M5\ncl1500 LIMIT 30 s\n`);
    assert.deepEqual(await marks(page), []);
    const all = await rows(page);
    assert.equal(all.length, 1);
    assert.match(all[0].asked, /r 0, h -7000, c 10000, v -1000, vi 0/);
});

test('a value that is no whole number of grains is said, and the sheet is not judged from there on', async () => {
    const page = await openDesk();
    await write(page, `encounter ahead 5000 ft, height 500 ft, closing 100 ft/s, own 0 ft/min, intruder 0 ft/min
CL1500
encounter ahead 5000 ft, height 500 ft, closing 100 kt, own 0 ft/min, intruder 0 ft/min
DES1500
`);
    const said = await marks(page);
    assert.equal(said[0].line, 3);
    assert.match(said[0].text, /10,?126/);
    assert.match(said[0].text, /10,?127/);
    assert.equal((await rows(page)).length, 1);
    assert.match(await page.evaluate(() => document.body.innerText), /not judged/i);
});

test('~ takes the nearest, and a note says what was taken', async () => {
    const page = await openDesk();
    await write(page, `encounter ahead 5000 ft, height 500 ft, closing ~100 kt, own 0 ft/min, intruder 0 ft/min\nDES1500\n`);
    const all = await rows(page);
    assert.equal(all.length, 1);
    assert.match(all[0].asked, /c 10127/);
    const noted = await marks(page);
    assert.equal(noted[0].line, 1);
    assert.match(noted[0].text, /10127 grains\/s\) is taken/);
});

test('a line that is no record is marked with its words', async () => {
    const page = await openDesk();
    await write(page, `encounter ahead 5000 ft, height 500 ft, closing 100 ft/s, own 0 ft/min, intruder 0 ft/min\nCL1500\nCLIMB!\nDES1500\n`);
    const said = await marks(page);
    assert.equal(said[0].line, 3);
    assert.match(said[0].text, /CLIMB!/i);
    assert.equal((await rows(page)).length, 1);
});

test('an empty sheet has no answers and no faults', async () => {
    const page = await openDesk();
    await write(page, '');
    assert.deepEqual(await rows(page), []);
    assert.deepEqual(await marks(page), []);
    assert.match(await status(page), /\b(0|no)\b/i);
});

test('text from a sheet stays text', async () => {
    const page = await openDesk();
    await write(page, `# <img src=x onerror="console.error(1)">\n<b onclick=x>hello</b>\n`);
    assert.equal(await page.evaluate(() => document.querySelectorAll('#faults b, img[src=x]').length), 0);
    assert.deepEqual(page.seen.errors, []);
});
