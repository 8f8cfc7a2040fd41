// Saving and opening again, in both forms: no byte is lost, whatever is in the sheet.
import assert from 'node:assert/strict';
import { readFileSync, writeFileSync } from 'node:fs';
import { join } from 'node:path';
import { test } from 'node:test';
import {
    fullSheet, generator, marks, openBytes, openDesk, openPath, record, rows, sample, save, settled, sheetText, useBrowser, world, write,
} from '../page.mjs';

useBrowser();

// Saves in both forms, opens each again, and saves each again.
async function assertRoundTrip(page, bytes) {
    const text = await save(page, '#save-text');
    assert.equal(Buffer.compare(await save(page, '#save-binary'), bytes), 0, 'the binary sheet as saved');
    await write(page, '');
    await openBytes(page, text, 'again.txt');
    assert.equal(Buffer.compare(await save(page, '#save-text'), text), 0, 'the text, opened and saved again');
    assert.equal(Buffer.compare(await save(page, '#save-binary'), bytes), 0, 'the binary sheet from the text');
    await write(page, '');
    await openBytes(page, bytes, 'again.sheet');
    assert.equal(Buffer.compare(await save(page, '#save-binary'), bytes), 0, 'the binary sheet, opened and saved again');
}

for (const name of ['m1-m15', 'article', 'lesson']) {
    test(`${name}: text and binary are saved and opened byte for byte`, async () => {
        const page = await openDesk();
        await openPath(page, sample(`${name}.sheet`));
        await assertRoundTrip(page, readFileSync(sample(`${name}.sheet`)));
    });
    test(`${name}: its text is opened, saved as it stands, and gives the same binary sheet`, async () => {
        const page = await openDesk();
        await openPath(page, sample(`${name}.txt`));
        assert.equal(Buffer.compare(await save(page, '#save-text'), readFileSync(sample(`${name}.txt`))), 0);
        assert.equal(Buffer.compare(await save(page, '#save-binary'), readFileSync(sample(`${name}.sheet`))), 0);
    });
}

const encounter = record.encounter(300000, 32250, 10000, 0, 0);

const ODD = {
    'an empty sheet': Buffer.alloc(0),
    'an unknown kind': Buffer.concat([encounter, record.coded(12), Buffer.of(9, 1, 2, 3)]),
    'bytes that look like text': Buffer.from('# CL1500\n'),
    'zeros': Buffer.alloc(40),
    'a body cut short': Buffer.concat([encounter, record.free().subarray(0, 22)]),
    'a kind alone at the end': Buffer.concat([encounter, record.coded(1), Buffer.of(5)]),
    'every refused setting': Buffer.concat([
        record.encounter(12000001, -480001, -1, 10001, -10001), record.puck(-1, 0), record.delayAcceleration(2001), record.coded(0), record.coded(255, 601),
        record.free({ sides: 7, sense: 9, target: -2147483648, upperTarget: 2147483647, strength: -1, upperStrength: 5, delay: 65535, limit: 65534 }),
    ]),
    'a full sheet': fullSheet(),
    'a sheet that is too long': Buffer.concat([fullSheet(), record.coded(3)]),
};

for (const [name, bytes] of Object.entries(ODD)) {
    test(`${name} goes to text and back`, async () => {
        const page = await openDesk();
        await openBytes(page, bytes, 'odd.sheet');
        await assertRoundTrip(page, bytes);
    });
}

test('sixty sheets of anything go to text and back', async () => {
    const page = await openDesk();
    const below = generator(22);
    const sizes = [21, 9, 5, 4, 23];
    for (let number = 0; number < 60; number += 1) {
        const parts = Array.from({ length: below(12) }, () => {
            const kind = 1 + below(5);
            return Buffer.from([kind, ...Array.from({ length: sizes[kind - 1] - 1 }, () => [0, 255, below(256)][below(3)])]);
        });
        const bytes = Buffer.concat([...parts, Buffer.from(Array.from({ length: below(6) }, () => below(256)))]);
        await openBytes(page, bytes, 'any.sheet');
        assert.equal(Buffer.compare(await save(page, '#save-binary'), bytes), 0, `sheet ${number}: ${bytes.toString('hex')}`);
        const text = await sheetText(page);
        await write(page, `${text}# and back`);
        assert.equal(Buffer.compare(await save(page, '#save-binary'), bytes), 0, `sheet ${number}, by its text: ${bytes.toString('hex')}`);
    }
});

test('a file is text or binary by its end, else by its content', async () => {
    const page = await openDesk();
    await openBytes(page, Buffer.from('# a sheet\nCL1500\n'), 'without-end');
    assert.equal(await sheetText(page), '# a sheet\nCL1500\n');
    await openBytes(page, record.coded(12), 'without-end');
    assert.equal((await sheetText(page)).trim(), 'CL1500');
    await openBytes(page, Buffer.from('# a sheet'), 'binary.sheet');
    assert.match(await sheetText(page), /^bytes 23 20/);
});

test('the saved files have names with their ends', async () => {
    const page = await openDesk();
    await openPath(page, sample('lesson.sheet'));
    assert.match((await page.saved(() => page.click('#save-text'))).name, /\.txt$/);
    assert.match((await page.saved(() => page.click('#save-binary'))).name, /\.sheet$/);
});

test('the same file can be opened twice', async () => {
    const page = await openDesk();
    const path = join(world.folder, 'twice.txt');
    writeFileSync(path, 'CL1500\n');
    await openPath(page, path);
    await write(page, 'DES1500\n');
    await openPath(page, path);
    assert.equal(await sheetText(page), 'CL1500\n');
});

test('while a line is faulty, what is saved as binary is not silently less than the text', async () => {
    const page = await openDesk();
    await write(page, 'CL1500\nnonsense\nDES1500\n');
    assert.equal((await marks(page)).length > 0, true);
    const disabled = await page.evaluate(() => document.querySelector('#save-binary').disabled || document.querySelector('#save-binary').getAttribute('aria-disabled') === 'true');
    if (disabled) return;
    await page.click('#save-binary');
    await settled(page);
    assert.match(await page.evaluate(() => document.body.innerText), /line 2/i);
});

test('unsaved work is there after the page is loaded again', async () => {
    const page = await openDesk({ keep: true });
    await write(page, '# kept\nCL1500\n');
    await page.evaluate(() => new Promise((done) => setTimeout(done, 600)));
    await page.reload();
    await page.evaluate(() => window.desk.ready.then(() => true));
    await settled(page);
    assert.equal(await sheetText(page), '# kept\nCL1500\n');
    assert.equal((await rows(page)).length, 1);
});
