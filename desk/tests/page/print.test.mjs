// On paper: the answer key has every answer, the candidates' copy none. The key's pages stand in target/desk/shots.
import assert from 'node:assert/strict';
import { execFileSync } from 'node:child_process';
import { join } from 'node:path';
import { test } from 'node:test';
import { choose, openDesk, openPath, rows, sample, shots, useBrowser, world } from '../page.mjs';

useBrowser();

async function printed(page, button, name) {
    await page.click(button);
    await page.evaluate(() => new Promise((done) => setTimeout(done, 200)));
    assert.equal(await page.evaluate(() => window.printed > 0), true, 'the button prints');
    const pictures = await page.evaluate(() => document.querySelectorAll('#print svg.picture').length);
    const path = join(world.folder, `${name}.pdf`);
    await page.pdf(path);
    const text = execFileSync('pdftotext', ['-raw', path, '-']).toString();
    return { path, pictures, text: text.replace(/\s+/g, ' '), pages: text.split('\f').length - 1 };
}

const squeeze = (text) => text.replace(/\s+/g, ' ').replace(/[.,]$/, '');

for (const name of ['m1-m15', 'article', 'lesson']) {
    test(`${name}: the printed key has every answer, with its picture`, async (t) => {
        const page = await openDesk();
        await openPath(page, sample(`${name}.sheet`));
        const all = await rows(page);
        const key = await printed(page, '#print-key', `${name}-key`);
        for (const row of all) {
            for (const words of [row.verdict, row.meaning, ...row.warnings]) assert.ok(key.text.toLowerCase().includes(squeeze(words).toLowerCase()), `answer ${row.answer}: not on paper: ${words}`);
        }
        assert.equal(key.pictures, all.filter((row) => !/refused/i.test(row.verdict)).length, 'pictures');
        t.diagnostic(`${key.pages} pages`);
        execFileSync('pdftoppm', ['-r', '60', '-png', '-l', '3', key.path, join(shots, `key-${name}`)]);
    });

    test(`${name}: the candidates' copy has every question and no answer`, async () => {
        const page = await openDesk();
        await openPath(page, sample(`${name}.sheet`));
        await choose(page, 1);
        const all = await rows(page);
        const copy = await printed(page, '#print-copy', `${name}-copy`);
        assert.ok(!/conflict at|conflict on both|clear on|refused|never comes within|closer than|puck's edge|shows \d|level with the ownship/i.test(copy.text), copy.text.slice(0, 3000));
        for (const row of all) {
            if (row.meaning) assert.ok(!copy.text.toLowerCase().includes(squeeze(row.meaning).toLowerCase()));
        }
        const asked = all.filter((row) => !/refused/i.test(row.verdict)).length;
        assert.equal(copy.pictures, 0);
        assert.ok(copy.text.length > asked * 20, 'every question is there');
        execFileSync('pdftoppm', ['-r', '60', '-png', '-l', '1', copy.path, join(shots, `copy-${name}`)]);
    });
}

test('nothing on paper is dark, also from the dark page', async () => {
    const page = await openDesk({ scheme: 'dark' });
    await openPath(page, sample('article.sheet'));
    const { path } = await printed(page, '#print-key', 'dark');
    const image = execFileSync('pdftoppm', ['-r', '20', '-gray', '-l', '1', path], { maxBuffer: 1 << 26 });
    const pixels = image.subarray(image.indexOf('255\n') + 4);
    const light = pixels.reduce((count, pixel) => count + (pixel > 200 ? 1 : 0), 0);
    assert.ok(light > pixels.length * 0.7, `${Math.round((100 * light) / pixels.length)} % of the page is light`);
});

test('the page on the screen is as before after printing', async () => {
    const page = await openDesk();
    await openPath(page, sample('article.sheet'));
    await page.click('#print-copy');
    await page.evaluate(() => window.dispatchEvent(new Event('afterprint')));
    assert.equal(await page.evaluate(() => document.body.hasAttribute('data-print')), false);
    assert.ok((await rows(page)).length >= 2);
});
