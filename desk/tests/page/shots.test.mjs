// A picture of each view, for a person to look at: target/desk/shots.
import assert from 'node:assert/strict';
import { existsSync } from 'node:fs';
import { join } from 'node:path';
import { test } from 'node:test';
import { choose, openDesk, openPath, sample, shots, useBrowser, write } from '../page.mjs';

useBrowser();

const VIEWS = {
    'wide-clear': { sheet: 'lesson.sheet', answer: 1 },
    'wide-conflict': { sheet: 'm1-m15.sheet', answer: 5, instant: '2 1/2', flight: '8 1/3 ft/s2 for 2 s, 0 ft/s2 for 10 s' },
    'wide-delay': { sheet: 'm1-m15.sheet', answer: 10 },
    'wide-two-sided': { sheet: 'm1-m15.sheet', answer: 13 },
    'wide-article': { sheet: 'article.sheet', answer: 1 },
    'dark': { sheet: 'm1-m15.sheet', answer: 11, scheme: 'dark' },
    'phone': { sheet: 'm1-m15.sheet', answer: 2, width: 360, height: 740, mobile: true, whole: true },
    'phone-dark': { sheet: 'lesson.sheet', answer: 2, width: 360, height: 740, mobile: true, scheme: 'dark' },
};

for (const [name, view] of Object.entries(VIEWS)) {
    test(`shot ${name}`, async () => {
        const page = await openDesk(view);
        await openPath(page, sample(view.sheet));
        await choose(page, view.answer);
        for (const [field, text] of Object.entries({ instant: view.instant, flight: view.flight })) {
            if (text === undefined) continue;
            await page.evaluate((id) => document.getElementById(id).focus(), field);
            await page.insert(text);
        }
        await page.evaluate(() => { scrollTo(0, 0); return new Promise((done) => setTimeout(done, 300)); });
        const path = join(shots, `${name}.png`);
        await page.screenshot(path, view.whole ?? false);
        assert.ok(existsSync(path));
    });
}

test('shot faulty', async () => {
    const page = await openDesk();
    const encounter = 'encounter ahead 5000 ft, height 500 ft, closing ~100 kt, own 0 ft/min, intruder 0 ft/min\n';
    await write(page, `${encounter}CL1500\n${encounter.replace('~', '')}CLIMB\nDES1500\n`);
    await page.screenshot(join(shots, 'faulty.png'));
});
