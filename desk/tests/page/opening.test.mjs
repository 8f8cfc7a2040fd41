// The built file: one, small, opened from disk, silent and alone.
import assert from 'node:assert/strict';
import { readFileSync, statSync } from 'node:fs';
import { test } from 'node:test';
import { openDesk, openPath, pageFile, pageUrl, sample, useBrowser, choose } from '../page.mjs';

useBrowser();

test('the page is below 150 KB', (t) => {
    const { size } = statSync(pageFile);
    t.diagnostic(`${size} bytes`);
    assert.ok(size < 150 * 1000, `${size} bytes`);
});

test('the page names no other file', () => {
    const html = readFileSync(pageFile, 'utf8');
    const named = [...html.matchAll(/<(?:script|img|link|iframe|source|audio|video)\b[^>]*\b(?:src|href)\s*=\s*(?!["']?data:)[^>]*/gi)].map(([tag]) => tag);
    assert.deepEqual(named, []);
    assert.ok(!/\bfrom\s+['"]\.{1,2}\/|@import|url\((?!["']?(?:data:|#))/.test(html), 'an import or a url is left');
});

test('it opens from disk with no error and no request but for itself', async () => {
    const page = await openDesk();
    for (const name of ['m1-m15.sheet', 'article.sheet', 'lesson.sheet']) {
        await openPath(page, sample(name));
        await choose(page, 1);
    }
    for (const button of ['#print-key', '#print-copy', '#theme', '#save-text', '#save-binary']) await page.click(button);
    await page.evaluate(() => new Promise((done) => setTimeout(done, 200)));
    assert.deepEqual(page.seen.errors, []);
    const others = page.seen.requests.filter((url) => url !== pageUrl && !/^(blob|data):/.test(url));
    assert.deepEqual(others, []);
});

test('it has a title, a language and a policy that lets nothing in from outside', async () => {
    const page = await openDesk();
    const head = await page.evaluate(() => ({
        title: document.title,
        lang: document.documentElement.lang,
        policy: document.querySelector('meta[http-equiv="Content-Security-Policy" i]')?.content ?? '',
        viewport: document.querySelector('meta[name=viewport]')?.content ?? '',
    }));
    assert.ok(head.title.length > 0);
    assert.equal(head.lang, 'en');
    assert.match(head.policy, /default-src 'none'/);
    assert.match(head.viewport, /width=device-width/);
});
