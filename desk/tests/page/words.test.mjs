// What the page says is what the program `words` says of the same bytes, line by line.
import assert from 'node:assert/strict';
import { readFileSync } from 'node:fs';
import { test } from 'node:test';
import { choose, dataSheets, fullSheet, nativeWords, openBytes, rows, sample, save, openDesk, openPath, useBrowser, write } from '../page.mjs';

useBrowser();

const plain = (text) => text.replace(/\.$/, '').replace(/^./, (letter) => letter.toLowerCase());

// A row says an answer's first line and its meaning, and shows its lines as they are.
function assertSame(row, answer) {
    assert.equal(row.answer, answer.answer);
    assert.equal(row.record, answer.record);
    assert.equal(plain(row.verdict).replace(/,$/, ''), answer.verdict);
    assert.equal(row.meaning.replace(/\.$/, ''), answer.meaning.join(', '));
    assert.equal(row.warnings.length, answer.warnings.length);
    row.warnings.forEach((warning, index) => assert.equal(plain(warning), answer.warnings[index]));
}

async function assertSheet(page, bytes) {
    const native = nativeWords(bytes);
    const shown = await rows(page);
    if (native.refused) {
        assert.deepEqual(shown, []);
        const said = await page.evaluate(() => document.querySelector('#remarks').textContent.replace(/\s+/g, ' '));
        for (const line of native.refused) assert.ok(said.toLowerCase().includes(line.trim().replace(/^sheet /, '')), `the page does not say: ${line}`);
        return;
    }
    assert.equal(shown.length, native.answers.length);
    shown.forEach((row, index) => assertSame(row, native.answers[index]));
}

for (const name of ['m1-m15', 'article', 'lesson']) {
    test(`${name}: the words of the saved binary sheet`, async () => {
        const page = await openDesk();
        await write(page, readFileSync(sample(`${name}.txt`), 'utf8'));
        await assertSheet(page, await save(page, '#save-binary'));
    });
}

test('the sheets of the judge\'s own tests: the same words', async (t) => {
    const page = await openDesk();
    const sheets = dataSheets();
    for (const { name, bytes } of sheets) {
        await openBytes(page, bytes);
        try {
            await assertSheet(page, bytes);
        } catch (error) {
            error.message = `${name}: ${error.message}`;
            throw error;
        }
    }
    t.diagnostic(`${sheets.length} sheets`);
});

test('a full sheet of 2,042 questions: the same words', async () => {
    const page = await openDesk();
    await openBytes(page, fullSheet());
    await assertSheet(page, fullSheet());
});

test('"in the judge\'s words" shows its very lines', async () => {
    const page = await openDesk();
    await openPath(page, sample('lesson.sheet'));
    const native = nativeWords(readFileSync(sample('lesson.sheet')));
    for (const answer of native.answers) {
        await choose(page, answer.answer);
        const said = await page.evaluate(() => document.querySelector('#said').textContent);
        assert.equal(said.trimEnd(), answer.lines.join('\n'));
    }
});
