// What the tests of the page share: opening it, giving it a sheet, reading what it shows; and the program `words`, whose words it must say.
import { spawnSync } from 'node:child_process';
import { mkdirSync, mkdtempSync, readFileSync, readdirSync, rmSync, writeFileSync } from 'node:fs';
import { tmpdir } from 'node:os';
import { dirname, join, resolve } from 'node:path';
import { fileURLToPath, pathToFileURL } from 'node:url';
import { after, before } from 'node:test';
import { launch, until } from './browser.mjs';
import { plant } from './plants.mjs';

export const root = resolve(dirname(fileURLToPath(import.meta.url)), '../..');
export const pageFile = resolve(process.env.DESK_PAGE ?? join(root, 'target/desk/lifgorund.html'));
export const pageUrl = pathToFileURL(pageFile).href;
export const shots = join(root, 'target/desk/shots');
export const sample = (name) => join(root, 'desk/samples', name);
const words = resolve(process.env.DESK_WORDS ?? join(root, 'target/bin/words'));

// ---- the browser of a test file, and a folder of its own
export const world = {};

export function useBrowser() {
    before(async () => {
        world.folder = mkdtempSync(join(tmpdir(), 'desk-test-'));
        world.browser = await launch();
        mkdirSync(shots, { recursive: true });
    });
    after(async () => {
        await world.browser?.close();
        rmSync(world.folder, { recursive: true, force: true });
    });
}

// Opens the page anew, with what it may have kept of an earlier sheet taken away; printing is only noted.
const fresh = `try { localStorage.clear(); } catch {}
    window.printed = 0;
    window.print = () => { window.printed += 1; };`;

export async function openDesk(settings = {}) {
    await world.page?.close();
    const page = await world.browser.open(pageUrl, { ...settings, before: `${settings.keep ? '' : fresh}${plant()}` });
    await page.evaluate(() => window.desk.ready.then(() => true));
    world.page = page;
    return page;
}

// ---- giving it a sheet
// In the page: whether the answers are those of the sheet as it stands, two frames later.
const quiet = () => new Promise((done) => requestAnimationFrame(() => requestAnimationFrame(() => {
    done(document.querySelector('#answers').getAttribute('aria-busy') !== 'true');
})));

export async function settled(page) {
    await until(() => page.evaluate(quiet), 'the answers', 20000);
}

// In the page: as if the text were pasted.
const paste = (text) => {
    const sheet = document.querySelector('#sheet');
    sheet.value = text;
    sheet.dispatchEvent(new InputEvent('input', { bubbles: true }));
};

// Chromium inserts many lines by the keyboard's way in quadratic time, so those are pasted.
export async function write(page, text) {
    await page.evaluate(() => { document.querySelector('#sheet').focus(); document.querySelector('#sheet').select(); });
    if (text.length > 4000) await page.evaluate(paste, text);
    else if (text === '') await page.press('Delete');
    else await page.insert(text);
    await settled(page);
}

export async function openBytes(page, bytes, name = 'given.sheet') {
    const path = join(world.folder, name);
    writeFileSync(path, bytes);
    await openPath(page, path);
}

export async function openPath(page, path) {
    await page.upload('#file', path);
    // The page empties the field once it has taken the file.
    await until(() => page.evaluate(() => document.querySelector('#file').files.length === 0), `${path} to be opened`, 20000);
    await settled(page);
}

export const save = async (page, button) => (await page.saved(() => page.click(button))).bytes;

export const sheetText = (page) => page.evaluate(() => document.querySelector('#sheet').value);

// ---- what it shows
// In the page: the rows of the answers.
const readRows = () => [...document.querySelectorAll('#answers [data-answer]')].map((row) => {
    const all = (name) => [...row.querySelectorAll(name)].map((element) => element.textContent.trim());
    return {
        answer: Number(row.dataset.answer),
        record: Number(row.dataset.record),
        verdict: all('.verdict').join(' '),
        meaning: all('.meaning').join(', '),
        warnings: all('.warning'),
        asked: all('.asked').join(' '),
        faults: all('.fault'),
        text: row.textContent.replace(/\s+/g, ' ').trim(),
    };
});

export const rows = (page) => page.evaluate(readRows);
export const status = (page) => page.evaluate(() => document.querySelector('#status').textContent.trim());

// The marks at lines of the sheet: the line's number and the words.
export const marks = (page) => page.evaluate(() => [...document.querySelectorAll('#faults li[data-line]')].map((item) => ({
    line: Number(item.dataset.line), text: item.textContent.replace(/\s+/g, ' ').trim(),
})));

// A row may move under the pointer while rows above it are laid out: then the click is repeated.
export async function choose(page, number) {
    const isChosen = (wanted) => document.querySelector('#chosen .number')?.textContent === wanted;
    await until(async () => {
        await page.click(`#answers [data-answer="${number}"] .verdict`);
        return page.evaluate(isChosen, String(number));
    }, `answer ${number} to be chosen`);
}

// ---- the program `words`: of each answer its lines; of a refused sheet its lines; the last line
export function nativeWords(bytes, at) {
    const { stdout, status: ended, error } = spawnSync(words, [...(at === undefined ? [] : [`--at=${at}`]), '-'], { input: bytes, maxBuffer: 1 << 26 });
    if (error) throw error;
    const lines = stdout.toString().split('\n').slice(0, -1);
    const answers = [];
    for (const line of lines) {
        if (line.startsWith('answer ')) answers.push([line]);
        else if (line.startsWith('    ') && answers.length > 0) answers.at(-1).push(line);
    }
    const refused = lines[0]?.startsWith('sheet refused') ? lines : null;
    return { status: ended, lines, answers: answers.map(readAnswer), refused };
}

function readAnswer(lines) {
    const details = lines.slice(1).map((line) => line.trim());
    const isMeaning = (line) => !/^(record \d+ at byte|asked of the encounter|warning: |\d)/.test(line);
    const [, number, verdict] = /^answer (\d+): (.*)$/.exec(lines[0]);
    return {
        answer: Number(number),
        verdict,
        meaning: details.filter(isMeaning),
        standing: details.find((line) => /^\d/.test(line)),
        record: Number(/^record (\d+)/.exec(details.find((line) => line.startsWith('record ')))[1]),
        warnings: details.filter((line) => line.startsWith('warning: ')),
        lines,
    };
}

// ---- sheets in bytes, by README's table
const four = (value) => { const bytes = Buffer.alloc(4); bytes.writeInt32BE(value); return bytes; };
const two = (value) => { const bytes = Buffer.alloc(2); bytes.writeUInt16BE(value); return bytes; };

export const record = {
    encounter: (r, h, c, v, vi) => Buffer.concat([Buffer.of(1), ...[r, h, c, v, vi].map(four)]),
    puck: (p, k) => Buffer.concat([Buffer.of(2), four(p), four(k)]),
    delayAcceleration: (e) => Buffer.concat([Buffer.of(3), four(e)]),
    coded: (code, limit = 65535) => Buffer.concat([Buffer.of(4, code), two(limit)]),
    free: ({ sides = 1, sense = 1, target = 0, upperTarget = 0, strength = 500, upperStrength = 0, delay = 0, limit = 65535 } = {}) => Buffer.concat([
        Buffer.of(5, sides, sense), ...[target, upperTarget, strength, upperStrength].map(four), two(delay), two(limit),
    ]),
};

// A full sheet: an encounter and 2,042 coded questions, 8,189 bytes.
export const fullSheet = () => Buffer.concat([
    record.encounter(300000, -3000, 10000, 0, 0),
    ...Array.from({ length: 2042 }, (_, number) => record.coded(1 + (number % 16), number % 5 === 0 ? number % 600 : 65535)),
]);

export const dataSheets = () => readdirSync(join(root, 'crates/sheets/data')).sort().map((name) => ({
    name, bytes: readFileSync(join(root, 'crates/sheets/data', name)),
}));

// ---- numbers in a row, the same each time (a linear congruence of 32 bits)
export function generator(seed) {
    let state = seed >>> 0;
    return (below) => {
        state = (Math.imul(state, 1664525) + 1013904223) >>> 0;
        return Math.floor((state / 2 ** 32) * below);
    };
}
