// The picture of a question: to scale, from the judge's own pieces and points.
import assert from 'node:assert/strict';
import { test } from 'node:test';
import { choose, openDesk, openPath, rows, sample, useBrowser, write } from '../page.mjs';

useBrowser();

const picture = (page) => page.evaluate(() => {
    const svg = document.querySelector('#detail svg.picture');
    const { width, height } = svg.getBoundingClientRect();
    return {
        title: svg.querySelector('title')?.textContent ?? svg.getAttribute('aria-label') ?? '',
        desc: svg.querySelector('desc')?.textContent ?? '',
        classes: [...new Set([...svg.querySelectorAll('[class]')].flatMap((element) => [...element.classList]))],
        text: svg.textContent,
        numbers: !/NaN|Infinity|undefined/.test(svg.outerHTML),
        width, height,
    };
});

test('each question of the samples has a picture with a title and words, and no number is missing', async () => {
    const page = await openDesk();
    for (const name of ['m1-m15.sheet', 'article.sheet', 'lesson.sheet']) {
        await openPath(page, sample(name));
        for (const row of await rows(page)) {
            if (/refused/i.test(row.verdict)) continue;
            await choose(page, row.answer);
            const shown = await picture(page);
            assert.ok(shown.title.length > 0 && shown.desc.length > 0, `${name}, answer ${row.answer}: no title or description`);
            assert.ok(shown.numbers, `${name}, answer ${row.answer}: a number is missing`);
            assert.ok(shown.width > 200 && shown.height > 100, `${name}, answer ${row.answer}: ${shown.width} by ${shown.height}`);
        }
    }
    assert.deepEqual(page.seen.errors, []);
});

test('one-sided shows the lower path, two-sided both', async () => {
    const page = await openDesk();
    await openPath(page, sample('m1-m15.sheet'));
    const paths = () => page.evaluate(() => ['lower', 'upper'].map((side) => document.querySelectorAll(`#detail svg.picture path.${side}, #detail svg.picture .${side} path`).length > 0));
    await choose(page, 2);
    assert.deepEqual(await paths(), [true, false]);
    await choose(page, 13);
    assert.deepEqual(await paths(), [true, true]);
});

test('the instants of the answer are in the picture', async () => {
    const page = await openDesk();
    await openPath(page, sample('m1-m15.sheet'));
    for (const [answer, time] of [[2, '27 s'], [5, '2 s'], [11, '38 4/7 s']]) {
        await choose(page, answer);
        assert.ok((await picture(page)).text.includes(time), `answer ${answer}`);
    }
});

// In the page: the rows of the table by whole seconds, which is made when it is opened.
const openTable = async () => {
    document.querySelector('#seconds').open = true;
    await new Promise((done) => setTimeout(done, 100));
    return [...document.querySelectorAll('#seconds tr')].map((row) => [...row.cells].map((cell) => cell.textContent.trim().replace('−', '-')));
};

test('the table by whole seconds has the path\'s heights and what holds', async () => {
    const page = await openDesk();
    await openPath(page, sample('m1-m15.sheet'));
    await choose(page, 2);
    const table = await page.evaluate(openTable);
    // M2: climb to 1,500 at 500 from level flight: 250 t² grains up to 3 s, then 1,500 t - 2,250; the window is from 27 s to 33 s.
    const expected = [
        [0, '0.0', 'outside the window'], [2, '16.7', 'outside the window'], [3, '37.5', 'outside the window'], [27, '637.5', 'conflict time'], [28, '662.5', 'no conflict time'],
    ];
    for (const [second, feet, holds] of expected) {
        const cells = table.find(([first]) => first === String(second));
        assert.ok(cells, `no row of second ${second}`);
        assert.equal(cells[1], feet);
        assert.equal(cells[2], '537.5');
        assert.equal(cells.at(-1), holds);
    }
});

// In the page: where the drawn path is at each whole second, by the picture's own scale: its y there, and the judge's height.
const along = (q, last) => {
    const path = document.querySelector('#detail svg.picture path.lower');
    const length = path.getTotalLength();
    const at = (x) => {
        let [low, high] = [0, length];
        for (let step = 0; step < 40; step += 1) {
            const middle = (low + high) / 2;
            if (path.getPointAtLength(middle).x < x) low = middle;
            else high = middle;
        }
        return path.getPointAtLength(low).y;
    };
    // Two labels of the time axis give its scale.
    const labels = [...document.querySelectorAll('#detail svg.picture .axis text.number[text-anchor=middle]')].map((text) => [Number(text.textContent), Number(text.getAttribute('x'))]);
    const [[t0, x0], [t1, x1]] = [labels[0], labels.at(-1)];
    return Array.from({ length: last + 1 }, (_, second) => [second, at(x0 + ((second - t0) * (x1 - x0)) / (t1 - t0)), window.desk.judge.point(q, second).height / (2 * q.strength)]);
};

test('the path is drawn where the judge\'s points are, whole second by whole second', async (t) => {
    const page = await openDesk();
    await openPath(page, sample('m1-m15.sheet'));
    await choose(page, 10);
    const q = {
        r: 0, h: -42225, c: 0, v: 0, vi: 0, p: 30000, k: 6000, e: 966, sides: 1, sense: 1, target: 1500, upperTarget: 0, strength: 483, upperStrength: 0, delay: 5, limit: 65535,
    };
    const points = await page.evaluate(along, q, 22);
    const [lowest, highest] = [points[15], points[0]];
    const scale = (lowest[1] - highest[1]) / (lowest[2] - highest[2]);
    assert.ok(scale < 0, 'height is upwards');
    const off = Math.max(...points.map(([, y, height]) => Math.abs(y - (highest[1] + scale * (height - highest[2])))));
    t.diagnostic(`at most ${off.toFixed(2)} px off`);
    assert.ok(off < 0.6, `${off} px`);
});

test('a huge window, no window and no end are drawn', async () => {
    const page = await openDesk();
    await write(page, `encounter ahead 200000 ft, height 500 ft, closing 1 grains/s, own 0 ft/min, intruder 0 ft/min
CL1500
encounter ahead -5000 ft, height 500 ft, closing 100 ft/s, own 0 ft/min, intruder 0 ft/min
CL1500
encounter ahead 0 ft, height 8000 ft, closing 0 ft/s, own -10000 ft/min, intruder 10000 ft/min
CL1500
`);
    for (const row of await rows(page)) {
        await choose(page, row.answer);
        const shown = await picture(page);
        assert.ok(shown.numbers && shown.width > 200);
    }
    assert.deepEqual(page.seen.errors, []);
});
