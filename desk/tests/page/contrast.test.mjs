// Every text stands out from its ground by at least 4.5 to 1 (large text 3 to 1), light and dark, on a wide screen and a phone.
import assert from 'node:assert/strict';
import { test } from 'node:test';
import { choose, openDesk, openPath, sample, useBrowser, write } from '../page.mjs';

useBrowser();

// In the page: colours as numbers, what lies under an element, and how far two colours are apart.
const colours = () => {
    const canvas = document.createElement('canvas').getContext('2d', { willReadFrequently: true });
    const rgba = (colour) => {
        canvas.clearRect(0, 0, 1, 1);
        canvas.fillStyle = colour;
        canvas.fillRect(0, 0, 1, 1);
        const [r, g, b, a] = canvas.getImageData(0, 0, 1, 1).data;
        return [r, g, b, a / 255];
    };
    const over = ([r, g, b, a], ground) => [r, g, b].map((part, index) => part * a + ground[index] * (1 - a));
    const linear = (part) => (part <= 0.04045 ? part / 12.92 : ((part + 0.055) / 1.055) ** 2.4);
    const light = (colour) => colour.reduce((sum, part, index) => sum + linear(part / 255) * [0.2126, 0.7152, 0.0722][index], 0);
    const chain = (element) => (element ? [element, ...chain(element.parentElement)] : []);
    const ground = (element) => chain(element).map((at) => rgba(getComputedStyle(at).backgroundColor)).reverse().reduce((below, layer) => over(layer, below), [255, 255, 255]);
    const opacity = (element) => chain(element).reduce((all, at) => all * Number(getComputedStyle(at).opacity), 1);
    return (element, colour) => {
        const below = ground(element);
        const [r, g, b, a] = rgba(colour);
        const [low, high] = [light(over([r, g, b, a * opacity(element)], below)), light(below)].sort((one, other) => one - other);
        return (high + 0.05) / (low + 0.05);
    };
};

// In the page: each text that is too faint, with its ratio.
const faintTexts = (ratio) => {
    const unseen = ['SCRIPT', 'STYLE', 'TEMPLATE', 'NOSCRIPT', 'title', 'desc'];
    const found = [];
    const walker = document.createTreeWalker(document.body, NodeFilter.SHOW_TEXT);
    while (walker.nextNode()) {
        const element = walker.currentNode.parentElement;
        const text = walker.currentNode.data.trim();
        if (text === '' || unseen.includes(element.tagName) || !element.checkVisibility({ checkVisibilityCSS: true })) continue;
        const style = getComputedStyle(element);
        const value = ratio(element, element instanceof SVGElement ? style.fill : style.color);
        const size = parseFloat(style.fontSize);
        const large = size >= 24 || (size >= 18.66 && Number(style.fontWeight) >= 700);
        if (value < (large ? 3 : 4.5)) found.push(`${element.tagName}.${element.getAttribute('class') ?? ''} "${text.slice(0, 30)}" ${value.toFixed(2)}`);
    }
    return found;
};

// In the page: each field whose text or hint is too faint.
const faintFields = (ratio) => [...document.querySelectorAll('textarea, input, select')].filter((field) => field.checkVisibility({ checkOpacity: true })).flatMap((field) => {
    const drawn = [['text', getComputedStyle(field).color], ...(field.placeholder ? [['hint', getComputedStyle(field, '::placeholder').color]] : [])];
    return drawn.map(([name, colour]) => [name, ratio(field, colour)]).filter(([, value]) => value < 4.5).map(([name, value]) => `${field.id} ${name} ${value.toFixed(2)}`);
});

const faint = (page) => page.evaluate(`(() => { const ratio = (${colours})(); return [...(${faintTexts})(ratio), ...(${faintFields})(ratio)].slice(0, 15); })()`);

for (const scheme of ['light', 'dark']) {
    for (const width of [1440, 360]) {
        test(`${scheme}, ${width} wide`, async () => {
            const page = await openDesk({ scheme, width, mobile: width < 500 });
            await openPath(page, sample('lesson.sheet'));
            for (const answer of [1, 2, 5, 9]) {
                await choose(page, answer);
                await page.evaluate(() => document.querySelectorAll('details').forEach((details) => { details.open = true; }));
                assert.deepEqual(await faint(page), [], `with answer ${answer} chosen`);
            }
            await write(page, 'encounter ahead 0 ft\nnonsense\n');
            assert.deepEqual(await faint(page), [], 'with faulty lines');
        });
    }
}

test('the button for light and dark changes the ground, whatever the machine prefers', async () => {
    for (const scheme of ['light', 'dark']) {
        const page = await openDesk({ scheme });
        await openPath(page, sample('m1-m15.sheet'));
        const ground = () => page.evaluate(() => getComputedStyle(document.body).backgroundColor);
        const met = new Set([await ground()]);
        for (let turn = 0; turn < 2; turn += 1) {
            await page.click('#theme');
            met.add(await ground());
            assert.deepEqual(await faint(page), []);
        }
        assert.ok(met.size >= 2, [...met].join(' '));
    }
});
