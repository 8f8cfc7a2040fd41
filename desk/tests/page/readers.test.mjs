// For screen readers: every control, picture and list has a name; what changes is said.
import assert from 'node:assert/strict';
import { test } from 'node:test';
import { choose, openDesk, openPath, sample, useBrowser, write } from '../page.mjs';

useBrowser();

const CONTROLS = ['button', 'textbox', 'combobox', 'listbox', 'option', 'link', 'checkbox', 'radio', 'slider', 'spinbutton', 'searchbox', 'tab', 'DisclosureTriangle', 'MenuListPopup'];
const PICTURES = ['image', 'img', 'graphics-document', 'SvgRoot', 'figure'];

async function nameless(page, roles) {
    const nodes = await page.accessible();
    const wanted = nodes.filter(({ role }) => roles.includes(role));
    const without = wanted.filter(({ role, name }) => name.trim() === '' && role !== 'MenuListPopup');
    const described = await Promise.all(without.map(async ({ role, element }) => {
        const { object } = await page.send('DOM.resolveNode', { backendNodeId: element });
        const { result } = await page.send('Runtime.callFunctionOn', { objectId: object.objectId, functionDeclaration: 'function () { return this.outerHTML.slice(0, 120); }', returnByValue: true });
        return `${role}: ${result.value}`;
    }));
    return { count: wanted.length, described };
}

for (const [name, answer] of [['m1-m15', 1], ['lesson', 2]]) {
    test(`${name}: every control and every picture has a name`, async (t) => {
        const page = await openDesk();
        await openPath(page, sample(`${name}.sheet`));
        await choose(page, answer);
        const controls = await nameless(page, CONTROLS);
        const pictures = await nameless(page, PICTURES);
        t.diagnostic(`${controls.count} controls, ${pictures.count} pictures`);
        assert.ok(controls.count >= 10);
        assert.ok(pictures.count >= 1, 'the picture is known as one');
        assert.deepEqual([...controls.described, ...pictures.described], []);
    });
}

test('with a faulty line too', async () => {
    const page = await openDesk();
    await write(page, 'CL1500\nnonsense\n');
    assert.deepEqual((await nameless(page, CONTROLS)).described, []);
    assert.equal(await page.evaluate(() => document.querySelector('#sheet').getAttribute('aria-invalid')), 'true');
});

test('the counts are a status, and what is said of an instant and a flight is said aloud', async () => {
    const page = await openDesk();
    await openPath(page, sample('m1-m15.sheet'));
    await choose(page, 2);
    const live = await page.evaluate(() => ['#status', '#standing', '#flown'].map((name) => {
        const element = document.querySelector(name);
        return element.getAttribute('role') === 'status' || element.tagName === 'OUTPUT' || element.getAttribute('aria-live') === 'polite';
    }));
    assert.deepEqual(live, [true, true, true]);
});

test('headings go down one step at a time, from one first heading; there is a main part', async () => {
    const page = await openDesk();
    await openPath(page, sample('lesson.sheet'));
    await choose(page, 1);
    const levels = await page.evaluate(() => [...document.querySelectorAll('h1, h2, h3, h4, h5, h6')].filter((heading) => heading.checkVisibility()).map((heading) => Number(heading.tagName[1])));
    assert.equal(levels.filter((level) => level === 1).length, 1);
    levels.forEach((level, index) => assert.ok(index === 0 || level <= levels[index - 1] + 1, levels.join(' ')));
    assert.equal(await page.evaluate(() => document.querySelectorAll('main').length), 1);
});

test('ids are used once, and what aria and label speak of is there', async () => {
    const page = await openDesk();
    await openPath(page, sample('lesson.sheet'));
    await choose(page, 1);
    const wrong = await page.evaluate(() => {
        const ids = [...document.querySelectorAll('[id]')].map(({ id }) => id);
        const twice = ids.filter((id, index) => ids.indexOf(id) !== index);
        const names = ['aria-labelledby', 'aria-describedby', 'aria-controls', 'aria-activedescendant', 'for'];
        const spokenOf = names.flatMap((name) => [...document.querySelectorAll(`[${name}]`)].flatMap((element) => element.getAttribute(name).split(/\s+/)));
        const lost = spokenOf.filter((id) => id !== '' && !document.getElementById(id));
        return { twice, lost };
    });
    assert.deepEqual(wrong, { twice: [], lost: [] });
});

test('clear, conflict and refused differ by more than colour', async () => {
    const page = await openDesk();
    await openPath(page, sample('lesson.sheet'));
    const starts = await page.evaluate(() => [...document.querySelectorAll('#answers .verdict')].map((verdict) => /clear|conflict|refused/i.test(verdict.textContent)));
    assert.ok(starts.every(Boolean));
});
