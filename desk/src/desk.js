// The page: what is typed is judged and shown, and the answer that is chosen is pictured.

import { moduleBytes, samples } from './built.js';
import { wireFiles, wirePrint, wireSamples, wireTheme } from './controls.js';
import { detailOf } from './detail.js';
import { find, settled } from './dom.js';
import { editorOf } from './editor.js';
import { loadJudge } from './judge.js';
import { keep, kept } from './kept.js';
import { countsText, faultItems, lineKinds, remarksOn, say } from './remarks.js';
import { rowsOf } from './rows.js';
import { judgedSheet } from './sheet.js';

const FIRST_SAMPLE = 'article.txt';
const PAUSE = 30;
const SIDE_BY_SIDE = '(min-width: 48rem)';

// Chooses an answer, in the list or by its line in the text.
function choose(desk, number, { fromList = false } = {}) {
    const entry = desk.sheet.entries[number - 1] ?? null;
    desk.chosen = entry ? number : 1;
    desk.rows.choose(entry && number);
    desk.editor.show(entry && entry.line, { seen: fromList });
    desk.detail.show(entry, desk.sheet.words);
    if (fromList && !matchMedia(SIDE_BY_SIDE).matches) {
        find('detail').scrollIntoView({ block: 'start' });
    }
}

// The answer of the line that is being written.
function entryOfCaret({ area, editor, sheet }) {
    const line = document.activeElement === area ? editor.lineOfCaret() : null;
    return sheet.entries.find((entry) => entry.line === line);
}

// What is returned shows the rows that are not near.
function showSheet(desk) {
    const { sheet } = desk;
    const near = entryOfCaret(desk)?.number ?? Math.max(Math.min(desk.chosen, sheet.entries.length), 1);
    const showOthers = desk.rows.show(sheet.entries, near);
    desk.editor.mark(lineKinds(sheet));
    say(find('remarks'), remarksOn(sheet));
    say(find('counts'), [countsText(sheet)]);
    find('speed').textContent = `judged in ${sheet.milliseconds.toFixed(1)} ms`;
    find('faults').replaceChildren(...faultItems(sheet.read));
    find('none').hidden = sheet.refused !== null;
    desk.area.setAttribute('aria-invalid', String(!sheet.read.whole));
    document.body.classList.toggle('nothing', sheet.entries.length === 0);
    choose(desk, near);
    return showOthers;
}

async function judgeText(desk) {
    desk.typing = false;
    desk.sheet = judgedSheet(desk.judge, desk.area.value);
    keep('sheet', desk.area.value);
    const showOthers = showSheet(desk);
    if (await showOthers()) {
        desk.answers.setAttribute('aria-busy', 'false');
    }
}

function followCaret(desk) {
    const entry = desk.typing ? null : entryOfCaret(desk);
    if (entry && entry.number !== desk.chosen) {
        choose(desk, entry.number);
    }
}

function goToChosenLine({ editor, sheet, chosen }) {
    const entry = sheet.entries[chosen - 1];
    if (entry) {
        editor.goTo(entry.line);
    }
}

function wireText(desk) {
    const soon = settled(PAUSE, () => judgeText(desk));
    const follow = () => {
        desk.typing = true;
        desk.answers.setAttribute('aria-busy', 'true');
        desk.editor.follow();
        soon();
    };
    desk.area.addEventListener('input', follow);
    document.addEventListener('selectionchange', settled(PAUSE, () => followCaret(desk)));
    find('faults').addEventListener('click', ({ target }) => target.matches('button') && desk.editor.goTo(Number(target.dataset.line)));
    desk.answers.addEventListener('keydown', (event) => {
        if (event.key === 'Enter') {
            event.preventDefault();
            goToChosenLine(desk);
        }
    });
    return follow;
}

// A sheet that another took the place of can be had back.
function offerBack(desk, text) {
    const { value } = desk.area;
    if (value.trim() !== '' && value !== text) {
        desk.before = value;
        find('take-back').hidden = false;
    }
}

function deskOf(judge) {
    const [area, answers] = [find('sheet'), find('answers')];
    const desk = { judge, area, answers, editor: editorOf(area, find('copy')), detail: detailOf(judge), sheet: null, before: null, chosen: 1, typing: false };
    desk.rows = rowsOf(answers, (number) => choose(desk, number, { fromList: true }));
    const follow = wireText(desk);
    const open = (text) => {
        offerBack(desk, text);
        ['sample', 'instant', 'flight'].forEach((id) => (find(id).value = ''));
        desk.chosen = 1;
        desk.editor.replace(text);
        follow();
    };
    find('take-back').addEventListener('click', () => open(desk.before));
    desk.editor.follow();
    judgeText(desk);
    return { open, sheet: () => desk.sheet };
}

window.desk.start = async () => {
    wireTheme();
    const judge = await loadJudge(moduleBytes());
    window.desk.judge = judge;
    find('sheet').value = kept('sheet') ?? samples[FIRST_SAMPLE].text;
    const desk = deskOf(judge);
    wireFiles(desk);
    wireSamples(desk);
    wirePrint(judge, desk);
};
