// The list of answers: a row each, built again only where what it shows has changed; one row is chosen. Rows stand in groups, as the browser draws a group only when
// it is seen, and has less to look after than with each row by itself.

import { make, reveal } from './dom.js';
import { common } from './lists.js';
import { askedText, remarksOf, sentenceOf, spokenText } from './sentence.js';

const PAGE_ROWS = 8;
const GROUP = 50;
const ROW_HEIGHT = 5;
const NEAR = 40;
const SLICE = 12;

const pause = () => new Promise((done) => setTimeout(done));

// All that a row shows but for where it stands.
function signatureOf(entry) {
    const { text, meaning, warnings } = entry.answer;
    return [entry.title, text, ...meaning, ...warnings, ...entry.faults.map((fault) => fault.text), askedText(entry)].join('\n');
}

// The inside of a row, and the parts that say where it stands.
function contentOf(entry) {
    const asked = askedText(entry);
    const number = make('span', { class: 'number' });
    const place = make('span', { class: 'place' });
    const title = make('span', { class: 'advisory' }, entry.title);
    const rest = [sentenceOf(entry.answer), ...remarksOf(entry), ...(asked ? [make('p', { class: 'asked' }, asked)] : [])];
    return { number, place, all: [number, title, place, ...rest] };
}

function newRow() {
    const element = make('div', { class: 'row', role: 'option', 'aria-selected': 'false' });
    return { element, signature: null, stands: null, spoken: null, number: null, place: null };
}

function fill(row, entry, signature) {
    const { number, place, all } = contentOf(entry);
    row.element.replaceChildren(...all);
    row.element.className = `row ${entry.tone}`;
    Object.assign(row, { signature, stands: null, spoken: spokenText(entry), number, place });
    if (entry.answer.refusal === null) {
        delete row.element.dataset.refusal;
    } else {
        row.element.dataset.refusal = entry.answer.refusal;
    }
}

function placeRow(row, { number, line, answer }) {
    const stands = `${number} ${line} ${answer.record}`;
    if (row.stands === stands) {
        return;
    }
    row.stands = stands;
    row.element.id = `answer-${number}`;
    // A name of its own, as a row that is not drawn has no text for readers who listen.
    row.element.setAttribute('aria-label', `${number}, ${row.spoken}`);
    row.element.dataset.answer = number;
    row.element.dataset.record = answer.record;
    row.number.textContent = number;
    row.place.textContent = `line ${line}`;
}

// As many rows as answers; those that come or go do so where the answers differ first.
function align(state, signatures) {
    const { rows } = state;
    const { start } = common(rows.map(({ signature }) => signature), signatures);
    const more = signatures.length - rows.length;
    const fresh = Array.from({ length: Math.max(more, 0) }, newRow);
    rows.splice(start, Math.max(-more, 0), ...fresh).forEach(({ element }) => element.remove());
    if (more !== 0) {
        group(state);
    }
}

// Each row into its group, those that are there already untouched.
function group({ list, rows }) {
    const count = Math.ceil(rows.length / GROUP);
    while (list.children.length < count) {
        list.append(make('div', { class: 'group', role: 'presentation' }));
    }
    rows.forEach(({ element }, index) => {
        const box = list.children[Math.floor(index / GROUP)];
        const there = box.children[index % GROUP] ?? null;
        if (there !== element) {
            box.insertBefore(element, there);
        }
    });
    while (list.children.length > count) {
        list.lastChild.remove();
    }
    [...list.children].forEach((box) => (box.style.containIntrinsicSize = `auto ${ROW_HEIGHT * box.children.length}rem`));
}

function update(row, entry, signature) {
    if (row.signature !== signature) {
        fill(row, entry, signature);
    }
    placeRow(row, entry);
}

const select = ({ rows, chosen }, selected) => rows[chosen - 1]?.element.setAttribute('aria-selected', String(selected));

function choose(state, number) {
    select(state, false);
    state.chosen = number;
    select(state, true);
    const row = state.rows[number - 1]?.element;
    if (row) {
        state.list.setAttribute('aria-activedescendant', row.id);
        reveal(state.list, row);
    } else {
        state.list.removeAttribute('aria-activedescendant');
    }
}

// A few at a time, so that there is time to type; false where other answers came meanwhile.
async function showOthers(state, steps) {
    const { showing } = state;
    let began = performance.now();
    for (const step of steps) {
        if (performance.now() - began > SLICE) {
            await pause();
            began = performance.now();
        }
        if (state.showing !== showing) {
            return false;
        }
        step();
    }
    return true;
}

// The rows near the one that is to be chosen at once; what is returned does the others, and says whether it came to its end.
function show(state, entries, near) {
    const signatures = entries.map(signatureOf);
    const step = (entry, index) => () => update(state.rows[index], entry, signatures[index]);
    const isNear = ({ number }) => Math.abs(number - near) <= NEAR;
    state.showing += 1;
    select(state, false);
    align(state, signatures);
    const steps = entries.map(step);
    steps.filter((_, index) => isNear(entries[index])).forEach((now) => now());
    return () => showOthers(state, steps.filter((_, index) => !isNear(entries[index])));
}

// Which row a key chooses, or null where it is none of ours.
function chosenBy({ key, altKey, ctrlKey, metaKey }, { rows, chosen }) {
    const count = rows.length;
    const steps = { ArrowDown: 1, ArrowUp: -1, PageDown: PAGE_ROWS, PageUp: -PAGE_ROWS, Home: -count, End: count };
    if (!(key in steps) || count === 0 || altKey || ctrlKey || metaKey) {
        return null;
    }
    return Math.min(Math.max((chosen ?? 0) + steps[key], 1), count);
}

export function rowsOf(list, onChosen) {
    const state = { list, rows: [], chosen: null, showing: 0 };
    const pick = (number) => {
        choose(state, number);
        onChosen(number);
    };
    list.addEventListener('keydown', (event) => {
        const number = chosenBy(event, state);
        if (number !== null) {
            event.preventDefault();
            pick(number);
        }
    });
    list.addEventListener('click', ({ target }) => {
        const clicked = target.closest('[data-answer]');
        if (clicked) {
            pick(Number(clicked.dataset.answer));
        }
    });
    return {
        choose: (number) => choose(state, number),
        show: (entries, near) => show(state, entries, near),
    };
}
