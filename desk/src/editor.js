// The sheet's text with numbered lines: behind the text area stands a copy, line by line, that wraps as it does and carries numbers and marks.

import { make, reveal } from './dom.js';
import { common } from './lists.js';

const copyOf = (text) => make('div', { class: 'line' }, make('span', {}, text === '' ? '\u200b' : text));

// The copy follows the text: only lines that differ are made anew.
function follow({ area, copy, lines }) {
    const now = area.value.split('\n');
    const { start, end } = common(lines, now);
    const next = copy.children[lines.length - end] ?? null;
    const gone = [...copy.children].slice(start, lines.length - end);
    gone.forEach((child) => child.remove());
    now.slice(start, now.length - end).forEach((text) => copy.insertBefore(copyOf(text), next));
    return now;
}

function mark({ copy }, kinds) {
    [...copy.children].forEach((child, index) => {
        const name = `line ${kinds[index] ?? ''}`;
        if (child.className !== name) {
            child.className = name;
        }
    });
}

// The line of the answer that is chosen; null where none is.
function show({ box, copy }, number, seen) {
    copy.querySelector('.current')?.classList.remove('current');
    const line = number === null ? null : copy.children[number - 1];
    line?.classList.add('current');
    if (line && seen) {
        reveal(box, line);
    }
}

function goTo({ area, box, copy, lines }, number) {
    const start = lines.slice(0, number - 1).reduce((sum, line) => sum + line.length + 1, 0);
    area.focus({ preventScroll: true });
    area.setSelectionRange(start, start + lines[number - 1].length);
    box.scrollIntoView({ block: 'nearest' });
    reveal(box, copy.children[number - 1]);
}

// Not by the browser's editing, which could be undone but takes seconds for a long sheet.
function replace({ area, box }, text) {
    area.value = text;
    area.setSelectionRange(0, 0);
    box.scrollTop = 0;
}

export function editorOf(area, copy) {
    const state = { area, copy, box: area.parentElement, lines: [] };
    return {
        follow: () => (state.lines = follow(state)),
        // One list of classes a line, in order.
        mark: (kinds) => mark(state, kinds),
        // Marks the line of the answer that is chosen, and may bring it into view.
        show: (number, { seen }) => show(state, number, seen),
        lineOfCaret: () => area.value.slice(0, area.selectionStart).split('\n').length,
        goTo: (number) => goTo(state, number),
        replace: (text) => replace(state, text),
    };
}
