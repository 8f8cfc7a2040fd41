// The controls over the page: files, samples, print and theme.

import { samples } from './built.js';
import { find, make } from './dom.js';
import { openedText, save } from './files.js';
import { keep, kept } from './kept.js';
import { printedPages } from './print.js';
import { say } from './remarks.js';

function saveText() {
    save('sheet.txt', find('sheet').value, 'text/plain');
}

function saveBinary({ read }) {
    if (read.whole) {
        save('sheet.sheet', read.bytes, 'application/octet-stream');
    } else {
        say(find('remarks'), ['The binary sheet is not saved: a line cannot be read.']);
    }
}

// A file that is dropped is opened; text that is dropped is the browser's.
function wireDrop(open) {
    const hasFile = ({ dataTransfer }) => dataTransfer.types.includes('Files');
    document.addEventListener('dragover', (event) => hasFile(event) && event.preventDefault());
    document.addEventListener('drop', (event) => {
        if (hasFile(event)) {
            event.preventDefault();
            open(event.dataTransfer.files[0]);
        }
    });
}

export function wireFiles(desk) {
    const open = async (file) => file && desk.open(await openedText(file));
    find('file').addEventListener('change', async ({ target }) => {
        await open(target.files[0]);
        target.value = '';
    });
    find('save-text').addEventListener('click', saveText);
    find('save-binary').addEventListener('click', () => saveBinary(desk.sheet()));
    document.addEventListener('keydown', (event) => {
        if ((event.ctrlKey || event.metaKey) && !event.altKey && event.key.toLowerCase() === 's') {
            event.preventDefault();
            event.shiftKey ? saveBinary(desk.sheet()) : saveText();
        }
    });
    wireDrop(open);
}

// The sample's name stands until the sheet is another.
export function wireSamples(desk) {
    const select = find('sample');
    select.append(...Object.entries(samples).map(([name, { title }]) => make('option', { value: name }, title)));
    select.addEventListener('change', () => {
        const { value } = select;
        if (value !== '') {
            desk.open(samples[value].text);
            select.value = value;
        }
    });
    find('sheet').addEventListener('input', () => (select.value = ''));
}

// Printed by the browser's own menu, it is the answer key.
export function wirePrint(judge, desk) {
    const page = find('print');
    const { dataset } = document.body;
    const prepare = (kind) => {
        dataset.print = kind;
        page.replaceChildren(...printedPages(judge, kind, desk.sheet()));
    };
    for (const kind of ['key', 'copy']) {
        find(`print-${kind}`).addEventListener('click', () => {
            prepare(kind);
            window.print();
        });
    }
    addEventListener('beforeprint', () => dataset.print ?? prepare('key'));
    addEventListener('afterprint', () => {
        delete dataset.print;
        page.replaceChildren();
    });
}

// The system's theme until the button is used, then the one that was chosen.
export function wireTheme() {
    const button = find('theme');
    const { dataset } = document.documentElement;
    const system = matchMedia('(prefers-color-scheme: dark)');
    const theme = () => dataset.theme ?? (system.matches ? 'dark' : 'light');
    const show = () => button.setAttribute('aria-pressed', String(theme() === 'dark'));
    const chosen = kept('theme');
    if (chosen === 'dark' || chosen === 'light') {
        dataset.theme = chosen;
    }
    button.addEventListener('click', () => {
        dataset.theme = theme() === 'dark' ? 'light' : 'dark';
        keep('theme', dataset.theme);
        show();
    });
    system.addEventListener('change', show);
    show();
}
