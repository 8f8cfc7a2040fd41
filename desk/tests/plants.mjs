// Faults to plant in the page, each a script that runs before the page's own: DESK_PLANT names one. planted.test.mjs shows that the tests notice each.

// Alters text as the page writes it.
const rewrite = (selector, from, to) => `addEventListener('DOMContentLoaded', () => new MutationObserver(() => {
    for (const element of document.querySelectorAll(${JSON.stringify(selector)})) {
        const walker = document.createTreeWalker(element, NodeFilter.SHOW_TEXT);
        while (walker.nextNode()) {
            const { data } = walker.currentNode;
            const planted = data.replace(${from}, ${JSON.stringify(to)});
            if (planted !== data) walker.currentNode.data = planted;
        }
    }
}).observe(document.body, { childList: true, subtree: true, characterData: true }));`;

const style = (rules) => `addEventListener('DOMContentLoaded', () => {
    const sheet = new CSSStyleSheet();
    sheet.replaceSync(${JSON.stringify(rules)});
    document.adoptedStyleSheets = [...document.adoptedStyleSheets, sheet];
});`;

// Runs when the children of an element, `pages`, change.
const whenChanged = (selector, run) => `addEventListener('DOMContentLoaded', () => {
    const pages = document.querySelector(${JSON.stringify(selector)});
    new MutationObserver(() => { ${run} }).observe(pages, { childList: true });
});`;

export const plants = {
    sentence: rewrite('#answers .meaning', '/closer than/', 'nearer than'),
    verdict: rewrite('#answers .verdict', '/onflict at 27 s/', 'onflict at 26 s'),
    side: rewrite('#answers .verdict', '/upper side/', 'lower side'),
    refusal: rewrite('#answers', '/efused, 5/', 'efused, 6'),
    standing: rewrite('#standing', '/outside the window/', 'in the window and no conflict time'),
    bytes: `const Plain = Blob; window.Blob = class extends Plain {
        constructor(parts, options) { super(parts.map((part) => part instanceof Uint8Array && part.length > 3 ? part.map((byte, at) => at === 3 ? byte ^ 1 : byte) : part), options); }
    };`,
    request: "addEventListener('load', () => { new Image().src = 'https://example.org/x.png'; });",
    console: "addEventListener('load', () => console.error('planted'));",
    slow: "addEventListener('input', () => { const end = performance.now() + 2000; while (performance.now() < end); }, true);",
    unnamed: "addEventListener('load', () => { document.body.append(document.createElement('button')); });",
    pale: style('#answers .verdict { color: #bbb !important; background: #fff !important }'),
    wide: style('#answers { min-width: 500px !important }'),
    leak: whenChanged('#print', "if (pages.childElementCount > 0 && !pages.querySelector('.planted')) pages.insertAdjacentHTML('beforeend', '<p class=planted>Conflict at 27 s</p>');"),
    drawn: whenChanged('#figure', "for (const path of pages.querySelectorAll('path.lower')) path.setAttribute('d', path.getAttribute('d').replace(/Q[^ ]+ [^ ]+ /g, 'L'));"),
    keys: "addEventListener('keydown', (event) => { if (event.key === 'ArrowDown') event.stopImmediatePropagation(); }, true);",
    note: rewrite('#faults', '/10127/', '10126'),
};

export function plant() {
    const name = process.env.DESK_PLANT;
    if (!name) return '';
    if (!plants[name]) throw new Error(`no plant ${name}`);
    return plants[name];
}
