// Makes the page one file: node bundle.mjs MODULE.wasm PAGE.html. Modules become functions in the order of their imports; script and judge are deflated, and a first
// small script inflates them. The page's policy names both scripts by their hashes and allows nothing else.

import { createHash } from 'node:crypto';
import { mkdirSync, readFileSync, readdirSync, renameSync, writeFileSync } from 'node:fs';
import { basename, dirname, join } from 'node:path';
import { fileURLToPath } from 'node:url';
import { deflateRawSync } from 'node:zlib';

const HERE = dirname(fileURLToPath(import.meta.url));
const BUILT = 'built.js';
const IMPORT = /^import \{([^}]*)\} from '\.\/([\w-]+\.js)';\n/gm;
const EXPORT = /^export ((?:async )?function|const|let|class) (\w+)/gm;

function stop(message) {
    console.error(`bundle: ${message}`);
    process.exit(1);
}

// ---- what is built in: the judge's module and the samples

function samplesIn(folder) {
    const names = readdirSync(folder).filter((name) => name.endsWith('.txt'));
    const titleOf = (text, name) => /^# *(.*\S)/.exec(text)?.[1] ?? name;
    return Object.fromEntries(names.map((name) => {
        const text = readFileSync(join(folder, name), 'utf8');
        return [name, { title: titleOf(text, name), text }];
    }));
}

function builtSource(wasm, samples) {
    return [
        `const MODULE = '${wasm.toString('base64')}';`,
        'export const moduleBytes = () => Uint8Array.from(atob(MODULE), (letter) => letter.charCodeAt(0));',
        `export const samples = ${JSON.stringify(samples)};`,
        '',
    ].join('\n');
}

// ---- modules

const names = (list) => list.split(',').map((name) => name.trim()).filter((name) => name !== '');

const variable = (file) => `module_${file.replace('.js', '').replaceAll('-', '_')}`;

// A module as a function that returns what it exports.
function wrapped(file, source) {
    const exported = [...source.matchAll(EXPORT)].map((found) => found[2]);
    const body = source
        .replace(IMPORT, (_, list, from) => `const { ${names(list).join(', ')} } = ${variable(from)};\n`)
        .replace(EXPORT, '$1 $2');
    const left = /^(import|export)\b.*/m.exec(body);
    if (left) {
        stop(`${file}: only plain named imports and exports are known, not "${left[0]}"`);
    }
    return `const ${variable(file)} = (() => {\n${body}return { ${exported.join(', ')} };\n})();\n`;
}

// Every module behind those that it imports.
function inOrder(first, sourceOf) {
    const order = [];
    const visit = (file, way) => {
        if (way.includes(file)) {
            stop(`imports go in a circle: ${[...way, file].join(', ')}`);
        }
        if (!order.includes(file)) {
            [...sourceOf(file).matchAll(IMPORT)].forEach((found) => visit(found[2], [...way, file]));
            order.push(file);
        }
    };
    visit(first, []);
    return order;
}

// Without comment lines and indentation; no text in the modules goes over a line's end.
function shortened(source) {
    const lines = source.split('\n').map((line) => line.trim());
    if (lines.some((line) => line.startsWith('/*') || (line.split('`').length - 1) % 2 === 1)) {
        stop('a comment or a text that goes over a line\u2019s end');
    }
    return lines.filter((line) => line !== '' && !line.startsWith('//')).join('\n');
}

// ---- the page

// The first script: says at once that there is a desk, inflates the second, and starts it.
function packed(script) {
    const deflated = deflateRawSync(script, { level: 9 }).toString('base64');
    return [
        'async function start() {',
        `const bytes = Uint8Array.from(atob('${deflated}'), (letter) => letter.charCodeAt(0));`,
        "const stream = new Blob([bytes]).stream().pipeThrough(new DecompressionStream('deflate-raw'));",
        "const script = document.createElement('script');",
        'script.text = await new Response(stream).text();',
        'document.body.append(script);',
        'await window.desk.start();',
        '}',
        'window.desk = { judge: null, start: null };',
        'window.desk.ready = start();',
        "window.desk.ready.catch((error) => (document.getElementById('counts').textContent = `The judge cannot be started in this browser: ${error.message}`));",
    ].join('\n');
}

const hashOf = (text) => `'sha256-${createHash('sha256').update(text).digest('base64')}'`;

function pageOf(html, style, script) {
    const first = packed(script);
    const policy = [
        "default-src 'none'",
        `script-src ${hashOf(first)} ${hashOf(script)} 'wasm-unsafe-eval'`,
        `style-src ${hashOf(style)}`,
        'img-src data:',
        "base-uri 'none'",
        "form-action 'none'",
    ].join('; ');
    const parts = {
        '<meta name="policy">': `<meta http-equiv="Content-Security-Policy" content="${policy}">`,
        '<link rel="stylesheet" href="style.css">': `<style>${style}</style>`,
        '<script type="module" src="desk.js"></script>': `<script type="module">${first}</script>`,
    };
    if ([style, first].some((text) => /<\/(style|script)/i.test(text))) {
        stop('the end of an element inside of it');
    }
    return Object.entries(parts).reduce((page, [place, part]) => {
        if (page.split(place).length !== 2) {
            stop(`index.html has not exactly one ${place}`);
        }
        return page.replace(place, () => part);
    }, html);
}

const [wasmFile, pageFile] = process.argv.slice(2);
if (!pageFile) {
    stop('usage: node bundle.mjs MODULE.wasm PAGE.html');
}
const source = (file) => readFileSync(join(HERE, 'src', file), 'utf8');
const built = builtSource(readFileSync(wasmFile), samplesIn(join(HERE, 'samples')));
const sourceOf = (file) => (file === BUILT ? built : source(file));
const modules = inOrder('desk.js', sourceOf).map((file) => wrapped(file, sourceOf(file)));
const script = `(() => {\n'use strict';\n${shortened(modules.join(''))}\n})();\n`;
const style = `\n${shortened(source('style.css').replace(/\/\*.*?\*\//gs, ''))}\n`;
const page = pageOf(source('index.html'), style, script);
mkdirSync(dirname(pageFile), { recursive: true });
writeFileSync(`${pageFile}.new`, page);
renameSync(`${pageFile}.new`, pageFile);
console.log(`${basename(pageFile)}: ${Buffer.byteLength(page).toLocaleString('en')} bytes`);
