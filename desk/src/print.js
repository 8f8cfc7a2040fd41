// What is printed: the answer key with every picture, or the candidates' copy, which has the questions and no answers.

import { encounterText } from './detail.js';
import { make } from './dom.js';
import { describe, viewOf, wholeLegend } from './legend.js';
import { pictureOf } from './picture.js';
import { sceneOf } from './scene.js';
import { remarksOf, sentenceOf } from './sentence.js';
import { textOfRecord } from './text.js';

const WIDTH = 640;
const HEIGHT = 190;
const RULED_LINES = 4;

const numbered = ({ number, title }) => make('h2', {}, make('span', { class: 'number' }, String(number)), ' ', title);

// What a candidate is told: how the two meet, and the settings that hold.
function factsOf({ encounter, settings }) {
    const met = encounter ? encounterText(encounter) : 'no encounter';
    return [met, settingsText(settings)].map((text) => make('p', { class: 'facts' }, text));
}

function settingsText({ p, k, e }) {
    const puck = textOfRecord({ kind: 'puck', values: { p, k } });
    return `${puck}; ${textOfRecord({ kind: 'delay acceleration', values: { e } })}`;
}

function keyOf(judge, entry) {
    const scene = entry.q && sceneOf(judge, entry.q);
    const size = { width: WIDTH, height: HEIGHT };
    const names = scene && { title: `Answer ${entry.number}: ${entry.title}`, description: describe(entry, scene) };
    const figure = scene ? [pictureOf(scene, { ...size, ...names }), viewOf(scene)] : [];
    const facts = entry.isQuestion ? factsOf(entry) : [];
    return make('section', { class: `printed ${entry.tone}` }, numbered(entry), ...facts, sentenceOf(entry.answer), ...remarksOf(entry), ...figure);
}

function copyOf(entry) {
    const room = Array.from({ length: RULED_LINES }, () => make('div', { class: 'ruled' }));
    return make('section', { class: 'printed' }, numbered(entry), ...factsOf(entry), make('div', { class: 'room' }, ...room));
}

// A sheet's first line, if it is a comment, is its title; in the candidates' copy it might say too much.
function titleOf(text) {
    const found = /^# *(.*\S)/.exec(text);
    return found ? [make('p', { class: 'title' }, found[1])] : [];
}

// The pages of the one kind or the other, for a sheet that is judged.
export function printedPages(judge, kind, { text, entries }) {
    if (kind === 'key') {
        return [make('h1', {}, 'Answer key'), ...titleOf(text), wholeLegend(), ...entries.map((entry) => keyOf(judge, entry))];
    }
    const lead = make('p', { class: 'name' }, 'Name');
    return [make('h1', {}, 'Questions'), lead, ...entries.filter(({ isQuestion }) => isQuestion).map(copyOf)];
}
