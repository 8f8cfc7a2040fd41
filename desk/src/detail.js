// The answer that is chosen: its sentence and picture, a candidate's instant and flight, and the judge's very words.

import { answersOf } from './answers.js';
import { find, make, settled } from './dom.js';
import { flightPath, flownText, readFlight } from './flight.js';
import { describe, legendOf, viewOf } from './legend.js';
import { pictureOf } from './picture.js';
import { sceneOf } from './scene.js';
import { remarksOf, sentenceOf } from './sentence.js';
import { linesOf, sheetOfOne } from './sheet.js';
import { tableOf } from './table.js';
import { textOfRecord } from './text.js';
import { fractionOf, leadingTime } from './times.js';

const WIDEST = 860;
const NARROWEST = 300;
const LOWEST = 260;
const PAUSE = 40;

export const encounterText = (values) => textOfRecord({ kind: 'encounter', values });

// What holds at an instant that a candidate names: the program's sentence, and the instant for the picture.
function ownInstant(judge, entry, text) {
    if (text === '' || !entry.q) {
        return { sentence: '', own: null };
    }
    const { text: words, error, status } = judge.words(sheetOfOne(entry), text);
    if (status !== 0) {
        return { sentence: error.split('\n')[0].replace('--at=', `\u201c${text}\u201d`), own: null };
    }
    const { named } = answersOf(words).answers[0];
    const time = leadingTime(named);
    const standing = time && judge.at(entry.q, ...fractionOf(time));
    return { sentence: named, own: standing?.inReach ? { time, standing } : null };
}

// What the judge says of a candidate's flight, and its path for the picture.
function ownFlight(judge, { q }, text) {
    const { stretches, faults, notes } = readFlight(text);
    if (text.trim() === '' || !q || q.sides !== 1) {
        return { sentences: [], flight: null };
    }
    if (faults.length > 0) {
        return { sentences: faults, flight: null };
    }
    const flown = judge.flight(q, stretches);
    const entered = flown.inside ? flown.second : null;
    const flight = flown.refusal === 0 ? { ...flightPath(stretches, q), entered } : null;
    return { sentences: [flownText(flown), ...notes], flight };
}

function headOf(entry) {
    const encounter = entry.encounter && entry.isQuestion ? [make('p', { class: 'facts' }, encounterText(entry.encounter))] : [];
    return [
        make('h3', { class: entry.tone }, make('span', { class: 'number' }, String(entry.number)), ' ', entry.title),
        sentenceOf(entry.answer),
        ...remarksOf(entry),
        ...encounter,
    ];
}

const PARTS = ['chosen', 'figure', 'legend', 'candidate', 'instant', 'standing', 'flying', 'flight', 'flown', 'seconds', 'said'];

function showPicture({ parts, entry, scene }) {
    const width = Math.min(Math.max(Math.floor(parts.figure.clientWidth), NARROWEST), WIDEST);
    const names = { title: `Answer ${entry.number}: ${entry.title}`, description: describe(entry, scene) };
    parts.figure.replaceChildren(pictureOf(scene, { width, height: Math.max(LOWEST, Math.round(width / 2)), ...names }));
    parts.legend.replaceChildren(legendOf(scene), viewOf(scene));
}

function showTable({ judge, parts, scene }) {
    const tables = scene && parts.seconds.open ? [tableOf(judge, scene)] : [];
    parts.seconds.querySelector('div').replaceChildren(...tables);
}

// The picture and all that is under it, with what the candidate says.
function showCandidate(state) {
    const { judge, parts, entry } = state;
    const { sentence, own } = ownInstant(judge, entry, parts.instant.value.trim());
    const { sentences, flight } = ownFlight(judge, entry, parts.flight.value);
    parts.standing.textContent = sentence;
    parts.flown.replaceChildren(...sentences.map((text) => make('p', {}, text)));
    state.scene = entry.q && sceneOf(judge, entry.q, { flight, own });
    [parts.figure, parts.legend, parts.seconds, parts.candidate].forEach((part) => (part.hidden = !state.scene));
    parts.flying.hidden = entry.q?.sides !== 1;
    if (state.scene) {
        showPicture(state);
    }
    showTable(state);
}

// A candidate answers one question: at another answer nothing is said yet.
function show(state, entry, words) {
    const { parts } = state;
    if (entry?.number !== state.entry?.number) {
        parts.instant.value = '';
        parts.flight.value = '';
    }
    state.entry = entry;
    state.scene = null;
    find('detail').classList.toggle('empty', !entry);
    if (entry) {
        parts.chosen.replaceChildren(...headOf(entry));
        parts.said.textContent = linesOf(words, entry.number).join('\n');
        showCandidate(state);
    }
}

export function detailOf(judge) {
    const parts = Object.fromEntries(PARTS.map((id) => [id, find(id)]));
    const state = { judge, parts, entry: null, scene: null };
    const refresh = settled(PAUSE, () => state.entry && showCandidate(state));
    const resize = settled(PAUSE, () => state.scene && showPicture(state));
    parts.instant.addEventListener('input', refresh);
    parts.flight.addEventListener('input', refresh);
    parts.seconds.addEventListener('toggle', () => showTable(state));
    new ResizeObserver(resize).observe(find('detail'));
    return { show: (entry, words) => show(state, entry, words) };
}
