// What a picture's lines are, and on which side of the puck's reach a path is clear.

import { make } from './dom.js';
import { timeText } from './times.js';
import { writeValue } from './units.js';
import { plainSentence } from './sentence.js';

const length = (grains) => writeValue(grains, 'length');

// The side on which a path must keep: a climb's lower path above the intruder, its upper path below.
const beyond = (up, side) => ((side === 'lower') === (up === 1) ? 'above' : 'below');

function clearText({ up, paths }) {
    const kept = (side) => `always ${beyond(up, side)} the puck\u2019s reach`;
    const asked = paths.length === 1 ? `the ownship is ${kept('lower')}` : `the lower path is ${kept('lower')}, or the upper path ${kept('upper')}`;
    return `Clear if in the window ${asked}, and not on its edge.`;
}

// What is clear, where one looks from, and what is not to be seen.
export function viewOf(scene) {
    const { vi } = scene.q;
    const start = 'Heights are in feet above the ownship\u2019s start.';
    const moving = `The view moves with the intruder\u2019s vertical speed, ${writeValue(vi, 'vertical speed')}, so that its level is a line.`;
    return make('p', { class: 'view' }, [clearText(scene), start, ...(vi === 0 ? [] : [moving]), ...scene.notes].join(' '));
}

const ITEMS = {
    'path lower': 'the ownship as it just obeys: the lower path',
    'path upper': 'the upper path',
    level: 'the intruder',
    reach: 'the puck\u2019s reach above and below the intruder, in the window',
    'point shown': 'the instant that the judge shows',
    'point own': 'the candidate\u2019s instant, filled where it is a conflict time',
    flown: 'the candidate\u2019s flight',
    'flown inside': 'the second in which the flight is first inside the puck',
};

const legend = (kinds) =>
    make('ul', { class: 'legend' }, ...kinds.map((kind) => make('li', {}, make('span', { class: `swatch ${kind}`, 'aria-hidden': 'true' }), ITEMS[kind])));

// For pictures without a candidate.
export const wholeLegend = () => legend(['path lower', 'path upper', 'level', 'reach', 'point shown']);

export function legendOf({ paths, window, flight, own, shown }) {
    return legend([
        ...paths.map(({ side }) => `path ${side}`),
        'level',
        ...(window ? ['reach'] : []),
        ...(shown.length > 0 ? ['point shown'] : []),
        ...(own ? ['point own'] : []),
        ...(flight ? ['flown'] : []),
        ...(flight && flight.entered !== null ? ['flown inside'] : []),
    ]);
}

// For those who don't see the picture.
export function describe(entry, { q, window, limit }) {
    const ends = window && (window.end ? `to ${timeText(window.end)}` : 'on, without an end');
    return [
        plainSentence(entry.answer),
        `The intruder starts ${length(Math.abs(q.h))} ${q.h < 0 ? 'below' : 'above'} the ownship.`,
        window ? `The window goes from ${timeText(window.start)} ${ends}.` : 'The window is empty.',
        ...(q.delay > 0 ? [`The delay ends at ${q.delay} s.`] : []),
        ...(limit === null ? [] : [`The time limit is ${limit} s.`]),
    ].join(' ');
}
