// The values of a picture by whole seconds, as the judge gives them.

import { make } from './dom.js';

const GRAINS_IN_FOOT = 60;
const LAST_SECOND = 600;

const feet = (grains) => (grains / GRAINS_IN_FOOT).toFixed(1).replace('-', '\u2212').replace(/^\u2212(0\.0)$/, '$1');

function standingText({ inWindow, lower, upper }) {
    if (!inWindow) {
        return 'outside the window';
    }
    const sides = [lower === 'conflict' ? 'lower' : null, upper === 'conflict' ? 'upper' : null].filter(Boolean);
    if (sides.length === 0) {
        return 'no conflict time';
    }
    return upper === 'not asked' ? 'conflict time' : `conflict time, ${sides.join(' and ')} side`;
}

function rowAt(judge, { q, up, paths }, second) {
    const lower = (judge.point(q, second).height * up) / (2 * q.strength);
    const upper = paths.length === 2 ? [(judge.upperPoint(q, second).height * up) / (2 * q.upperStrength)] : [];
    const values = [lower, ...upper, q.h].map(feet);
    const cells = [...values, standingText(judge.at(q, second, 1))];
    return make('tr', {}, make('th', { scope: 'row' }, String(second)), ...cells.map((text) => make('td', {}, text)));
}

export function tableOf(judge, scene) {
    const paths = scene.paths.length === 2 ? ['lower path, ft', 'upper path, ft'] : ['ownship, ft'];
    const heads = ['time, s', ...paths, 'intruder, ft', 'holds'];
    const first = Math.min(Math.floor(scene.span.from), LAST_SECOND);
    const last = Math.min(Math.ceil(scene.span.to), LAST_SECOND);
    const seconds = Array.from({ length: last - first + 1 }, (_, index) => first + index);
    return make(
        'table',
        {},
        make('caption', {}, 'Heights as in the picture, rounded to a tenth of a foot'),
        make('thead', {}, make('tr', {}, ...heads.map((text) => make('th', { scope: 'col' }, text)))),
        make('tbody', {}, ...seconds.map((second) => rowAt(judge, scene, second))),
    );
}
