// What a picture shows of a question. Paths, times shown and whether an instant is in the window are the judge's; this file chooses the part to be seen.

import { NO_LIMIT } from './records.js';
import { fractionOf, secondsOf, timeOf, timeText } from './times.js';

const CONFLICT = 66;
const CONFLICTS = 67;
const CLIMB = 1;

// Grains above the ownship's start, upwards in both senses, in the view that moves with the intruder. Each piece holds from its time on.
function pathOf({ pieces }, strength, up) {
    const scale = up / (2 * strength);
    return pieces.map(({ from, square, linear, constant }) => ({
        from: secondsOf(from),
        height: (t) => ((square * t + linear) * t + constant) * scale,
        slope: (t) => (2 * square * t + linear) * scale,
        turn: square === 0 ? null : -linear / (2 * square),
    }));
}

const pieceAt = (path, t) => path.findLast(({ from }) => from <= t) ?? path[0];

export const heightAt = (path, t) => pieceAt(path, t).height(t);

// The ends that the encounter suggests, if the judge finds both in the window; else the window is empty. One without an end has end null.
function windowOf(judge, q) {
    const { r, c, p, limit } = q;
    const limited = limit === NO_LIMIT ? null : timeOf(limit, 1);
    const start = c === 0 || r - p <= 0 ? timeOf(0, 1) : timeOf(r - p, c);
    if (!judge.at(q, ...fractionOf(start)).inWindow) {
        return null;
    }
    const passed = c === 0 ? null : timeOf(r + p, c);
    const end = [passed, limited].find((time) => time && judge.at(q, ...fractionOf(time)).inWindow) ?? null;
    return { start, end };
}

// The times that the verdict carries, each with the path that it is of.
function shownOf({ kind, lower, upper }) {
    if (kind === CONFLICT) {
        return [{ side: 'lower', time: lower }];
    }
    return kind === CONFLICTS ? [{ side: 'lower', time: lower }, { side: 'upper', time: upper }] : [];
}

// From when to when the picture goes: from now on, or a window that opens long after all else by itself.
function spanOf({ paths, window, shown, q, flight, own }) {
    const starts = paths.flatMap(({ path }) => path.map(({ from }) => from));
    const opens = window ? secondsOf(window.start) : 0;
    const closes = window?.end ? secondsOf(window.end) : null;
    if (opens > Math.max(900, 8 * Math.max(...starts)) && !flight) {
        const length = Math.max(closes - opens, 10);
        return { from: opens - 0.3 * length, to: opens + 1.15 * length };
    }
    const last = Math.max(10, opens, q.delay, ...starts, ...shown.map(({ time }) => secondsOf(time)), flight?.end ?? 0);
    return { from: 0, to: toOf(Math.max(last, Math.min(own ? secondsOf(own.time) : 0, 3 * last)), closes) };
}

// Up to the window's end and a little on; where that is far beyond all else, or there is none, not so far.
function toOf(last, closes) {
    if (closes === null) {
        return 1.35 * last;
    }
    return closes <= 6 * last ? 1.12 * Math.max(closes, last) : 2.5 * last;
}

function heightsOf({ paths, q, flight }, { from, to }) {
    const drawn = flight ? [...paths, flight] : paths;
    const times = drawn.flatMap(({ path, end }) => [from, end ?? to, ...path.flatMap((piece) => [piece.from, piece.turn])]);
    const seen = times.filter((t) => t !== null && t >= from && t <= to);
    const reached = drawn.flatMap(({ path, end }) => seen.filter((t) => end === undefined || t <= end).map((t) => heightAt(path, t)));
    const all = [...reached, q.h + q.k, q.h - q.k];
    const low = Math.min(...all);
    const high = Math.max(...all);
    const room = 0.06 * (high - low);
    return { low: low - room, high: high + room };
}

function windowNotes({ window }, { to }) {
    if (!window) {
        return ['The window is empty.'];
    }
    if (window.end === null) {
        return ['The window has no end: it goes on beyond the picture.'];
    }
    return secondsOf(window.end) > to ? [`The window goes on beyond the picture, to ${timeText(window.end)}.`] : [];
}

// What the picture leaves out, in words.
function leftOut(scene, span) {
    const { own } = scene;
    const unseen = own && (secondsOf(own.time) < span.from || secondsOf(own.time) > span.to);
    return [
        ...(span.from > 0 ? [`The picture begins at ${Math.round(span.from)} s.`] : []),
        ...windowNotes(scene, span),
        ...(unseen ? ['The candidate\u2019s instant is not in the picture.'] : []),
    ];
}

// `flight`: a candidate's, {path, end}, or null; `own`: the candidate's own instant, {time, standing}, or null.
export function sceneOf(judge, q, { flight = null, own = null } = {}) {
    const up = q.sense === CLIMB ? 1 : -1;
    const lower = { side: 'lower', path: pathOf(judge.drawing(q), q.strength, up) };
    const upper = q.sides === 2 ? [{ side: 'upper', path: pathOf(judge.upperDrawing(q), q.upperStrength, up) }] : [];
    const scene = { q, up, paths: [lower, ...upper], window: windowOf(judge, q), shown: shownOf(judge.plain(q)), flight, own };
    const span = spanOf(scene);
    return { ...scene, span, heights: heightsOf(scene, span), notes: leftOut(scene, span), limit: q.limit === NO_LIMIT ? null : q.limit };
}
