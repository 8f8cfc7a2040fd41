// The picture of a question as SVG, to scale. It draws what `scene` has, and decides nothing.

import { draw } from './dom.js';
import { heightAt } from './scene.js';
import { secondsOf, timeText } from './times.js';

const GRAINS_IN_FOOT = 60;
const LETTER = 6.6;
const ROW = 16;
const MARGIN = { right: 62, bottom: 40, left: 62, top: 10 };

const minus = (text) => text.replace('-', '\u2212');
const round = (number) => Math.round(number * 100) / 100;

// Ticks at 1, 2 or 5 times a power of ten, at most `count` of them.
function ticks(low, high, count) {
    const rough = (high - low) / count;
    const power = 10 ** Math.floor(Math.log10(rough));
    const step = [1, 2, 5, 10].map((factor) => factor * power).find((size) => size >= rough);
    const first = Math.ceil(low / step);
    return Array.from({ length: Math.max(0, Math.floor(high / step) - first + 1) }, (_, i) => (first + i) * step);
}

function tickText(value, step) {
    const places = Math.max(0, Math.ceil(-Math.log10(step) - 1e-9));
    return minus(value.toLocaleString('en', { minimumFractionDigits: places, maximumFractionDigits: places })).replace(/^\u2212(0(\.0+)?)$/, '$1');
}

// Where seconds and grains come to lie.
function planeOf({ span, heights }, width, height, top) {
    const inner = { left: MARGIN.left, right: width - MARGIN.right, top, bottom: height - MARGIN.bottom };
    const x = (t) => inner.left + ((t - span.from) / (span.to - span.from)) * (inner.right - inner.left);
    const y = (grains) => inner.bottom - ((grains - heights.low) / (heights.high - heights.low)) * (inner.bottom - inner.top);
    return { ...inner, x: (t) => round(x(t)), y: (grains) => round(y(grains)) };
}

const line = (plane, kind, x1, y1, x2, y2) => draw('line', { class: kind, x1, y1, x2, y2 });

// ---- axes

function timeAxis(plane, { span }) {
    const at = ticks(span.from, span.to, Math.max(3, (plane.right - plane.left) / 70));
    const step = at.length > 1 ? at[1] - at[0] : 1;
    const marks = at.flatMap((t) => [
        line(plane, 'tick', plane.x(t), plane.bottom, plane.x(t), plane.bottom + 4),
        draw('text', { class: 'number', x: plane.x(t), y: plane.bottom + 16, 'text-anchor': 'middle' }, tickText(t, step)),
    ]);
    const name = draw('text', { class: 'name', x: plane.right, y: plane.bottom + 33, 'text-anchor': 'end' }, 'time, s');
    return draw('g', { class: 'axis' }, line(plane, 'rule', plane.left, plane.bottom, plane.right, plane.bottom), ...marks, name);
}

function heightAxis(plane, { heights }) {
    const feet = ticks(heights.low / GRAINS_IN_FOOT, heights.high / GRAINS_IN_FOOT, Math.max(3, (plane.bottom - plane.top) / 42));
    const step = feet.length > 1 ? feet[1] - feet[0] : 1;
    const marks = feet.flatMap((height) => {
        const y = plane.y(height * GRAINS_IN_FOOT);
        return [
            line(plane, 'grid', plane.left, y, plane.right, y),
            line(plane, 'tick', plane.left - 4, y, plane.left, y),
            draw('text', { class: 'number', x: plane.left - 8, y: y + 4, 'text-anchor': 'end' }, tickText(height, step)),
        ];
    });
    const name = draw('text', { class: 'name', x: 2, y: plane.top - 6 }, 'height, ft');
    return draw('g', { class: 'axis' }, ...marks, line(plane, 'rule', plane.left, plane.top, plane.left, plane.bottom), name);
}

// ---- the window and the puck's reach

function reachOf(plane, { window, q, span }) {
    if (!window) {
        return [];
    }
    const start = Math.max(secondsOf(window.start), span.from);
    const end = Math.min(window.end ? secondsOf(window.end) : span.to, span.to);
    const left = plane.x(start);
    const width = Math.max(plane.x(end) - left, 1.5);
    const top = plane.y(q.h + q.k);
    const bottom = plane.y(q.h - q.k);
    return [
        draw('rect', { class: 'window', x: left, y: plane.top, width, height: plane.bottom - plane.top }),
        draw('rect', { class: 'reach', x: left, y: top, width, height: Math.max(bottom - top, 1) }),
        line(plane, 'edge', left, top, left + width, top),
        line(plane, 'edge', left, bottom, left + width, bottom),
    ];
}

// ---- paths

// A piece from t to u is a parabola, so exactly the Bézier curve whose middle point is where its end tangents meet.
function curve(plane, piece, t, u) {
    const half = (u - t) / 2;
    const middle = piece.height(t) + piece.slope(t) * half;
    return `Q${plane.x(t + half)} ${plane.y(middle)} ${plane.x(u)} ${plane.y(piece.height(u))}`;
}

function pathLine(plane, path, from, to, kind) {
    const pieces = path.map((piece, i) => ({ piece, t: Math.max(piece.from, from), u: Math.min(path[i + 1]?.from ?? to, to) })).filter(({ t, u }) => t < u);
    if (pieces.length === 0) {
        return draw('path', { class: kind, d: '' });
    }
    const { piece, t } = pieces[0];
    const start = `M${plane.x(t)} ${plane.y(piece.height(t))}`;
    return draw('path', { class: kind, d: start + pieces.map((part) => curve(plane, part.piece, part.t, part.u)).join('') });
}

// The flight, and the second in which it is first inside the puck.
function flightLines(plane, { path, end, entered }, span) {
    const part = (from, to, kind) => pathLine(plane, path, Math.max(from, span.from), Math.min(to, end, span.to), kind);
    return [part(0, end, 'flown'), ...(entered === null ? [] : [part(entered, entered + 1, 'flown inside')])];
}

function pathLines(plane, { paths, flight, span }) {
    const flown = flight ? flightLines(plane, flight, span) : [];
    return [...paths.map(({ side, path }) => pathLine(plane, path, span.from, span.to, `path ${side}`)), ...flown];
}

// ---- marks: instants, and what stands at the top over them

const diamond = (x, y, size) => `M${x} ${y - size}L${x + size} ${y}L${x} ${y + size}L${x - size} ${y}Z`;

const seen = ({ span }, t) => t >= span.from && t <= span.to;

// An instant on a path: its point, and from it to the intruder's level how far that is.
function pointOn(plane, scene, { path }, t, kind) {
    const [x, y] = [plane.x(t), plane.y(heightAt(path, t))];
    return [line(plane, `gap ${kind}`, x, y, x, plane.y(scene.q.h)), draw('path', { class: `point ${kind}`, d: diamond(x, y, 5) })];
}

function shownPoints(plane, scene) {
    const pathOf = (side) => scene.paths.find((path) => path.side === side);
    return scene.shown.filter(({ time }) => seen(scene, secondsOf(time))).flatMap(({ side, time }) => pointOn(plane, scene, pathOf(side), secondsOf(time), 'shown'));
}

export const holdsAt = (standing, side) => (!standing.inWindow ? 'outside' : standing[side] === 'conflict' ? 'holds' : 'free');

function ownPoints(plane, scene) {
    if (!scene.own || !seen(scene, secondsOf(scene.own.time))) {
        return [];
    }
    const t = secondsOf(scene.own.time);
    return scene.paths.flatMap((path) => pointOn(plane, scene, path, t, `own ${holdsAt(scene.own.standing, path.side)}`));
}

const sideText = (scene, side) => (scene.paths.length === 1 ? '' : `, ${side} side`);

const instant = (time, text, kind) => ({ t: secondsOf(time), text, kind });

function windowLabels({ window, limit }) {
    if (!window) {
        return [];
    }
    const { start, end } = window;
    if (end && timeText(start) === timeText(end)) {
        return [instant(start, `window at ${timeText(start)}`, 'bound')];
    }
    const last = end && [instant(end, secondsOf(end) === limit ? `to the limit, ${limit} s` : `to ${timeText(end)}`, 'bound')];
    return [instant(start, `window from ${timeText(start)}`, 'bound'), ...(last ?? [])];
}

// The labels of instants: a text, when it is, and the class of the line below it.
function labelsOf(scene) {
    const { window, q, limit, shown, own, span } = scene;
    const limited = limit !== null && !(window?.end && secondsOf(window.end) === limit);
    return [
        ...windowLabels(scene),
        ...(q.delay > 0 ? [{ t: q.delay, text: `delay ends, ${q.delay} s`, kind: 'delay' }] : []),
        ...(limited ? [{ t: limit, text: `limit ${limit} s`, kind: 'limit' }] : []),
        ...shown.map(({ side, time }) => instant(time, `conflict at ${timeText(time)}${sideText(scene, side)}`, 'shown')),
        ...(own ? [instant(own.time, `candidate: ${timeText(own.time)}`, 'own')] : []),
    ].filter(({ t }) => t >= span.from && t <= span.to);
}

// Puts each label into the lowest row where it overlaps none, from the right to the left, so that no line from a row above goes through it. A label that would leave
// the picture stands to the left of its line.
function rowsOf(labels, x, right) {
    const rows = [];
    const place = (label) => {
        const at = x(label.t);
        const length = label.text.length * LETTER + 10;
        const before = at + length > right;
        const [from, to] = before ? [at - length, at] : [at, at + length];
        const free = rows.findIndex((row) => row.every((other) => to <= other.from || from >= other.to));
        const row = free === -1 ? rows.push([]) - 1 : free;
        rows[row].push({ from, to });
        return { ...label, row, before };
    };
    const placed = labels.toSorted((a, b) => b.t - a.t).map(place);
    return placed.map((label) => ({ ...label, y: MARGIN.top + (rows.length - label.row) * ROW }));
}

function labelMarks(plane, labels) {
    const uprights = labels.map(({ t, kind, y }) => line(plane, `upright ${kind}`, plane.x(t), y - ROW + 4, plane.x(t), plane.bottom));
    const texts = labels.map(({ t, text, kind, y, before }) => {
        const x = plane.x(t) + (before ? -4 : 4);
        return draw('text', { class: `label ${kind}`, x, y: y - 2, 'text-anchor': before ? 'end' : 'start' }, text);
    });
    return [...uprights, ...texts];
}

// ---- names at the right edge, kept apart

function nameMarks(plane, { paths, q, span, flight }) {
    const two = paths.length === 2;
    const names = [
        { text: 'intruder', kind: 'level', y: plane.y(q.h) },
        ...paths.map(({ side, path }) => ({ text: two ? side : 'ownship', kind: side, y: plane.y(heightAt(path, span.to)) })),
        ...(flight && flight.end >= span.from ? [{ text: 'flight', kind: 'flown', y: plane.y(heightAt(flight.path, Math.min(flight.end, span.to))) }] : []),
    ].sort((a, b) => a.y - b.y);
    let above = -Infinity;
    return names.map(({ text, kind, y }) => {
        above = Math.max(y + 4, above + 14);
        return draw('text', { class: `naming ${kind}`, x: plane.right + 6, y: above }, text);
    });
}

let pictures = 0;

// The height is that of the part below the labels; title and description are for readers who don't see it.
export function pictureOf(scene, { width, height: inner, title, description }) {
    pictures += 1;
    const names = [`picture-title-${pictures}`, `picture-text-${pictures}`];
    const right = width - MARGIN.right;
    const across = (t) => MARGIN.left + ((t - scene.span.from) / (scene.span.to - scene.span.from)) * (right - MARGIN.left);
    const labels = rowsOf(labelsOf(scene), across, right + MARGIN.right - 4);
    const top = Math.max(MARGIN.top + ROW, ...labels.map(({ y }) => y)) + 8;
    const height = inner + top;
    const plane = planeOf(scene, width, height, top);
    return draw(
        'svg',
        { class: 'picture', viewBox: `0 0 ${width} ${height}`, width, height, role: 'img', 'aria-labelledby': names.join(' ') },
        draw('title', { id: names[0] }, title),
        draw('desc', { id: names[1] }, description),
        ...reachOf(plane, scene),
        timeAxis(plane, scene),
        heightAxis(plane, scene),
        ...labelMarks(plane, labels),
        line(plane, 'level', plane.left, plane.y(scene.q.h), plane.right, plane.y(scene.q.h)),
        ...pathLines(plane, scene),
        ...shownPoints(plane, scene),
        ...ownPoints(plane, scene),
        ...nameMarks(plane, scene),
    );
}
