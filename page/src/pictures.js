// Two pictures by hand: the figures over the steps as lines, and the cylinders of each unit with its head.

import { draw, make } from './document.js';
import { cylinderBlocks } from './model.js';
import { stateAt } from './play.js';

/**
 * @typedef {import('./play.js').Play} Play
 * @typedef {{name: string, points: [number, number][]}} Curve of (steps, figure)
 */

const DASHES = ['', '7 3', '2 3', '9 3 2 3', '12 4', '4 4'];
const HEIGHT = 260, LEFT = 42, RIGHT = 52, TOP = 12, BOTTOM = 34, LABEL = 13;

/** The figures of each command so far, oldest first. @param {Play} played @param {number} at @returns {Curve[]} */
export function curvesOf(played, at) {
    /** @type {Map<number, Curve>} */
    const curves = new Map();
    for (let moment = 0; moment <= at; moment++) {
        const { waiting, figures, steps } = stateAt(played, moment);
        waiting.forEach((command, place) => {
            const name = `${command.connection === 1 ? 'second ' : ''}${command.reference}`;
            const curve = curves.get(command.arrival) ?? { name, points: [] };
            curve.points.push([steps, figures[place].figure]);
            curves.set(command.arrival, curve);
        });
    }
    return [...curves.values()];
}

/** @param {Play} played @returns {number} the largest figure of all */
export const mostOf = (played) => played.moments.reduce((most, { state }) =>
    state.figures.reduce((largest, { figure }) => Math.max(largest, figure), most), 1);

/**
 * Heights for labels, each as near to its point as those above it in the same column leave.
 * @param {[number, number][]} points
 */
function labelHeights(points) {
    const order = points.map((_, place) => place).sort((a, b) => points[a][1] - points[b][1]);
    /** @type {number[]} */
    const heights = [];
    /** @type {Map<number, number>} */
    const least = new Map();
    for (const place of order) {
        const [column, wanted] = points[place];
        heights[place] = Math.max(wanted, least.get(column) ?? -Infinity);
        least.set(column, heights[place] + LABEL);
    }
    return heights;
}

/** A few round numbers up to the most. @param {number} most @returns {number[]} */
function ticksOf(most) {
    const size = 10 ** Math.floor(Math.log10(Math.max(most, 1)));
    const step = [size / 5, size / 2, size, 2 * size].map((it) => Math.max(1, it)).find((it) => most / it <= 6) ?? size;
    return Array.from({ length: Math.floor(most / step) + 1 }, (_, n) => n * step);
}

/** @typedef {(n: number) => number} Scale to a place of the picture */

/** @param {number} width @param {Scale} x @param {Scale} y @param {number} most @param {number} steps */
function axes(width, x, y, most, steps) {
    const right = width - RIGHT, bottom = HEIGHT - BOTTOM;
    return [
        draw('path', { class: 'axis', d: `M${LEFT} ${TOP}V${bottom}H${right}` }),
        ...ticksOf(most).map((n) => draw('text', { x: LEFT - 5, y: y(n) + 4, 'text-anchor': 'end' }, String(n))),
        ...ticksOf(steps).map((n) => draw('text', { x: x(n), y: bottom + 15, 'text-anchor': 'middle' }, String(n))),
        draw('text', { x: (LEFT + right) / 2, y: HEIGHT - 4, 'text-anchor': 'middle' }, 'steps'),
    ];
}

/** The figures over the steps. @param {Play} played @param {number} at @param {number} width */
export function figuresPicture(played, at, width) {
    const steps = Math.max(1, stateAt(played, played.moments.length).steps), most = mostOf(played);
    const x = (/** @type {number} */ n) => LEFT + n / steps * (width - LEFT - RIGHT);
    const y = (/** @type {number} */ n) => HEIGHT - BOTTOM - n / most * (HEIGHT - TOP - BOTTOM);
    const curves = curvesOf(played, at);
    const lasts = curves.map(({ points }) => points[points.length - 1]);
    const heights = labelHeights(lasts.map(([step, figure]) => [step, y(figure) + 4]));
    const now = x(stateAt(played, at).steps);
    const title = `The figures of ${curves.length} commands over ${steps} steps`;
    return draw('svg', { width, height: HEIGHT, role: 'img', 'aria-label': title }, ...axes(width, x, y, most, steps),
    draw('path', { class: 'now', d: `M${now} ${TOP}V${HEIGHT - BOTTOM}` }),
    ...curves.flatMap(({ name, points }, place) => [
        draw('polyline', {
            class: 'figure', 'stroke-dasharray': DASHES[place % DASHES.length],
            points: points.map(([n, figure]) => `${x(n)},${y(figure)}`).join(' '),
        }),
        draw('circle', { class: 'mark', cx: x(lasts[place][0]), cy: y(lasts[place][1]), r: 3.5 }),
        draw('text', { x: Math.min(x(lasts[place][0]) + 7, width - RIGHT + 7), y: heights[place] }, name),
    ]));
}

/** The same as a table: a row for each step. @param {Play} played @param {number} at */
export function figuresTable(played, at) {
    const curves = curvesOf(played, at);
    const { steps } = stateAt(played, at);
    const row = (/** @type {number} */ step) => make('tr', {}, make('th', { scope: 'row' }, String(step)),
        ...curves.map(({ points }) => {
            const found = points.filter(([n]) => n === step);
            return make('td', {}, found.length === 0 ? '' : String(found[found.length - 1][1]));
        }));
    return make('table', {}, make('thead', {}, make('tr', {}, make('th', { scope: 'col' }, 'steps'),
        ...curves.map(({ name }) => make('th', { scope: 'col' }, name)))),
    make('tbody', {}, ...Array.from({ length: Math.min(steps, 500) + 1 }, (_, step) => row(step))));
}

const AXIS = 34, PATH_STEPS = 12, PATH_HEIGHT = 7, EDGE = 16;

/**
 * Where the head was in the last steps that touched a block of the unit, newest first.
 * @param {Play} played @param {number} at @param {number} unit @param {number} blocks of a cylinder
 */
function wayOf(played, at, unit, blocks) {
    /** @type {number[]} */
    const way = [];
    for (let moment = at; moment > 0 && way.length < PATH_STEPS; moment--) {
        const { served } = played.moments[moment - 1];
        if (served && served.unit === unit && served.block !== null) way.push(Math.floor(served.block / blocks));
    }
    return way;
}

/** @param {number} from @param {number} to the ends @param {number} head @param {boolean} isUp */
function axisAndHead(from, to, head, isUp) {
    const turn = isUp ? 9 : -9;
    return [
        draw('path', { class: 'axis', d: `M${from} ${AXIS}H${to}` }),
        ...[from, to, head].map((x) => draw('path', { class: 'axis', d: `M${x} ${AXIS - 5}v10` })),
        draw('path', { class: 'head', d: `M${head - turn / 2} ${AXIS - 20}l${turn} 7l${-turn} 7z` }),
    ];
}

/**
 * A unit's cylinders, its head, its waiting transfers, and the way of the head so far.
 * @param {Play} played @param {number} at @param {number} number @param {number} width
 */
function unitPicture(played, at, number, width) {
    const state = stateAt(played, at), head = state.heads[number];
    const blocks = cylinderBlocks(played.config, number);
    const unit = played.config.units.find((it) => it.number === number);
    const last = Math.floor(((unit?.size ?? 1) - 1) / blocks);
    const x = (/** @type {number} */ cylinder) => EDGE + cylinder / Math.max(last, 1) * (width - 2 * EDGE);
    const way = wayOf(played, at, number, blocks), top = AXIS + 38;
    const y = (/** @type {number} */ n) => top + n * PATH_HEIGHT;
    const transfers = state.waiting.filter((it) => it.unit === number && it.opcode.kind === 'transfer');
    const marks = transfers.flatMap((it, place) => {
        const where = x(Math.floor(it.block / blocks)), below = AXIS + 16 + place % 2 * 12;
        return [draw('path', { class: 'figure', d: `M${where} ${AXIS - 5}v10` }),
            draw('text', { x: where, y: below, 'text-anchor': 'middle' }, String(it.reference))];
    });
    const title = `Unit ${number}, ${state.online[number] ? 'online' : 'available'}: cylinders 0 to ${last}, head on ` +
        `${head.cylinder}, going ${head.isUp ? 'up' : 'down'}`;
    const picture = draw('svg', { width, height: y(PATH_STEPS), role: 'img', 'aria-label': title },
        ...axisAndHead(x(0), x(last), x(head.cylinder), head.isUp), ...marks,
        draw('polyline', { class: 'way', points: way.map((cylinder, n) => `${x(cylinder)},${y(n)}`).join(' ') }),
        ...way.map((cylinder, n) => draw('circle', { class: 'mark', cx: x(cylinder), cy: y(n), r: 2.5 })));
    return make('div', {}, make('h3', { class: 'small' }, title), picture);
}

/** The cylinders of all units. @param {Play} played @param {number} at @param {number} width */
export const cylinderPictures = (played, at, width) =>
    played.config.units.map(({ number }) => unitPicture(played, at, number, width));
