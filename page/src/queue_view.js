// The waiting commands, with their figures as bars and what keeps each from starting.

import { draw, make } from './document.js';
import { partsOf, reasonsOf } from './model.js';

/**
 * @typedef {import('./model.js').Waiting} Waiting
 * @typedef {import('./play.js').State} State
 */

const PARTS = /** @type {const} */ ([
    ['earlier', 'left of earlier commands'], ['service', 'left of a later one in service'],
    ['budget', 'left of its budget'], ['own', 'left of the command itself'],
]);
const BAR = 18;

/** @param {Waiting} command */
export const nameOf = (command) =>
    `${command.opcode.name} ${command.reference}${command.connection === 1 ? ' of the second host' : ''}`;

/** @param {Waiting} command */
function whereOf(command) {
    if (command.opcode.kind !== 'transfer') return `unit ${command.unit}`;
    const last = command.block + command.weight - 1;
    const blocks = last === command.block ? `block ${last}` : `blocks ${command.block} to ${last}`;
    return `unit ${command.unit}, ${blocks}`;
}

/** What keeps a command back, in words. @param {State} state @param {number} place @param {number} budget */
export function reasonText(state, place, budget) {
    const command = state.waiting[place];
    const { mayStart, inService, behind, fences, limits } = reasonsOf(state.waiting, command, state.holders[place]);
    if (inService) return `▶ in service: ${command.done} of ${command.weight} steps done`;
    if (mayStart) return '● may start';
    const reasons = [];
    if (fences.length > 0) reasons.push(`fenced by ${fences.map(nameOf).join(', ')}`);
    for (const other of limits) {
        const left = `${budget - other.passed} of that one's budget is left`;
        reasons.push(`may not pass ${nameOf(other)}: it takes ${command.weight}, and ${left}`);
    }
    if (behind) reasons.push(`${nameOf(behind)} is in service`);
    return `${fences.length + limits.length > 0 ? '■ kept back' : '◷ waits'}: ${reasons.join('; ')}`;
}

/** @param {[string, number][]} parts @param {number} figure @param {number} most @param {number} width */
function bar(parts, figure, most, width) {
    const scale = (width - 2) / Math.max(most, 1);
    let from = 1;
    const rects = parts.map(([name, count]) => {
        const rect = draw('rect', { x: from, y: 1, width: count * scale, height: BAR - 2, class: `part part-${name}` });
        from += count * scale;
        return rect;
    });
    return draw('svg', { width, height: BAR, role: 'img', 'aria-label': `figure ${figure}` }, ...rects);
}

/**
 * @param {State} state @param {number} budget @param {number} most the largest figure there is @param {number} width
 * @param {(verb: 'status' | 'abort', command: Waiting) => void} act
 * @returns {HTMLElement[]} the items of the list
 */
export function queueItems(state, budget, most, width, act) {
    if (state.waiting.length === 0) return [make('li', {}, 'No command waits.')];
    return state.waiting.map((command, place) => {
        const parts = partsOf(state.waiting, command, budget);
        const { figure } = state.figures[place];
        const counts = PARTS.map(([name]) => /** @type {[string, number]} */ ([name, parts[name]]));
        const sum = counts.filter(([, count]) => count > 0).map(([name, count]) => `${count} ${name}`).join(' + ');
        const button = (/** @type {'status' | 'abort'} */ verb, /** @type {string} */ word) => make('button', {
            type: 'button', 'data-key': `${verb} ${command.arrival}`, 'aria-label': `${word} ${nameOf(command)}`,
            onclick: () => act(verb, command),
        }, word);
        return make('li', { 'data-arrival': command.arrival, 'data-figure': figure },
            make('div', { class: 'row' },
                make('span', {}, make('strong', {}, nameOf(command)), ` ${whereOf(command)}`),
                make('span', { class: 'row' }, button('status', 'Poll'), button('abort', 'Abort'))),
            bar(counts, figure, most, width),
            make('p', { class: 'small' }, `figure ${figure} = ${sum}`),
            make('p', { class: 'why' }, reasonText(state, place, budget)));
    });
}

/** @returns {Node[]} what the parts of a bar are */
export function legend() {
    return PARTS.map(([name, text]) => make('span', { class: 'row' },
        draw('svg', { width: 22, height: 14, 'aria-hidden': 'true' },
            draw('rect', { x: 1, y: 1, width: 20, height: 12, class: `part part-${name}` })),
        `${name}: ${text}`));
}
