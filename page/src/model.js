// What is computed here, beside the library, of the commands that wait: by how much each was passed, and of which parts
// its figure is the sum. docs/MODEL.md has the rules. None of this is proved; each sum is compared with the library's
// figure. Who keeps whom back the library says.

import { OPCODES, readQueued } from './messages.js';

/**
 * A waiting command: `done` of its `weight` steps are served, and it was passed by `passed` blocks.
 * @typedef {{arrival: number, connection: number, reference: number, unit: number, opcode: typeof OPCODES[number],
 *   block: number, weight: number, done: number, passed: number}} Waiting
 * @typedef {{cylinder: number, isUp: boolean}} Head
 * @typedef {import('./controller.js').Served} Served
 * @typedef {import('./controller.js').Config} Config
 * @typedef {import('./controller.js').Holder} Holder
 * @typedef {{mayStart: boolean, inService: boolean, behind: Waiting | null, fences: Waiting[],
 *   limits: Waiting[]}} Reasons
 * @typedef {{earlier: number, service: number, budget: number, own: number}} Parts
 */

/** @param {Waiting} command @returns {number} steps that are left of it */
export const leftOf = (command) => command.weight - command.done;

/** @param {Config} config @param {number} number @returns {number} the blocks of a cylinder of that unit */
export function cylinderBlocks(config, number) {
    const unit = config.units.find((it) => it.number === number);
    return unit ? unit.track * unit.group * unit.cylinder : 1;
}

/** @param {Config} config @returns {Record<number, Head>} of each unit, at first */
export const freshHeads = (config) =>
    Object.fromEntries(config.units.map((unit) => [unit.number, { cylinder: 0, isUp: true }]));

/** @param {Waiting} command @param {number} connection @param {number} reference */
const isNamed = (command, connection, reference) =>
    command.connection === connection && command.reference === reference;

/** @param {Waiting[]} waiting @param {Uint8Array} message @param {number} connection @param {number} arrival */
export const queue = (waiting, message, connection, arrival) =>
    [...waiting, { arrival, connection, ...readQueued(message), done: 0, passed: 0 }];

/** @param {Waiting[]} waiting @param {number} connection @param {number} reference */
export const leave = (waiting, connection, reference) =>
    waiting.filter((command) => !isNamed(command, connection, reference));

/** The commands after a step: a start passes those before it. @param {Waiting[]} waiting @param {Served} served */
export function serve(waiting, served) {
    const place = waiting.findIndex((command) => isNamed(command, served.connection, served.reference));
    const { weight } = waiting[place];
    const after = waiting.map((command, at) => {
        if (at === place) return { ...command, done: command.done + 1 };
        return served.started && at < place ? { ...command, passed: command.passed + weight } : command;
    });
    return served.ended === null ? after : leave(after, served.connection, served.reference);
}

/** The head after a step: only a start turns it. @param {Head} head @param {Served} served @param {number} blocks */
export function moveHead(head, served, blocks) {
    if (served.block === null) return head;
    const cylinder = Math.floor(served.block / blocks);
    const turns = served.started && cylinder !== head.cylinder;
    return { cylinder, isUp: turns ? cylinder > head.cylinder : head.isUp };
}

/**
 * What keeps a command from starting: whom the library names, and the command in service.
 * @param {Waiting[]} waiting @param {Waiting} command @param {Holder[]} holders @returns {Reasons}
 */
export function reasonsOf(waiting, command, holders) {
    const named = (/** @type {Holder[]} */ list) => waiting.filter((other) =>
        list.some(({ connection, reference }) => isNamed(other, connection, reference)));
    const behind = waiting.find((other) => other.done > 0 && other !== command) ?? null;
    const inService = command.done > 0;
    return {
        inService, behind, mayStart: !inService && !behind && holders.length === 0,
        fences: named(holders.filter((it) => it.fences)),
        limits: named(holders.filter((it) => it.overdrawn)),
    };
}

/** Of which parts a figure is the sum. @param {Waiting[]} waiting @param {Waiting} command @param {number} budget */
export function partsOf(waiting, command, budget) {
    const own = leftOf(command);
    if (command.done > 0) return { earlier: 0, service: 0, budget: 0, own };
    const place = waiting.indexOf(command);
    const earlier = waiting.slice(0, place).reduce((sum, other) => sum + leftOf(other), 0);
    const served = waiting.slice(place + 1).find((other) => other.done > 0);
    return { earlier, service: served ? leftOf(served) : 0, budget: budget - command.passed, own };
}

/** @param {Parts} parts @returns {number} */
export const sumOf = (parts) => parts.earlier + parts.service + parts.budget + parts.own;
