// A script played on the library, event by event: what each event prints, and all that is shown after it.

import { Controller, STATUS } from './controller.js';
import { hexOf, statusText } from './messages.js';
import { cylinderBlocks, freshHeads, leave, moveHead, partsOf, queue, serve, sumOf } from './model.js';

/**
 * @typedef {import('./script.js').Event} Event
 * @typedef {import('./script.js').Script} Script
 * @typedef {import('./model.js').Waiting} Waiting
 * @typedef {import('./controller.js').Figure} Figure
 * What is shown after a moment. `figures`, and `holders`, who keep each back, are the library's, in order of arrival.
 * @typedef {{waiting: Waiting[], figures: Figure[], holders: import('./controller.js').Holder[][],
 *   heads: Record<number, import('./model.js').Head>, online: Record<number, boolean>, balance: number[],
 *   untaken: number[], steps: number, seeks: number, agrees: boolean}} State
 * What happened in a moment: the lines of the report, and the bytes that were sent or taken.
 * @typedef {{event: Event, report: string[], packet: string | null,
 *   served: import('./controller.js').Served | null, state: State}} Moment
 * @typedef {{config: import('./controller.js').Config, picker: string, start: State, moments: Moment[]}} Play
 */

/** @type {Record<number, string>} */
const REFUSALS = {
    [STATUS.SHORT]: 'short', [STATUS.LONG]: 'long', [STATUS.NO_CREDIT]: 'no-credit',
    [STATUS.LAST_CREDIT]: 'last-credit', [STATUS.DOUBLED]: 'doubled',
};

/** @param {number} connection */
const before = (connection) => (connection === 1 ? 'second ' : '');

class Player {
    /** @param {Controller} controller @param {import('./controller.js').Config} config */
    constructor(controller, config) {
        this.controller = controller;
        this.config = config;
        /** @type {Waiting[]} */
        this.waiting = [];
        this.heads = freshHeads(config);
        this.steps = 0;
        this.seeks = 0;
        this.arrivals = 0;
    }

    /** @returns {State} */
    state() {
        const { controller, config, waiting } = this;
        const figures = controller.look();
        const agrees = figures.length === waiting.length && figures.every(({ connection, reference, figure }, place) =>
            waiting[place].connection === connection && waiting[place].reference === reference &&
            sumOf(partsOf(waiting, waiting[place], config.budget)) === figure);
        return {
            waiting, figures, agrees,
            holders: waiting.map(({ connection, reference }) => controller.why(connection, reference)),
            heads: this.heads, steps: this.steps, seeks: this.seeks,
            online: Object.fromEntries(config.units.map(({ number }) => [number, controller.isOnline(number)])),
            balance: [0, 1].map((connection) => controller.balance(connection)),
            untaken: [0, 1].map((connection) => controller.untaken(connection)),
        };
    }

    /** @param {number} connection @param {Uint8Array} message @returns {string} the line of the report */
    send(connection, message) {
        const { status, reference, aborted } = this.controller.send(connection, message);
        if (status === STATUS.QUEUED) {
            this.waiting = queue(this.waiting, message, connection, this.arrivals++);
            return `${before(connection)}queued ${reference}`;
        }
        if (status !== STATUS.ANSWERED) return `${before(connection)}refused ${REFUSALS[status]}`;
        if (aborted === null) return `${before(connection)}answered ${reference}`;
        this.waiting = leave(this.waiting, connection, aborted);
        return `${before(connection)}answered ${reference} aborted ${aborted}`;
    }

    /** @param {number} block its status @returns {{line: string, served: import('./controller.js').Served | null}} */
    step(block) {
        const served = this.controller.step(block);
        this.steps++;
        if (!served) return { line: 'idle', served };
        this.waiting = serve(this.waiting, served);
        const head = moveHead(this.heads[served.unit], served, cylinderBlocks(this.config, served.unit));
        this.heads = { ...this.heads, [served.unit]: head };
        this.seeks += served.seek;
        const ended = served.ended === null ? '' : ` ended ${statusText(served.ended)}`;
        const line = `${before(served.connection)}serve ${served.reference} unit ${served.unit} block ` +
            `${served.block ?? 'none'} seek ${served.seek}${ended}`;
        return { line, served };
    }

    /** @returns {string[]} */
    look() {
        return this.controller.look().map(({ connection, reference, figure }) =>
            `${before(connection)}figure ${reference} ${figure}`);
    }

    /** @param {import('./script.js').Action} action @returns {Pick<Moment, 'report' | 'packet' | 'served'>} */
    meet(action) {
        switch (action.kind) {
            case 'send': {
                const report = [this.send(action.connection, action.message)];
                return { report, packet: hexOf(action.message), served: null };
            }
            case 'step': {
                const { line, served } = this.step(action.status);
                return { report: [line], packet: null, served };
            }
            case 'take': {
                const end = this.controller.take(action.connection);
                const report = [`${before(action.connection)}${end ? `end ${hexOf(end)}` : 'none'}`];
                return { report, packet: end ? hexOf(end) : null, served: null };
            }
            case 'look':
                return { report: this.look(), packet: null, served: null };
        }
    }
}

/**
 * Plays a script from nothing.
 * @param {import('./memory.js').Library} library @param {Script} script @param {string} picker
 * @returns {Play}
 */
export function play(library, script, picker) {
    const player = new Player(new Controller(library, script.config, picker), script.config);
    const start = player.state();
    const moments = script.events.map((event) => ({ event, ...player.meet(event.action), state: player.state() }));
    return { config: script.config, picker, start, moments };
}

/** @param {Play} played @param {number} at how many moments are shown @returns {State} */
export const stateAt = (played, at) => (at === 0 ? played.start : played.moments[at - 1].state);

/** The report of all moments, and the totals. @param {Play} played @returns {string} */
export function reportText(played) {
    const { steps, seeks, waiting } = stateAt(played, played.moments.length);
    const lines = played.moments.flatMap(({ report }) => report);
    return [...lines, `steps ${steps} seeks ${seeks} pending ${waiting.length}`, ''].join('\n');
}
