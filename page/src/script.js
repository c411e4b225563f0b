// What the lines of a script ask for. The script is one that the program runs: its faults are told before (program.js).
// docs/FORMATS.md has the rules.

import { OPCODES, writeCommand } from './messages.js';
import { Fault } from './program.js';

/**
 * @typedef {import('./controller.js').Config} Config
 * @typedef {import('./controller.js').Unit} Unit
 * @typedef {{kind: 'send', connection: number, message: Uint8Array} | {kind: 'take', connection: number} |
 *   {kind: 'step', status: number} | {kind: 'look'}} Action
 * @typedef {{line: number, text: string, action: Action}} Event
 * @typedef {{config: Config, header: number, events: Event[]}} Script `header` is how many lines the header has
 * @typedef {{line: number, text: string, words: string[]}} Line
 */

export const MOST_EVENTS = 5000; // that the page plays; the program runs 1,000,000

/** @param {string} text @returns {Line[]} the lines that say something */
function linesOf(text) {
    return text.split('\n').map((row, place) => ({ line: place + 1, text: row.trim(), words: row.trim().split(/ +/) }))
        .filter(({ text }) => text !== '' && !text.startsWith('#'));
}

/** @param {Line[]} lines of a header @returns {Config} */
function configOf(lines) {
    const [credits, budget, longest, timeout, ...units] = lines.map(({ words: [, ...numbers] }) => numbers.map(Number));
    const times = lines[1].words[0] === 'passing' ? longest[0] : 1;
    return {
        credits: credits[0], second: credits[1] ?? 0, budget: budget[0] * times, longest: longest[0],
        timeout: timeout[0],
        units: units.map(([number, track, group, cylinder, size]) => ({ number, track, group, cylinder, size })),
    };
}

/** @param {string[]} words of a host's line @param {number} connection @returns {Action} */
function hostAction([word, ...rest], connection) {
    if (word === 'take') return { kind: 'take', connection };
    if (word === 'packet') {
        const message = Uint8Array.from(rest[0].match(/../g) ?? [], (digits) => parseInt(digits, 16));
        return { kind: 'send', connection, message };
    }
    const opcode = /** @type {import('./messages.js').Opcode} */ (OPCODES.find((it) => it.word === word));
    const [reference, second = 0, bytes = 0, block = 0] = rest.map(Number);
    const isOfOther = opcode.written === 16;
    const message = isOfOther ? writeCommand(opcode, reference, 0, { other: second }) :
        writeCommand(opcode, reference, second, { bytes, block });
    return { kind: 'send', connection, message };
}

/** @param {string[]} words @returns {Action[]} */
function actionsOf(words) {
    switch (words[0]) {
        case 'step': return Array.from({ length: Number(words[1]) }, () => ({ kind: 'step', status: 0 }));
        case 'bad': return [{ kind: 'step', status: parseInt(words[1], 16) }];
        case 'look': return [{ kind: 'look' }];
        case 'second': return [hostAction(words.slice(1), 1)];
        default: return [hostAction(words, 0)];
    }
}

/** What a script asks for. @param {string} text that the program runs @returns {Script} */
export function readScript(text) {
    const lines = linesOf(text);
    const go = lines.findIndex(({ words }) => words[0] === 'go');
    /** @type {Event[]} */
    const events = [];
    for (const { line, text, words } of lines.slice(go + 1)) {
        for (const action of actionsOf(words)) events.push({ line, text, action });
        if (events.length > MOST_EVENTS) throw new Fault(line, 'events');
    }
    return { config: configOf(lines.slice(0, go)), header: lines[go].line, events };
}

/** The header of a configuration. @param {Config} config @returns {string} its lines, `go` too */
export function headerText(config) {
    const units = config.units.map(({ number, track, group, cylinder, size }) =>
        `unit ${number} ${track} ${group} ${cylinder} ${size}\n`);
    const second = config.second ? ` ${config.second}` : '';
    return `credits ${config.credits}${second}\nbudget ${config.budget}\nlongest ${config.longest}\n` +
        `timeout ${config.timeout}\n${units.join('')}go\n`;
}
