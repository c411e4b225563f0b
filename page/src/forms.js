// The forms of the page: what they ask for, as lines of a script.

import { byId, make } from './document.js';
import { OPCODES } from './messages.js';

/** @typedef {import('./controller.js').Config} Config */

const BUTTON_WORDS = ['abort', 'status']; // each waiting command has a button for these
const UNIT_FIELDS = /** @type {const} */ ([
    ['number', 'Unit', 0, 65535], ['track', 'blocks a track', 1, 65535], ['group', 'tracks a group', 1, 65535],
    ['cylinder', 'groups a cylinder', 1, 65535], ['size', 'blocks', 1, 4294967295],
]);
const FRESH_UNIT = { number: 0, track: 10, group: 2, cylinder: 1, size: 1000 };

/** @param {string} id @returns {number} */
const numberOf = (id) => Number(byId(id).value);

/** Fills what doesn't change. */
export function fillCommands() {
    const options = OPCODES.filter(({ word }) => !BUTTON_WORDS.includes(word))
        .map(({ name, word }) => make('option', { value: word }, name));
    byId('command').replaceChildren(...options);
    byId('command').value = 'read';
    showFields();
}

/** Shows the fields that the chosen command has. */
export function showFields() {
    const opcode = OPCODES.find(({ word }) => word === byId('command').value);
    for (const label of document.querySelectorAll('.transfer')) {
        /** @type {HTMLElement} */ (label).hidden = opcode?.kind !== 'transfer';
        /** @type {any} */ (label.querySelector('input')).disabled = opcode?.kind !== 'transfer';
    }
    byId('unit').disabled = opcode?.word === 'setcontroller';
}

/** @returns {string} what stands before a line of the chosen host */
export const hostWord = () =>
    (/** @type {any} */ (document.querySelector('[name=host]:checked')).value === '1' ? 'second ' : '');

/** @returns {string} the line that the form asks for */
export function commandLine() {
    const word = byId('command').value, reference = numberOf('reference');
    if (word === 'setcontroller') return `${hostWord()}${word} ${reference}`;
    const opcode = OPCODES.find((it) => it.word === word);
    const more = opcode?.kind === 'transfer' ? ` ${numberOf('bytes')} ${numberOf('block')}` : '';
    return `${hostWord()}${word} ${reference} ${byId('unit').value}${more}`;
}

/** A READ of a few blocks, anywhere on the chosen unit. @param {Config} config @param {number} reference */
export function randomRead(config, reference) {
    const unit = config.units.find(({ number }) => String(number) === byId('unit').value) ?? config.units[0];
    const blocks = 1 + Math.floor(Math.random() * Math.min(config.longest, 4, unit.size));
    const block = Math.floor(Math.random() * (unit.size - blocks + 1));
    return `${hostWord()}read ${reference} ${unit.number} ${blocks * 512} ${block}`;
}

/** Makes the rows of so many units, with what stood there. @param {number} count @param {Config['units']} units */
export function showUnits(count, units) {
    const rows = Array.from({ length: count }, (_, place) => {
        const number = units.length > 0 ? units[units.length - 1].number + place - units.length + 1 : place;
        const unit = units[place] ?? { ...FRESH_UNIT, number };
        return make('fieldset', { class: 'row unit' }, make('legend', {}, `Unit row ${place + 1}`),
            ...UNIT_FIELDS.map(([field, label, least, most]) => make('label', {}, label, make('input', {
                type: 'number', min: least, max: most, required: true, 'data-field': field, value: unit[field],
            }))));
    });
    byId('units').replaceChildren(...rows);
}

/** @returns {Config['units']} as the form has them */
export const unitsOfForm = () => [...document.querySelectorAll('#units fieldset')].map((row) =>
    /** @type {any} */ (Object.fromEntries([...row.querySelectorAll('input')].map((input) =>
        [input.dataset.field, Number(input.value)]))));

/** @returns {Config} */
export const configOfForm = () => ({
    credits: numberOf('credits'), second: numberOf('second'), budget: numberOf('budget'), longest: numberOf('longest'),
    timeout: numberOf('timeout'), units: unitsOfForm(),
});

/** Shows a configuration in the forms. @param {Config} config @param {string} picker */
export function showConfig(config, picker) {
    const limits = /** @type {const} */ (['credits', 'second', 'budget', 'longest', 'timeout']);
    for (const limit of limits) byId(limit).value = config[limit];
    byId('picker').value = picker;
    const count = config.units.length;
    if (![...byId('count').options].some((option) => Number(option.value) === count)) {
        byId('count').append(make('option', {}, String(count)));
    }
    byId('count').value = String(count);
    showUnits(count, config.units);
    const chosen = byId('unit').value;
    byId('unit').replaceChildren(...config.units.map(({ number }) => make('option', {}, String(number))));
    if (config.units.some(({ number }) => String(number) === chosen)) byId('unit').value = chosen;
    byId('hosts').hidden = config.second === 0;
    if (config.second === 0) /** @type {any} */ (document.querySelector('[name=host][value="0"]')).checked = true;
}
