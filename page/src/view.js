// What the page shows of a play at a moment.

import { byId, make, replace } from './document.js';
import { cylinderPictures, figuresPicture, figuresTable, mostOf } from './pictures.js';
import { stateAt } from './play.js';
import { legend, queueItems } from './queue_view.js';

/**
 * @typedef {import('./play.js').Play} Play
 * `textOf` is the line of a packet, by its digits.
 * @typedef {{textOf: (digits: string) => string,
 *   actOn: (word: 'status' | 'abort', command: import('./model.js').Waiting) => void,
 *   goTo: (at: number) => void}} Acts
 */

const MOST_ROWS = 200;

/** @param {string} id @returns {number} how wide a picture there may be */
const widthOf = (id) => Math.max(240, Math.floor(byId(id).clientWidth));

/** @param {number} count @param {string} one */
const counted = (count, one) => `${count} ${one}${count === 1 ? '' : 's'}`;

/** @param {Play} played @param {number} at @returns {string} */
function nowText(played, at) {
    const state = stateAt(played, at);
    const hosts = played.config.second ? ['of the first host, ', 'of the second'] : [''];
    const credits = hosts.map((host, connection) => `${counted(state.balance[connection], 'credit')} free and ` +
        `${counted(state.untaken[connection], 'end')} to take ${host}`.trim()).join(' ');
    const event = at === 0 ? null : played.moments[at - 1].event;
    const what = event ? `line ${event.line}: ${event.text}` : 'nothing came yet';
    return `Moment ${at} of ${played.moments.length} (${what}). ${counted(state.steps, 'step')}, ` +
        `${counted(state.seeks, 'cylinder')} crossed; ${credits}.`;
}

/** @param {Play} played @param {number} at @param {Acts} acts */
function showTime(played, at) {
    const slider = byId('at');
    slider.max = String(played.moments.length);
    slider.value = String(at);
    slider.setAttribute('aria-valuetext', `moment ${at} of ${played.moments.length}`);
    byId('now').textContent = nowText(played, at);
    for (const id of ['first', 'back']) byId(id).disabled = at === 0;
    for (const id of ['forward', 'last']) byId(id).disabled = at === played.moments.length;
}

/** @param {Play} played @param {number} at @param {Acts} acts */
function showLog(played, at, acts) {
    const from = Math.max(0, at - MOST_ROWS);
    const rows = played.moments.slice(from, at).map(({ event, report, packet }, place) => {
        const number = from + place + 1;
        return make('tr', { 'aria-current': number === at ? 'step' : null },
            make('td', {}, make('button', {
                type: 'button', 'data-key': `moment ${number}`, 'aria-label': `Show moment ${number}`,
                onclick: () => acts.goTo(number),
            }, String(number))),
            make('td', {}, event.text),
            make('td', {}, report.join(', ')),
            make('td', {}, packet ? acts.textOf(packet) : ''),
            make('td', { class: 'bytes' }, packet ?? ''));
    }).reverse();
    const titles = ['Moment', 'Line', 'Report', 'As mscpq packet says', 'Bytes'];
    replace(byId('moments'), make('table', {},
        make('thead', {}, make('tr', {}, ...titles.map((title) => make('th', { scope: 'col' }, title)))),
        make('tbody', {}, ...rows)));
}

/** @param {Play} played @param {string} report */
function showReport(played, report) {
    byId('report').value = report;
    byId('whose').textContent = played.picker === 'sweep' ?
        "The report is the program's own: mscpq run prints the same of this script." :
        'The report is written here from what the library answered. The program mscpq has the sweep alone, so it may ' +
        'print another.';
}

/** Shows all of it. @param {Play} played @param {string} report @param {number} at @param {Acts} acts */
export function show(played, report, at, acts) {
    const state = stateAt(played, at), { budget } = played.config;
    showTime(played, at);
    replace(byId('queue'), ...queueItems(state, budget, mostOf(played), widthOf('queue'), acts.actOn));
    replace(byId('legend'), ...legend());
    replace(byId('figures-picture'), figuresPicture(played, at, widthOf('figures-picture')));
    replace(byId('figures-table'), figuresTable(played, at));
    replace(byId('cylinders-picture'), ...cylinderPictures(played, at, widthOf('cylinders-picture')));
    showLog(played, at, acts);
    showReport(played, report);
    const { credits, second, longest } = played.config;
    const room = credits - 1 + (second ? second - 1 : 0);
    byId('bound').textContent =
        `The bound is ${room} × ${longest} + ${budget} = ${room * longest + budget} steps: no command waits longer.`;
    if (!state.agrees) say("This page's sum isn't the library's figure: one of them is wrong.", true);
}

/** Says what came of an act. @param {string} text @param {boolean} isFault */
export function say(text, isFault = false) {
    byId('said').textContent = text;
    byId('said').className = isFault ? 'fault' : '';
}
