// The page: a script, who picks, and how many of its moments are shown. All else is made anew from these.

import { byId, make } from './document.js';
import { faultText } from './faults.js';
import { commandLine, configOfForm, fillCommands, hostWord, randomRead, showConfig, showFields, showUnits,
    unitsOfForm } from './forms.js';
import { readLink, writeLink } from './link.js';
import { Library } from './memory.js';
import { referenceOf } from './messages.js';
import { play, reportText, stateAt } from './play.js';
import { Fault, packetText, runScript } from './program.js';
import { headerText, readScript } from './script.js';
import { say, show } from './view.js';

/** @typedef {{text: string, picker: string, at: number, played: import('./play.js').Play, report: string,
 *   header: number}} Page */

const TICK = 600; // milliseconds between moments that run
const FIRST_EXAMPLE = 'six_figures';

// One for the controller that is shown, and one for the program.
const library = await Library.load(byId('module').textContent);
const program = await Library.load(byId('module').textContent);
/** @type {Page} */
let page;
/** @type {number | undefined} */
let ticking;
let isDraft = false; // whether the box has a script that isn't the one which is shown

/** Puts the script that is shown into the box, if there is no draft in it. */
function showScript() {
    if (!isDraft) {
        byId('script').value = page.text;
        byId('fault').textContent = '';
        byId('script').removeAttribute('aria-invalid');
    }
    byId('restore').hidden = !isDraft;
}

/** Leaves a script with a fault in the box, with what the fault means beside it. */
function showFault(/** @type {string} */ text, /** @type {Fault} */ fault) {
    isDraft = true;
    const before = text.split('\n').slice(0, Math.max(0, fault.line - 1)).join('\n').length;
    byId('script').value = text;
    byId('script').setSelectionRange(before, before);
    byId('script').setAttribute('aria-invalid', 'true');
    byId('fault').textContent = `${fault.message}. ${faultText(text, fault)}`;
    byId('restore').hidden = false;
}

/**
 * Plays a script, and shows it up to a moment: its end if that is null. A fault changes nothing, and if the script came
 * from the box or the address it stays in the box.
 */
function playText(/** @type {string} */ text, /** @type {string} */ picker, /** @type {number | null} */ at,
    /** @type {boolean} */ isOfBox = false) {
    try {
        const report = runScript(program, text);
        const script = readScript(text);
        const played = play(library, script, picker);
        const end = played.moments.length;
        page = {
            text, picker, at: Math.min(at ?? end, end), played, header: script.header,
            report: picker === 'sweep' ? report : reportText(played),
        };
        if (isOfBox) isDraft = false;
        showScript();
        showConfig(script.config, picker);
        byId('reference').value = freshReference();
        refresh();
        return true;
    } catch (fault) {
        if (!(fault instanceof Fault)) throw fault;
        if (isOfBox) showFault(text, fault);
        const meaning = isOfBox ? '' : `${faultText(text, fault)} `;
        say(`The script has a fault at ${fault.message}. ${meaning}Nothing was changed.`, true);
        return false;
    }
}

/** @returns {number} a reference number that nobody used */
function freshReference() {
    const used = page.played.moments.map(({ event: { action } }) =>
        (action.kind === 'send' && action.message.length >= 4 ? referenceOf(action.message) : 0));
    return Math.min(4294967295, used.reduce((most, it) => Math.max(most, it < 4294967295 ? it : 0), 0) + 1);
}

function refresh() {
    const { played, report, at, text, picker } = page;
    show(played, report, at, { goTo, actOn, textOf: (digits) => packetText(program, digits) });
    const hash = `#${writeLink({ script: text, picker, at: at === played.moments.length ? null : at })}`;
    history.replaceState(null, '', hash);
    byId('link').value = location.href;
}

function goTo(/** @type {number} */ at) {
    page.at = Math.max(0, Math.min(at, page.played.moments.length));
    refresh();
    const said = page.at === 0 ? 'The beginning.' : page.played.moments[page.at - 1].report.join(', ');
    say(said || 'No figure: nothing waits.');
}

/** Adds a line behind all others, and shows the end. @returns {boolean} whether it is a line */
function addLine(/** @type {string} */ line) {
    const text = `${page.text}${page.text.endsWith('\n') ? '' : '\n'}${line}\n`;
    const before = page.played.moments.length;
    if (!playText(text, page.picker, null)) return false;
    const reports = page.played.moments.slice(before).flatMap(({ report }) => report);
    say(reports.join(', ') || 'No figure: nothing waits.');
    return true;
}

/** Polls or aborts a command, by its own host. */
function actOn(/** @type {string} */ word, /** @type {import('./model.js').Waiting} */ command) {
    const host = command.connection === 1 ? 'second ' : '';
    addLine(`${host}${word} ${freshReference()} ${command.reference}`);
}

/** Takes the last line behind the header away. */
function removeLast() {
    const lines = page.text.replace(/\n+$/, '').split('\n');
    if (lines.length <= page.header) return say('Only the header is left.', true);
    const removed = lines.pop();
    if (playText(`${lines.join('\n')}\n`, page.picker, null)) say(`Removed: ${removed}`);
}

/** Makes the controller of the form, for the lines that are there, or for none. */
function makeController(/** @type {boolean} */ keepsLines) {
    if (!byId('limits').reportValidity()) return;
    const lines = keepsLines ? page.text.split('\n').slice(page.header).join('\n') : '';
    if (playText(headerText(configOfForm()) + lines, byId('picker').value, null)) say('The controller is made.');
}

function stop() {
    clearInterval(ticking);
    ticking = undefined;
    byId('run').textContent = 'Run';
}

/** Shows the next moment, or steps where all are shown. It stops where nothing waits any more. */
function tick() {
    if (page.at < page.played.moments.length) goTo(page.at + 1);
    else if (stateAt(page.played, page.at).waiting.length === 0 || !addLine('step 1')) stop();
}

function runOrStop() {
    if (ticking !== undefined) return stop();
    ticking = window.setInterval(tick, TICK);
    byId('run').textContent = 'Stop';
    tick();
}

async function copyLink() {
    byId('link').select();
    try {
        await navigator.clipboard.writeText(byId('link').value);
        say('The link is copied.');
    } catch {
        say('The link is selected: copy it.');
    }
}

function openExample(keepsDraft = false) {
    const example = /** @type {any} */ (document.querySelector(`.example[data-name="${byId('examples').value}"]`));
    const text = example.textContent.replace(/^\n/, '');
    if (playText(text, 'sweep', null, !keepsDraft)) say(`The example ${byId('examples').value}.`);
}

/** Drops what was written in the box. */
function restore() {
    isDraft = false;
    showScript();
    byId('script').focus();
}

/** @type {Record<string, () => void>} */
const CLICKS = {
    first: () => goTo(0),
    back: () => goTo(page.at - 1),
    forward: () => goTo(page.at + 1),
    last: () => goTo(page.played.moments.length),
    run: runOrStop,
    random: () => addLine(randomRead(page.played.config, freshReference())),
    step: () => addLine('step 1'),
    bad: () => addLine(`bad ${byId('status').value}`),
    take: () => addLine(`${hostWord()}take`),
    look: () => addLine('look'),
    undo: removeLast,
    clear: () => makeController(false),
    open: () => openExample(),
    'run-script': () => playText(byId('script').value, page.picker, null, true) && say('The script is run.'),
    restore,
    copy: copyLink,
};

/** @type {Record<string, () => void>} */
const SUBMITS = {
    send: () => addLine(commandLine()),
    'line-form': () => addLine(byId('line').value) && (byId('line').value = ''),
    limits: () => makeController(true),
};

function listen() {
    for (const [id, act] of Object.entries(CLICKS)) byId(id).addEventListener('click', act);
    for (const [id, act] of Object.entries(SUBMITS)) {
        byId(id).addEventListener('submit', (/** @type {Event} */ event) => {
            event.preventDefault();
            act();
        });
    }
    byId('at').addEventListener('input', () => goTo(Number(byId('at').value)));
    byId('script').addEventListener('input', () => {
        isDraft = true;
        byId('restore').hidden = false;
    });
    byId('command').addEventListener('change', showFields);
    byId('count').addEventListener('change', () => showUnits(Number(byId('count').value), unitsOfForm()));
    window.addEventListener('resize', refresh);
    window.addEventListener('hashchange', openLink);
}

/** Opens what the address has. @returns {boolean} whether it has a script that is one */
function openLink() {
    const link = readLink(location.hash);
    return link !== null && playText(link.script, link.picker, link.at, true);
}

function begin() {
    fillCommands();
    const names = [...document.querySelectorAll('.example')].map((it) => /** @type {any} */ (it).dataset.name);
    byId('examples').replaceChildren(...names.map((name) => make('option', {}, name)));
    byId('examples').value = FIRST_EXAMPLE;
    listen();
    if (openLink()) return;
    const fault = isDraft ? byId('said').textContent : '';
    openExample(isDraft);
    goTo(page.played.moments.findIndex(({ state }) => state.waiting.length >= 6) + 3);
    if (fault) say(fault, true);
}

begin();
