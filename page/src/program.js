// What the program does, by the library: a script's report, and the line of a packet. It has a library of its own, in
// whose memory no controller lies.

import { Library } from './memory.js';

const PROGRAM = { DONE: 1, SMALL: -15, CAUSE: -60, FAULT: -73 };
const CAUSES = ['size', 'lines', 'long', 'byte', 'word', 'count', 'number', 'hex', 'status', 'unit', 'config', 'header',
    'events'];
const FAULTS = ['hex', 'short', 'long', 'code', 'length'];

/** What is wrong with a script. */
export class Fault extends Error {
    /** @param {number} line @param {string} cause a word of docs/FORMATS.md, or of the page's own */
    constructor(line, cause) {
        super(`line ${line}: ${cause}`);
        this.line = line;
        this.cause = cause;
    }
}

/**
 * Has a call of the library read a text and write another, in more and more room until that fits.
 * @param {Library} library @param {string} name @param {string} text @param {number} size of the first room
 * @param {boolean} tellsLine whether the call takes a place for a line
 */
function write(library, name, text, size, tellsLine) {
    const bytes = new TextEncoder().encode(text);
    library.clear();
    const count = library.take(8), line = library.take(4);
    const from = library.take(bytes.length + 1), room = library.take(size);
    library.write(from, bytes);
    const words = [from, bytes.length, room, size, count, ...(tellsLine ? [line] : [])];
    const status = library.exports[name](...words.map(BigInt));
    if (status === PROGRAM.SMALL) return write(library, name, text, size * 4, tellsLine);
    const view = library.view();
    const length = status === PROGRAM.DONE ? Number(view.getBigUint64(count, true)) : 0;
    return { status, written: new TextDecoder().decode(library.bytes(room, length)), line: view.getUint32(line, true) };
}

/** The report of a script, as `mscpq run` prints it. It throws the script's first Fault.
 * @param {Library} library @param {string} script @returns {string} */
export function runScript(library, script) {
    const { status, written, line } = write(library, 'mscp_run_script_at', script, 65536, true);
    if (status !== PROGRAM.DONE) throw new Fault(line, CAUSES[PROGRAM.CAUSE - status]);
    return written;
}

/** The line of a packet, as `mscpq packet` prints it, or why it has none.
 * @param {Library} library @param {string} digits @returns {string} */
export function packetText(library, digits) {
    const { status, written } = write(library, 'mscp_show_packet_at', digits, 1024, false);
    return status === PROGRAM.DONE ? written.trimEnd() : `packet: ${FAULTS[PROGRAM.FAULT - status]}`;
}
