// Messages as bytes. docs/FORMATS.md has the layouts.

/**
 * @typedef {'transfer' | 'sequential' | 'immediate'} Class
 * @typedef {{code: number, name: string, word: string, kind: Class, written: number}} Opcode
 */

/** @type {Opcode[]} */
export const OPCODES = [
    { code: 1, name: 'ABORT', word: 'abort', kind: 'immediate', written: 16 },
    { code: 2, name: 'GET COMMAND STATUS', word: 'status', kind: 'immediate', written: 16 },
    { code: 3, name: 'GET UNIT STATUS', word: 'unitstatus', kind: 'immediate', written: 12 },
    { code: 4, name: 'SET CONTROLLER CHARACTERISTICS', word: 'setcontroller', kind: 'immediate', written: 18 },
    { code: 8, name: 'AVAILABLE', word: 'available', kind: 'sequential', written: 12 },
    { code: 9, name: 'ONLINE', word: 'online', kind: 'sequential', written: 12 },
    { code: 10, name: 'SET UNIT CHARACTERISTICS', word: 'setunit', kind: 'sequential', written: 12 },
    { code: 16, name: 'ACCESS', word: 'access', kind: 'transfer', written: 32 },
    { code: 18, name: 'ERASE', word: 'erase', kind: 'transfer', written: 32 },
    { code: 32, name: 'COMPARE HOST DATA', word: 'compare', kind: 'transfer', written: 32 },
    { code: 33, name: 'READ', word: 'read', kind: 'transfer', written: 32 },
    { code: 34, name: 'WRITE', word: 'write', kind: 'transfer', written: 32 },
];

const BLOCK = 512;

/** @param {Uint8Array} bytes */
const viewOf = (bytes) => new DataView(bytes.buffer, bytes.byteOffset, bytes.byteLength);

/** @param {number} code @returns {Opcode | undefined} */
export const opcodeOf = (code) => OPCODES.find((opcode) => opcode.code === code);

/** @param {Uint8Array} bytes @returns {string} */
export const hexOf = (bytes) => Array.from(bytes, (byte) => byte.toString(16).padStart(2, '0')).join('');

/** @param {Uint8Array} message of 4 bytes or more @returns {number} */
export const referenceOf = (message) => viewOf(message).getUint32(0, true);

/** @param {number} status @returns {string} of four digits */
export const statusText = (status) => status.toString(16).padStart(4, '0');

/**
 * The bytes of a command.
 * @param {Opcode} opcode @param {number} reference @param {number} unit
 * @param {{bytes?: number, block?: number, other?: number}} fields
 * @returns {Uint8Array}
 */
export function writeCommand(opcode, reference, unit, { bytes = 0, block = 0, other = 0 }) {
    const message = new Uint8Array(opcode.written);
    const view = viewOf(message);
    view.setUint32(0, reference, true);
    view.setUint16(4, unit, true);
    view.setUint8(8, opcode.code);
    if (opcode.kind === 'transfer') {
        view.setUint32(12, bytes, true);
        view.setUint32(28, block, true);
    } else if (opcode.written === 16) {
        view.setUint32(12, other, true);
    }
    return message;
}

/**
 * A command that was queued, and so is valid.
 * @param {Uint8Array} message
 * @returns {{reference: number, unit: number, opcode: Opcode, block: number, weight: number}}
 */
export function readQueued(message) {
    const view = viewOf(message);
    const opcode = /** @type {Opcode} */ (opcodeOf(view.getUint8(8)));
    const isTransfer = opcode.kind === 'transfer';
    return {
        reference: view.getUint32(0, true),
        unit: view.getUint16(4, true),
        opcode,
        block: isTransfer ? view.getUint32(28, true) : 0,
        weight: isTransfer ? Math.max(1, Math.ceil(view.getUint32(12, true) / BLOCK)) : 1,
    };
}
