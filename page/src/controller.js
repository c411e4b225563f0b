// The calls of mscp.h on one controller. The places of fields are those of the header's structs.

import { Library } from './memory.js';

/**
 * @typedef {{number: number, track: number, group: number, cylinder: number, size: number}} Unit
 * @typedef {{credits: number, second: number, budget: number, longest: number, timeout: number, units: Unit[]}} Config
 * @typedef {{status: number, reference: number, aborted: number | null}} Sent
 * @typedef {{connection: number, reference: number, unit: number, block: number | null, seek: number, started: boolean,
 *   ended: number | null}} Served
 * @typedef {{connection: number, reference: number, figure: number}} Figure
 * @typedef {{connection: number, reference: number, fences: boolean, overdrawn: boolean}} Holder
 */

export const STATUS = {
    NOTHING: 0, DONE: 1, QUEUED: 2, ANSWERED: 3, SHORT: -1, LONG: -2, NO_CREDIT: -3, LAST_CREDIT: -4, DOUBLED: -5,
};
export const PICKERS = ['oldest', 'sweep']; // by their numbers

const ROOM_MARK = 0x4D534350524F4F4Dn;
const LIMITS_SIZE = 32, UNIT_SIZE = 32, PACKET_SIZE = 52, WAITING_SIZE = 12, HOLDER_SIZE = 8;
const MOST_WAITING = 63, MESSAGE_MOST = 64;

export class Controller {
    /**
     * Makes a controller in the library's memory, in place of the last one.
     * @param {Library} library @param {Config} config @param {string} picker one of PICKERS
     */
    constructor(library, config, picker) {
        library.clear();
        this.library = library;
        const size = Number(library.exports.mscp_size());
        this.handle = library.take(32);
        this.message = library.take(MESSAGE_MOST);
        this.out = library.take(PACKET_SIZE);
        this.list = library.take(WAITING_SIZE * MOST_WAITING);
        this.makeHandle(library.take(size), size);
        const limits = this.writeLimits(config);
        const units = this.writeUnits(config.units);
        const status = this.call('mscp_init_at', BigInt(limits), BigInt(units), BigInt(config.units.length),
            PICKERS.indexOf(picker));
        if (status !== STATUS.DONE) throw new Error(`mscp_init answers ${status}`);
    }

    /** @param {number} at @param {number} size */
    makeHandle(at, size) {
        const view = this.library.view();
        view.setBigUint64(this.handle, BigInt(at), true);
        view.setBigUint64(this.handle + 8, BigInt(at), true);
        view.setBigUint64(this.handle + 16, BigInt(size), true);
        view.setBigUint64(this.handle + 24, ROOM_MARK, true);
    }

    /** @param {Config} config @returns {number} where they are */
    writeLimits(config) {
        const at = this.library.take(LIMITS_SIZE);
        const view = this.library.view();
        view.setBigUint64(at, 1n, true);
        view.setBigUint64(at + 8, BigInt(config.budget), true);
        view.setUint32(at + 16, config.credits, true);
        view.setUint32(at + 20, config.second, true);
        view.setUint32(at + 24, config.longest, true);
        view.setUint16(at + 28, config.timeout, true);
        return at;
    }

    /** @param {Unit[]} units @returns {number} where they are */
    writeUnits(units) {
        const first = this.library.take(UNIT_SIZE * units.length);
        const view = this.library.view();
        units.forEach((unit, place) => {
            const at = first + UNIT_SIZE * place;
            view.setBigUint64(at, BigInt(unit.number + 1), true);
            view.setUint32(at + 8, unit.size, true);
            view.setUint32(at + 16, unit.number + 1, true);
            [unit.number, unit.track, unit.group, unit.cylinder].forEach((value, field) =>
                view.setUint16(at + 20 + 2 * field, value, true));
        });
        return first;
    }

    /** @param {string} name @param {any[]} words */
    call(name, ...words) {
        return this.library.exports[name](BigInt(this.handle), ...words);
    }

    /** @param {number} connection @param {Uint8Array} bytes @returns {Sent} */
    send(connection, bytes) {
        this.library.write(this.message, bytes.subarray(0, MESSAGE_MOST));
        const status = this.call('mscp_send_at', connection, BigInt(this.message), BigInt(bytes.length),
            BigInt(this.out));
        const view = this.library.view();
        const hasAborted = status > 0 && view.getUint8(this.out + 8) === 1;
        return {
            status,
            reference: view.getUint32(this.out, true),
            aborted: hasAborted ? view.getUint32(this.out + 4, true) : null,
        };
    }

    /** @param {number} connection @returns {Uint8Array | null} the bytes of the oldest end */
    take(connection) {
        if (this.call('mscp_take', connection, BigInt(this.out)) !== STATUS.DONE) return null;
        return this.library.bytes(this.out + 4, this.library.view().getUint32(this.out, true));
    }

    /** @param {number} block the block's status, 0 where it is good @returns {Served | null} */
    step(block) {
        if (this.call('mscp_step', block, BigInt(this.out)) !== STATUS.DONE) return null;
        const view = this.library.view(), at = this.out;
        return {
            reference: view.getUint32(at, true),
            block: view.getUint8(at + 16) === 1 ? view.getUint32(at + 4, true) : null,
            seek: view.getUint32(at + 8, true),
            unit: view.getUint16(at + 12, true),
            started: view.getUint8(at + 17) === 1,
            ended: view.getUint8(at + 18) === 1 ? view.getUint16(at + 14, true) : null,
            connection: view.getUint8(at + 19),
        };
    }

    /** @returns {Figure[]} of all waiting commands, oldest first */
    look() {
        const count = this.call('mscp_look_at', BigInt(this.list), BigInt(MOST_WAITING));
        const view = this.library.view();
        return Array.from({ length: count }, (_, place) => {
            const at = this.list + WAITING_SIZE * place;
            return {
                reference: view.getUint32(at, true),
                figure: view.getUint32(at + 4, true),
                connection: view.getUint8(at + 8),
            };
        });
    }

    /** Who keeps a command back. @param {number} connection @param {number} reference @returns {Holder[]} */
    why(connection, reference) {
        const count = this.call('mscp_why_at', connection, reference, BigInt(this.list), BigInt(MOST_WAITING));
        const view = this.library.view();
        return Array.from({ length: count }, (_, place) => {
            const at = this.list + HOLDER_SIZE * place;
            return {
                reference: view.getUint32(at, true),
                connection: view.getUint8(at + 4),
                fences: view.getUint8(at + 5) === 1,
                overdrawn: view.getUint8(at + 6) === 1,
            };
        });
    }

    /** @param {number} connection @returns {number} credits that are free */
    balance(connection) {
        return Number(this.call('mscp_balance', connection));
    }

    /** @param {number} connection @returns {number} ends that weren't taken */
    untaken(connection) {
        return Number(this.call('mscp_untaken', connection));
    }

    /** @param {number} unit @returns {boolean} */
    isOnline(unit) {
        return this.call('mscp_is_online', unit) === 1;
    }
}
