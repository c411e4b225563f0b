// The library in its own memory: a WebAssembly module that asks nothing of the page.

/**
 * What the module exports, by name: calls and its memory. Each pointer and length is a BigInt.
 * @typedef {Record<string, any>} Exports
 */

const PAGE = 65536; // bytes by which memory grows

/** @param {string} text base 64 @returns {Uint8Array} */
function decodeBase64(text) {
    return Uint8Array.from(atob(text.trim()), (letter) => letter.charCodeAt(0));
}

/** @param {WebAssembly.Memory} memory @param {number} pages */
function growMemory(memory, pages) {
    try {
        memory.grow(/** @type {any} */ (BigInt(pages)));
    } catch {
        memory.grow(pages); // an engine that takes a number here
    }
}

/** The module of the page, with memory to hand out. */
export class Library {
    /** @param {Exports} exports */
    constructor(exports) {
        this.exports = exports;
        this.base = Number(exports.__heap_base.value);
        this.top = this.base;
    }

    /** @param {string} base64 @returns {Promise<Library>} */
    static async load(base64) {
        const { instance } = await WebAssembly.instantiate(decodeBase64(base64), {});
        return new Library(instance.exports);
    }

    /** Forgets all that was handed out. */
    clear() {
        this.top = this.base;
    }

    /** Hands out so many bytes, zeroed. @param {number} length @returns {number} their address */
    take(length) {
        const at = (this.top + 15) & ~15;
        this.top = at + length;
        const lacking = this.top - this.exports.memory.buffer.byteLength;
        if (lacking > 0) growMemory(this.exports.memory, Math.ceil(lacking / PAGE));
        new Uint8Array(this.exports.memory.buffer, at, length).fill(0);
        return at;
    }

    /** @returns {DataView} of all memory: make a new one for each use */
    view() {
        return new DataView(this.exports.memory.buffer);
    }

    /** @param {number} at @param {number} length @returns {Uint8Array} a copy */
    bytes(at, length) {
        return new Uint8Array(this.exports.memory.buffer, at, length).slice();
    }

    /** @param {number} at @param {Uint8Array} bytes */
    write(at, bytes) {
        new Uint8Array(this.exports.memory.buffer, at, bytes.length).set(bytes);
    }
}
