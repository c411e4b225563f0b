// A link that holds the whole state of the page: the script, who picks, and the moment that is shown.

/** @typedef {{script: string, picker: string, at: number | null}} Link `at` is null at the end */

/** @param {Link} link @returns {string} what stands behind the # */
export function writeLink({ script, picker, at }) {
    const words = new URLSearchParams({ picker, ...(at === null ? {} : { at: String(at) }), script });
    return words.toString();
}

/** @param {string} hash @returns {Link | null} null where it has no script */
export function readLink(hash) {
    const words = new URLSearchParams(hash.replace(/^#/, ''));
    const script = words.get('script');
    if (script === null) return null;
    const at = words.get('at');
    return {
        script,
        picker: words.get('picker') === 'oldest' ? 'oldest' : 'sweep',
        at: at !== null && /^[0-9]{1,9}$/.test(at) ? Number(at) : null,
    };
}
