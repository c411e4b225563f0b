// What a fault of a script means, with the limit and the line: the program says a word, as docs/FORMATS.md has it.

/** @typedef {import('./program.js').Fault} Fault */

/** @type {Record<string, string>} */
const MEANINGS = {
    size: 'The script has over 16,777,216 bytes.',
    lines: 'The script has over 1,000,000 lines.',
    long: 'The line has over 200 bytes.',
    byte: 'The line has a byte that is neither a space nor a printed ASCII character: a tab, for example.',
    word: "The line's first word isn't one that may be here. Before go come credits, budget or passing, longest, " +
        'timeout and units, in this order; after go come events, such as read 1 0 1024 40.',
    count: 'The line has too few or too many words: a READ is read 1 0 1024 40 (number, unit, bytes, first block).',
    number: "A word isn't a number of up to ten digits, or is out of its range: a unit is 0 to 65535, the number of " +
        'a step is 1 to 1000, and any other is 0 to 4294967295.',
    hex: 'A word is no hexadecimal number of the right length: a status has 4 digits (bad 0008), and a packet has ' +
        'two for each byte.',
    status: 'The status of a bad block has a code (its low five bits) of 5 or more: 0008 or 000b, for example.',
    unit: 'The four sizes of a unit are at least 1, its number is above that of the unit before it, and 16 units are ' +
        'the most.',
    header: 'The script ends before go.',
    events: 'The script has too many events: the page plays 5,000, and the program runs 1,000,000.',
};

/** Which limit of a header is broken. @param {string[]} lines of the script @returns {string} */
function brokenLimit(lines) {
    const numbers = (/** @type {string} */ name) =>
        (lines.map((it) => it.trim().split(/ +/)).find(([word]) => word === name) ?? []).slice(1).map(Number);
    const [credits, second = 0] = numbers('credits'), [longest] = numbers('longest'), [timeout] = numbers('timeout');
    const budget = numbers('budget')[0] ?? numbers('passing')[0] * longest;
    if (credits < 2 || credits > 64) return `The credits are ${credits}: they are 2 to 64.`;
    if (second === 1 || second > 62) return `The credits of the second host are ${second}: they are 2 to 62, or 0.`;
    const both = credits + second;
    if (both > 64) return `The credits of both hosts are ${both}: together they are at most 64.`;
    if (longest < 1 || longest > 8388608) return `The longest transfer is ${longest}: it is 1 to 8388608 blocks.`;
    if (timeout < 1 || timeout > 255) return `The timeout is ${timeout}: it is 1 to 255 seconds.`;
    const bound = (credits - 1 + Math.max(0, second - 1)) * longest + budget;
    return `The bound is ${bound}: it is under 4294967296. Fewer credits, a smaller budget or a smaller longest ` +
        'transfer makes it so.';
}

/** What a fault means, and the line that has it. @param {string} script @param {Fault} fault @returns {string} */
export function faultText(script, { line, cause }) {
    const lines = script.split('\n');
    const text = (lines[line - 1] ?? '').trim();
    const meaning = cause === 'config' ? brokenLimit(lines.slice(0, line)) : MEANINGS[cause];
    return text === '' ? meaning : `${meaning} The line is: ${text}`;
}
