// What a form does with one clip or tape, or with several that are named in its field: then one question is asked, and
// each has its line in a report.

import { counted } from './dom.js';
import { Report } from './report.js';

/** The words of a field that takes one or several.
 * @param {string} text @returns {string[]} at least one */
export function namesIn(text) {
    return text.trim().split(/[\s,;]+/);
}

/** Several in words, by the first and the last of them.
 * @param {string[]} names @param {string} noun */
export function severalWords(names, noun) {
    return `${counted(names.length, noun)}, ${names[0]} to ${names[names.length - 1]},`;
}

/** @typedef {{ words: string, values?: any, fault?: string }} One */

export class Many extends Report {
    /** @param {import('./report.js').What} what @param {import('./form.js').Form} form */
    constructor(what, form) {
        super(what, form, false);
    }

    /** @param {string} name what is done with them, in words @param {One[]} ones */
    beginAll(name, ones) {
        const rows = ones.map((one, index) => ({ line: index + 1, ...one }));
        return this.begin(name, `${Date.now()} ${name}`, rows);
    }
}
