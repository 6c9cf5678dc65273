// The faults of a list in words.

import { faultsOf } from './list-faults.js';
import { sentenceOf, wordsOf } from './refusals.js';

/** @typedef {import('./list-faults.js').Fault} Fault */

/** A fault beside its line: what an overlap lies over, or what is the matter.
 * @param {Fault} fault */
export function faultWords({ code, label, over }) {
    const { title } = wordsOf({ code });
    if (over) return `${title}. It lies over ${over}.`;
    return `${sentenceOf({ code })}${label === undefined ? '' : ` ${wordsOf({ code: label }).title}.`}`;
}

/** A fault that stands by itself, with its line.
 * @param {Fault} fault */
export function faultSentence({ line, code, label, over }) {
    const at = code === 75 ? undefined : `${line}${label === undefined ? '' : ` ${label}`}`;
    return `${sentenceOf({ code, at })}${over ? ` It lies over ${over}.` : ''}`;
}

/** How many there are besides the first one, where they are listed.
 * @param {number} more @param {(number: number, noun: string) => string} counted */
export function moreWords(more, counted) {
    return more > 0 ? ` And ${counted(more, 'more fault')}, listed here.` : '';
}

/** @param {string | Uint8Array} list @param {import('./list-faults.js').Into} into
 * @returns {{ line: number, code: number, words: string }[]} */
export function listFaults(list, into) {
    return faultsOf(list, into).map((fault) => ({ line: fault.line, code: fault.code, words: faultWords(fault) }));
}
