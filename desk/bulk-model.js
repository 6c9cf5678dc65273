// Tapes and clips of a CSV file, as the forms would have them, and tapes by barcode or number.

import { recordsOf } from './csv.js';
import { completed, frameOf, labelOf, lengthOf } from './timecode.js';

/** @typedef {import('./tables.js').Tape} Tape */
/** @typedef {import('./timecode.js').Rate} Rate */
/** @typedef {{ line: number, words: string, values?: any, fault?: string }} BulkRow */

/** A tape that was named by its barcode, as a scanner types it, or by its number. `#12` is a number for certain.
 * @param {string} text @param {Tape[]} tapes @returns {{ number?: number, fault?: string }} */
export function tapeNamed(text, tapes) {
    const typed = text.trim();
    const plain = /^#(\d{1,5})$/.exec(typed);
    if (plain) return { number: Number(plain[1]) };
    const held = tapes.find((tape) => tape.barcode === typed.toUpperCase());
    if (!/^\d{1,9}$/.test(typed)) {
        return held ? { number: held.number } : { fault: `No tape of this channel has the barcode ${typed}.` };
    }
    const number = Number(typed);
    if (held && held.number !== number && tapes.some((tape) => tape.number === number)) {
        return { fault: `${typed} is the barcode of tape ${held.number}, and there is a tape ${typed}: type `
            + `#${held.number} or #${number}.` };
    }
    return { number: held ? held.number : number };
}

/** What a tape's field is filled with: its barcode, but for one that could be a number.
 * @param {Tape} tape */
export function tapeWord(tape) {
    return /^\d+$/.test(tape.barcode) ? `#${tape.number}` : tape.barcode;
}

/** The first slot in which no tape stands, from one on, or null.
 * @param {Tape[]} tapes @param {number} slots @param {number} from */
export function freeSlot(tapes, slots, from = 1) {
    const taken = new Set(tapes.map((tape) => tape.slot));
    for (let slot = from; slot <= slots; slot += 1) if (!taken.has(slot)) return slot;
    return null;
}

/** Records without the line that only names the columns.
 * @param {string} text @param {string} first the first column's name */
function rowsUnder(text, first) {
    const records = recordsOf(text);
    return records[0]?.fields[0].toLowerCase() === first ? records.slice(1) : records;
}

/** `barcode,slot`: without a slot it is the next free one.
 * @param {string} text @returns {BulkRow[]} */
export function tapeRows(text) {
    return rowsUnder(text, 'barcode').map(({ line, fields }) => {
        const [barcode, slot = ''] = fields;
        const words = fields.join(', ');
        if (fields.length > 2) return { line, words, fault: 'The line has more than a barcode and a slot.' };
        if (!/^\d{0,5}$/.test(slot)) return { line, words, fault: 'The slot isn\'t a number.' };
        return { line, words, values: { barcode: barcode.toUpperCase(), slot: slot === '' ? null : Number(slot) } };
    });
}

/** `title,tape,first frame,length` and, where it has one already, its UMID. The tape is a barcode or a number.
 * @param {string} text @param {Tape[]} tapes @param {Rate} rate @param {() => string} umid a fresh one
 * @returns {BulkRow[]} */
export function clipRows(text, tapes, rate, umid) {
    return rowsUnder(text, 'title').map(({ line, fields }) => {
        const words = fields.join(', ');
        const fault = (/** @type {string} */ why) => ({ line, words, fault: why });
        if (fields.length < 4 || fields.length > 5) return fault('A line has a title, a tape, a label and a length.');
        const tape = tapeNamed(fields[1], tapes);
        if (tape.fault) return fault(tape.fault);
        const first = completed(fields[2], rate);
        if (frameOf(first, rate).fault) return fault(`${fields[2]} is no label as ${labelOf(0, rate)}.`);
        const { frames } = lengthOf(completed(fields[3], rate), rate);
        if (frames === undefined) return fault(`${fields[3]} is no length: a label, or a number of frames.`);
        const values = { title: fields[0], tape: tape.number, in: first, frames, umid: fields[4] || umid() };
        return { line, words, values };
    });
}
