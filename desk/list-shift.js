// A list that begins at another place than its labels say: the record labels of all its events are moved.

import { readAll } from './list-faults.js';
import { plannedOf } from './relink-model.js';
import { labelOf } from './timecode.js';

/** @typedef {import('./timecode.js').Rate} Rate */

/** The list with its first item's record at a frame, the others as far from it as they were. Lines with a fault stay as
 * they are, since the office tells it.
 * @param {string} text @param {Rate} rate @param {number} frame @param {boolean} ignore @returns {string} */
export function shiftedList(text, rate, frame, ignore) {
    const { events } = readAll(text, rate);
    const [first] = plannedOf(events, ignore);
    if (!first) return text;
    const lines = text.split('\n');
    for (const event of events) {
        const [record, end] = [event.record, event.record + event.frames].map((each) => labelOf(
            each - first.record + frame, rate));
        lines[event.line - 1] = lines[event.line - 1].replace(/\S+([ \t]+)\S+(\s*)$/, `${record}$1${end}$2`);
    }
    return lines.join('\n');
}
