// All faults of a list at once. The office tells the first one and takes nothing then; here the rest is read, so that a
// list is mended in one go.

import { framesOf, isForPicture, isSpeed, meaningsOf } from './edl.js';
import { isPlain } from './day-model.js';
import { refusalOf } from './edits.js';
import { endOf, firstBehind } from './ranges.js';
import { labelOf } from './timecode.js';

/** @typedef {import('./timecode.js').Rate} Rate */
/** @typedef {import('./edl.js').EditEvent} EditEvent */
/** @typedef {import('./ranges.js').Range} Range */
/** @typedef {{ line: number, code: number, label?: number, over?: string }} Fault over: what an overlap lies over */
/** @typedef {{ rate: Rate, start: number, number: number, ignore: boolean,
 *     blocks: import('./day-model.js').Block[], sources: import('./day-model.js').Sources }} Into the day that the list
 *     is for */
/** @typedef {Range & { name: string }} Taken */

const MOST_EVENTS = 9999;

/** The events of all lines that can be read, and the faults of the others.
 * @param {string | Uint8Array} list @param {Rate} rate
 * @returns {{ title: string, events: EditEvent[], faults: Fault[] }} */
export function readAll(list, rate) {
    const meanings = meaningsOf(list, rate);
    const title = meanings.map((each) => each.title).filter((each) => each !== undefined).at(-1) ?? '';
    return { title, events: meanings.flatMap(({ event }) => (event ? [event] : [])),
        faults: meanings.flatMap(({ fault }) => (fault ? [fault] : [])) };
}

/** The number of the first thing that is wrong with an event by itself, or null.
 * @param {EditEvent} event @param {Into} into @returns {number | null} */
function ownFault(event, { rate, start, number, ignore, sources }) {
    if (!ignore && event.sourceFrames !== event.frames && !isSpeed(event)) return 28;
    if (!isForPicture(event) || (framesOf(event, ignore) === 0 && !isSpeed(event))) return null;
    if (event.kind === 'K') return 85;
    if (isSpeed(event)) return 84;
    const piece = pieceOf(event, start, rate, ignore);
    if (endOf(piece) > rate.day) return 86;
    const refusal = refusalOf(piece, sources, number, rate);
    if (refusal) return refusal.code;
    return piece.mix > piece.frames ? 80 : null;
}

/** @param {EditEvent} event @param {number} start @param {Rate} rate @param {boolean} ignore */
function pieceOf(event, start, rate, ignore) {
    const source = event.reel === 'BLACK' ? 'BL' : event.reel;
    return { place: (event.record - start + rate.day) % rate.day, frames: framesOf(event, ignore), source,
        from: isPlain(source) ? 0 : event.source, kind: event.kind, mix: event.mix };
}

/** Puts a range among others by place, or says which of them it lies over.
 * @param {Taken[]} taken by place @param {Taken} range @returns {Taken | null} */
function takes(taken, range) {
    const index = firstBehind(taken, range.place);
    const there = taken[index];
    if (there && there.place < endOf(range)) return there;
    taken.splice(index, 0, range);
    return null;
}

/** The faults of a list that is imported into a day, by their lines; of each event the first one.
 * @param {string | Uint8Array} list @param {Into} into @returns {Fault[]} */
export function faultsOf(list, into) {
    const { events, faults } = readAll(list, into.rate);
    /** @type {Taken[]} */
    const taken = into.blocks.map((block) => ({ place: block.place, frames: block.frames,
        name: `item ${block.number} ${block.source}` }));
    let count = 0;
    for (const event of events) {
        if (event.frames > 0 || event.sourceFrames > 0) count += 1;
        if (count === MOST_EVENTS + 1) faults.push({ line: event.line, code: 30 });
        const code = ownFault(event, into);
        if (code !== null) {
            faults.push({ line: event.line, code });
            continue;
        }
        const { place, frames } = pieceOf(event, into.start, into.rate, into.ignore);
        if (!isForPicture(event) || frames === 0) continue;
        const over = takes(taken, { place, frames, name: `line ${event.line}` });
        if (over) faults.push({ line: event.line, code: 75, over: overWords(over, place, into) });
    }
    return faults.sort((one, other) => one.line - other.line);
}

/** @param {Taken} over @param {number} place @param {Into} into */
function overWords(over, place, { start, rate }) {
    return `${over.name}, from ${labelOf(start + Math.max(place, over.place), rate)} on`;
}
