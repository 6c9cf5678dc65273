// The match beside the plan: its runs with what was planned there, for the whole day or for one clip.

import { frameAt, labelOf, placeOf } from './timecode.js';
import { endOf, firstBehind } from './ranges.js';
import { isPlain } from './day-model.js';

/** @typedef {import('./day-model.js').Day} Day */
/** @typedef {import('./day-model.js').Block} Block */
/** @typedef {import('./ranges.js').Range} Range */
/** @typedef {import('./tables.js').Counts} Counts */
/** @typedef {{ key: string, place: number, frames: number, status: import('./tables.js').Status }} AiredRun */
/** @typedef {AiredRun & { mark: string, source: string, title: string, planned: string }} AiredRow */

/** @type {(keyof Counts)[]} */
export const STATUSES = ['OK', 'SLIP', 'WRONG', 'MISSED'];
/** @type {Object<string, string>} */
export const STATUS_WORDS = {
    OK: 'as planned', SLIP: 'from another frame', WRONG: 'something else', MISSED: 'nothing aired',
};

/** @param {{ runs: import('./tables.js').Run[] }} match @param {Day} day @returns {AiredRun[]} */
export function runsOf(match, day) {
    return match.runs.map((run) => ({
        ...run, key: run.at, place: placeOf(frameAt(run.at, day.rate), day.start, day.rate),
    }));
}

/** @param {Range} run @param {Range} block @returns {Range | null} */
function overlapOf(run, block) {
    const place = Math.max(run.place, block.place);
    const end = Math.min(endOf(run), endOf(block));
    return end > place ? { place, frames: end - place } : null;
}

/** The source frame that is planned at a place, as its label: black and bars have none.
 * @param {Day} day @param {Block} block @param {number} place */
function frameWords(day, block, place) {
    return isPlain(block.source) ? '' : labelOf(block.from + place - block.place, day.rate);
}

/** The items that were planned in a run, each with the part of it that lies in the run.
 * @param {Day} day @param {Range} run */
export function plannedBeside(day, run) {
    return plannedIn(day, run).map((block) => {
        const part = overlapOf(run, block) ?? { place: block.place, frames: 0 };
        return { ...block, ...part, key: `planned-${block.number}`, from: frameWords(day, block, part.place) };
    });
}

/** @param {Day} day @param {Range} run */
function plannedIn(day, run) {
    const first = firstBehind(day.blocks, run.place);
    const found = [];
    for (let index = first; index < day.blocks.length && day.blocks[index].place < endOf(run); index += 1) {
        found.push(day.blocks[index]);
    }
    return found;
}

/** A row of each run, with the first item that was planned there and how many more.
 * @param {Day} day @param {AiredRun[]} runs @returns {AiredRow[]} */
export function dayRows(day, runs) {
    return runs.map((run) => {
        const planned = plannedIn(day, run);
        const more = planned.length > 1 ? ` and ${planned.length - 1} more` : '';
        const first = planned[0];
        return {
            ...run, mark: run.status, source: first?.source ?? '', title: first ? `${first.title}${more}` : '',
            planned: first ? frameWords(day, first, run.place) : '',
        };
    });
}

/** The parts of the runs that lie in the items of one source.
 * @param {Day} day @param {AiredRun[]} runs @param {string} source */
export function sourceRows(day, runs, source) {
    /** @type {AiredRow[]} */
    const rows = [];
    for (const block of day.blocks.filter((each) => each.source === source)) {
        for (let index = firstBehind(runs, block.place); index < runs.length; index += 1) {
            const part = overlapOf(runs[index], block);
            if (!part) break;
            const { status } = runs[index];
            rows.push({ ...part, key: `${part.place}`, status, mark: status, source: block.source,
                title: block.title, planned: frameWords(day, block, part.place) });
        }
    }
    return rows;
}

/** @param {AiredRun[]} rows @returns {Counts} */
export function totalsOf(rows) {
    /** @type {Counts} */
    const totals = { OK: 0, SLIP: 0, WRONG: 0, MISSED: 0 };
    for (const row of rows) totals[row.status] += row.frames;
    return totals;
}

/** Each source of the plan once, in the order in which it comes.
 * @param {Day} day */
export function sourcesIn(day) {
    return [...new Map(day.blocks.map((block) => [block.source, block.title])).entries()];
}
