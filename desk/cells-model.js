// What was typed into the cells of a plan, read: an item that is changed, or one that is put into a gap. Nothing here
// asks the office.

import { completed, frameOf, labelOf, lengthLabel, lengthOf, placeOf } from './timecode.js';
import { isPlain, kindWords, labelAt } from './day-model.js';
import { endOf } from './ranges.js';
import { sentenceOf } from './refusals.js';

/** @typedef {import('./timecode.js').Rate} Rate */
/** @typedef {import('./day-model.js').Block} Block */
/** @typedef {import('./day-model.js').Day} Day */
/** @typedef {import('./day-model.js').Source} Source */
/** @typedef {import('./ranges.js').Range} Range */
/** @typedef {import('./edits.js').Piece} Piece */
/** @typedef {'at' | 'length' | 'source' | 'kind' | 'in'} Field */
/** @typedef {{ field: Field, words: string }} CellFault */
/** @typedef {Partial<Record<Field, string>>} Typed */
/** @typedef {Block & { gap: false } | Range & { key: string, gap: true }} PlanRow */

/** In the order of their columns.
 * @type {Field[]} */
export const FIELDS = ['at', 'length', 'source', 'kind', 'in'];

export class CellError extends Error {
    /** @param {Field} field @param {string} words */
    constructor(field, words) {
        super(words);
        this.field = field;
    }
}

/** What a cell has as it is edited.
 * @param {PlanRow} row @param {Field} field @param {Day} day */
export function cellText(row, field, day) {
    if (field === 'at') return labelAt(day, row.place);
    if (field === 'length') return lengthLabel(row.frames, day.rate);
    if (row.gap === true) return '';
    if (field === 'source') return row.source;
    return field === 'kind' ? kindWords(row) : row.first;
}

/** Whether a key begins a cell's text. The others are the list's own.
 * @param {Field} field @param {string} key */
export function begins(field, key) {
    if (field === 'source') return /^[a-z\d]$/i.test(key);
    return field === 'kind' ? /^[cdw]$/i.test(key) : /^\d$/.test(key);
}

/** @param {string} text @returns {{ kind: string, mix: number }} */
export function kindOf(text) {
    const typed = text.trim();
    if (/^c(ut)?$/i.test(typed)) return { kind: 'C', mix: 0 };
    const dissolve = /^d(?:issolve)?\s*(\d{1,7})$/i.exec(typed);
    if (dissolve && Number(dissolve[1]) > 0) return { kind: 'D', mix: Number(dissolve[1]) };
    const wipe = /^w(?:ipe)?\s*(\d{1,3})(?:\s*,\s*|\s+)(\d{1,7})$/i.exec(typed);
    if (wipe && Number(wipe[2]) > 0) return { kind: `W${wipe[1].padStart(3, '0')}`, mix: Number(wipe[2]) };
    throw new CellError('kind', 'Type cut, or d and its frames as d 25, or w, its number and its frames as w 12 25.');
}

/** A source by its reel, or by words that one title alone has.
 * @param {string} text @param {Source[]} sources @returns {Source} */
export function sourceOf(text, sources) {
    const wanted = text.trim().toLowerCase();
    const reel = wanted === 'black' ? 'bl' : wanted;
    const own = sources.find((each) => each.reel.toLowerCase() === reel)
        ?? sources.find((each) => each.title.toLowerCase() === wanted);
    if (own) return own;
    const found = wanted === '' ? [] : sources.filter((each) => each.words.includes(wanted));
    if (found.length === 1) return found[0];
    const words = found.length === 0 ? 'No source of this day is like this.'
        : `${found.length} sources are like this, as ${found[0].reel} ${found[0].title} and ${found[1].reel} `
            + `${found[1].title}.`;
    throw new CellError('source', `${words} Type a reel, or more of a title.`);
}

/** @param {Field} field @param {string} text @param {Rate} rate */
function frameTyped(field, text, rate) {
    const { frame, fault } = frameOf(completed(text, rate), rate);
    if (frame === undefined) throw new CellError(field, sentenceOf({ code: fault ?? 1 }));
    return frame;
}

/** @param {string} text @param {Rate} rate */
function framesTyped(text, rate) {
    const { frames, fault } = lengthOf(completed(text, rate), rate);
    if (frames === undefined) throw new CellError('length', `${sentenceOf({ code: fault ?? 1 })} Or type frames.`);
    if (frames < 1) throw new CellError('length', sentenceOf({ code: 87 }));
    return frames;
}

/** Another source takes the item's place: as long as the item, or as the source where that is shorter, from its first
 * frame. In a gap it is as long as it is.
 * @param {PlanRow} row @param {Source} source @param {Rate} rate */
function taken(row, source, rate) {
    const own = source.frames ?? row.frames;
    const frames = row.gap ? own : Math.min(row.frames, own);
    return { source: source.reel, frames, from: source.first === null ? 0 : frameTyped('in', source.first, rate) };
}

/** The item that a row becomes by what was typed into its cells.
 * @param {PlanRow} row @param {Typed} typed @param {Day} day @param {Source[]} sources @returns {Piece} */
export function pieceTyped(row, typed, day, sources) {
    const { rate } = day;
    if (row.gap === true && typed.source === undefined) {
        throw new CellError('source', 'Type the source that is put in here.');
    }
    const now = row.gap === true ? { source: '', from: 0, kind: 'C', mix: 0 } : row;
    const meant = typed.source === undefined ? { source: now.source, frames: row.frames, from: now.from }
        : taken(row, sourceOf(typed.source, sources), rate);
    const place = typed.at === undefined ? row.place : placeOf(frameTyped('at', typed.at, rate), day.start, rate);
    const frames = typed.length === undefined ? meant.frames : framesTyped(typed.length, rate);
    const from = typed.in === undefined ? meant.from : frameTyped('in', typed.in, rate);
    const { kind, mix } = typed.kind === undefined ? now : kindOf(typed.kind);
    if (typed.kind !== undefined && mix > frames) throw new CellError('kind', 'The mix is longer than its item.');
    return { place, frames, source: meant.source, from: isPlain(meant.source) ? 0 : from, kind, mix };
}

/** Of what was typed, what isn't as the cells have it anyway.
 * @param {PlanRow} row @param {Typed} typed @param {Day} day @returns {Typed} */
export function changedOf(row, typed, day) {
    const differs = FIELDS.filter((field) => typed[field] !== undefined
        && completed(typed[field] ?? '', day.rate) !== cellText(row, field, day));
    return Object.fromEntries(differs.map((field) => [field, typed[field]]));
}

/** What a row is now, where it isn't what it was as it was typed into.
 * @param {PlanRow | null} row @param {Day} day */
export function nowWords(row, day) {
    if (!row) return 'it was taken out';
    const ends = labelOf(day.start + endOf(row), day.rate);
    return row.gap === true ? `the gap is ${labelAt(day, row.place)} to ${ends} now`
        : `item ${row.number} is ${row.source} ${row.title}, ${labelAt(day, row.place)} to ${ends} now`;
}
