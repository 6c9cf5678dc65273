// The tapes that a day's items need, by slot: what has to be pulled, and what is out already.

import { frameAt, labelOf, placeOf } from './timecode.js';

/** @typedef {import('./tables.js').Plan} Plan */
/** @typedef {import('./tables.js').Clip} Clip */
/** @typedef {import('./tables.js').Tape} Tape */
/** @typedef {import('./timecode.js').Rate} Rate */
/** @typedef {{ key: string, slot: number | null, barcode: string, tape: number, uses: number, first: string,
 *     place: number, clips: string }} PullRow */

/** A row of each tape with a clip in the plan: by slot, and behind them those that are out.
 * @param {Plan} plan @param {Clip[]} clips @param {Tape[]} tapes @param {number} start @param {Rate} rate
 * @returns {PullRow[]} */
export function pullRows(plan, clips, tapes, start, rate) {
    const byReel = new Map(clips.map((clip) => [clip.reel, clip]));
    const byNumber = new Map(tapes.map((tape) => [tape.number, tape]));
    /** @type {Map<number, { tape: Tape, uses: number, place: number, reels: Set<string> }>} */
    const found = new Map();
    for (const item of plan.items) {
        const clip = byReel.get(item.source);
        const tape = clip && byNumber.get(clip.tape);
        if (!tape) continue;
        const place = placeOf(frameAt(item.at, rate), start, rate);
        const had = found.get(tape.number) ?? { tape, uses: 0, place, reels: new Set() };
        had.uses += 1;
        had.place = Math.min(had.place, place);
        had.reels.add(item.source);
        found.set(tape.number, had);
    }
    const rows = [...found.values()].map(({ tape, uses, place, reels }) => ({
        key: `tape-${tape.number}`, slot: tape.slot, barcode: tape.barcode, tape: tape.number, uses, place,
        first: labelOf(start + place, rate),
        clips: [...reels].map((reel) => `${reel} ${byReel.get(reel)?.title ?? ''}`).join(' / '),
    }));
    return rows.sort((one, other) => (one.slot ?? Infinity) - (other.slot ?? Infinity) || one.tape - other.tape);
}

/** The sources of a plan whose tape is out.
 * @param {Clip[]} clips @param {Tape[]} tapes @returns {Set<string>} their reels */
export function reelsOut(clips, tapes) {
    const out = new Set(tapes.filter((tape) => tape.slot === null).map((tape) => tape.number));
    return new Set(clips.filter((clip) => out.has(clip.tape)).map((clip) => clip.reel));
}
