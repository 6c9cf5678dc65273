// What becomes of a day's items as staff change them: which are taken out, and which are put in. The office has neither
// a move nor a trim, so each change is these two, as one revision. Nothing here asks the office.

import { frameAt, labelOf } from './timecode.js';
import { endOf, indexAt } from './ranges.js';
import { isPlain } from './day-model.js';

/** @typedef {import('./day-model.js').Block} Block */
/** @typedef {import('./day-model.js').Sources} Sources */
/** @typedef {import('./timecode.js').Rate} Rate */
/** @typedef {{ place: number, frames: number, source: string, from: number, kind: string, mix: number,
 *     number?: number }} Piece an item by what it shows; its number is the office's, and may be given again */
/** @typedef {{ words: string, out: Piece[], add: Piece[] }} Change */
/** @typedef {[number, number, string, number, string, number]} Packed place, frames, source, from, kind, mix */

/** @param {Piece} block @returns {Piece} */
export function pieceOf(block) {
    const { place, frames, source, from, kind, mix } = block;
    return { place, frames, source, from: isPlain(source) ? 0 : from, kind, mix };
}

/** Whether two items are one and the same on the screen: at the same place, as long, of the same frames, of one kind.
 * @param {Piece | undefined} one @param {Piece | undefined} other */
export function isSame(one, other) {
    return one !== undefined && other !== undefined && one.place === other.place && one.frames === other.frames
        && one.source === other.source && (isPlain(one.source) || one.from === other.from)
        && one.kind === other.kind && one.mix === other.mix;
}

/** As short as they can be kept.
 * @param {Piece[]} pieces @returns {Packed[]} */
export function packed(pieces) {
    return pieces.map(({ place, frames, source, from, kind, mix }) => [place, frames, source, from, kind, mix]);
}

/** @param {Packed[]} rows @returns {Piece[]} */
export function unpacked(rows) {
    return rows.map(([place, frames, source, from, kind, mix]) => ({ place, frames, source, from, kind, mix }));
}

/** Of these items, the one that is the same.
 * @template {Piece} P @param {P[]} pieces @param {Piece} piece @returns {P | undefined} */
export function sameIn(pieces, piece) {
    return pieces.find((each) => isSame(each, piece));
}

/** Those of the first that the second hasn't.
 * @template {Piece} P @param {P[]} pieces @param {Piece[]} others @returns {P[]} */
export function without(pieces, others) {
    const byPlace = new Map(others.map((each) => [each.place, each]));
    return pieces.filter((each) => !isSame(byPlace.get(each.place), each));
}

/** A mix is no longer than its item, and a cut has none.
 * @param {Piece} piece @returns {Piece} */
function withMix(piece) {
    const mix = Math.min(piece.mix, piece.frames);
    return mix > 0 ? { ...piece, mix } : { ...piece, kind: 'C', mix: 0 };
}

/** @param {Block[]} blocks @param {number} step @param {string} words @returns {Change} */
export function moved(blocks, step, words) {
    return { words, out: blocks, add: blocks.map((block) => ({ ...pieceOf(block), place: block.place + step })) };
}

/** All items from a place on, moved.
 * @param {Block[]} blocks @param {number} place @param {number} step @param {string} words */
export function shifted(blocks, place, step, words) {
    return moved(blocks.filter((block) => block.place >= place), step, words);
}

/** An item with another begin or length. What is cut off or brought back at its begin moves its source along.
 * @param {Block} block @param {{ place: number, frames: number }} range @param {string} words @returns {Change} */
export function trimmed(block, range, words) {
    const from = isPlain(block.source) ? 0 : block.from + range.place - block.place;
    return { words, out: [block], add: [withMix({ ...pieceOf(block), ...range, from })] };
}

/** An item as its form has it.
 * @param {Block} block @param {Partial<Piece>} values @param {string} words @returns {Change} */
export function changed(block, values, words) {
    return { words, out: [block], add: [withMix(pieceOf({ ...block, ...values }))] };
}

/** Another source where an item stands: as long as the item, or as the source where that is shorter.
 * @param {Block} block @param {{ reel: string, frames: number | null, first: string | null }} source
 * @param {Rate} rate @param {string} words @returns {Change} */
export function replaced(block, source, rate, words) {
    const frames = Math.min(block.frames, source.frames ?? block.frames);
    const from = source.first === null ? 0 : frameAt(source.first, rate);
    return { words, out: [block], add: [withMix({ ...pieceOf(block), frames, source: source.reel, from })] };
}

/** A stretch that is made empty: items within it go, those over its ends are cut off there.
 * @param {Block[]} blocks @param {number} place @param {number} end @param {string} words @returns {Change} */
export function cleared(blocks, place, end, words) {
    const out = blocks.filter((block) => block.place < end && endOf(block) > place);
    const add = [];
    for (const block of out) {
        const piece = pieceOf(block);
        if (block.place < place) add.push(withMix({ ...piece, frames: place - block.place }));
        if (endOf(block) > end) {
            const from = isPlain(block.source) ? 0 : block.from + end - block.place;
            add.push({ ...piece, place: end, frames: endOf(block) - end, from, kind: 'C', mix: 0 });
        }
    }
    return { words, out, add };
}

/** Copied items, from a place on, as far from one another as they were.
 * @param {Piece[]} pieces @param {number} place @param {string} words @returns {Change} */
export function pasted(pieces, place, words) {
    const first = Math.min(...pieces.map((piece) => piece.place));
    return { words, out: [], add: pieces.map((piece) => ({ ...pieceOf(piece), place: piece.place - first + place })) };
}

/** Where something is put in before an item: at the begin of the one that has the place, else at the place.
 * @param {Block[]} blocks by place @param {number} place */
export function insertPlace(blocks, place) {
    return blocks[indexAt(blocks, place)]?.place ?? place;
}

/** Pieces put in at a place, before what begins there. What follows is pushed on, each item only as far as it has to
 * be: gaps take up what they can.
 * @param {Block[]} blocks by place @param {Piece[]} pieces @param {number} place where no item goes on
 * @param {string} words @returns {Change} */
export function inserted(blocks, pieces, place, words) {
    const add = pasted(pieces, place, words).add;
    let end = Math.max(...add.map(endOf));
    const out = [];
    for (const block of blocks) {
        if (block.place < place) continue;
        if (block.place >= end) break;
        out.push(block);
        add.push({ ...pieceOf(block), place: end });
        end += block.frames;
    }
    return { words, out, add };
}

/** The body of a revision: the numbers that are taken out, and the items that are put in. An item with a mix is a
 * dissolve, and a wipe has its number besides.
 * @param {number[]} remove @param {Piece[]} pieces @param {number} start the day's @param {Rate} rate */
export function revisionOf(remove, pieces, start, rate) {
    const add = [...pieces].map((piece) => ({
        at: labelOf(start + piece.place, rate), frames: piece.frames, in: labelOf(piece.from, rate), mix: piece.mix,
        source: piece.source, ...(piece.kind.startsWith('W') ? { wipe: Number(piece.kind.slice(1)) } : {}),
    }));
    return { add, remove };
}

/** What became of a change, by the items that a day has now: 'done' where it has all that it put in and none of what it
 * took out, 'not' where it is the other way round, else 'unknown'.
 * @param {Change} change @param {Piece[]} now by place @returns {'done' | 'not' | 'unknown'} */
export function becameOf(change, now) {
    const has = (/** @type {Piece[]} */ pieces) => pieces.length - without(pieces, now).length;
    const [out, add] = [without(change.out, change.add), without(change.add, change.out)];
    if (has(add) === add.length && has(out) === 0) return 'done';
    return has(add) === 0 && has(out) === out.length ? 'not' : 'unknown';
}

/** What takes a change back.
 * @param {Change} change @returns {Change} */
export function reversed(change) {
    return { words: change.words, out: change.add.map(pieceOf), add: change.out.map(pieceOf) };
}

/** The first piece that can't be in the day beside the items that stay and the other pieces, and why.
 * @param {Piece[]} blocks the items of the day by place @param {Change} change @param {number} frames of the day
 * @returns {{ piece: Piece, fault: 'outside' | 'empty' | 'taken', place: number } | null} */
export function clashOf(blocks, change, frames) {
    const stays = without(blocks, change.out);
    const pieces = [...change.add].sort((one, other) => one.place - other.place);
    let [index, end] = [0, 0];
    for (const piece of pieces) {
        if (piece.frames < 1) return { piece, fault: 'empty', place: piece.place };
        if (piece.place < 0 || endOf(piece) > frames) return { piece, fault: 'outside', place: piece.place };
        if (piece.place < end) return { piece, fault: 'taken', place: piece.place };
        while (index < stays.length && endOf(stays[index]) <= piece.place) index += 1;
        if (index < stays.length && stays[index].place < endOf(piece)) {
            return { piece, fault: 'taken', place: Math.max(piece.place, stays[index].place) };
        }
        end = endOf(piece);
    }
    return null;
}

/** Why the office wouldn't take an item into a day, by its number and in words, or null.
 * @param {Piece} piece @param {Sources} sources @param {number} day @param {Rate} rate
 * @returns {{ code: number, why: string } | null} */
export function refusalOf(piece, sources, day, rate) {
    if (isPlain(piece.source)) return null;
    const clip = sources.get(piece.source);
    if (!clip) return { code: 77, why: 'there is no such source' };
    if (clip.state === 'retired') return { code: 55, why: 'the clip is retired' };
    if (clip.state === 'withdrawn') return { code: 66, why: 'its owner recalled the clip' };
    if ('rate' in clip) {
        if (clip.days && (day < clip.days.first || day > clip.days.last)) {
            return { code: 88, why: `the clip is lent for days ${clip.days.first} to ${clip.days.last}` };
        }
        if (clip.rate !== rate.rate) return { code: 78, why: 'the clip is of another rate' };
    }
    const first = frameAt(clip.first, rate);
    const has = first <= piece.from && piece.from + piece.frames <= first + clip.frames;
    return has ? null : { code: 79, why: 'the clip hasn\'t all these frames' };
}

/** @param {Piece} piece @param {Sources} sources @param {number} day @param {Rate} rate @returns {string | null} */
export function whyNot(piece, sources, day, rate) {
    return refusalOf(piece, sources, day, rate)?.why ?? null;
}

/** Pieces that may come and those that can't, each of these with the reason.
 * @param {Piece[]} pieces @param {Piece[]} blocks what is in the day already @param {Sources} sources
 * @param {number} day @param {Rate} rate */
export function sorted(pieces, blocks, sources, day, rate) {
    /** @type {Piece[]} */
    const come = [];
    /** @type {{ piece: Piece, why: string }[]} */
    const stay = [];
    for (const piece of pieces) {
        const why = whyNot(piece, sources, day, rate)
            ?? (clashOf(blocks, { words: '', out: [], add: [piece] }, rate.day) ? 'its place is taken' : null);
        if (why) stay.push({ piece, why });
        else come.push(piece);
    }
    return { come, stay };
}
