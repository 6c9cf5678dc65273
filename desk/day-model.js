// A day of the office's tables as it is drawn: items with their places, titles and looks, and the gaps between them.

import { frameAt, placeOf, labelOf, lengthLabel } from './timecode.js';
import { endOf, gapsOf, indexAt } from './ranges.js';

/** @typedef {import('./timecode.js').Rate} Rate */
/** @typedef {import('./ranges.js').Range} Range */
/** @typedef {import('./tables.js').Item} Item */
/** @typedef {import('./tables.js').Clip} Clip */
/** @typedef {import('./tables.js').LentClip} LentClip */
/** @typedef {Map<string, Clip | LentClip>} Sources clips and lent clips by their reels */
/** @typedef {{ key: string, number: number, place: number, frames: number, source: string, first: string,
 *     from: number, kind: string, mix: number, title: string, look: string, recalled: boolean,
 *     tapeOut: boolean }} Block tapeOut: its tape stands in no slot */
/** @typedef {{ rate: Rate, start: number, frames: number, sealed: boolean, planned: number, number: number,
 *     blocks: Block[], gaps: Range[],
 *     runs?: import('./aired-model.js').AiredRun[] }} Day */
/** @typedef {{ key: string, reel: string, title: string, frames: number | null, first: string | null, look: string,
 *     words: string }} Source */

/** @type {Object<string, string>} */
const LOOKS = { BL: 'black', BARS: 'bars' };
/** @type {Object<string, string>} */
const TITLES = { BL: 'BLACK', BARS: 'BARS' };

/** @param {string} reel */
export function isPlain(reel) {
    return reel in LOOKS;
}

/** @param {Item} item @param {number} start @param {Rate} rate @param {Sources} sources @param {Set<string>} out
 * @returns {Block} */
function blockOf(item, start, rate, sources, out) {
    const source = sources.get(item.source);
    return {
        key: `item-${item.number}`,
        number: item.number,
        place: placeOf(frameAt(item.at, rate), start, rate),
        frames: item.frames,
        source: item.source,
        first: item.first,
        from: frameAt(item.first, rate),
        kind: item.kind,
        mix: item.mix,
        title: TITLES[item.source] ?? source?.title ?? '',
        look: LOOKS[item.source] ?? (item.source.startsWith('L') ? 'lent' : 'clip'),
        recalled: source?.state === 'withdrawn',
        tapeOut: out.has(item.source),
    };
}

/** @param {import('./tables.js').Plan} plan @param {number} start @param {Rate} rate @param {Sources} sources
 * @param {Set<string>} out the reels whose tape is out @returns {Day} */
export function dayOf(plan, start, rate, sources, out = new Set()) {
    const blocks = plan.items.map((item) => blockOf(item, start, rate, sources, out));
    return { rate, start, frames: rate.day, sealed: plan.sealed, planned: plan.planned, number: plan.day, blocks,
        gaps: gapsOf(blocks, rate.day) };
}

/** What can be put into a day: black, bars, the channel's active clips, and those that are lent to it for this day.
 * @param {Clip[]} clips @param {LentClip[]} lent @returns {Source[]} */
export function sourcesOf(clips, lent) {
    const plain = ['BL', 'BARS'].map((reel) => ({
        key: reel, reel, title: TITLES[reel], state: 'always', frames: null, first: null, look: LOOKS[reel],
    }));
    const own = clips.map((clip) => ({ ...clip, key: clip.reel, look: 'clip' }));
    const others = lent.map((clip) => ({ ...clip, key: clip.reel, look: 'lent' }));
    return [...plain, ...others, ...own].map((source) => ({
        ...source, words: `${source.reel}\n${source.title}`.toLowerCase(),
    }));
}

/** The label of a place of the day.
 * @param {Day} day @param {number} place */
export function labelAt(day, place) {
    return labelOf(day.start + place, day.rate);
}

/** @param {Day} day @param {Range} range */
export function endLabel(day, range) {
    return labelAt(day, endOf(range));
}

/** @param {{ kind: string, mix: number }} block */
export function kindWords(block) {
    if (block.kind === 'C') return 'cut';
    if (block.kind === 'D') return `dissolve ${block.mix}`;
    return `wipe ${block.kind.slice(1)}, ${block.mix}`;
}

/** @param {Day} day @param {Block} block */
export function blockWords(day, block) {
    const recalled = `${block.recalled ? 'RECALLED, ' : ''}${block.tapeOut ? 'TAPE OUT, ' : ''}`;
    const begins = labelAt(day, block.place);
    return `item ${block.number}: ${recalled}${block.source} ${block.title}, ${begins} to ${endLabel(day, block)}, `
        + `length ${lengthLabel(block.frames, day.rate)}, ${kindWords(block)}`;
}

/** @param {Day} day @param {Range} gap */
export function gapWords(day, gap) {
    return `GAP from ${labelAt(day, gap.place)} to ${endLabel(day, gap)}, length `
        + `${lengthLabel(gap.frames, day.rate)} (${gap.frames} frames)`;
}

/** What is at a place, in words.
 * @param {Day} day @param {number} place */
export function placeWords(day, place) {
    const block = day.blocks[indexAt(day.blocks, place)];
    if (block) return blockWords(day, block);
    const gap = day.gaps[indexAt(day.gaps, place)];
    return gap ? gapWords(day, gap) : '';
}

/** A row of the plan: an item, or a gap, which has no number.
 * @typedef {Omit<Block, 'number' | 'from' | 'look'> & { number: number | '', gap: boolean, mark: string }} PlanRow */

/** The rows of the plan: items and gaps together, by place.
 * @param {Day} day @returns {PlanRow[]} */
export function planRows(day) {
    const items = day.blocks.map((block) => ({ ...block, gap: false, mark: block.recalled ? 'recalled' : block.look }));
    const gaps = day.gaps.map((gap) => ({
        ...gap, key: `gap-${gap.place}`, gap: true, mark: 'gap', title: 'GAP', source: '', first: '', kind: '', mix: 0,
        recalled: false, tapeOut: false, number: /** @type {const} */ (''),
    }));
    return [...items, ...gaps].sort((one, other) => one.place - other.place);
}

/** Where a source lands in a gap: at the end of the neighbour before it, or freely, at the place that was meant.
 * @param {Range} gap @param {{ frames: number | null }} source @param {number} place @param {boolean} free */
export function landing(gap, source, place, free) {
    const at = free ? Math.max(gap.place, Math.min(place, endOf(gap) - 1)) : gap.place;
    const room = endOf(gap) - at;
    const frames = source.frames ?? room;
    return { place: at, frames, room, fits: frames <= room };
}

/** The items and gaps of a day, counted in words.
 * @param {Day} day @param {(number: number, noun: string) => string} counted */
export function dayWords(day, counted) {
    const empty = day.frames - day.planned;
    return `${counted(day.blocks.length, 'item')}, ${lengthLabel(day.planned, day.rate)} planned, `
        + `${counted(day.gaps.length, 'gap')}, ${lengthLabel(empty, day.rate)} empty`;
}
