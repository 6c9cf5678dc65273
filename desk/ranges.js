// Ranges of a day, { place, frames }, in the order of their places and without overlap.

/** @typedef {{ place: number, frames: number }} Range */

/** @param {Range} range */
export function endOf(range) {
    return range.place + range.frames;
}

/** Of ranges by place, the index of the one that has this place, or -1.
 * @param {Range[]} ranges @param {number} place */
export function indexAt(ranges, place) {
    let [low, high] = [0, ranges.length - 1];
    while (low <= high) {
        const middle = (low + high) >> 1;
        const range = ranges[middle];
        if (place < range.place) high = middle - 1;
        else if (place >= endOf(range)) low = middle + 1;
        else return middle;
    }
    return -1;
}

/** Of ranges by place, the index of the first one that ends behind this place.
 * @param {Range[]} ranges @param {number} place */
export function firstBehind(ranges, place) {
    let [low, high] = [0, ranges.length];
    while (low < high) {
        const middle = (low + high) >> 1;
        if (endOf(ranges[middle]) > place) high = middle;
        else low = middle + 1;
    }
    return low;
}

/** The places of a day that no range has.
 * @param {Range[]} ranges @param {number} frames @returns {Range[]} */
export function gapsOf(ranges, frames) {
    const gaps = [];
    let end = 0;
    for (const range of ranges) {
        if (range.place > end) gaps.push({ place: end, frames: range.place - end });
        end = endOf(range);
    }
    if (end < frames) gaps.push({ place: end, frames: frames - end });
    return gaps;
}

/** The gap that has this place, else the next one, else the first: the one that is worked on.
 * @template {Range} R @param {R[]} gaps @param {number} place @returns {R | null} */
export function gapFrom(gaps, place) {
    return gaps[firstBehind(gaps, place)] ?? gaps[0] ?? null;
}

/** Where a range that is dragged to a place comes to lie: against an edge of these ranges where its own begin or end is
 * near one, else where it is.
 * @param {Range[]} ranges those that stay, by place @param {number} place @param {number} frames
 * @param {number} near @param {number} most the frames of the day */
export function snapped(ranges, place, frames, near, most) {
    let [best, apart] = [place, near + 1];
    const tries = (/** @type {number} */ edge) => {
        for (const candidate of [edge, edge - frames]) {
            if (candidate < 0 || candidate + frames > most) continue;
            if (Math.abs(candidate - place) < apart) [best, apart] = [candidate, Math.abs(candidate - place)];
        }
    };
    tries(0);
    tries(most);
    const first = Math.max(0, firstBehind(ranges, place - near) - 1);
    for (let index = first; index < ranges.length; index += 1) {
        if (ranges[index].place > place + frames + near) break;
        tries(ranges[index].place);
        tries(endOf(ranges[index]));
    }
    return Math.max(0, Math.min(most - frames, best));
}

/** Ranges as pixels, those of one pixel merged: so many are drawn, whatever the day has.
 * @param {Range[]} ranges @param {number} from the first place in view @param {number} perPixel @param {number} width
 * @param {(x: number, width: number, first: number, last: number) => void} draw with the first and last index */
export function eachPixel(ranges, from, perPixel, width, draw) {
    const end = from + width * perPixel;
    let [begun, until, first, last] = [0, -1, -1, -1];
    for (let index = firstBehind(ranges, from); index < ranges.length && ranges[index].place < end; index += 1) {
        const left = (ranges[index].place - from) / perPixel;
        const right = (endOf(ranges[index]) - from) / perPixel;
        if (first >= 0 && right - begun < 1) {
            [until, last] = [right, index];
            continue;
        }
        if (first >= 0) draw(begun, until - begun, first, last);
        [begun, until, first, last] = [left, right, index, index];
    }
    if (first >= 0) draw(begun, until - begun, first, last);
}
