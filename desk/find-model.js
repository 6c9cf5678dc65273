// Finding: in a plan, over days, and what of a day was recalled or is at the end of its window.

/** @typedef {import('./day-model.js').Block} Block */
/** @typedef {import('./day-model.js').Sources} Sources */

/** The items whose title or reel has these words.
 * @param {Block[]} blocks @param {string} text */
export function foundIn(blocks, text) {
    const wanted = text.trim().toLowerCase();
    if (wanted === '') return [];
    return blocks.filter((block) => `${block.source}\n${block.title}`.toLowerCase().includes(wanted));
}

/** Of ranges by place, the next one behind a place, round the day's end; back, the one in front of it.
 * @template {{ place: number }} R @param {R[]} ranges @param {number} place @param {number} step 1 or -1
 * @returns {R | null} */
export function nextOf(ranges, place, step = 1) {
    if (ranges.length === 0) return null;
    if (step > 0) return ranges.find((each) => each.place > place) ?? ranges[0];
    return [...ranges].reverse().find((each) => each.place < place) ?? ranges[ranges.length - 1];
}

/** The items whose lent clip was recalled, and those whose lent clip may be shown on this day for the last time.
 * @param {Block[]} blocks @param {Sources} sources @param {number} day */
export function lentStateOf(blocks, sources, day) {
    const last = blocks.filter((block) => {
        const source = sources.get(block.source);
        return !block.recalled && source !== undefined && 'days' in source && source.days?.last === day;
    });
    return { recalled: blocks.filter((block) => block.recalled), last };
}

/** Where a clip is planned in a plan as the office gives it.
 * @param {import('./tables.js').Plan} plan @param {string} reel */
export function plannedIn(plan, reel) {
    return plan.items.filter((item) => item.source === reel).map((item) => ({
        key: `${plan.day}/${item.number}`, day: plan.day, number: item.number, at: item.at, frames: item.frames,
        first: item.first, sealed: plan.sealed,
    }));
}

/** How many clips are lent, and recalled; of those that are lent, whose window ends on this day, and whose is over.
 * @param {import('./tables.js').LentClip[]} lent @param {number} day */
export function lentCounts(lent, day) {
    const open = lent.filter((clip) => clip.state === 'open');
    return {
        open: open.length,
        recalled: lent.length - open.length,
        ending: open.filter((clip) => clip.days?.last === day).length,
        over: open.filter((clip) => clip.days !== null && clip.days.last < day).length,
    };
}
