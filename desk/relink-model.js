// Lists of an editing system name their sources by tape or AX, and by the clip's name in a note. Here each of them is
// brought together with a clip of the channel, so that the list can be sent with reels that the office knows.

import { frameAt, labelOf } from './timecode.js';
import { isForPicture, isSpeed, framesOf } from './edl.js';

/** @typedef {import('./edl.js').EditEvent} EditEvent */
/** @typedef {import('./edits.js').Piece} Piece */
/** @typedef {import('./timecode.js').Rate} Rate */
/** @typedef {{ reel: string, title: string, first: string, frames: number, barcode: string }} Candidate a clip */
/** @typedef {{ key: string, reel: string, name: string, events: EditEvent[], uses: number }} Wanted */
/** @typedef {{ reel: string, title: string, how: string, shift: number }} Proposal shift: what is added to the list's
 *     source labels, so that they are the clip's */

// What stands for a source whose events are left out.
export const LEFT_OUT = '-';

const PLAIN = new Map([['BL', 'BL'], ['BLACK', 'BL'], ['BARS', 'BARS']]);

/** The name of the clip that an event shows: a dissolve's notes name what it comes from, too.
 * @param {EditEvent} event */
function nameOf(event) {
    const named = (/** @type {string} */ word) => {
        const note = event.notes.find((each) => each.toUpperCase().startsWith(`* ${word} CLIP NAME:`));
        return note ? note.slice(note.indexOf(':') + 1).trim() : '';
    };
    return event.kind === 'C' ? named('FROM') : named('TO') || named('FROM');
}

/** @param {EditEvent[]} events @param {boolean} ignore */
export function plannedOf(events, ignore) {
    return events.filter((event) => isForPicture(event) && (framesOf(event, ignore) > 0 || isSpeed(event)));
}

/** The sources of a list that are to be found, each once: by its reel, and by its name where it has one.
 * @param {EditEvent[]} events those of the day @returns {Wanted[]} */
export function wantedOf(events) {
    /** @type {Map<string, Wanted>} */
    const wanted = new Map();
    for (const event of events) {
        if (PLAIN.has(event.reel)) continue;
        const name = nameOf(event);
        const key = `${event.reel}\t${name.toUpperCase()}`;
        const has = wanted.get(key) ?? { key, reel: event.reel, name, events: [], uses: 0 };
        has.events.push(event);
        has.uses += 1;
        wanted.set(key, has);
    }
    return [...wanted.values()];
}

/** By how much the source labels of all these events are to be moved to lie in the clip, or null: not at all where they
 * are its labels; where they count from 00:00:00:00, by its first frame.
 * @param {EditEvent[]} events @param {Candidate} clip @param {Rate} rate @param {boolean} ignore */
function shiftOf(events, clip, rate, ignore) {
    const first = frameAt(clip.first, rate);
    if (fits(events, clip, 0, rate, ignore)) return 0;
    return fits(events, clip, first, rate, ignore) ? first : null;
}

/** @param {EditEvent[]} events @param {Candidate} clip @param {number} shift @param {Rate} rate
 * @param {boolean} ignore */
function fits(events, clip, shift, rate, ignore) {
    const first = frameAt(clip.first, rate);
    return events.every((event) => event.source + shift >= first
        && event.source + shift + framesOf(event, ignore) <= first + clip.frames);
}

/** Any clip that staff choose: with the list's labels, or its first frame where the list begins to use it.
 * @param {Wanted} wanted @param {Candidate} clip @param {Rate} rate @param {boolean} ignore @returns {Proposal} */
export function choiceOf(wanted, clip, rate, ignore) {
    const least = Math.min(...wanted.events.map((event) => event.source));
    const shift = shiftOf(wanted.events, clip, rate, ignore) ?? frameAt(clip.first, rate) - least;
    return { reel: clip.reel, title: clip.title, how: 'chosen', shift };
}

/** The clip's frame at which the list begins to use it.
 * @param {Wanted} wanted @param {number} shift @param {Rate} rate */
export function firstLabel(wanted, shift, rate) {
    return labelOf(Math.min(...wanted.events.map((event) => event.source)) + shift, rate);
}

/** That a clip hasn't all the frames that the list shows of it, or ''.
 * @param {Wanted} wanted @param {Candidate} clip @param {number} shift @param {Rate} rate @param {boolean} ignore */
export function missingWords(wanted, clip, shift, rate, ignore) {
    if (fits(wanted.events, clip, shift, rate, ignore)) return '';
    const end = Math.max(...wanted.events.map((event) => event.source + framesOf(event, ignore))) + shift;
    const has = frameAt(clip.first, rate);
    return `The list shows ${firstLabel(wanted, shift, rate)} to ${labelOf(end, rate)}; the clip has ${clip.first} to `
        + `${labelOf(has + clip.frames, rate)}.`;
}

/** What is kept of a choice for the next list, and what was kept read again: a reel, and by how much labels move.
 * @param {Proposal} choice */
export function keptOf(choice) {
    return `${choice.reel} ${choice.shift}`;
}

/** @param {string | undefined} text @returns {{ reel: string, shift: number | null }} */
function readKept(text) {
    const [reel, shift] = (text ?? '').split(' ');
    return { reel, shift: shift === undefined ? null : Number(shift) };
}

/** The clips that a source may be, the likeliest first: the one of the kept mapping, those of its title, those of the
 * tape with this barcode that have the labels, the one of this very reel.
 * @param {Wanted} wanted @param {Candidate[]} clips @param {Rate} rate @param {boolean} ignore
 * @param {Object<string, string>} kept reels by key @returns {Proposal[]} */
export function proposalsOf(wanted, clips, rate, ignore, kept) {
    /** @type {Proposal[]} */
    const found = [];
    const offer = (/** @type {Candidate[]} */ some, /** @type {string} */ how) => {
        for (const clip of some) {
            const shift = shiftOf(wanted.events, clip, rate, ignore);
            if (shift === null || found.some((each) => each.reel === clip.reel)) continue;
            if (how === 'barcode' && shift !== 0) continue;
            found.push({ reel: clip.reel, title: clip.title, how, shift });
        }
    };
    const title = wanted.name.toUpperCase();
    const named = wanted.reel.toUpperCase();
    const before = readKept(kept[wanted.key]);
    const own = clips.find((clip) => clip.reel === before.reel);
    if (own && before.shift !== null && fits(wanted.events, own, before.shift, rate, ignore)) {
        found.push({ reel: own.reel, title: own.title, how: 'kept', shift: before.shift });
    } else offer(own ? [own] : [], 'kept');
    offer(clips.filter((clip) => clip.reel === named), 'reel');
    if (title) offer(clips.filter((clip) => clip.title.toUpperCase() === title), 'title');
    offer(clips.filter((clip) => clip.barcode !== '' && clip.barcode === named), 'barcode');
    if (title) offer(clips.filter((clip) => clip.title.toUpperCase().startsWith(title)), 'begins');
    return found;
}

/** Whether staff have to choose: where the first proposal isn't the only one of its kind.
 * @param {Proposal[]} proposals */
export function isOpenChoice(proposals) {
    return proposals.length === 0 || (proposals.length > 1 && proposals[0].how === proposals[1].how);
}

/** The events that no list can have relinked, by the office's numbers.
 * @param {EditEvent[]} events @param {boolean} ignore @returns {{ line: number, code: number }[]} */
export function refusedEvents(events, ignore) {
    const codeOf = (/** @type {EditEvent} */ event) => {
        if (event.kind === 'K') return 85;
        if (isSpeed(event)) return 84;
        return !ignore && event.sourceFrames !== event.frames ? 28 : 0;
    };
    return events.map((event) => ({ line: event.line, code: codeOf(event) })).filter(({ code }) => code !== 0);
}

/** The items of a list, each with the clip that was chosen for its source; those of a source without one are left out.
 * @param {EditEvent[]} events @param {Map<string, Proposal>} chosen by key @param {number} start the day's
 * @param {Rate} rate @param {boolean} ignore @returns {Piece[]} */
export function relinked(events, chosen, start, rate, ignore) {
    return events.flatMap((event) => {
        const plain = PLAIN.get(event.reel);
        const choice = chosen.get(`${event.reel}\t${nameOf(event).toUpperCase()}`);
        const place = (event.record - start + rate.day) % rate.day;
        const kind = { kind: event.kind, mix: event.mix };
        if (plain) return [{ place, frames: framesOf(event, ignore), source: plain, from: 0, ...kind }];
        if (!choice) return [];
        return [{
            place, frames: framesOf(event, ignore), source: choice.reel, from: event.source + choice.shift, ...kind,
        }];
    });
}
