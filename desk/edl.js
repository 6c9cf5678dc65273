// Edit lists in the office's profile of CMX 3600: lists that the desk sends, and lists of editing systems as they are
// read to be relinked. docs/LISTS.md has the profile.

import { frameOf, labelOf } from './timecode.js';

/** @typedef {import('./timecode.js').Rate} Rate */
/** @typedef {import('./edits.js').Piece} Piece */
/** @typedef {{ line: number, number: string, reel: string, channels: string, kind: string, mix: number,
 *     source: number, sourceFrames: number, record: number, frames: number, notes: string[] }} EditEvent */
/** @typedef {{ line: number, code: number, label?: number }} ListFault */

const BLANKS = /^[ \t]+|[ \t]+$/g;
const EVENT = /^[0-9]/;
const MOST_EVENTS = 9999;

/** The text of a list with these items as its events, by place.
 * @param {string} title @param {Piece[]} pieces @param {number} start the day's @param {Rate} rate
 * @param {(piece: Piece) => string} name the clip's name, which stands as a note, or '' */
export function listOf(title, pieces, start, rate, name = () => '') {
    const lines = [`TITLE: ${title}`, `FCM: ${rate.drop ? 'DROP FRAME' : 'NON-DROP FRAME'}`, ''];
    [...pieces].sort((one, other) => one.place - other.place).forEach((piece, index) => {
        const number = String(index + 1).padStart(3, '0').padEnd(5);
        const mix = piece.kind === 'C' ? '   ' : String(piece.mix).padStart(3, '0');
        const record = start + piece.place;
        const labels = [piece.from, piece.from + piece.frames, record, record + piece.frames]
            .map((frame) => labelOf(frame, rate)).join(' ');
        lines.push(`${number}${piece.source.padEnd(8)} ${'V'.padEnd(5)} ${piece.kind.padEnd(4)} ${mix} ${labels}`);
        const words = name(piece);
        if (words) lines.push(`* ${piece.kind === 'C' ? 'FROM' : 'TO'} CLIP NAME: ${words}`);
    });
    return `${lines.join('\n')}\n`;
}

/** The kind and the mix of an event's words between its channels and its labels.
 * @param {string[]} words @returns {{ kind: string, mix: number } | null} */
function kindOf(words) {
    const [kind, duration] = words;
    if (kind === 'C' && words.length === 1) return { kind, mix: 0 };
    if (/^K/.test(kind ?? '')) return { kind: 'K', mix: 0 };
    const takesMix = kind === 'D' || /^W\d{1,3}$/.test(kind ?? '');
    if (!takesMix || words.length !== 2 || !/^\d{1,3}$/.test(duration)) return null;
    return { kind: kind === 'D' ? kind : `W${kind.slice(1).padStart(3, '0')}`, mix: Number(duration) };
}

/** @param {string} text of the line @param {number} line @param {Rate} rate
 * @returns {{ event?: EditEvent, fault?: ListFault }} */
function eventOf(text, line, rate) {
    const fields = text.split(/[ \t]+/);
    if (fields.length < 8 || fields.length > 10) return { fault: { line, code: 22 } };
    if (!/^\d{1,6}$/.test(fields[0]) || Number(fields[0]) > 9999) return { fault: { line, code: 23 } };
    const kind = kindOf(fields.slice(3, -4));
    if (!kind) return { fault: { line, code: 24 } };
    const frames = fields.slice(-4).map((label) => frameOf(label, rate));
    const bad = frames.find((each) => each.fault);
    if (bad) return { fault: { line, code: 25, label: bad.fault } };
    const [first, end, record, recordEnd] = frames.map((each) => each.frame ?? 0);
    const sourceEnd = end === 0 && first > 0 ? rate.day : end;
    if (sourceEnd < first) return { fault: { line, code: 27 } };
    return {
        event: {
            line, number: fields[0], reel: fields[1], channels: fields[2], ...kind, source: first,
            sourceFrames: sourceEnd - first, record, frames: (recordEnd - record + rate.day) % rate.day, notes: [],
        },
    };
}

/** The frame mode of a line, or null where it is none.
 * @param {string} line */
function modeOf(line) {
    const mode = /^FCM:[ \t]*(DROP FRAME|NON[- ]DROP FRAME)$/.exec(line);
    return mode ? mode[1] === 'DROP FRAME' : null;
}

/** A file's lines, each with whether it is UTF-8.
 * @param {Uint8Array} bytes @returns {{ text: string, isText: boolean }[]} */
function linesIn(bytes) {
    const whole = new TextDecoder('utf-8', { ignoreBOM: true });
    const text = whole.decode(bytes).replace(/^\ufeff/, '');
    if (!text.includes('\ufffd')) return text.split('\n').map((line) => ({ text: line, isText: true }));
    // What isn't UTF-8 was read as U+FFFD, which a text may have, too.
    const strict = new TextDecoder('utf-8', { fatal: true, ignoreBOM: true });
    let from = 0;
    return text.split('\n').map((line) => {
        const end = bytes.indexOf(10, from);
        const own = bytes.subarray(from, end < 0 ? bytes.length : end);
        from = end + 1;
        try {
            strict.decode(own);
            return { text: line, isText: true };
        } catch {
            return { text: line, isText: false };
        }
    });
}

/** The lines of a list without what they end by, and without blanks at both ends.
 * @param {string | Uint8Array} list */
function linesOf(list) {
    const lines = linesIn(typeof list === 'string' ? new TextEncoder().encode(list) : list);
    return lines.map((line) => ({ ...line, text: line.text.replace(/\r$/, '').replace(BLANKS, '') }));
}

/** What a line means; a frame mode and an empty line mean nothing more.
 * @param {{ text: string, isText: boolean }} line @param {number} number @param {Rate} rate
 * @returns {{ title?: string, event?: EditEvent, note?: string, fault?: ListFault }} */
function meaningOf({ text, isText }, number, rate) {
    if (!isText) return { fault: { line: number, code: 21 } };
    if (text === '') return {};
    if (text.startsWith('TITLE:')) return { title: text.slice(6).replace(BLANKS, '') };
    if (EVENT.test(text)) return eventOf(text, number, rate);
    const drop = modeOf(text);
    if (drop === null) return { note: text };
    return drop === rate.drop ? {} : { fault: { line: number, code: 26 } };
}

/** Why an event is refused that has no fault of its own, or null.
 * @param {EditEvent} event @param {number} before so many events with a frame @param {boolean} ignore */
function refusedFor(event, before, ignore) {
    if (!ignore && event.sourceFrames !== event.frames && !isSpeed(event)) return 28;
    return hasFrame(event) && before >= MOST_EVENTS ? 30 : null;
}

/** @param {EditEvent} event */
function hasFrame(event) {
    return event.sourceFrames > 0 || event.frames > 0;
}

/** What each line means, an event with its notes: those before the next line that begins with a digit, also behind a
 * line with a fault.
 * @param {string | Uint8Array} list @param {Rate} rate */
export function meaningsOf(list, rate) {
    const lines = linesOf(list);
    const meanings = lines.map((line, index) => meaningOf(line, index + 1, rate));
    /** @type {EditEvent | undefined} */
    let event;
    for (const [index, { text }] of lines.entries()) {
        const { note } = meanings[index];
        if (EVENT.test(text)) event = meanings[index].event;
        else if (note !== undefined) event?.notes.push(note);
    }
    return meanings;
}

/** The events of a list, as far as its first fault. Lengths that differ are one where they aren't ignored.
 * @param {string | Uint8Array} list @param {Rate} rate @param {boolean} ignore
 * @returns {{ title: string, events: EditEvent[], fault: ListFault | null }} */
export function readList(list, rate, ignore = true) {
    /** @type {EditEvent[]} */
    const events = [];
    let [title, counted] = ['', 0];
    for (const meaning of meaningsOf(list, rate)) {
        if (meaning.fault) return { title, events, fault: meaning.fault };
        title = meaning.title ?? title;
        const { event } = meaning;
        if (!event) continue;
        const code = refusedFor(event, counted, ignore);
        if (code) return { title, events, fault: { line: event.line, code } };
        if (hasFrame(event)) counted += 1;
        events.push(event);
    }
    return { title, events, fault: null };
}

/** @param {EditEvent} event */
export function isForPicture(event) {
    return event.channels === 'B' || event.channels.includes('V');
}

/** @param {EditEvent} event */
export function isSpeed(event) {
    return event.sourceFrames !== event.frames && event.notes.some((note) => /^M2([ \t]|$)/.test(note));
}

/** How long an event is in the day: as its record, or as its source where lists that differ are taken so.
 * @param {EditEvent} event @param {boolean} ignore */
export function framesOf(event, ignore) {
    return ignore && !isSpeed(event) ? event.sourceFrames : event.frames;
}

/** Why an import skips events, counted: cuts of no length before a dissolve or a wipe say what it comes from and lose
 * nothing; those for the sound and others without a frame were dropped.
 * @param {EditEvent[]} events @param {boolean} ignore */
export function skippedOf(events, ignore) {
    const counts = { outgoing: 0, sound: 0, empty: 0 };
    events.forEach((event, index) => {
        const next = events[index + 1];
        if (!isForPicture(event)) counts.sound += 1;
        else if (framesOf(event, ignore) === 0 && !isSpeed(event)) {
            const comesFrom = event.kind === 'C' && next !== undefined && /^[DW]/.test(next.kind)
                && next.number === event.number && next.record === event.record;
            if (comesFrom) counts.outgoing += 1;
            else counts.empty += 1;
        }
    });
    return counts;
}

/** @param {EditEvent[]} events @param {boolean} ignore @param {(number: number, noun: string) => string} counted */
export function skippedWords(events, ignore, counted) {
    const { outgoing, sound, empty } = skippedOf(events, ignore);
    const dropped = [];
    if (sound > 0) dropped.push(`${counted(sound, 'event')} for the sound`);
    if (empty > 0) dropped.push(`${counted(empty, 'event')} without a frame`);
    const before = outgoing > 0 ? ` ${counted(outgoing, 'cut')} before a dissolve or wipe lose nothing.` : '';
    return `${dropped.length > 0 ? `Dropped: ${dropped.join(', ')}.` : 'Nothing was dropped.'}${before}`;
}
