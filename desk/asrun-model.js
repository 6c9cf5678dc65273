// As-run files that aren't as the office takes them: with a head, with `;` or a tab between the fields, with lengths as
// labels, with more columns, or with reels in small letters. They are brought into its form, or it is told why not.

import { csvOf, recordsOf } from './csv.js';
import { completed, frameOf, lengthOf } from './timecode.js';

/** @typedef {import('./timecode.js').Rate} Rate */
/** @typedef {import('./csv.js').Record} Line a record of the file */
/** @typedef {'at' | 'length' | 'reel' | 'in'} Name */
/** @typedef {{ line: number, words: string }} Fault */
/** @typedef {{ isPlain: boolean, text: string, changes: string[], lines: number[], faults: Fault[] }} AsRun text: as
 *     it is sent; lines: of the file, by row */

/** @type {Name[]} */
const NAMES = ['at', 'length', 'reel', 'in'];
// What the columns are called, without what isn't a letter. The first that fits counts.
/** @type {Record<Name, RegExp>} */
const HEADS = {
    in: /^(in|from|som|tcin|sourcein|sourcetc|sourcelabel|sourcestart|firstframe|mediain|inpoint|reelin)$/,
    length: /^(length|duration|dur|frames|lengthframes|airedlength|airedduration)$/,
    reel: /^(reel|source|clip|id|houseid|material|materialid|reelid|clipid|media)$/,
    at: /^(at|record|recordlabel|recordin|begin|begins|begun|start|starttime|time|timecode|onair|aired|airedat|tc)$/,
};
const LABEL = /^\d\d[:;]\d\d[:;]\d\d[:;]\d\d$/;

/** A label without its frames, and the frames behind a `;` that parted them.
 * @param {string[]} fields @returns {string[]} */
function rejoined(fields) {
    /** @type {string[]} */
    const joined = [];
    for (const field of fields) {
        const last = joined[joined.length - 1];
        if (last !== undefined && /^\d\d:\d\d:\d\d$/.test(last) && /^\d\d$/.test(field)) {
            joined[joined.length - 1] = `${last};${field}`;
        } else joined.push(field);
    }
    return joined;
}

/** The records of a file, and what is between their fields.
 * @param {string} text @param {Rate} rate @returns {{ records: Line[], mark: string }} */
function recordsIn(text, rate) {
    const head = /^\ufeff?[^\r\n]*/.exec(text)?.[0] ?? '';
    if (!head.includes(',') && head.includes('\t')) {
        return { records: recordsOf(text.replaceAll('\t', ',')), mark: 'a tab' };
    }
    const mark = head.includes(',') || !head.includes(';') ? ',' : ';';
    const records = recordsOf(text);
    return { mark, records: mark === ';' && rate.drop
        ? records.map((record) => ({ ...record, fields: rejoined(record.fields) })) : records };
}

/** Whether a record is a head: words, and neither a label nor a number.
 * @param {Line | undefined} record */
function isHead(record) {
    return record !== undefined && record.fields.length > 1
        && record.fields.every((field) => /[a-z]/i.test(field) && !LABEL.test(field) && !/^\d{8}$/.test(field))
        && record.fields.some((field) => nameOf(field) !== null);
}

/** @param {string} field @returns {Name | null} */
function nameOf(field) {
    const word = field.toLowerCase().replace(/[^a-z]/g, '');
    return /** @type {Name[]} */ (Object.keys(HEADS)).find((name) => HEADS[name].test(word)) ?? null;
}

/** Where each of the four stands, or why that isn't known.
 * @param {Line | null} head @param {number} width @returns {{ places?: number[], fault?: string }} */
function placesOf(head, width) {
    if (!head) {
        return width === 4 ? { places: [0, 1, 2, 3] }
            : { fault: `It has ${width} columns and no head that names them: four are wanted, as begin, length, reel `
                + 'and first frame.' };
    }
    const names = head.fields.map(nameOf);
    const twice = NAMES.find((name) => names.filter((each) => each === name).length > 1);
    if (twice) return { fault: `Its head names more than one column for the ${wordOf(twice)}.` };
    const places = NAMES.map((name) => names.indexOf(name));
    const missing = NAMES.filter((_, index) => places[index] < 0).map(wordOf);
    if (missing.length === 0) return { places };
    return width === 4 && missing.length < 4 && names.every((name, index) => name === null || name === NAMES[index])
        ? { places: [0, 1, 2, 3] } : { fault: `Its head names no column for the ${missing.join(', the ')}.` };
}

/** @param {Name} name */
function wordOf(name) {
    return { at: 'begin', length: 'length', reel: 'reel', in: 'first frame' }[name];
}

/** A row in the office's form, or why it can't be.
 * @param {string[]} four @param {Rate} rate @returns {{ row?: string[], fault?: string }} */
function rowOf([at, length, reel, first], rate) {
    const begins = completed(at, rate);
    if (frameOf(begins, rate).fault) return { fault: `${at || 'Nothing'} is no label at which it began.` };
    const { frames } = lengthOf(completed(length, rate), rate);
    if (!frames) return { fault: `${length || 'Nothing'} is no length: neither frames nor a label.` };
    if (!/^[a-z\d]{1,8}$/i.test(reel)) return { fault: `${reel || 'Nothing'} is no reel.` };
    const from = completed(first, rate);
    if (frameOf(from, rate).fault) return { fault: `${first || 'Nothing'} is no label of its first frame.` };
    return { row: [begins, String(frames), reel.toUpperCase(), from] };
}

/** What isn't as the office takes it, in words.
 * @param {string} mark @param {Line | null} head @param {Line[]} rows @param {number[]} places */
function changesOf(mark, head, rows, places) {
    const [, length, reel] = places;
    const width = Math.max(0, ...rows.map(({ fields }) => fields.length));
    const has = (/** @type {number} */ place, /** @type {RegExp} */ form) => rows.some(({ fields }) => form.test(
        fields[place] ?? ''));
    return [
        ...(head ? ['its head is left out'] : []),
        ...(mark === ',' ? [] : [`fields are parted by ${mark}`]),
        ...(width > 4 ? ['other columns are left out'] : []),
        ...(places.some((place, index) => place !== index) && width <= 4 ? ['its columns are put in order'] : []),
        ...(has(length, LABEL) ? ['lengths are labels, and become frames'] : []),
        ...(has(reel, /[a-z]/) ? ['reels are put into capitals'] : []),
    ];
}

/** An as-run file as it is sent.
 * @param {string} text @param {Rate} rate @returns {AsRun} */
export function asRunOf(text, rate) {
    const plain = { isPlain: true, text, changes: [], lines: [], faults: [] };
    const { records, mark } = recordsIn(text, rate);
    const head = isHead(records[0]) ? records[0] : null;
    const rows = head ? records.slice(1) : records;
    // One line that is too short or too long is the office's to tell; the width is that of most.
    const width = rows[0]?.fields.length ?? 4;
    if (!head && mark === ',' && width !== 4) return plain;
    const { places, fault } = placesOf(head, width);
    if (!places) return { ...plain, isPlain: false, faults: [{ line: records[0].line, words: fault ?? '' }] };
    const changes = changesOf(mark, head, rows, places);
    if (changes.length === 0) return plain;
    /** @type {Fault[]} */
    const faults = [];
    const sent = rows.map(({ line, fields }) => {
        const { row, fault: wrong } = rowOf(places.map((place) => (fields[place] ?? '').trim()), rate);
        if (wrong) faults.push({ line, words: wrong });
        return row ?? [];
    });
    return { isPlain: false, text: csvOf(sent), changes, lines: rows.map(({ line }) => line), faults };
}
