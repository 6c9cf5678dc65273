// The office's tables as values. Its texts are the only source of what is shown.

/** @typedef {{ number: number, barcode: string, slot: number | null }} Tape */
/** @typedef {{ tapes: Tape[], shelved: number, slots: number }} VaultTable */
/** @typedef {{ reel: string, state: string, first: string, frames: number, tape: number, umid: string,
 *     title: string }} Clip */
/** @typedef {{ first: number, last: number }} Days the days that a clip is lent for, both included */
/** @typedef {{ number: number, reel: string, to: number, state: string, days: Days | null }} Offer */
/** @typedef {{ reel: string, owner: number, state: string, days: Days | null, rate: string, first: string,
 *     frames: number, umid: string, title: string }} LentClip */
/** @typedef {{ number: number, at: string, frames: number, kind: string, mix: number, source: string,
 *     first: string }} Item */
/** @typedef {{ day: number, sealed: boolean, items: Item[], planned: number, frames: number }} Plan */
/** @typedef {{ number: number, sealed: boolean, items: number, frames: number, batches: number }} DayRow */
/** @typedef {{ OK: number, SLIP: number, WRONG: number, MISSED: number }} Counts frames of each status */
/** @typedef {keyof Counts} Status */
/** @typedef {{ at: string, frames: number, status: Status }} Run */

const LINES = {
    tape: /^ *(\d+) ([A-Z0-9]{1,8}) +(\d+|out)$/,
    clip: /^(C\d{7}) (active|retired) +(\S{11}) +(\d+) +(\d+) ([0-9a-f]{64}) (.*)$/,
    offer: /^(\d{4}) (C\d{7}) (\d{3}) (open|withdrawn)(?: (\d{5})-(\d{5}))?$/,
    lent: /^(L\d{7}) (open|withdrawn) +(?:(\d{5})-(\d{5}) )?(\S+) (\S{11}) +(\d+) ([0-9a-f]{64}) (.*)$/,
    day: /^ *(\d+) (OPEN|SEALED) +(\d+) +(\d+) +(\d+)$/,
    item: /^ *(\d+) (\S{11}) +(\d+) (C|D|W\d{3}) +(\d{3}) (\S+) +(\S{11})$/,
    run: /^(\S{11}) (\d+) (OK|SLIP|WRONG|MISSED)$/,
};

export class TableFault extends Error {}

/** All lines but the last are rows; the last has the counts.
 * @template R @param {string} text @param {RegExp} line @param {RegExp} last @param {(fields: string[]) => R} row
 * @returns {{ rows: R[], counts: string[] }} */
function rowsOf(text, line, last, row) {
    const lines = text.split('\n');
    if (lines.pop() !== '') throw new TableFault('the table has no end');
    const counts = last.exec(lines.pop() ?? '');
    if (!counts) throw new TableFault('the table has no counts');
    const rows = lines.map((each) => {
        const fields = line.exec(each);
        if (!fields) throw new TableFault(`a line that is no row: ${each}`);
        return row(fields);
    });
    return { rows, counts };
}

/** @param {string} text @returns {VaultTable} */
export function vaultOf(text) {
    const { rows, counts } = rowsOf(text, LINES.tape, /^TAPES (\d+) SHELVED (\d+) SLOTS (\d+)$/, (fields) => ({
        number: Number(fields[1]),
        barcode: fields[2],
        slot: fields[3] === 'out' ? null : Number(fields[3]),
    }));
    return { tapes: rows, shelved: Number(counts[2]), slots: Number(counts[3]) };
}

/** @param {string} text @returns {Clip[]} */
export function clipsOf(text) {
    return rowsOf(text, LINES.clip, /^CLIPS (\d+)$/, (fields) => ({
        reel: fields[1],
        state: fields[2],
        first: fields[3],
        frames: Number(fields[4]),
        tape: Number(fields[5]),
        umid: fields[6],
        title: fields[7],
    })).rows;
}

/** The days that a lent clip is for, or null where its line has none, since it is for each day.
 * @param {string | undefined} first @param {string | undefined} last @returns {Days | null} */
function daysOf(first, last) {
    return first === undefined ? null : { first: Number(first), last: Number(last) };
}

/** @param {string} text @returns {Offer[]} */
export function offersOf(text) {
    return rowsOf(text, LINES.offer, /^OFFERS (\d+)$/, (fields) => ({
        number: Number(fields[1]),
        reel: fields[2],
        to: Number(fields[3]),
        state: fields[4],
        days: daysOf(fields[5], fields[6]),
    })).rows;
}

/** @param {string} text @returns {LentClip[]} */
export function lentOf(text) {
    return rowsOf(text, LINES.lent, /^LENT (\d+)$/, (fields) => ({
        reel: fields[1],
        owner: Number(fields[1].slice(1, 4)),
        state: fields[2],
        days: daysOf(fields[3], fields[4]),
        rate: fields[5],
        first: fields[6],
        frames: Number(fields[7]),
        umid: fields[8],
        title: fields[9],
    })).rows;
}

/** The days that are there, by their numbers.
 * @param {string} text @returns {DayRow[]} */
export function daysTableOf(text) {
    return rowsOf(text, LINES.day, /^DAYS (\d+)$/, (fields) => ({
        number: Number(fields[1]),
        sealed: fields[2] === 'SEALED',
        items: Number(fields[3]),
        frames: Number(fields[4]),
        batches: Number(fields[5]),
    })).rows;
}

/** @param {string} text @returns {Plan} */
export function planOf(text) {
    const end = text.indexOf('\n');
    const head = /^DAY (\d+) (OPEN|SEALED)$/.exec(text.slice(0, end));
    if (!head) throw new TableFault('the plan has no head');
    const last = /^ITEMS (\d+) FRAMES (\d+) OF (\d+)$/;
    const { rows, counts } = rowsOf(text.slice(end + 1), LINES.item, last, (fields) => ({
        number: Number(fields[1]),
        at: fields[2],
        frames: Number(fields[3]),
        kind: fields[4],
        mix: Number(fields[5]),
        source: fields[6],
        first: fields[7],
    }));
    const [planned, day] = [Number(counts[2]), Number(counts[3])];
    return { day: Number(head[1]), sealed: head[2] === 'SEALED', items: rows, planned, frames: day };
}

/** @param {string} text @returns {{ runs: Run[], counts: Counts }} */
export function matchOf(text) {
    const last = /^OK (\d+) SLIP (\d+) WRONG (\d+) MISSED (\d+)$/;
    const { rows, counts } = rowsOf(text, LINES.run, last, (fields) => ({
        at: fields[1],
        frames: Number(fields[2]),
        status: /** @type {Status} */ (fields[3]),
    }));
    const [ok, slip, wrong, missed] = counts.slice(1).map(Number);
    return { runs: rows, counts: { OK: ok, SLIP: slip, WRONG: wrong, MISSED: missed } };
}
