// The shelf by slots, and the tapes that are out behind it.

/** @typedef {import('./tables.js').Clip} Clip */
/** @typedef {import('./tables.js').Tape} Tape */
/** A place of the shelf, or a tape that is out.
 * @typedef {{ key: string, slot: number | null, tape: Tape | null, clips: Clip[], words: string,
 *     mark?: string }} Shelf */

/** @param {Clip[]} clips */
function clipsByTape(clips) {
    /** @type {Map<number, Clip[]>} */
    const byTape = new Map();
    for (const clip of clips) {
        byTape.set(clip.tape, [...byTape.get(clip.tape) ?? [], clip]);
    }
    return byTape;
}

/** A row of each slot, by slot, and behind them one of each tape that is out.
 * @param {import('./tables.js').VaultTable} vault @param {Clip[]} clips @returns {Shelf[]} */
export function shelfRows(vault, clips) {
    const byTape = clipsByTape(clips);
    const bySlot = new Map();
    /** @type {Shelf[]} */
    const out = [];
    for (const tape of vault.tapes) {
        const held = byTape.get(tape.number) ?? [];
        const words = [tape.barcode, ...held.flatMap((clip) => [clip.reel, clip.title])].join('\n').toLowerCase();
        const row = { key: `tape-${tape.number}`, slot: tape.slot, tape, clips: held, words };
        if (tape.slot === null) out.push({ ...row, mark: 'out' });
        else bySlot.set(tape.slot, row);
    }
    const shelf = [];
    for (let slot = 1; slot <= vault.slots; slot += 1) {
        shelf.push(bySlot.get(slot) ?? { key: `slot-${slot}`, slot, tape: null, clips: [], words: '', mark: 'free' });
    }
    return [...shelf, ...out];
}

/** @param {Shelf[]} rows @param {string} shown @param {string} search */
export function filtered(rows, shown, search) {
    const wanted = search.trim().toLowerCase();
    return rows.filter((row) => {
        if (shown === 'free') return !row.tape && !wanted;
        if (shown === 'shelved' && (!row.tape || row.slot === null)) return false;
        if (shown === 'out' && (!row.tape || row.slot !== null)) return false;
        return !wanted || row.words.includes(wanted);
    });
}
