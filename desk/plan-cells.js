// A plan that is edited in its list: what its cells mean, and the change that what was typed into a row becomes. A gap
// takes an item that is typed into it.

import { Cells } from './cells.js';
import { FIELDS, begins, cellText, changedOf, nowWords, pieceTyped } from './cells-model.js';
import { changed, isSame } from './edits.js';
import { wordsOf } from './refusals.js';

/** @typedef {import('./cells-model.js').Field} Field */
/** @typedef {import('./cells-model.js').PlanRow} PlanRow */
/** @typedef {import('./cells-model.js').Typed} Typed */

// The cells that a refusal's fields are about.
/** @type {Object<string, Field[]>} */
const CELLS = { at: ['at', 'length'], length: ['length'], source: ['source'], in: ['in', 'length'], mix: ['kind'] };

/** The cell beside which a refusal is said: of those that it is about, the first that was typed into.
 * @param {{ code?: number, fields?: string[] }} outcome @param {Typed} typed @returns {Field} */
export function cellRefused(outcome, typed) {
    const fields = outcome.fields ?? (outcome.code === undefined ? [] : wordsOf({ code: outcome.code }).fields);
    const about = fields.flatMap((field) => CELLS[field] ?? []);
    return about.find((field) => typed[field] !== undefined) ?? FIELDS.find((field) => typed[field] !== undefined)
        ?? about[0] ?? 'at';
}

/** @param {PlanRow | null} one @param {PlanRow | null} other */
function isSameRow(one, other) {
    if (!one || !other || one.gap !== other.gap) return false;
    if (one.gap === true || other.gap === true) return one.place === other.place && one.frames === other.frames;
    return isSame(one, other);
}

/** @param {import('./view-day.js').DayView} view @returns {Cells} */
export function planCells(view) {
    const name = (/** @type {PlanRow} */ row) => (row.gap === true ? 'the gap' : `item ${row.number}`);
    return new Cells(view.list, {
        fields: FIELDS,
        may: () => view.day !== null && !view.day.sealed,
        text: (row, field) => cellText(row, /** @type {Field} */ (field), view.day),
        begins: (field, key) => begins(/** @type {Field} */ (field), key),
        name,
        changed: (row, typed) => changedOf(row, typed, view.day),
        isSame: isSameRow,
        now: (row) => (view.day.sealed ? 'the day is sealed' : nowWords(row, view.day)),
        read: (row, typed) => pieceTyped(row, typed, view.day, view.sources),
        send: async (row, piece, typed) => {
            if (!row.gap && isSame(row, piece)) return null;
            const outcome = await view.edits.carryAndChoose(changeOfCells(row, piece, view));
            return outcome.kind === 'done' ? null : { field: cellRefused(outcome, typed), words: outcome.words };
        },
        lost: (words) => view.tellLost(words),
    }, `${view.desk.channel}/${view.number}/cells`);
}

/** What was typed into a row of the plan, as one change.
 * @param {any} row @param {import('./edits.js').Piece} piece @param {import('./view-day.js').DayView} view */
function changeOfCells(row, piece, view) {
    if (!row.gap) return changed(row, piece, `${view.edits.nameOf([row])} changed`);
    const words = `${piece.source} put in at ${view.timeline.label(piece.place)}`;
    return { words, out: [], add: [piece] };
}
