// Another day's items into this one. What can't come is listed first, and the rest comes if staff say so.

import { counted } from './dom.js';
import { readPlan } from './facts.js';
import { dayOf } from './day-model.js';
import { pieceOf, sorted } from './edits.js';
import { STOPPED, watched } from './progress.js';

/** @typedef {import('./view-day.js').DayView} DayView */

/** @param {import('./day-edits.js').DayEdits} edits @param {number} from
 * @returns {Promise<import('./form-messages.js').Outcome>} */
export async function copyDay(edits, from) {
    const { view } = edits;
    const read = await watched(() => `Day ${from} is read...`, edits.place, readBoth(view, from), { stopped: false });
    if (read === STOPPED) return { kind: 'not', words: 'Stopped. Nothing was changed.' };
    const { plan, answer } = read;
    if (!plan) return answer.kind === 'lost' ? { kind: 'not', words: answer.words } : answer;
    const { rate, start } = view.day;
    const pieces = dayOf(plan, start, rate, view.titles).blocks.map(pieceOf);
    const { come, stay } = sorted(pieces, view.day.blocks, view.titles, view.number, rate);
    if (pieces.length === 0) return { kind: 'not', words: `Day ${from} has no items.` };
    const change = { words: `${counted(come.length, 'item')} of day ${from} copied`, out: [], add: come };
    if (stay.length === 0) return edits.carry(change);
    /** @type {[string, () => unknown][]} */
    const rest = come.length > 0 ? [[`Copy the other ${come.length}`, () => edits.carry(change)]] : [];
    edits.notice.show(`${counted(stay.length, 'item')} of day ${from} can't come:`, rowsOf(view, stay), [
        ...rest, ['Not now', () => null],
    ], view.main);
    return { kind: 'asked', words: `${counted(stay.length, 'item')} can't come: they are listed above.` };
}

/** The other day, and this one as it is now.
 * @param {DayView} view @param {number} from */
async function readBoth(view, from) {
    const [read] = await Promise.all([readPlan(view.scope, view.desk.channel, from), view.againSources()]);
    await view.againPlan();
    return read;
}

/** @param {DayView} view @param {{ piece: import('./edits.js').Piece, why: string }[]} stay */
function rowsOf(view, stay) {
    return stay.map(({ piece, why }) => ({
        key: `stay-${piece.place}`, at: view.timeline.label(piece.place), source: piece.source,
        title: view.titles.get(piece.source)?.title ?? '', why,
    }));
}
