// What the printer gets of a view: its rows, all of them, under a head that comes again on each page. The same rows are
// saved as CSV.

import { byId, download, grouped, make, say } from './dom.js';
import { csvOf } from './csv.js';
import { STATUSES, STATUS_WORDS } from './aired-model.js';
import { channelName, dayDate } from './site.js';
import { labelAt } from './day-model.js';
import { lengthLabel } from './timecode.js';

/** @typedef {import('./day-model.js').Day} Day */
/** @typedef {{ day: Day, rows: import('./aired-model.js').AiredRow[], counts: import('./tables.js').Counts }} Match */
/** What is printed or saved of a view: `day` is its number, where it is about one.
 * @typedef {{ title: string, words: string, day?: number, match?: Match, rows: any[],
 *     columns: Pick<import('./list-columns.js').Column<any>, 'name' | 'align' | 'mark' | 'text'>[] }} Sheet */

const WIDTH = 1400;
const LANE = 30;
const WORDS = 110;
const HOURS = 3;
// Black on white: each status has a shade of its own.
/** @type {Object<string, string>} */
const SHADES = { OK: '#c9c9c9', SLIP: '#8a8a8a', WRONG: '#000000', MISSED: '#4d4d4d' };

/** The day with a lane for each status, which is named beside it, and the hours below.
 * @param {Day} day @param {import('./aired-model.js').AiredRow[]} rows */
function picture(day, rows) {
    const height = (STATUSES.length + 1) * LANE;
    const looks = { class: 'sheet-picture', role: 'img', 'aria-label': 'The day' };
    const canvas = make('canvas', { width: WIDTH, height, ...looks });
    const context = /** @type {CanvasRenderingContext2D} */ (canvas.getContext('2d'));
    const scale = (WIDTH - WORDS) / day.frames;
    context.fillStyle = '#ffffff';
    context.fillRect(0, 0, WIDTH, height);
    context.font = '24px "DejaVu Sans Mono", monospace';
    STATUSES.forEach((status, lane) => {
        context.fillStyle = '#000000';
        context.fillText(status, 0, lane * LANE + 23);
        context.fillRect(WORDS, (lane + 1) * LANE - 1, WIDTH - WORDS, 1);
        context.fillStyle = SHADES[status];
        for (const row of rows.filter((each) => each.status === status)) {
            context.fillRect(WORDS + row.place * scale, lane * LANE + 3, Math.max(2, row.frames * scale), LANE - 6);
        }
    });
    context.fillStyle = '#000000';
    for (let hour = 0; hour < 24; hour += HOURS) {
        const place = Math.floor(day.frames * hour / 24);
        context.fillText(labelAt(day, place).slice(0, 5), WORDS + place * scale, height - 5);
    }
    return canvas;
}

/** @param {Match} match */
function totals({ day, counts }) {
    const all = STATUSES.reduce((sum, status) => sum + counts[status], 0);
    return make('table', { class: 'sheet-totals' }, ...STATUSES.map((status) => make('tr', {},
        make('th', { scope: 'row' }, `${status}: ${STATUS_WORDS[status]}`),
        make('td', {}, lengthLabel(counts[status], day.rate)), make('td', {}, grouped(counts[status])),
        make('td', {}, `${(counts[status] * 100 / Math.max(1, all)).toFixed(3)} %`))));
}

/** @param {string} head @param {Sheet} sheet */
function table(head, { columns, rows }) {
    const heads = columns.map((column) => make('th', { class: column.align ?? 'left' }, column.name));
    const lines = rows.map((row) => make('tr', { class: row.mark ?? '' }, ...columns.map((column) => make('td', {
        class: `${column.align ?? 'left'} ${(column.mark?.(row) ?? '').includes('code') ? 'code' : ''}`,
    }, String(column.text(row))))));
    return make('table', { class: 'sheet-rows' },
        make('thead', {}, make('tr', {}, make('th', { class: 'sheet-head', colspan: columns.length }, head)),
            make('tr', {}, ...heads)),
        make('tbody', {}, ...lines));
}

/** @param {Sheet | null | undefined | false} what @param {import('./desk.js').Desk} desk */
export function fillSheet(what, desk) {
    const sheet = byId('sheet');
    if (!what) {
        sheet.replaceChildren(make('p', {}, 'Nothing of this view is there to print.'));
        return;
    }
    const rate = desk.rate() ? `, ${desk.rate().name}` : '';
    const date = what.day ? dayDate(what.day) : '';
    const day = what.day ? `, day ${what.day}${date ? ` (${date})` : ''}` : '';
    const head = `${channelName(desk.channel)}${rate}${day}: ${what.title}`;
    const printed = new Date().toLocaleString('sv');
    sheet.replaceChildren(
        make('p', {}, `${what.words} Printed by ${desk.user}, ${printed}.`),
        ...(what.match ? [totals(what.match), picture(what.match.day, what.match.rows)] : []),
        table(head, what),
    );
}

export function emptySheet() {
    byId('sheet').replaceChildren();
}

/** @param {Sheet | null | undefined | false} what @param {import('./desk.js').Desk} desk */
export function saveSheet(what, desk) {
    if (!what || what.rows.length === 0) {
        say('Nothing of this view is there to save.', 'bad');
        return;
    }
    const rows = what.rows.map((row) => what.columns.map((column) => String(column.text(row))));
    const name = [channelName(desk.channel).slice(0, 6), what.day ? `day ${what.day}` : '', what.title.split(' ')[0]];
    const file = `${name.filter((word) => word !== '').join(' ').replaceAll(' ', '-')}.csv`;
    download(file, csvOf([what.columns.map((column) => column.name), ...rows]));
    say(`${rows.length === 1 ? '1 row is' : `${grouped(rows.length)} rows are`} saved as ${file}.`, 'good');
}
