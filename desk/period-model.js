// A week or a month of days, as a centre with dates has them, or by their numbers, seven in a row; and what each of
// them is.

import { dateOf, dayOfDate, monthOf } from './dates.js';
import { lengthLabel } from './timecode.js';

/** @typedef {import('./tables.js').DayRow} DayRow */
/** @typedef {import('./timecode.js').Rate} Rate */
/** @typedef {'week' | 'month'} Kind */
/** @typedef {{ day: number | null, date: string | null, own: boolean }} Cell own: of this month */
/** @typedef {{ title: string, weeks: Cell[][], before: number, behind: number }} Period before, behind: a day of the
 *     neighbours */
/** @typedef {{ state: 'none' | 'open' | 'gaps' | 'sealed', word: string, items: number, planned: number, empty: number,
 *     batches: number }} DayState planned, empty: frames */

const MOST = 99999;
const WEEKS = 5; // of a month where no dates are known

/** @param {number} day */
function within(day) {
    return Math.max(1, Math.min(MOST, day));
}

/** @param {Kind} kind @param {number} day @returns {Period} */
function byNumbers(kind, day) {
    const count = kind === 'week' ? 7 : 7 * WEEKS;
    const first = Math.floor((day - 1) / count) * count + 1;
    const cells = Array.from({ length: count }, (_, index) => {
        const number = first + index;
        return { day: number <= MOST ? number : null, date: null, own: true };
    });
    const weeks = Array.from({ length: count / 7 }, (_, week) => cells.slice(7 * week, 7 * week + 7));
    return { title: `Days ${first} to ${Math.min(MOST, first + count - 1)}`, weeks, before: within(first - 1),
        behind: within(first + count) };
}

/** @param {Kind} kind @param {number} day one of it @param {string | null} day1 the date of day 1 @returns {Period} */
export function periodOf(kind, day, day1) {
    const date = dateOf(day1, day);
    if (date === null) return byNumbers(kind, day);
    const month = monthOf(date);
    const cells = month.weeks.map((week) => week.map((each) => ({ ...each, day: dayOfDate(day1, each.date) })));
    const own = cells.filter((week) => week.some((cell) => cell.date === date));
    const dayAt = (/** @type {string} */ other, /** @type {number} */ else_) => dayOfDate(day1, other) ?? within(else_);
    if (kind === 'month') {
        return { title: month.title, weeks: cells, before: dayAt(month.before, 1), behind: dayAt(month.behind, MOST) };
    }
    const { title } = month;
    const [week] = own;
    return { title: `Week of ${week[0].date} (${title})`, weeks: [week.map((cell) => ({ ...cell, own: true }))],
        before: within(day - 7), behind: within(day + 7) };
}

/** @param {DayRow | undefined} row @param {Rate} rate @returns {DayState} */
export function stateOf(row, rate) {
    if (!row) return { state: 'none', word: 'not there', items: 0, planned: 0, empty: rate.day, batches: 0 };
    const empty = rate.day - row.frames;
    const state = row.sealed ? 'sealed' : empty > 0 ? 'gaps' : 'open';
    const word = { sealed: 'sealed', gaps: 'open, gaps', open: 'open, full' }[state];
    return { state, word, items: row.items, planned: row.frames, empty, batches: row.batches };
}

/** What a day has, in words that stand in its cell.
 * @param {DayState} day @param {Rate} rate @param {(number: number, noun: string) => string} counted */
export function dayLines(day, rate, counted) {
    if (day.state === 'none') return [];
    const lines = [counted(day.items, 'item')];
    if (day.state === 'gaps') lines.push(`${lengthLabel(day.empty, rate)} empty`);
    if (day.batches > 0) lines.push(counted(day.batches, 'batch').replace('batchs', 'batches'));
    return lines;
}

/** The days of a period that are of it, counted by what they are.
 * @param {DayState[]} days */
export function countsOf(days) {
    const of = (/** @type {string} */ state) => days.filter((day) => day.state === state).length;
    return { sealed: of('sealed'), full: of('open'), gaps: of('gaps'), none: of('none') };
}
