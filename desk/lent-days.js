// The days that a lent clip is for: { first, last }, both of them included, or null where it is for each day.

import { FieldFault } from './fields.js';
import { grouped } from './dom.js';

/** @typedef {import('./tables.js').Days} Days */

/** The days of two fields, which are both left empty for each day. The office takes no others, and says of these alone
 * that the form isn't one.
 * @param {{ first?: number | null, last?: number | null }} fields @returns {Days | null} */
export function daysOf({ first = null, last = null }) {
    if (first === null && last === null) return null;
    const days = { first: dayIn('first', first), last: dayIn('last', last) };
    if (days.last < days.first) throw new FieldFault('This day is in front of the first one.', 'last');
    return days;
}

/** @param {string} field @param {number | null} day */
function dayIn(field, day) {
    if (day === null) throw new FieldFault('Type both days, or neither for each day.', field);
    return day;
}

/** @param {Days | null} one @param {Days | null} other */
export function sameDays(one, other) {
    return one?.first === other?.first && one?.last === other?.last;
}

/** @param {Days | null} days @param {number} day */
export function isForDay(days, day) {
    return days === null || (days.first <= day && day <= days.last);
}

/** @param {Days | null} days */
export function daysWords(days) {
    if (days === null) return 'each';
    return days.first === days.last ? grouped(days.first) : `${grouped(days.first)} to ${grouped(days.last)}`;
}

/** Behind what is said of a clip that is lent.
 * @param {Days | null} days */
export function forDays(days) {
    if (days === null) return '';
    return ` for day${days.first === days.last ? '' : 's'} ${daysWords(days)}`;
}
