// Dates of broadcast days, which the office only numbers: `site.json` says the date of day 1.

import { frameOfSecond, placeOf } from './timecode.js';

/** @typedef {import('./timecode.js').Rate} Rate */

const DAY = 86400000;
export const WEEKDAYS = ['Mon', 'Tue', 'Wed', 'Thu', 'Fri', 'Sat', 'Sun'];
const MONTHS = ['January', 'February', 'March', 'April', 'May', 'June', 'July', 'August', 'September', 'October',
    'November', 'December'];
const LAST_DAY = 99999;

/** A date as a count of days, or null where it is none.
 * @param {unknown} text YYYY-MM-DD */
function countOf(text) {
    const parts = /^(\d{4})-(\d\d)-(\d\d)$/.exec(String(text));
    if (!parts) return null;
    const time = Date.UTC(Number(parts[1]), Number(parts[2]) - 1, Number(parts[3]));
    return new Date(time).toISOString().slice(0, 10) === text ? time / DAY : null;
}

/** @param {number} count */
function textOf(count) {
    return new Date(count * DAY).toISOString().slice(0, 10);
}

/** The date of a numbered day.
 * @param {string | null} first the date of day 1 @param {number} day */
export function dateOf(first, day) {
    const count = countOf(first);
    return count === null ? null : textOf(count + day - 1);
}

/** The number of the day of a date, or null where no day has it.
 * @param {string | null} first @param {string} date */
export function dayOfDate(first, date) {
    const [begun, count] = [countOf(first), countOf(date)];
    if (begun === null || count === null) return null;
    const day = count - begun + 1;
    return day >= 1 && day <= LAST_DAY ? day : null;
}

/** The day that staff type: its number or, where the date of day 1 is known, its date, as 2026-01-31 or 31 Jan 2026.
 * @param {string} text @param {string | null} first @returns {{ day?: number, fault?: string }} */
export function dayNamed(text, first) {
    const typed = text.trim();
    if (/^\d{1,9}$/.test(typed)) {
        const day = Number(typed);
        return day >= 1 && day <= LAST_DAY ? { day } : { fault: 'Days are 1 to 99,999.' };
    }
    const words = /^(\d{1,2}) ([A-Za-z]{3})[a-z]* (\d{4})$/.exec(typed);
    const month = words ? MONTHS.findIndex((name) => name.slice(0, 3).toLowerCase() === words[2].toLowerCase()) + 1 : 0;
    const date = words ? `${words[3]}-${String(month).padStart(2, '0')}-${words[1].padStart(2, '0')}` : typed;
    if (countOf(date) === null) {
        return { fault: first ? `${typed} is no day: type its number, or its date as 2026-01-31.`
            : `${typed} is no day: type its number.` };
    }
    if (!first) return { fault: 'Which dates the days have isn\'t known here: type a number.' };
    const day = dayOfDate(first, date);
    return day === null ? { fault: `No day has the date ${dateWords(date)}.` } : { day };
}

/** A date as it is shown: `Mon 5 Jan 2026`.
 * @param {string} date */
export function dateWords(date) {
    const count = countOf(date) ?? 0;
    const [year, month, day] = date.split('-').map(Number);
    return `${WEEKDAYS[weekdayOf(count)]} ${day} ${MONTHS[month - 1].slice(0, 3)} ${year}`;
}

/** Monday is 0. The first day of the count was a Thursday.
 * @param {number} count */
function weekdayOf(count) {
    return (((count + 3) % 7) + 7) % 7;
}

/** The weeks of a month with their dates, from Monday to Sunday, those of the neighbours too.
 * @param {string} date one of the month */
export function monthOf(date) {
    const [year, month] = date.split('-').map(Number);
    const first = Date.UTC(year, month - 1, 1) / DAY;
    const next = Date.UTC(year, month, 1) / DAY;
    const weeks = [];
    for (let monday = first - weekdayOf(first); monday < next; monday += 7) {
        weeks.push(Array.from({ length: 7 }, (_, day) => {
            const count = monday + day;
            return { date: textOf(count), own: count >= first && count < next };
        }));
    }
    return { title: `${MONTHS[month - 1]} ${year}`, weeks, before: textOf(first - 1), behind: textOf(next) };
}

/** The broadcast day that is on now, and its place: before its start label a day of the calendar is still the one
 * before.
 * @param {string | null} first @param {string} date @param {number} second of the clock @param {number} start
 * @param {Rate} rate @returns {{ day: number, place: number } | null} */
export function nowIn(first, date, second, start, rate) {
    const day = dayOfDate(first, date);
    const frame = frameOfSecond(second, rate);
    if (day === null) return null;
    const on = frame < start ? day - 1 : day;
    return on < 1 ? null : { day: on, place: placeOf(frame, start, rate) };
}

/** The date and the second of the day on the clock, where the channel is.
 * @param {Date} now @param {string | undefined} zone as Europe/Berlin, else the browser's own */
export function clockOf(now, zone) {
    const parts = new Intl.DateTimeFormat('en-GB', {
        timeZone: zone, year: 'numeric', month: '2-digit', day: '2-digit', hour: '2-digit', minute: '2-digit',
        second: '2-digit', hourCycle: 'h23',
    }).formatToParts(now);
    const part = (/** @type {string} */ type) => parts.find((each) => each.type === type)?.value ?? '00';
    const second = Number(part('hour')) * 3600 + Number(part('minute')) * 60 + Number(part('second'));
    return { date: `${part('year')}-${part('month')}-${part('day')}`, second };
}
