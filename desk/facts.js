// A channel's row of the plan: its rate, and the label at which its broadcast day starts. It never changes, so it is
// read once and kept in the tab. And what of a day is read by more than one view.

import { daysTableOf, planOf } from './tables.js';
import { rateOf, frameOf } from './timecode.js';
import { dayOfDate } from './dates.js';
import { nowAt, site, today } from './site.js';
import { kept, put } from './tab.js';

/** @typedef {import('./timecode.js').Rate} Rate */
/** @typedef {{ rate: Rate, start: number }} Row */
/** @typedef {import('./office.js').Scope} Scope */
/** @typedef {import('./requests.js').Lost | import('./requests.js').Refused} NotDone */

/** @type {Map<number, Row>} */
const rows = new Map();

/** @param {{ rate: string, start: string } | null} said @returns {Row | null} */
function rowOf(said) {
    const rate = said ? rateOf(said.rate) : null;
    return said && rate ? { rate, start: frameOf(said.start, rate).frame ?? 0 } : null;
}

/** @param {number} channel @returns {Row | null} */
function knownRow(channel) {
    const row = rows.get(channel) ?? rowOf(kept(`${channel}/row`));
    if (row) rows.set(channel, row);
    return row;
}

/** @param {number} channel @returns {Rate | null} */
export function knownRate(channel) {
    return knownRow(channel)?.rate ?? null;
}

/** The frame of the label at which the channel's broadcast day starts.
 * @param {number} channel */
export function knownStart(channel) {
    return knownRow(channel)?.start ?? null;
}

/** What the office answers, once its row of the plan is asked for.
 * @param {Scope} scope @param {number} channel */
export async function readRow(scope, channel) {
    const answer = await scope.read(`/ch/${channel}`);
    if (answer.kind === 'done') put(`${channel}/row`, answer.value);
    return answer;
}

/** The broadcast day that is on the air at a channel: before its start label it is still that of the date before.
 * @param {number} channel */
export function dayOnAir(channel) {
    const row = knownRow(channel);
    if (row) return nowAt(row.start, row.rate)?.day ?? null;
    return dayOfDate(site().day1, today().date);
}

/** A day's plan and its text, or what the office answers in its place.
 * @param {Scope} scope @param {number} channel @param {number} day
 * @returns {Promise<{ plan: import('./tables.js').Plan, text: string, answer?: undefined }
 *     | { plan?: undefined, text?: undefined, answer: NotDone }>} */
export async function readPlan(scope, channel, day) {
    const answer = await scope.read(`/ch/${channel}/days/${day}`);
    return answer.kind === 'done' ? { plan: planOf(answer.text), text: answer.text } : { answer };
}

/** The channel's days that are there, by number, or null where they can't be read now.
 * @param {Scope} scope @param {number} channel */
export async function readDays(scope, channel) {
    const answer = await scope.read(`/ch/${channel}/days`);
    return answer.kind === 'done' ? new Map(daysTableOf(answer.text).map((day) => [day.number, day])) : null;
}
