// `site.json` beside the desk, where the centre has one.

import { siteOf, noSite } from './site-model.js';
import { page } from './office.js';
import { clockOf, dateOf, dateWords, nowIn } from './dates.js';

let known = noSite();

export function site() {
    return known;
}

export async function readSite() {
    try {
        const response = await page('site.json');
        if (response.ok) known = siteOf(await response.json());
    } catch (fault) {
        known = { ...noSite(), faults: [`it can't be read: ${/** @type {Error} */ (fault).message}`] };
    }
    return known;
}

/** CH 001, and its name where it has one.
 * @param {number} number */
export function channelName(number) {
    const name = known.channels.get(Number(number))?.name;
    const plain = `CH ${String(number).padStart(3, '0')}`;
    return name ? `${plain} ${name}` : plain;
}

/** CH 2, and its name where it has one.
 * @param {number} number */
export function channelShort(number) {
    return `CH ${number} ${known.channels.get(Number(number))?.name ?? ''}`.trim();
}

/** Channel 2, and its name where it has one.
 * @param {number} number */
export function channelWords(number) {
    const name = known.channels.get(Number(number))?.name;
    return name ? `channel ${number} ${name}` : `channel ${number}`;
}

/** A day's date in words, or '' where the centre has said none.
 * @param {number} day */
export function dayDate(day) {
    const date = dateOf(known.day1, day);
    return date ? dateWords(date) : '';
}

export function today() {
    return clockOf(new Date(), known.zone);
}

/** The day that is on now at a channel of this start, and its place.
 * @param {number} start @param {import('./timecode.js').Rate} rate */
export function nowAt(start, rate) {
    const { date, second } = today();
    return nowIn(known.day1, date, second, start, rate);
}
