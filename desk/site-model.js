// What a centre says of itself in `site.json`: its channels' names, and the date of day 1.

import { dateOf } from './dates.js';

/** @typedef {{ name: string }} ChannelFacts */
/** @typedef {{ day1: string | null, zone: string | undefined, channels: Map<number, ChannelFacts>,
 *     faults: string[] }} Site */

/** @returns {Site} */
export function noSite() {
    return { day1: null, zone: undefined, channels: new Map(), faults: [] };
}

/** The channel that staff type: its number, or its name or a part of it that no other has.
 * @param {string} text @param {Map<number, ChannelFacts>} channels @returns {{ channel?: number, fault?: string }} */
export function channelNamed(text, channels) {
    const typed = text.trim().toLowerCase();
    const digits = /^(?:ch )?(\d{1,9})\b/.exec(typed);
    if (digits) return { channel: Number(digits[1]) };
    const named = [...channels].filter(([, { name }]) => name !== '');
    if (typed === '' || named.length === 0) return { fault: 'Type a whole number.' };
    const exact = named.filter(([, { name }]) => name.toLowerCase() === typed);
    const found = exact.length > 0 ? exact : named.filter(([, { name }]) => name.toLowerCase().includes(typed));
    if (found.length === 1) return { channel: found[0][0] };
    return { fault: found.length === 0 ? `No channel is called ${text.trim()}: type its number.`
        : `${found.map(([number, { name }]) => `${number} ${name}`).join(', ')}: type which.` };
}

/** @param {unknown} zone */
function isZone(zone) {
    try {
        new Intl.DateTimeFormat('en', { timeZone: String(zone) });
        return true;
    } catch {
        return false;
    }
}

/** The rate and the start are the office's to tell.
 * @param {string} number @param {any} said @param {string[]} faults @returns {ChannelFacts} */
function factsOf(number, said, faults) {
    if (said.name !== undefined && typeof said.name !== 'string') faults.push(`channel ${number}: its name is no text`);
    return { name: typeof said.name === 'string' ? said.name.slice(0, 40) : '' };
}

/** A part that isn't as it should be is left out and said; the rest counts.
 * @param {any} said @returns {Site} */
export function siteOf(said) {
    const site = noSite();
    if (typeof said !== 'object' || said === null) return { ...site, faults: ['it is no JSON object'] };
    if (said.day1 !== undefined) {
        site.day1 = dateOf(said.day1, 1);
        if (site.day1 === null) site.faults.push(`day1 ${said.day1} is no date as 2026-01-31`);
    }
    if (said.zone !== undefined) {
        if (isZone(said.zone)) site.zone = String(said.zone);
        else site.faults.push(`zone ${said.zone} is none as Europe/Berlin`);
    }
    for (const [number, facts] of Object.entries(said.channels ?? {})) {
        if (facts && typeof facts === 'object') site.channels.set(Number(number), factsOf(number, facts, site.faults));
    }
    return site;
}
