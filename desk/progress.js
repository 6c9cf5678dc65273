// What takes longer than a second says so in the status bar, with how long it has been, and can be stopped there.

import { byId, show } from './dom.js';

/** @typedef {{ stopped: boolean }} Control what is under way looks at it before its next step */
/** @typedef {{ stop: () => void }} Running */

const SECOND = 1000;

/** What comes back where staff stopped waiting. */
export const STOPPED = Symbol('stopped');

/** @type {Running[]} the latest is the one that is stopped */
const running = [];

function showButton() {
    const stop = byId('stop');
    if (!stop) return;
    stop.hidden = running.length === 0;
    stop.onclick = () => running[running.length - 1]?.stop();
}

/** Waits for something, and says after a second what it is.
 * @template R @param {() => string} words @param {string} about @param {Promise<R>} asked @param {Control} control
 * @returns {Promise<R | typeof STOPPED>} */
export async function watched(words, about, asked, control) {
    const begun = performance.now();
    /** @type {Running} */
    const mine = { stop: () => null };
    const stopped = new Promise((resolve) => {
        mine.stop = () => {
            control.stopped = true;
            resolve(STOPPED);
        };
    });
    const tell = () => {
        if (!running.includes(mine)) running.push(mine);
        showButton();
        show(`${words()} ${Math.round((performance.now() - begun) / SECOND)} s`, 'plain', about);
    };
    const timer = setInterval(tell, SECOND);
    try {
        return await Promise.race([asked, stopped]);
    } finally {
        clearInterval(timer);
        const place = running.indexOf(mine);
        if (place >= 0) running.splice(place, 1);
        showButton();
    }
}
