// The office as the desk asks it: how it is asked, what it answers, and whether it answers. requests.js has the order.

import { Left, PATIENCE, Requests } from './requests.js';
import { goesToLogin, leaving } from './sign-on.js';

export { Left };

/** @typedef {import('./requests.js').Answer} Answer */
/** @typedef {import('./requests.js').Said} Said */
/** @typedef {import('./requests.js').Body} Body */
/** @typedef {'connected' | 'slow' | 'gone'} Connection */
/** @typedef {(now: Connection, words: string, was: Connection) => void} Hearer */

// The most bytes of a body.
export const MOST_BYTES = 1000000;

const PAUSE = 3000;

/** @type {Connection} */
let state = 'connected';
let probe = '';
/** @type {Set<Hearer>} */
const hearers = new Set();
const requests = new Requests(asked, heard);

/** @param {Hearer} hearer */
export function onConnection(hearer) {
    hearers.add(hearer);
}

/** The channel by whose name the office is asked whether it is there: one that the gateway passes on.
 * @param {number} channel */
export function probeAs(channel) {
    probe = `/ch/${channel}/office`;
}

export function isBusy() {
    return requests.waiting > 0;
}

/** @param {'slow' | 'answered' | 'lost' | 'left'} what @param {string} words */
function heard(what, words) {
    if (what === 'lost') tell('gone', words);
    else if (what === 'answered' || (what === 'left' && state === 'slow')) tell('connected');
    else if (what === 'slow' && state === 'connected') tell('slow');
}

/** @param {Connection} now */
function tell(now, words = '') {
    if (now === state) return;
    const was = state;
    state = now;
    for (const hearer of hearers) hearer(now, words, was);
    if (now === 'gone') setTimeout(tryAgain, PAUSE);
}

// While it is lost, a path without a route is asked for: the office's own 404 changes nothing and reads nothing.
async function tryAgain() {
    if (state !== 'gone') return;
    const answer = await requests.read(probe);
    if (answer.kind === 'lost') setTimeout(tryAgain, PAUSE);
}

/** @param {string} text */
function parsed(text) {
    try {
        return JSON.parse(text);
    } catch {
        return null;
    }
}

/** The office's refusals are JSON with a code, and so are the gateway's. A fault of the server's is none of them, but
 * 100, which says that nothing was changed, and 501: the gateway's 502 and 504 say that the office didn't answer.
 * @param {number} status @param {string} text @param {string | null} [type] @returns {Answer} */
export function answerOf(status, text, type) {
    const value = parsed(text);
    const own = /^(text\/plain|application\/json)/.test(type ?? '');
    if (status === 200 && own) return { kind: 'done', text, value };
    const known = value && typeof value.code === 'number' && (status < 500 || value.code === 100 || value.code === 501);
    if (known) return { kind: 'refused', ...value };
    if (status === 401 || status === 403) return { kind: 'refused', code: status, refused: 'Forbidden' };
    const name = typeof value?.refused === 'string' ? ` ${value.refused}` : '';
    return { kind: 'lost', words: `The server in front answered ${status}${name}` };
}

/** @param {string} method @param {string} path @param {Body | undefined} body @param {AbortSignal} signal */
async function asked(method, path, body, signal) {
    const response = await fetch(path, { method, body, signal, cache: 'no-store' });
    if (goesToLogin(response)) return leaving();
    return answerOf(response.status, await response.text(), response.headers.get('Content-Type'));
}

/** A page of the web server in front, which is waited for as long as the office is.
 * @param {string} path */
export function page(path) {
    const given = new AbortController();
    setTimeout(() => given.abort(), PATIENCE);
    return fetch(path, { cache: 'no-store', signal: given.signal });
}

// What a view reads, and gives up as it is left.
export class Scope {
    constructor() {
        this.control = new AbortController();
        /** @param {string} path */
        this.read = (path) => requests.read(path, this.control.signal);
    }

    get gone() {
        return this.control.signal.aborted;
    }

    leave() {
        this.control.abort();
    }
}

/** A change is one message. A value is sent as JSON, a text or a file's bytes as they are.
 * @param {string} path @param {string | Uint8Array | object} body @returns {Promise<Answer>} */
export function change(path, body = '') {
    const isBody = typeof body === 'string' || body instanceof Uint8Array;
    return requests.change(path, isBody ? body : JSON.stringify(body));
}
