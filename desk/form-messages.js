// What a form is about, and the messages that it sends.

import { change } from './office.js';
import { STOPPED, watched } from './progress.js';

/** @typedef {import('./fields.js').Values} Values */
/** @typedef {import('./requests.js').Answer} Answer */
/** @typedef {import('./requests.js').Refused} Refused */
/** @typedef {{ path: string, body?: string | Uint8Array | object,
 *     refusedAs?: (refusal: Refused) => Partial<Refused> }} Message */
/** What came of a form that asks in its own way: done, or words of what wasn't.
 * @typedef {{ kind: string, words?: string, [more: string]: any }} Outcome */
/** place: the channel, or channel and day, that what was typed is kept for; ready: what it is about was read; check:
 * whether things are as they were shown (throws a FieldFault); final: it can't be undone; run: in the place of
 * messages; next: the field that is typed next; lines: what a refusal's line is of.
 * @typedef {{ name: string, title: string, word: string, fields: import('./fields.js').Field[], place: string | number,
 *     rate?: () => import('./timecode.js').Rate | null | undefined, ready?: () => unknown,
 *     prepare?: (values: Values) => unknown, check?: (values: Values) => unknown,
 *     confirm?: (values: Values) => string | null | undefined | false, final?: boolean,
 *     message?: (values: Values) => Message, messages?: (values: Values) => Message[],
 *     run?: (values: Values) => Promise<Outcome | null | undefined>, done: (answer: any, values: Values) => string,
 *     after?: (values: Values, answer: any) => unknown, next?: string, scans?: boolean,
 *     asked?: (values: Values) => Promise<import('./requests.js').Found>,
 *     refused?: (refusal: Refused, values: Values) => unknown, changed?: (name: string) => unknown,
 *     extra?: HTMLElement[], lines?: 'list' | 'batch' | 'seal' }} What */

/** One behind the other, as far as the first one that isn't done. Staff may stop between them, and may stop waiting for
 * an answer: then it isn't known, as where none came.
 * @param {What} what @param {Values} values @returns {Promise<Outcome>} */
export async function sent(what, values) {
    const messages = what.messages?.(values) ?? (what.message ? [what.message(values)] : []);
    const control = { stopped: false };
    /** @type {unknown[]} the values of those that were done */
    const all = [];
    const words = () => {
        const which = messages.length > 1 ? `${all.length + 1} of ${messages.length}, ` : '';
        return `${what.title}: ${which}sent for`;
    };
    const outcome = await watched(words, String(what.place), inOrder(messages, all, control), control);
    return outcome === STOPPED ? { kind: 'lost', words: 'You stopped waiting for the answer' } : outcome;
}

/** @param {Message[]} messages @param {unknown[]} all @param {import('./progress.js').Control} control
 * @returns {Promise<Outcome>} */
async function inOrder(messages, all, control) {
    /** @type {Answer | null} */
    let answer = null;
    for (const message of messages) {
        if (control.stopped) return { kind: 'lost', words: `Stopped behind ${all.length} of ${messages.length}` };
        answer = await change(message.path, message.body);
        if (answer.kind === 'refused') answer = { ...answer, ...message.refusedAs?.(answer) };
        if (answer.kind !== 'done') break;
        all.push(answer.value);
    }
    return { kind: 'done', ...answer, all };
}
