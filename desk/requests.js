// Requests: in which order they go, how long one is waited for, and what one means that had no answer.
//
// Changes go one after another, in the order in which staff made them. A read waits for the changes before it, and
// reads of one path are answered in their order; else they go side by side. A request is given up after its time: what
// comes later is nobody's answer. Nothing is sent twice unasked.

/** What a message answers: each has some of these.
 * @typedef {{ rate: string, start: string, number: number, day: number, tape: number, clip: string, offer: number,
 *     item: number, items: number, skipped: number, batch: number }} Said */
/** @typedef {{ kind: 'done', text: string, value: Said }} Done */
/** @typedef {{ kind: 'refused', code: number, refused: string, at?: string, item?: number,
 *     words?: string }} Refused */
/** Lost means that no answer of the office came: what was asked for may have been done, or not.
 * @typedef {{ kind: 'lost', words: string }} Lost */
/** @typedef {Done | Refused | Lost} Answer */
/** @typedef {string | Uint8Array} Body */
/** What asks the office; it throws where no answer comes.
 * @typedef {(method: string, path: string, body: Body | undefined, signal: AbortSignal) => Promise<Answer>} Asks */
/** What hears whether answers come: 'slow' while one is waited for, then what came.
 * @typedef {(now: 'slow' | 'answered' | 'lost' | 'left', words: string) => void} Hears */

// A gateway gives an office a minute, and says so itself.
export const PATIENCE = 70000;
const TIMES = { patience: PATIENCE, slow: 3000 };

/** A view was left, so nobody wants what it asked for. */
export class Left extends Error {}

export class Requests {
    /** @param {Asks} ask @param {Hears} hear @param {{ patience: number, slow: number }} times in ms */
    constructor(ask, hear, times = TIMES) {
        this.ask = ask;
        this.hear = hear;
        this.times = times;
        /** @type {Promise<unknown>} until the last change is through */
        this.turn = Promise.resolve();
        /** @type {Map<string, Promise<unknown>>} by path, until its last read is through */
        this.reading = new Map();
        this.waiting = 0;
    }

    /** @param {string} path @param {AbortSignal} [left] */
    read(path, left) {
        const asked = this.behind([this.turn, this.reading.get(path)], 'GET', path, undefined, left);
        const ended = asked.catch(() => null);
        this.reading.set(path, ended);
        ended.then(() => { if (this.reading.get(path) === ended) this.reading.delete(path); });
        return asked;
    }

    /** A change isn't given up as its view is left.
     * @param {string} path @param {Body} body */
    change(path, body) {
        const asked = this.behind([this.turn], 'POST', path, body);
        this.turn = asked.catch(() => null);
        return asked;
    }

    /** @param {(Promise<unknown> | undefined)[]} before @param {string} method @param {string} path
     * @param {Body} [body] @param {AbortSignal} [left] @returns {Promise<Answer>} */
    async behind(before, method, path, body, left) {
        this.waiting += 1;
        try {
            await Promise.all(before);
            if (left?.aborted) throw new Left();
            return await this.send(method, path, body, left);
        } finally {
            this.waiting -= 1;
        }
    }

    /** @param {string} method @param {string} path @param {Body} [body] @param {AbortSignal} [left]
     * @returns {Promise<Answer>} */
    async send(method, path, body, left) {
        const given = new AbortController();
        const giveUp = () => given.abort();
        /** @type {Promise<never>} */
        const over = new Promise((_, refuse) => { given.signal.addEventListener('abort', refuse, { once: true }); });
        const timers = [setTimeout(giveUp, this.times.patience),
            setTimeout(() => this.hear('slow', ''), this.times.slow)];
        left?.addEventListener('abort', giveUp, { once: true });
        /** @type {Answer} */
        let answer;
        try {
            answer = await Promise.race([this.ask(method, path, body, given.signal), over]);
        } catch {
            answer = { kind: 'lost', words: given.signal.aborted ? 'No answer in a minute' : 'No connection' };
        } finally {
            timers.forEach(clearTimeout);
            left?.removeEventListener('abort', giveUp);
        }
        if (left?.aborted) {
            this.hear('left', '');
            throw new Left();
        }
        this.hear(answer.kind === 'lost' ? 'lost' : 'answered', answer.kind === 'lost' ? answer.words : '');
        return answer;
    }
}

// What a request without an answer means, said once. Where a connection breaks, a browser may send a request again by
// itself: the second is then refused for what the first one did, by one of these.
const REFUSED_AGAIN = { form: [43, 46, 47, 51, 55, 64, 66, 72, 75], revise: [75, 82] };

/** Whether a refusal may be that of a request that was done.
 * @param {Answer} answer @param {'form' | 'revise'} what */
export function mayBeDone(answer, what) {
    return answer.kind === 'refused' && REFUSED_AGAIN[what].includes(answer.code);
}

/** @param {Lost} lost */
export function inDoubt(lost) {
    return `${lost.words}. It may have been done, or not.`;
}

/** @typedef {{ lost?: boolean, done?: boolean, words?: string }} Found what the tables tell of one */

/** What was read tells of a request in doubt: whether it was done, in words, where it could be read.
 * @param {{ kind: string }} answer @param {() => string | null | undefined} look @returns {Found} */
export function foundIn(answer, look) {
    if (answer.kind === 'lost') return { lost: true };
    const words = look();
    return words ? { done: true, words } : { done: false };
}

/** Whether all of them came.
 * @param {Answer[]} answers @returns {answers is Done[]} */
export function areDone(answers) {
    return answers.every((answer) => answer.kind === 'done');
}

/** The first of them that was refused.
 * @param {(Answer | undefined)[]} answers @returns {Refused | undefined} */
export function refusedIn(answers) {
    const refused = answers.find((answer) => answer?.kind === 'refused');
    return refused?.kind === 'refused' ? refused : undefined;
}
