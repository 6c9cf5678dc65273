// A file under way: each line is one message. It goes on while its view is left, a refusal is told and gone on from,
// and where no answer came it stops, and goes on from there once the tables have said what was done.

import { change, Left } from './office.js';
import { inDoubt } from './requests.js';
import { counted, say, show } from './dom.js';
import { sentenceOf } from './refusals.js';

/** @type {Map<string, BulkRun>} those that this tab is at, by their keys */
const runs = new Map();
const TAB = Math.random().toString(36).slice(2);

addEventListener('beforeunload', (event) => {
    if (runs.size > 0) event.preventDefault();
});

/** @param {string} key */
export function runOf(key) {
    return runs.get(key) ?? null;
}

/** @param {BulkStore} store @param {import('./bulk-store.js').Head} head */
export function isElsewhere(store, head) {
    return store.isElsewhere(head, TAB, Date.now());
}

/** @typedef {import('./bulk-store.js').BulkStore} BulkStore */
/** @typedef {import('./bulk-store.js').Row & { key: number }} Row */

export class BulkRun {
    /** @param {string} key @param {import('./report.js').What} what @param {BulkStore} store
     * @param {import('./report.js').Report} face what shows it, another one once its view was opened again */
    constructor(key, what, store, face) {
        this.key = key;
        this.what = what;
        this.store = store;
        this.face = face;
        /** @type {Row[]} */
        this.rows = [];
        this.sum = '';
        this.isKept = false;
        this.stopped = false;
    }

    /** @param {string} file @param {string} sum @param {Row[]} rows */
    begin(file, sum, rows) {
        this.rows = rows;
        this.sum = sum;
        this.isKept = this.store.begin(file, sum, rows, TAB, Date.now());
    }

    /** Of a file that was begun before, by this tab or another.
     * @param {string} sum */
    resume(sum) {
        this.rows = this.store.rows(sum).map((row) => ({ ...row, key: row.line }));
        this.sum = sum;
        this.isKept = true;
    }

    // From the first row that has no result yet.
    async goOn() {
        runs.set(this.key, this);
        this.stopped = false;
        try {
            for (const [index, row] of this.rows.entries()) {
                if (row.state) continue;
                if (this.stopped) return this.halted(`Stopped before line ${row.line}.`);
                const lost = await this.one(row);
                this.keep(index);
                this.face.show(row);
                show(`${this.what.title}: line ${index + 1} of ${this.rows.length}`, 'plain', String(this.what.place));
                if (lost) return this.halted(`${lost} Stopped at line ${row.line}; what was done is in the report.`);
            }
            return this.ended();
        } finally {
            runs.delete(this.key);
            this.face.isThrough();
        }
    }

    /** @param {number} index */
    keep(index) {
        if (!this.isKept) return;
        this.store.keep(this.sum, this.rows, index);
        this.store.isAt(this.sum, TAB, Date.now());
    }

    /** @param {Row} row @returns {Promise<string | null>} why it stops */
    async one(row) {
        if (row.fault) {
            [row.state, row.result] = ['refused', row.fault];
            return null;
        }
        // One that was under way as a tab was closed may have been done.
        if (row.doubt) {
            const words = await this.there(row);
            if (words) {
                [row.state, row.result] = ['done', `It was done: ${words}`];
                return null;
            }
        }
        const message = this.what.message(row);
        if ('fault' in message) {
            [row.state, row.result] = ['refused', message.fault];
            return null;
        }
        row.doubt = true;
        this.keep(this.rows.indexOf(row));
        const answer = await change(message.path, message.body);
        if (answer.kind === 'lost') {
            row.result = inDoubt(answer);
            return `${answer.words}.`;
        }
        row.doubt = false;
        row.state = answer.kind;
        row.result = answer.kind === 'done' ? this.what.done(answer, row) : sentenceOf(answer);
        return null;
    }

    /** @param {Row} row */
    async there(row) {
        try {
            return await this.what.isThere(row);
        } catch (fault) {
            if (!(fault instanceof Left)) throw fault;
            return null;
        }
    }

    counts() {
        const done = this.rows.filter((row) => row.state === 'done').length;
        const refused = this.rows.filter((row) => row.state === 'refused').length;
        return `${counted(done, 'line')} done, ${refused} refused`;
    }

    /** @param {string} words */
    halted(words) {
        if (this.isKept) this.store.isAt(this.sum, '', 0);
        return this.told({ kind: 'not', words: `${words} So far ${this.counts()}.` });
    }

    ended() {
        if (this.isKept) this.store.isAt(this.sum, '', 0, true);
        return this.told({ kind: 'done', words: `${counted(this.rows.length, 'line')}: ${this.counts()}.` });
    }

    /** It is said wherever staff are.
     * @param {{ kind: string, words: string }} outcome */
    told(outcome) {
        say(`${this.what.title}: ${outcome.words}`, outcome.kind === 'done' ? 'good' : 'bad', String(this.what.place));
        return outcome;
    }
}
