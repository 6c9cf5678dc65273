// The report of many tapes or clips that are entered, lent, retired or pulled one by one, line by line: what shows it
// while it is under way, also once the view was left and opened again, and goes on with it.

import { button, clear, counted, download, make } from './dom.js';
import { Left } from './office.js';
import { List } from './list.js';
import { BulkRun, isElsewhere, runOf } from './bulk-run.js';
import { BulkStore, sumOf } from './bulk-store.js';

/** @typedef {import('./bulk-store.js').Row} Row */
/** @typedef {import('./bulk-run.js').Row} ShownRow */
/** isThere: of a row that may have been done, in words.
 * @typedef {{ name: string, title: string, place: string | number,
 *     message: (row: Row) => import('./form-messages.js').Message | { fault: string },
 *     done: (answer: import('./requests.js').Done, row: Row) => string,
 *     isThere: (row: Row) => Promise<string | null | undefined>, after: () => unknown }} What */

/** @type {import('./list-columns.js').Column<ShownRow>[]} */
const COLUMNS = [
    { name: 'Line', width: '4rem', align: 'right', text: (row) => row.line, mark: () => 'number' },
    { name: 'What', width: 'minmax(8rem, 1fr)', text: (row) => row.words },
    { name: 'Result', width: 'minmax(12rem, 2fr)', text: (row) => row.result ?? '', mark: (row) => row.state ?? '' },
];

export class Report {
    /** @param {What} what @param {import('./form.js').Form} form that begins it, and says how far it is
     * @param {boolean} isSeen also where there is nothing to report yet */
    constructor(what, form, isSeen = true) {
        this.what = what;
        this.form = form;
        this.key = `${what.place}/${what.name}`;
        this.store = new BulkStore(this.key);
        this.list = new List(`Report: ${what.title}`, COLUMNS);
        this.list.show([], 'No file was read yet.');
        this.more = make('div', { class: 'buttons' });
        this.element = make('div', { hidden: !isSeen }, this.more, make('div', { class: 'bulk-report' },
            this.list.element));
        /** @type {BulkRun} where one is under way, or was */
        this.run = /** @type {any} */ (runOf(this.key));
        if (this.run) this.attach();
        else this.offerKept();
    }

    showRows() {
        this.element.hidden = false;
        this.list.show(this.run.rows);
    }

    attach() {
        this.run.face = this;
        this.showRows();
        this.underWay();
        this.form.message.textContent = `${counted(this.run.rows.length, 'line')} are under way.`;
    }

    // What a closed tab left, or another one is at.
    offerKept() {
        const head = this.store.unfinished();
        if (!head) return;
        this.run = new BulkRun(this.key, this.what, this.store, this);
        this.run.resume(head.sum);
        this.showRows();
        const words = `${head.file}: so far ${this.run.counts()}, of ${counted(head.lines, 'line')}.`;
        if (isElsewhere(this.store, head)) {
            this.form.message.textContent = `${words} Another tab is at it.`;
            clear(this.more, button('Look again', () => this.offerKept()));
        } else {
            this.form.message.textContent = `${words} It was stopped.`;
            this.offerGoingOn();
        }
    }

    /** @param {string} name of the file, or of what was chosen @param {string} text that tells it from others
     * @param {Row[]} rows */
    begin(name, text, rows) {
        const sum = sumOf(text);
        const known = this.store.asBefore(sum, rows);
        this.run = new BulkRun(this.key, this.what, this.store, this);
        this.run.begin(name, sum, known.map((row) => ({ ...row, key: row.line })));
        this.showRows();
        this.underWay();
        return this.run.goOn();
    }

    underWay() {
        clear(this.more, button('Stop', () => { this.run.stopped = true; }, { class: 'stop' }));
    }

    offerGoingOn() {
        clear(this.more, button('Go on', () => this.goOn(), { class: 'sure go-on' }), this.saving());
    }

    /** @param {ShownRow} row */
    show(row) {
        if (!this.element.isConnected) return;
        this.list.show(this.run.rows);
        this.list.chooseKey(row.key);
    }

    // It has ended, or was stopped: by this form, or by one that was left.
    isThrough() {
        const left = this.run.rows.some((row) => !row.state);
        if (left) this.offerGoingOn();
        else clear(this.more, this.saving());
        if (!this.form.busy) this.form.message.textContent = `So far ${this.run.counts()}.`;
    }

    async goOn() {
        await this.form.working(async () => {
            await this.after(); // slots and tapes as they are now, also in a page that was only just loaded
            this.underWay();
            const outcome = await this.run.goOn();
            this.form.message.textContent = outcome.kind === 'done' ? '' : outcome.words;
            this.form.result.textContent = outcome.kind === 'done' ? outcome.words : '';
            await this.after();
        });
    }

    // A view that was left reads nothing any more.
    async after() {
        try {
            await this.what.after();
        } catch (fault) {
            if (!(fault instanceof Left)) throw fault;
        }
    }

    saving() {
        return button('Save the report', () => download(`${this.what.name}.txt`, this.run.rows.map((row) =>
            `${row.line}\t${row.state ?? 'not sent'}\t${row.words}\t${row.result ?? ''}\n`).join('')));
    }
}
