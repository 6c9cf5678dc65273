// Many tapes or clips from a CSV file: the form that begins it. report.js shows how far it is.

import { make } from './dom.js';
import { Form } from './form.js';
import { bytesOf } from './fields.js';
import { Report } from './report.js';

/** @typedef {import('./report.js').What & { hint: string,
 *     rowsOf: (text: string) => import('./bulk-store.js').Row[] }} What */

const MOST_FILE = 5000000;

export class Bulk {
    /** @param {What} what */
    constructor(what) {
        this.form = new Form({
            name: what.name, title: what.title, word: 'Enter them all', place: what.place,
            fields: [{ name: 'file', label: 'CSV file', kind: 'file', hint: what.hint, wide: true, accept: '.csv' }],
            prepare: async (values) => {
                values.text = new TextDecoder().decode(await bytesOf(values.file, MOST_FILE));
                values.rows = what.rowsOf(values.text);
            },
            run: (values) => this.report.begin(values.file.name, values.text, values.rows),
            done: (answer) => answer.words,
            after: () => this.report.after(),
        });
        /** @type {Report} */
        this.report = new Report(what, this.form);
        this.element = make('div', {}, this.form.element, this.report.element);
    }
}
