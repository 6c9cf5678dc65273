// Scans: a barcode and Enter, and the next one before the office has answered. Each has a line of its own beneath its
// form (waiting, done, refused). None is dropped: it is done behind the one before it, from a place of its own, so that
// the field is free for what is scanned next.

import { clear, make } from './dom.js';

const SHOWN = 12;
const WORDS = { waiting: 'waits', sent: 'is sent', done: 'done', refused: 'refused', lost: 'no answer' };

/** @typedef {'waiting' | 'sent' | 'done' | 'refused' | 'lost'} State */
/** typed: what stood in the fields, by their names, where it waited.
 * @typedef {{ text: string, state: State, typed: Object<string, string> | null, words: string }} Scan */

export class Scans {
    /** @param {import('./form.js').Form} form with what.next, the field that is scanned into */
    constructor(form) {
        this.form = form;
        this.into = form.what.next ?? '';
        /** @type {Scan[]} */
        this.lines = [];
        /** @type {Scan | null} */
        this.now = null;
        this.element = make('ol', { class: 'scans', hidden: true, 'aria-label': `Scans: ${form.what.title}` });
    }

    // What is entered while the form is busy. Of the other fields what staff typed goes along.
    take() {
        const { form, into } = this;
        const text = form.inputs[into].value.trim();
        if (text === '' || !form.typedSince.has(into)) return;
        const typed = Object.fromEntries([...form.typedSince].map((name) => [name, form.inputs[name].value]));
        this.add(text, 'waiting', typed);
        form.typedSince.clear();
        form.inputs[into].value = '';
    }

    /** @param {string} text @param {State} state @param {Object<string, string> | null} typed */
    add(text, state, typed) {
        const line = { text, state, typed, words: '' };
        this.lines.push(line);
        this.show();
        return line;
    }

    /** What is sent now: a scan that waited, or what stands in the fields.
     * @param {Scan | null} waited */
    begin(waited) {
        this.now = waited ?? this.add(this.form.inputs[this.into].value.trim(), 'sent', null);
        this.now.state = 'sent';
        this.show();
    }

    /** @param {State} state @param {string} words */
    became(state, words) {
        if (!this.now) return;
        [this.now.state, this.now.words] = [state, words];
        this.show();
    }

    // The next one that waits, once nothing is in doubt.
    next() {
        return this.form.doubt.values ? null : this.lines.find((line) => line.state === 'waiting') ?? null;
    }

    isWaiting() {
        return this.lines.some((line) => line.state === 'waiting' || line.state === 'sent');
    }

    /** The fields as they were for a scan that waited.
     * @param {Scan | null} line @returns {Object<string, { value: string }>} */
    inputsFor(line) {
        const { inputs } = this.form;
        const typed = line?.typed;
        if (!typed) return inputs;
        return Object.fromEntries(Object.entries(inputs)
            .map(([name, input]) => [name, { value: typed[name] ?? input.value }]));
    }

    show() {
        while (this.lines.length > SHOWN && !['waiting', 'sent'].includes(this.lines[0].state)) this.lines.shift();
        this.element.hidden = this.lines.length < 2;
        clear(this.element, ...this.lines.map((line) => make('li', { class: line.state },
            make('b', {}, line.text), ` ${WORDS[line.state]}${line.words ? `: ${line.words}` : ''}`)));
        this.element.lastElementChild?.scrollIntoView?.({ block: 'nearest' });
    }
}
