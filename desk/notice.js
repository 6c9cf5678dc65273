// What staff have to decide before anything more is done: words, rows that they are about, and what may be done.

import { announce, button, clear, make } from './dom.js';
import { List } from './list.js';

/** @typedef {{ key: string, at: string, source: string, title: string, why: string }} Stay what can't come, and why */

/** @type {import('./list-columns.js').Column<Stay>[]} */
const COLUMNS = [
    { name: 'At', width: '7rem', text: (row) => row.at, mark: () => 'code' },
    { name: 'Source', width: '6rem', text: (row) => row.source, mark: () => 'code' },
    { name: 'Title', width: 'minmax(8rem, 1fr)', text: (row) => row.title },
    { name: 'Why', width: 'minmax(14rem, 2fr)', text: (row) => row.why },
];

export class Notice {
    constructor() {
        this.words = make('p', {});
        this.list = new List('What can\'t come', COLUMNS);
        this.list.show([]);
        this.buttons = make('div', { class: 'buttons' });
        this.element = make('section', { class: 'notice', hidden: true, 'aria-label': 'To decide' }, this.words,
            this.list.element, this.buttons);
    }

    /** The focus goes to the last choice, which does least, and back to `behind`.
     * @param {string} words @param {Stay[]} rows @param {[string, () => unknown][]} choices each with what it does
     * @param {HTMLElement} behind */
    show(words, rows, choices, behind) {
        const had = !this.element.hidden && this.words.textContent === words;
        this.element.hidden = false;
        this.words.textContent = words;
        this.list.show(rows);
        if (had) return;
        clear(this.buttons, ...choices.map(([word, does]) => button(word, () => {
            this.hide();
            behind.focus();
            return does();
        })));
        announce(words);
        /** @type {HTMLElement | null} */ (this.buttons.lastElementChild)?.focus();
    }

    hide() {
        this.element.hidden = true;
    }
}
