// A text that was sent or given, by lines, with the line of its fault in view.

import { make, button } from './dom.js';
import { List } from './list.js';

/** @typedef {{ key: number, line: number, words: string }} Fault */
/** @typedef {{ key: number, number: number, text: string, mark: string }} Line */

export class TextPanel {
    constructor() {
        this.title = make('h2', {});
        this.words = make('p', { class: 'fault' });
        this.list = new List('Lines of the text', /** @type {import('./list-columns.js').Column<Line>[]} */ ([
            { name: 'Line', width: '4rem', align: 'right', text: (line) => line.number, mark: () => 'number dim' },
            { name: 'Text', width: 'minmax(46rem, 1fr)', text: (line) => line.text, mark: () => 'code' },
        ]));
        this.list.show([]);
        this.faults = new List('Faults of the text', /** @type {import('./list-columns.js').Column<Fault>[]} */ ([
            { name: 'Line', width: '4rem', align: 'right', text: (row) => row.line, mark: () => 'number' },
            { name: 'What is the matter', width: 'minmax(30rem, 1fr)', text: (row) => row.words },
        ]), { choose: (row) => this.list.chooseKey(row.line) });
        this.faults.show([]);
        this.element = make('section', { class: 'panel text', hidden: true, 'aria-label': 'Text' },
            make('div', { class: 'panel-head' }, this.title, button('Close', () => this.close())), this.words,
            this.faults.element, this.list.element);
    }

    /** @param {string} title @param {string} text @param {number | null} fault its line @param {string} words
     * @param {{ line: number, words: string }[]} faults of several lines, each with what is the matter */
    show(title, text, fault = null, words = '', faults = []) {
        this.element.hidden = false;
        this.title.textContent = title;
        this.words.textContent = words;
        const wrong = new Set([fault, ...faults.map(({ line }) => line)]);
        const lines = text.split(/\r\n|\n|\r/).map((line, index) => ({
            key: index + 1, number: index + 1, text: line, mark: wrong.has(index + 1) ? 'faulty' : '',
        }));
        this.list.show(lines);
        this.faults.show(faults.map((each, index) => ({ ...each, key: index })));
        this.faults.element.hidden = faults.length < 2;
        this.element.classList.toggle('with-faults', faults.length > 1);
        if (fault) this.list.chooseKey(fault);
    }

    close() {
        this.element.hidden = true;
    }
}

/** Files that are dropped anywhere on a view; the view says so while one is over it.
 * @param {HTMLElement} element @param {(files: FileList) => unknown} take @returns {() => void} what ends it */
export function takesFiles(element, take) {
    const over = (/** @type {DragEvent} */ event) => {
        if (![...event.dataTransfer?.types ?? []].includes('Files')) return;
        event.preventDefault();
        element.classList.add('dropping');
    };
    const left = () => element.classList.remove('dropping');
    const drop = (/** @type {DragEvent} */ event) => {
        left();
        if (!event.dataTransfer?.files.length) return;
        event.preventDefault();
        take(event.dataTransfer.files);
    };
    element.addEventListener('dragover', over);
    element.addEventListener('dragleave', left);
    element.addEventListener('drop', drop);
    return () => {
        left();
        element.removeEventListener('dragover', over);
        element.removeEventListener('dragleave', left);
        element.removeEventListener('drop', drop);
    };
}
