// A list as it is drawn: of any number of rows only those in view are elements.

import { make, freshId, oncePerFrame } from './dom.js';
import { Columns, fillCell, rem } from './list-columns.js';

const SPARE = 4;
const SETTLES = 150;

/** @typedef {import('./list-columns.js').ListRow} ListRow */

function rowHeight() {
    const row = getComputedStyle(document.documentElement).getPropertyValue('--row');
    return Math.round((parseFloat(row) || 1.85) * rem());
}

/** @template {ListRow} R */
export class DrawnList {
    /** @param {string} label @param {import('./list-columns.js').Column<R>[]} columns
     * @param {boolean} several more than one row may be chosen */
    constructor(label, columns, several) {
        this.several = several;
        /** @type {R[]} */
        this.rows = [];
        /** @type {R[]} */
        this.all = [];
        this.active = -1;
        /** @type {Set<R['key']>} */
        this.selected = new Set();
        this.id = freshId('list');
        /** @type {Map<number, HTMLElement>} */
        this.drawn = new Map();
        /** @type {HTMLElement[]} */
        this.spare = [];
        this.height = rowHeight();
        this.later = oncePerFrame(() => this.draw());
        this.columns = new Columns(label, columns, () => this.arranged());
        /** @type {import('./cells.js').Cells | null} where its cells are changed in their place */
        this.cells = null;
        this.isShown = false;
        this.emptyWords = '';
        this.settling = 0;
        this.space = make('div', { class: 'list-space', role: 'rowgroup' });
        const looks = { class: 'list-scroll', role: 'presentation', 'data-empty': 'Loading...' };
        this.scroll = make('div', looks, this.space);
        this.heads = make('div', { role: 'rowgroup', class: 'list-heads' }, this.columns.element);
        this.element = make('div', {
            role: 'grid', class: 'list', tabindex: 0, 'aria-label': label, 'aria-multiselectable': this.several || null,
            'aria-colcount': this.columns.columns.length, 'aria-busy': 'true',
        }, this.heads, this.scroll);
        this.scroll.addEventListener('scroll', () => {
            this.heads.scrollLeft = this.scroll.scrollLeft;
            this.later();
        });
        new ResizeObserver(() => this.resized()).observe(this.scroll);
        this.space.style.minWidth = this.columns.least;
    }

    /** @param {R[]} rows @param {string} emptyWords */
    show(rows, emptyWords = 'Nothing here.') {
        this.all = rows;
        this.emptyWords = emptyWords;
        this.isShown = true;
        this.element.setAttribute('aria-busy', 'false');
        this.arranged();
    }

    // Rows in the order of the column that they are sorted by; the active one stays so.
    arranged() {
        const kept = this.rows[this.active]?.key;
        this.rows = this.columns.inOrder(this.all);
        this.active = kept === undefined ? -1 : this.rows.findIndex((row) => row.key === kept);
        const keys = new Set(this.all.map((row) => row.key));
        for (const key of this.selected) if (!keys.has(key)) this.selected.delete(key);
        // An element keeps its row where it can, so that none changes under the pointer for nothing.
        for (const [index, element] of this.drawn) {
            if (index < this.rows.length) this.fill(element, index);
            else {
                this.spare.push(element);
                this.drawn.delete(index);
            }
        }
        this.space.style.height = `${this.rows.length * this.height}px`;
        this.space.style.minWidth = this.columns.least;
        this.element.setAttribute('aria-rowcount', String(this.rows.length + 1));
        this.element.dataset.rows = String(this.rows.length);
        this.scroll.dataset.empty = this.rows.length === 0 ? this.emptyWords ?? '' : '';
        this.draw();
        this.settle();
        this.cells?.shown();
    }

    resized() {
        const height = rowHeight();
        if (height === this.height) this.later();
        else {
            this.height = height;
            this.arranged();
        }
    }

    draw() {
        const begun = performance.now();
        const { scrollTop, clientHeight } = this.scroll;
        const first = Math.max(0, Math.floor(scrollTop / this.height) - SPARE);
        const last = Math.min(this.rows.length, Math.ceil((scrollTop + clientHeight) / this.height) + SPARE);
        for (const [index, element] of this.drawn) {
            if (index < first || index >= last) {
                this.spare.push(element);
                this.drawn.delete(index);
            }
        }
        for (let index = first; index < last; index += 1) {
            if (!this.drawn.has(index)) this.drawn.set(index, this.fill(this.spare.pop() ?? this.fresh(), index));
        }
        for (const element of this.spare.splice(0)) element.remove();
        clearTimeout(this.settling);
        this.settling = setTimeout(() => this.settle(), SETTLES);
        const cell = this.cells && this.columns.at >= 0 ? `-${this.columns.at}` : '';
        const active = this.drawn.has(this.active) ? `${this.id}-${this.active}${cell}` : null;
        if (active) this.element.setAttribute('aria-activedescendant', active);
        else this.element.removeAttribute('aria-activedescendant');
        this.element.dataset.drawn = String(this.drawn.size);
        this.element.dataset.took = (performance.now() - begun).toFixed(2);
    }

    // Once it stands still, the elements stand in the order of their rows, as a screen reader goes through them.
    settle() {
        const rows = [...this.drawn].sort(([one], [other]) => one - other).map(([, element]) => element);
        if (rows.some((element, place) => this.space.children[place] !== element)) this.space.replaceChildren(...rows);
    }

    fresh() {
        const cells = this.columns.columns.map((column, place) => make('div', {
            role: 'gridcell', 'aria-colindex': place + 1,
        }, ''));
        return this.space.appendChild(make('div', { role: 'row' }, ...cells));
    }

    /** Rows that went out of view are filled with those that came into it.
     * @param {HTMLElement} element @param {number} index */
    fill(element, index) {
        const row = this.rows[index];
        this.columns.columns.forEach((column, place) => {
            fillCell(element.children[place], column, row);
        });
        this.cells?.fill(element, row, `${this.id}-${index}`);
        element.id = `${this.id}-${index}`;
        element.style.gridTemplateColumns = this.columns.template;
        element.setAttribute('aria-rowindex', String(index + 2));
        element.dataset.index = String(index);
        element.dataset.key = String(row.key);
        element.style.transform = `translateY(${index * this.height}px)`;
        this.mark(element, index);
        return element;
    }

    /** @param {HTMLElement} element @param {number} index */
    mark(element, index) {
        const row = this.rows[index];
        element.className = `list-row ${row.mark ?? ''} ${index === this.active ? 'active' : ''}`;
        this.cells?.mark(element, row, index === this.active);
        const chosen = this.several ? this.selected.has(row.key) : index === this.active;
        element.setAttribute('aria-selected', chosen ? 'true' : 'false');
    }

    /** A row is drawn anew, since what was typed into it has changed.
     * @param {R['key']} key */
    refill(key) {
        const index = this.rows.findIndex((row) => row.key === key);
        const element = this.drawn.get(index);
        if (element) this.fill(element, index);
    }

    marks() {
        for (const [index, element] of this.drawn) this.mark(element, index);
    }
}
