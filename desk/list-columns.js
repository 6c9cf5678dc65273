// The columns of a list: how wide they are, and by which of them its rows are sorted. Widths are kept in the browser.

import { make, announce } from './dom.js';

/** A row of a list: its mark is a class of its looks.
 * @typedef {{ key: string | number, mark?: string }} ListRow */
/** A column: what a row has there, its looks, and what it is sorted by; field: what its cells are, where they are
 * changed in their place; tail: the end of a text is seen too.
 * @template R @typedef {{ name: string, width: string, text: (row: R) => string | number, align?: string,
 *     mark?: (row: R) => string, sort?: (row: R) => string | number | null | undefined, field?: string,
 *     tail?: boolean }} Column */

const LEAST = 2.5;
const STEP = 1;
const GAP = 0.85;
const EDGE = 1.3;
const TAIL = 9;

export function rem() {
    return parseFloat(getComputedStyle(document.documentElement).fontSize) || 16;
}

/** The rems that a column has at least, as its `width` says.
 * @param {string} width */
function leastOf(width) {
    return Number(/([\d.]+)rem/.exec(width)?.[1] ?? LEAST);
}

/** A text of which the begin and the end are seen where it is too long: titles of a series differ in their ends.
 * @param {string} text */
function tailed(text) {
    const tail = text.length > TAIL + 4 ? text.slice(-TAIL) : '';
    return [make('span', { class: 'stem' }, text.slice(0, text.length - tail.length)),
        ...(tail ? [make('span', { class: 'tail' }, tail)] : [])];
}

/** @template R @param {Element} cell @param {Column<R>} column @param {R} row */
export function fillCell(cell, column, row) {
    const text = String(column.text(row));
    cell.className = `${column.align ?? 'left'} ${column.mark?.(row) ?? ''} ${column.tail ? 'tailed' : ''}`;
    if (column.tail) cell.replaceChildren(...tailed(text));
    else cell.textContent = text;
    cell.removeAttribute('title');
}

/** @template R */
export class Columns {
    /** @param {string} label @param {Column<R>[]} columns @param {() => void} changed where rows are drawn anew */
    constructor(label, columns, changed) {
        this.columns = columns;
        this.changed = changed;
        this.kept = `desk/columns/${label}`;
        this.at = -1;
        this.sorted = { index: -1, down: false };
        /** @type {Object<string, number>} */
        this.widths = JSON.parse(localStorage.getItem(this.kept) ?? '{}');
        this.template = '';
        this.least = '';
        this.cells = columns.map((column, index) => this.cell(column, index));
        this.element = make('div', { role: 'row', class: 'list-head', 'aria-rowindex': 1 }, ...this.cells);
        this.lay();
    }

    /** @param {Column<R>} column @param {number} index */
    cell(column, index) {
        const grip = make('span', { class: 'grip', on: { pointerdown: (event) => this.grip(event, index) } });
        const word = make('span', { class: 'head-word' }, column.name);
        return make('div', {
            role: 'columnheader', 'aria-colindex': index + 1, class: `head-cell ${column.align ?? 'left'}`,
            title: `${column.name}: a click sorts`,
            on: { click: (event) => (event.target === grip ? null : this.sortBy(index)) },
        }, word, grip);
    }

    // The grid's columns, and how wide all of them are at least.
    lay() {
        const widths = this.columns.map((column) => (this.widths[column.name] ? `${this.widths[column.name]}rem`
            : column.width));
        this.template = widths.join(' ');
        const sum = widths.reduce((all, width) => all + leastOf(width) + GAP, EDGE - GAP);
        this.least = `${sum.toFixed(2)}rem`;
        this.element.style.gridTemplateColumns = this.template;
        this.element.style.minWidth = this.least;
    }

    /** @param {number} index */
    widthOf(index) {
        return this.cells[index].getBoundingClientRect().width / rem();
    }

    /** @param {number} index @param {number} width */
    widen(index, width) {
        this.widths[this.columns[index].name] = Math.round(Math.max(LEAST, width) * 10) / 10;
        localStorage.setItem(this.kept, JSON.stringify(this.widths));
        this.lay();
        this.changed();
    }

    reset() {
        this.widths = {};
        localStorage.removeItem(this.kept);
        this.lay();
        this.changed();
    }

    /** A column's edge is pulled.
     * @param {PointerEvent} event @param {number} index */
    grip(event, index) {
        event.preventDefault();
        event.stopPropagation();
        const [begun, width] = [event.clientX, this.widthOf(index)];
        const move = (/** @type {PointerEvent} */ moved) => this.widen(index, width + (moved.clientX - begun) / rem());
        const end = () => {
            for (const type of ['pointerup', 'pointercancel']) removeEventListener(type, end);
            removeEventListener('pointermove', move);
        };
        addEventListener('pointermove', move);
        for (const type of ['pointerup', 'pointercancel']) addEventListener(type, end);
    }

    /** Up, then down, then as the office has them.
     * @param {number} index */
    sortBy(index) {
        const { sorted } = this;
        if (sorted.index !== index) this.sorted = { index, down: false };
        else this.sorted = sorted.down ? { index: -1, down: false } : { index, down: true };
        this.cells.forEach((cell, place) => {
            const way = place === this.sorted.index ? (this.sorted.down ? 'descending' : 'ascending') : null;
            if (way) cell.setAttribute('aria-sort', way);
            else cell.removeAttribute('aria-sort');
        });
        const { name } = this.columns[index];
        announce(this.sorted.index < 0 ? 'No longer sorted.' : `Sorted by ${name}${this.sorted.down ? ', down' : ''}.`);
        this.changed();
    }

    /** @param {R[]} rows */
    inOrder(rows) {
        const { index, down } = this.sorted;
        if (index < 0) return rows;
        const column = this.columns[index];
        const keyed = rows.map((row) => ({ row, value: column.sort?.(row) ?? column.text(row) }));
        const numbers = keyed.every(({ value }) => value === '' || !Number.isNaN(Number(value)));
        keyed.sort((one, other) => (numbers ? Number(one.value) - Number(other.value)
            : String(one.value).localeCompare(String(other.value))));
        if (down) keyed.reverse();
        return keyed.map(({ row }) => row);
    }

    /** The column of a field is chosen, or none.
     * @param {string | undefined} field */
    go(field) {
        this.at = this.columns.findIndex((column) => column.field !== undefined && column.field === field);
        this.cells.forEach((cell, index) => cell.classList.toggle('at', index === this.at));
    }

    /** @param {string} field */
    nameOf(field) {
        return this.columns.find((column) => column.field === field)?.name ?? field;
    }

    /** @param {number} step */
    step(step) {
        this.at = Math.max(0, Math.min(this.columns.length - 1, this.at + step));
        this.cells.forEach((cell, index) => cell.classList.toggle('at', index === this.at));
        announce(`Column ${this.columns[this.at].name}.`);
    }

    /** The keys of columns; false for any other.
     * @param {string} key */
    key(key) {
        if (key === 'ArrowRight') this.step(1);
        else if (key === 'ArrowLeft') this.step(-1);
        else if (this.at < 0) return false;
        else if (key === 's' || key === 'S') this.sortBy(this.at);
        else if (key === '+' || key === '=') this.widen(this.at, this.widthOf(this.at) + STEP);
        else if (key === '-') this.widen(this.at, this.widthOf(this.at) - STEP);
        else if (key === '0') this.reset();
        else return false;
        return true;
    }
}
