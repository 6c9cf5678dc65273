// A list of any number of rows, of which only those in view are elements. It is a grid to a screen reader, and goes by
// the arrow keys; the row that is active is said through aria-activedescendant.

import { targetOf } from './dom.js';
import { DrawnList } from './list-drawn.js';

/** @typedef {import('./list-columns.js').ListRow} ListRow */
/** @typedef {'' | 'range' | 'one more'} How a row is chosen: alone, all from the one before, or beside others */
/** What hears what is done with rows.
 * @template R @typedef {{ choose?: (row: R) => unknown, open?: (row: R, withShift: boolean) => unknown,
 *     remove?: (row: R | null) => unknown, drag?: (row: R, event: PointerEvent) => unknown,
 *     select?: (rows: R[]) => unknown }} Hears */

/** The element of the row at which an event happened.
 * @param {Event} event @returns {HTMLElement | null} */
function rowOf(event) {
    return targetOf(event).closest('.list-row');
}

/** @template {ListRow} R @extends {DrawnList<R>} */
export class List extends DrawnList {
    /** @param {string} label @param {import('./list-columns.js').Column<R>[]} columns @param {Hears<R>} hears
     * @param {boolean} several more than one row may be chosen */
    constructor(label, columns, hears = {}, several = false) {
        super(label, columns, several);
        this.hears = hears;
        /** @type {R['key'] | undefined} */
        this.anchor = undefined;
        this.element.addEventListener('keydown', (event) => this.key(event));
        this.space.addEventListener('click', (event) => this.click(event));
        this.space.addEventListener('dblclick', (event) => this.double(event));
        this.space.addEventListener('pointerdown', (event) => this.press(event));
        this.space.addEventListener('pointerover', (event) => this.hint(event));
    }

    /** @param {number} index @param {boolean} tell @param {How} how */
    choose(index, tell = true, how = '') {
        if (this.rows.length === 0) return;
        this.active = Math.max(0, Math.min(this.rows.length - 1, index));
        if (this.several) this.selectBy(how);
        this.marks();
        this.reveal();
        if (tell) this.hears.choose?.(this.rows[this.active]);
        if (tell) this.hears.select?.(this.chosenRows());
    }

    /** @param {How} how */
    selectBy(how) {
        const { key } = this.rows[this.active];
        if (how === 'range' && this.anchor !== undefined) {
            const from = Math.max(0, this.rows.findIndex((row) => row.key === this.anchor));
            const [low, high] = [Math.min(from, this.active), Math.max(from, this.active)];
            this.selected = new Set(this.rows.slice(low, high + 1).map((row) => row.key));
            return;
        }
        if (how === 'one more') {
            if (!this.selected.delete(key)) this.selected.add(key);
        } else this.selected = new Set([key]);
        this.anchor = key;
    }

    /** The row of a key, chosen and in view.
     * @param {R['key']} key @param {boolean} tell */
    chooseKey(key, tell = false) {
        const index = this.rows.findIndex((row) => row.key === key);
        if (index >= 0) this.choose(index, tell);
        return index >= 0;
    }

    /** Rows by their keys, and none other.
     * @param {Iterable<R['key']>} keys */
    selectKeys(keys) {
        this.selected = new Set(keys);
        this.marks();
    }

    none() {
        this.active = -1;
        this.selected.clear();
        this.marks();
    }

    reveal() {
        const top = this.active * this.height;
        const height = this.scroll.clientHeight;
        if (top < this.scroll.scrollTop) this.scroll.scrollTop = top;
        else if (top + this.height > this.scroll.scrollTop + height) this.scroll.scrollTop = top + this.height - height;
        this.draw();
    }

    chosen() {
        return this.rows[this.active] ?? null;
    }

    chosenRows() {
        return this.rows.filter((row) => this.selected.has(row.key));
    }

    open(withShift = false) {
        const row = this.chosen();
        if (row) this.hears.open?.(row, withShift);
    }

    /** @param {KeyboardEvent} event */
    key(event) {
        if (event.altKey || event.metaKey) return;
        if (this.cells?.begunBy(event)) {
            event.preventDefault();
            return;
        }
        const page = Math.max(1, Math.floor(this.scroll.clientHeight / this.height) - 1);
        /** @type {Object<string, number>} */
        const moves = { ArrowDown: 1, ArrowUp: -1, PageDown: page, PageUp: -page, Home: -Infinity, End: Infinity };
        if (event.key in moves) this.choose(this.active + moves[event.key], true, event.shiftKey ? 'range' : '');
        else if (event.ctrlKey && event.key.toLowerCase() === 'a' && this.several) {
            this.selectKeys(this.rows.map((row) => row.key));
            this.hears.select?.(this.chosenRows());
        } else if (event.ctrlKey) return;
        else if (event.key === 'Enter') this.open(event.shiftKey);
        else if (event.key === 'Delete' && (this.chosen() || this.selected.size > 0)) {
            this.hears.remove?.(this.chosen());
        } else if (!this.columns.key(event.key)) return;
        if (this.cells) {
            this.marks();
            this.draw();
        }
        event.preventDefault();
    }

    /** @param {MouseEvent} event */
    click(event) {
        const element = rowOf(event);
        const how = event.shiftKey ? 'range' : event.ctrlKey || event.metaKey ? 'one more' : '';
        if (this.cells) this.columns.go(this.fieldAt(event));
        if (element) this.choose(Number(element.dataset.index), true, how);
    }

    /** The field of the cell that a pointer is over, where it has one.
     * @param {Event} event */
    fieldAt(event) {
        const place = Number(targetOf(event).closest('[role="gridcell"]')?.getAttribute('aria-colindex')) - 1;
        return this.columns.columns[place]?.field;
    }

    /** @param {Event} event */
    double(event) {
        const row = this.chosen();
        const field = this.fieldAt(event);
        if (!row || field === undefined || !this.cells?.open(String(row.key), field)) this.open();
    }

    /** @param {PointerEvent} event */
    press(event) {
        const element = rowOf(event);
        if (element && event.button === 0) this.hears.drag?.(this.rows[Number(element.dataset.index)], event);
    }

    /** A text that is cut off is told by a tooltip.
     * @param {Event} event */
    hint(event) {
        /** @type {HTMLElement | null} */
        const cell = targetOf(event).closest('[role="gridcell"]');
        const cut = [cell, cell?.querySelector('.stem')].some((each) => each && each.scrollWidth > each.clientWidth);
        if (cell && cut) cell.title = cell.textContent ?? '';
    }
}
