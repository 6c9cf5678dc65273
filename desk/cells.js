// Cells of a list that are changed in their place, as a spreadsheet's are. What is typed into the cells of a row is one
// change: Enter sends it, Escape gives the row back. Until it was done it stands in its cells, over a reload too.

import { announce, freshId, make, unsay } from './dom.js';
import { kept, put } from './tab.js';
import { CellError } from './cells-model.js';

/** @typedef {{ field: string, words: string }} Fault */
/** @typedef {{ row: any, typed: Object<string, string>, fault: Fault | null, sending: boolean }} Draft row: as it was
 *     when it was first typed into */
/** @typedef {{
 *     fields: string[],
 *     may: (row: any) => boolean,
 *     text: (row: any, field: string) => string,
 *     begins: (field: string, key: string) => boolean,
 *     name: (row: any) => string,
 *     changed: (row: any, typed: Object<string, string>) => Object<string, string>,
 *     isSame: (row: any, now: any) => boolean,
 *     now: (row: any) => string,
 *     read: (row: any, typed: Object<string, string>) => any,
 *     send: (row: any, value: any, typed: Object<string, string>) => Promise<Fault | null>,
 *     lost: (words: string) => void,
 * }} Hears what the rows mean: `read` throws an error with a field, `send` says what was refused, or null */

export class Cells {
    /** @param {import('./list.js').List<any>} list @param {Hears} hears
     * @param {string} key under which what is typed is kept in the tab */
    constructor(list, hears, key) {
        this.list = list;
        this.hears = hears;
        this.key = key;
        /** @type {Map<string, Draft>} */
        this.drafts = new Map(Object.entries(kept(key) ?? {}));
        /** @type {{ key: string, field: string } | null} */
        this.at = null;
        const id = freshId('cell-fault');
        this.input = make('input', { class: 'cell-input', spellcheck: 'false', autocomplete: 'off', tabindex: -1,
            'aria-label': 'Cell', 'aria-describedby': id });
        this.fault = make('p', { class: 'fault cell-fault', id });
        this.element = make('div', { class: 'cell-edit', hidden: true }, this.input, this.fault);
        list.scroll.append(this.element);
        list.element.classList.add('with-cells');
        this.input.addEventListener('input', () => this.wasTyped());
        this.element.addEventListener('keydown', (/** @type {KeyboardEvent} */ event) => this.inputKey(event));
        this.element.addEventListener('focusout', (/** @type {FocusEvent} */ event) => this.left(event));
        for (const type of ['click', 'dblclick', 'pointerdown']) {
            this.element.addEventListener(type, (/** @type {Event} */ event) => event.stopPropagation());
        }
        list.cells = this;
    }

    /** @param {string} key @returns {any} */
    rowOf(key) {
        return this.list.rows.find((row) => row.key === key) ?? null;
    }

    /** What was typed stands in the cells of a row; id: the row's.
     * @param {HTMLElement} element @param {{ key: string | number }} row @param {string} id */
    fill(element, row, id) {
        const typed = this.drafts.get(String(row.key))?.typed ?? {};
        this.list.columns.columns.forEach((column, place) => {
            const cell = element.children[place];
            cell.id = `${id}-${place}`;
            const text = column.field === undefined ? undefined : typed[column.field];
            if (text === undefined) return;
            cell.textContent = text;
            cell.classList.add('typed');
        });
    }

    /** @param {HTMLElement} element @param {{ key: string | number }} row @param {boolean} isActive */
    mark(element, row, isActive) {
        const draft = this.drafts.get(String(row.key));
        if (draft) element.classList.add(draft.sending ? 'sending' : draft.fault ? 'refused-here' : 'typed-here');
        const at = isActive ? this.list.columns.at : -1;
        [...element.children].forEach((cell, place) => cell.classList.toggle('at', place === at));
    }

    keep() {
        put(this.key, Object.fromEntries(this.drafts));
    }

    /** The field of the column that is chosen.
     * @returns {string | undefined} */
    field() {
        const { columns } = this.list;
        return columns.columns[columns.at]?.field;
    }

    /** Keys of the list: F2, and what a cell's text begins with. Any other is the list's own.
     * @param {KeyboardEvent} event */
    begunBy(event) {
        const row = this.list.chosen();
        if (!row || event.ctrlKey || !this.hears.may(row)) return false;
        if (event.key === 'F2') return this.open(row.key, this.field() ?? this.hears.fields[0]);
        const field = this.field();
        if (field === undefined || !this.hears.begins(field, event.key)) return false;
        return this.open(row.key, field, event.key);
    }

    /** A cell is opened; text: what its text begins with, in the place of what it has.
     * @param {string} key @param {string} field @param {string | null} text */
    open(key, field, text = null) {
        const row = this.rowOf(key);
        if (!row || !this.hears.may(row) || this.drafts.get(key)?.sending) return false;
        const draft = this.drafts.get(key) ?? { row, typed: {}, fault: null, sending: false };
        this.drafts.set(key, draft);
        if (text !== null) draft.typed[field] = text;
        this.at = { key, field };
        this.list.columns.go(field);
        this.list.chooseKey(key);
        const name = this.list.columns.columns[this.list.columns.at].name;
        this.input.setAttribute('aria-label', `${name} of ${this.hears.name(row)}`);
        this.input.value = draft.typed[field] ?? this.hears.text(row, field);
        this.element.hidden = false;
        this.place();
        this.showFault(draft);
        this.input.focus({ preventScroll: true });
        this.input.setSelectionRange(this.input.value.length, this.input.value.length);
        return true;
    }

    // Over its cell; what is said of it below, or above at the list's end.
    place() {
        const { list, at } = this;
        const index = list.rows.findIndex((row) => row.key === at?.key);
        const cell = /** @type {HTMLElement | undefined} */ (list.drawn.get(index)?.children[list.columns.at]);
        if (!cell) return;
        const { style } = this.element;
        [style.top, style.height] = [`${index * list.height}px`, `${list.height}px`];
        [style.left, style.width] = [`${cell.offsetLeft - 4}px`, `${cell.offsetWidth + 8}px`];
        const below = (index + 1) * list.height - list.scroll.scrollTop;
        this.element.classList.toggle('above', below > list.scroll.clientHeight / 2);
        this.element.classList.toggle('to-left', cell.offsetLeft > list.scroll.clientWidth / 2);
    }

    /** @param {Draft} draft */
    showFault(draft) {
        const words = draft.fault && draft.fault.field === this.at?.field ? draft.fault.words : '';
        this.fault.textContent = words;
        if (words) this.input.setAttribute('aria-invalid', 'true');
        else this.input.removeAttribute('aria-invalid');
    }

    wasTyped() {
        const draft = this.at && this.drafts.get(this.at.key);
        if (!draft || !this.at) return;
        draft.typed[this.at.field] = this.input.value;
        draft.fault = null;
        this.showFault(draft);
        this.keep();
    }

    /** @param {KeyboardEvent} event */
    inputKey(event) {
        event.stopPropagation();
        const does = {
            Enter: () => this.commit(), Escape: () => this.giveBack(),
            Tab: () => this.next(event.shiftKey ? -1 : 1),
            ArrowDown: () => this.toRow(1), ArrowUp: () => this.toRow(-1),
        }[event.key];
        if (!does || event.altKey || event.ctrlKey || event.metaKey) return;
        event.preventDefault();
        does();
    }

    /** Where the focus goes elsewhere on the page, what was typed is sent, as by Enter.
     * @param {FocusEvent} event */
    left(event) {
        const inside = event.relatedTarget instanceof Node && this.element.contains(event.relatedTarget);
        if (this.at && !inside && document.hasFocus()) this.commit(false);
    }

    /** The next cell of the row, or the one before; behind the last one the row is sent.
     * @param {number} step */
    next(step) {
        if (!this.at) return;
        const { key, field } = this.at;
        const { fields } = this.hears;
        const to = fields[fields.indexOf(field) + step];
        if (to) {
            this.list.refill(key);
            this.open(key, to);
        } else this.toRow(step, step > 0 ? fields[0] : fields[fields.length - 1]);
    }

    /** The row below or above, once this one is sent.
     * @param {number} step @param {string | null} field */
    toRow(step, field = null) {
        if (!this.at) return;
        const index = this.list.rows.findIndex((row) => row.key === this.at?.key) + step;
        if (!this.commit() || !this.list.rows[index]) return;
        this.list.choose(index);
        if (field) this.open(this.list.rows[index].key, field);
    }

    /** @param {boolean} focuses whether the list has the focus then */
    close(focuses = true) {
        const key = this.at?.key;
        this.at = null;
        if (focuses) this.list.element.focus({ preventScroll: true });
        this.element.hidden = true;
        this.fault.textContent = '';
        if (key) this.list.refill(key);
    }

    giveBack() {
        if (!this.at) return;
        this.drafts.delete(this.at.key);
        this.keep();
        this.close();
        unsay(); // what was refused is no matter any more
        announce('Given back.');
    }

    /** @param {string} key @param {Draft} draft @param {Fault} fault */
    refuse(key, draft, fault) {
        draft.fault = fault;
        draft.sending = false;
        this.keep();
        announce(fault.words);
        this.list.refill(key);
        // It is shown in its place, unless something else is typed or done by now.
        const isHere = this.list.element.contains(document.activeElement) && (!this.at || this.at.key === key);
        if (isHere) this.open(key, fault.field);
        else if (this.at?.key === key) this.showFault(draft);
    }

    /** Sends what was typed into the row. False where it stays as it is, since something is the matter.
     * @param {boolean} focuses */
    commit(focuses = true) {
        const { at, hears } = this;
        const draft = at && this.drafts.get(at.key);
        if (!at || !draft) return true;
        const row = this.rowOf(at.key);
        const typed = row ? hears.changed(row, draft.typed) : {};
        if (Object.keys(typed).length === 0) {
            this.drafts.delete(at.key);
            this.keep();
            this.close(focuses);
            return true;
        }
        if (!hears.isSame(draft.row, row)) {
            draft.row = row;
            this.refuse(at.key, draft, { field: at.field,
                words: `Changed meanwhile: ${hears.now(row)}. Enter changes it as it is now, Escape gives it back.` });
            return false;
        }
        let value;
        try {
            value = hears.read(row, typed);
        } catch (fault) {
            if (!(fault instanceof CellError)) throw fault;
            this.refuse(at.key, draft, { field: fault.field, words: fault.message });
            return false;
        }
        draft.sending = true;
        this.close(focuses);
        this.sent(at.key, draft, hears.send(row, value, typed));
        return true;
    }

    /** @param {string} key @param {Draft} draft @param {Promise<Fault | null>} answer */
    async sent(key, draft, answer) {
        const fault = await answer;
        if (fault) this.refuse(key, draft, fault);
        else if (this.drafts.get(key) === draft) {
            this.drafts.delete(key);
            this.keep();
            this.list.refill(key);
        }
        this.shown();
    }

    /** The list has other rows. What was typed into one that isn't there any more is said. */
    shown() {
        if (!this.list.isShown) return;
        for (const [key, draft] of this.drafts) {
            const row = this.rowOf(key);
            if (draft.sending || (row && this.hears.may(row))) continue;
            this.drafts.delete(key);
            this.keep();
            if (this.at?.key === key) this.close();
            const { columns } = this.list;
            const typed = Object.entries(draft.typed).map(([field, text]) => `${columns.nameOf(field)} ${text}`);
            if (typed.length > 0) {
                this.hears.lost(`${this.hears.name(draft.row)} can't be changed any more: ${this.hears.now(row)}. You `
                    + `had typed: ${typed.join(', ')}.`);
            }
        }
        const draft = this.at && this.drafts.get(this.at.key);
        if (!this.at || !draft) return;
        const row = this.rowOf(this.at.key);
        if (!this.hears.isSame(draft.row, row)) {
            this.fault.textContent = `Changed meanwhile: ${this.hears.now(row)}. What you typed is kept.`;
        }
        this.place();
    }
}
