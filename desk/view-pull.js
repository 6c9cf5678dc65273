// The pull list of a day: its tapes by slot, which are out, and what is on them. It is printed and saved as any view.

import { clear, counted, make, say } from './dom.js';
import { clipsOf, vaultOf } from './tables.js';
import { DayBar, dayNumber } from './daybar.js';
import { List } from './list.js';
import { pullRows } from './pull-model.js';
import { readPlan } from './facts.js';
import { refusedIn } from './requests.js';
import { sentenceOf } from './refusals.js';

/** @typedef {import('./desk.js').Desk} Desk */
/** @typedef {import('./office.js').Scope} Scope */

/** @type {import('./list-columns.js').Column<import('./pull-model.js').PullRow>[]} */
const COLUMNS = [
    { name: 'Slot', width: '4.5rem', align: 'right', text: (row) => row.slot ?? 'OUT', mark: () => 'number',
        sort: (row) => row.slot ?? 100000 },
    { name: 'Barcode', width: '7rem', text: (row) => row.barcode, mark: () => 'code' },
    { name: 'Tape', width: '4.5rem', align: 'right', text: (row) => row.tape, mark: () => 'number' },
    { name: 'First at', width: '6.6rem', text: (row) => row.first, mark: () => 'code', sort: (row) => row.place },
    { name: 'Items', width: '4rem', align: 'right', text: (row) => row.uses, mark: () => 'number' },
    { name: 'Clips', width: 'minmax(12rem, 1fr)', text: (row) => row.clips },
];

class PullList {
    /** @param {HTMLElement} main @param {Desk} desk @param {number} number @param {Scope} scope */
    constructor(main, desk, number, scope) {
        this.desk = desk;
        this.number = number;
        this.scope = scope;
        this.bar = new DayBar(desk, 'pull', number, scope);
        this.list = new List('Tapes of the day, by slot', COLUMNS, { open: () => desk.goTo('vault') });
        this.summary = make('p', { class: 'summary', id: 'pull-summary' }, 'Loading...');
        clear(main, make('div', { class: 'bar' }, this.bar.element, this.summary),
            make('section', { class: 'work', 'aria-label': 'Pull list' }, this.list.element));
    }

    async again() {
        const { channel } = this.desk;
        const [{ plan, answer }, clips, tapes] = await Promise.all([readPlan(this.scope, channel, this.number),
            this.scope.read(`/ch/${channel}/clips`), this.scope.read(`/ch/${channel}/tapes`), this.bar.around()]);
        if (!plan || clips.kind !== 'done' || tapes.kind !== 'done') {
            const fault = refusedIn([answer, clips, tapes]);
            this.list.show([], fault?.code === 71 ? 'This day isn\'t there.' : 'It can\'t be read now.');
            this.summary.textContent = fault ? sentenceOf(fault) : '';
            if (fault && fault.code !== 71) say(sentenceOf(fault), 'bad');
            return;
        }
        this.show(pullRows(plan, clipsOf(clips.text), vaultOf(tapes.text).tapes, this.desk.start(), this.desk.rate()));
    }

    /** @param {import('./pull-model.js').PullRow[]} rows */
    show(rows) {
        const out = rows.filter((row) => row.slot === null).length;
        this.list.show(rows.map((row) => ({ ...row, mark: row.slot === null ? 'out' : '' })),
            'No tape of this channel is needed for the day.');
        this.summary.textContent = `${counted(rows.length, 'tape')}, ${out} of them out`;
    }

    sheet() {
        return {
            title: `Pull list of day ${this.number}`, words: `${this.summary.textContent}.`, day: this.number,
            columns: COLUMNS, rows: this.list.rows,
        };
    }
}

/** @param {HTMLElement} main @param {Desk} desk @param {string[]} more @param {Scope} scope */
export function pullView(main, desk, more, scope) {
    return new PullList(main, desk, dayNumber(desk, more), scope);
}
