// A week or a month of the channel's days: which are there, open, with gaps or sealed. Enter or a click opens one.

import { announce, button, clear, counted, make, options } from './dom.js';
import { dayOnAir, readDays } from './facts.js';
import { WEEKDAYS, dateWords } from './dates.js';
import { dayNumber } from './daybar.js';
import { countsOf, dayLines, periodOf, stateOf } from './period-model.js';
import { site } from './site.js';
import { lengthLabel } from './timecode.js';
import { kept, put } from './tab.js';

/** @typedef {import('./desk.js').Desk} Desk */
/** @typedef {import('./period-model.js').Cell} Cell */
/** @typedef {import('./period-model.js').DayState} DayState */

const KIND = 'desk/period';
const STEPS = /** @type {Record<string, number>} */ ({ ArrowLeft: -1, ArrowRight: 1, ArrowUp: -7, ArrowDown: 7 });

class Days {
    /** @param {HTMLElement} main @param {Desk} desk @param {number} number the day that is chosen
     * @param {import('./office.js').Scope} scope */
    constructor(main, desk, number, scope) {
        this.desk = desk;
        this.number = number;
        this.scope = scope;
        /** @type {Map<number, import('./tables.js').DayRow> | null} */
        this.known = null;
        this.kind = make('select', { id: 'period' }, ...options([['week', 'Week'], ['month', 'Month']]));
        this.kind.value = kept(KIND, localStorage) ?? 'month';
        this.period = periodOf(this.kindOf(), number, site().day1);
        this.kind.addEventListener('change', () => {
            put(KIND, this.kind.value, localStorage);
            this.show();
        });
        this.title = make('b', { id: 'period-title' });
        this.summary = make('p', { class: 'summary', id: 'period-summary' }, 'Loading...');
        this.table = make('table', { class: 'period' });
        this.table.addEventListener('keydown', (/** @type {KeyboardEvent} */ event) => this.key(event));
        const today = button('Now', () => this.go(dayOnAir(desk.channel)), { id: 'period-now', hidden: !site().day1 });
        clear(main, make('div', { class: 'bar' }, make('label', { for: 'period' }, 'Show'), this.kind,
            button('<', () => this.go(this.period.before), { 'aria-label': 'The one before' }), this.title,
            button('>', () => this.go(this.period.behind), { 'aria-label': 'The one after' }), today, this.summary),
        make('section', { class: 'period-box', 'aria-label': 'Days' }, this.table));
        this.show();
    }

    async again() {
        this.known = await readDays(this.scope, this.desk.channel) ?? this.known;
        this.show();
    }

    /** @returns {import('./period-model.js').Kind} */
    kindOf() {
        return this.kind.value === 'week' ? 'week' : 'month';
    }

    /** The day that is chosen.
     * @returns {HTMLElement | null} */
    link() {
        return this.table.querySelector('[tabindex="0"]');
    }

    /** @param {Cell} cell @returns {DayState} */
    stateOf(cell) {
        return stateOf(cell.day === null ? undefined : this.known?.get(cell.day), this.desk.rate());
    }

    /** @param {number | null} day */
    go(day) {
        if (day === null) return;
        this.number = day;
        this.show();
    }

    show() {
        const had = this.table.contains(document.activeElement);
        this.period = periodOf(this.kindOf(), this.number, site().day1);
        const { title, weeks } = this.period;
        this.title.textContent = title;
        const names = WEEKDAYS.map((word) => make('th', { scope: 'col' }, word));
        const heads = site().day1 ? [make('tr', {}, ...names)] : [];
        clear(this.table, ...heads, ...weeks.map((week) => make('tr', {}, ...week.map((cell) => this.cell(cell)))));
        this.table.classList.toggle('one-week', weeks.length === 1);
        if (had) this.link()?.focus();
        if (!this.known) return;
        const { sealed, full, gaps, none } = countsOf(weeks.flat().filter((cell) => cell.own && cell.day !== null)
            .map((cell) => this.stateOf(cell)));
        this.summary.textContent = `${counted(sealed, 'day')} sealed, ${full} open and full, ${gaps} with gaps, `
            + `${none} not there`;
    }

    /** @param {Cell} cell */
    cell(cell) {
        const { day, date, own } = cell;
        const number = date ? String(Number(date.slice(8))) : String(day ?? '');
        if (day === null) return make('td', { class: 'no-day' }, number);
        const rate = this.desk.rate();
        const state = this.stateOf(cell);
        const filled = Math.round(100 * state.planned / rate.day);
        const words = this.known ? [state.word, ...dayLines(state, rate, counted)] : ['...'];
        return make('td', { class: own ? '' : 'other' }, make('a', {
            href: `#/${this.desk.channel}/day/${day}`, class: this.known ? state.state : '', 'data-day': day,
            tabindex: day === this.number ? 0 : -1,
            'aria-current': day === dayOnAir(this.desk.channel) ? 'date' : null,
            'aria-label': [`day ${day}`, ...(date ? [dateWords(date)] : []), ...words].join(', '),
        }, make('b', {}, number), make('small', {}, date ? `day ${day}` : ''),
        ...words.map((word, index) => make('span', { class: index === 0 ? 'state-word' : '' }, word)),
        make('meter', { max: 100, value: filled, 'aria-hidden': 'true', hidden: state.state === 'none' })));
    }

    // Arrows go from day to day, Page Up and Page Down to the neighbours.
    /** @param {KeyboardEvent} event */
    key(event) {
        const pages = { PageUp: this.period.before, PageDown: this.period.behind };
        const to = event.key in STEPS ? this.number + STEPS[event.key]
            : pages[/** @type {'PageUp' | 'PageDown'} */ (event.key)];
        if (to === undefined || to < 1 || to > 99999 || event.altKey || event.ctrlKey) return;
        event.preventDefault();
        this.go(to);
        const link = this.link();
        link?.focus();
        if (link) announce(link.getAttribute('aria-label') ?? '');
    }

    sheet() {
        const rate = this.desk.rate();
        const rows = this.period.weeks.flat().filter((/** @type {Cell} */ cell) => cell.own && cell.day !== null)
            .map((/** @type {Cell} */ cell) => ({ ...cell, ...this.stateOf(cell) }));
        /** @typedef {Cell & DayState} Row */
        const columns = [
            { name: 'Day', align: 'right', text: (/** @type {Row} */ row) => row.day ?? '' },
            { name: 'Date', text: (/** @type {Row} */ row) => (row.date ? dateWords(row.date) : '') },
            { name: 'State', text: (/** @type {Row} */ row) => row.word },
            { name: 'Items', align: 'right', text: (/** @type {Row} */ row) => row.items },
            { name: 'Planned', text: (/** @type {Row} */ row) => lengthLabel(row.planned, rate) },
            { name: 'Empty', text: (/** @type {Row} */ row) => lengthLabel(row.empty, rate) },
            { name: 'Batches', align: 'right', text: (/** @type {Row} */ row) => row.batches },
        ];
        return { title: this.period.title, words: `${this.summary.textContent}.`, columns, rows };
    }
}

/** @param {HTMLElement} main @param {Desk} desk @param {string[]} more @param {import('./office.js').Scope} scope */
export function daysView(main, desk, more, scope) {
    return new Days(main, desk, dayNumber(desk, more), scope);
}
