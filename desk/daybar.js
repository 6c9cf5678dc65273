// Days are chosen by number or, where the centre has said the date of day 1, by date. The strip tells of the days
// around the chosen one whether each is there, open or sealed.

import { announce, button, clear, make } from './dom.js';
import { dayOnAir, readDays } from './facts.js';
import { Calendar } from './calendar.js';
import { dayNamed } from './dates.js';
import { dayDate, site } from './site.js';

/** @typedef {import('./desk.js').Desk} Desk */

const AROUND = 3;
const MOST = 99999;

/** The day that was shown last in this channel, where the address names none.
 * @param {Desk} desk @param {string[]} more */
export function dayNumber(desk, more) {
    const named = Number(more[0]);
    const key = `${desk.channel}/day`;
    const isDay = Number.isInteger(named) && named >= 1 && named <= MOST;
    const number = isDay ? named : Number(sessionStorage.getItem(key)) || 1;
    sessionStorage.setItem(key, String(number));
    return number;
}

export class DayBar {
    /** @param {Desk} desk @param {string} view @param {number} number @param {import('./office.js').Scope} scope */
    constructor(desk, view, number, scope) {
        this.desk = desk;
        this.view = view;
        this.number = number;
        this.scope = scope;
        const title = site().day1 ? 'its number, or its date as 2026-01-31' : 'its number';
        this.input = make('input', { id: 'day-number', class: 'number', value: number, title,
            'aria-describedby': 'day-fault' });
        this.strip = make('ul', { class: 'days', 'aria-label': 'Days around this one' });
        this.fault = make('span', { class: 'fault', id: 'day-fault' });
        const go = (/** @type {Event} */ event) => {
            event.preventDefault();
            this.typed();
        };
        const onAir = () => dayOnAir(desk.channel);
        this.calendar = site().day1 ? new Calendar(number, onAir, (day) => this.address(day),
            (day) => this.wordsOf(day)) : null;
        this.element = make('form', { class: 'daybar', 'aria-label': 'Choose a day', on: { submit: go } },
            make('label', { for: 'day-number' }, 'Day'), this.input,
            make('span', { class: 'date', id: 'day-date' }, dayDate(number)),
            make('button', { type: 'submit' }, 'Go'), this.fault,
            button('<', () => this.go(number - 1), { 'aria-label': 'The day before' }),
            button('>', () => this.go(number + 1), { 'aria-label': 'The day after' }), this.calendar?.element,
            this.strip);
        /** @type {Map<number, import('./tables.js').DayRow> | null} */
        this.known = null;
        this.show();
    }

    typed() {
        const { day, fault } = dayNamed(this.input.value, site().day1);
        this.fault.textContent = fault ?? '';
        if (fault) this.input.setAttribute('aria-invalid', 'true');
        else this.input.removeAttribute('aria-invalid');
        if (fault) announce(fault);
        else if (day !== undefined) this.go(day);
    }

    /** @param {number} day */
    address(day) {
        return `#/${this.desk.channel}/${this.view}/${day}`;
    }

    /** @param {number} number */
    go(number) {
        if (number >= 1 && number <= MOST) this.desk.goTo(this.view, number);
    }

    days() {
        const first = Math.max(1, this.number - AROUND);
        return Array.from({ length: 2 * AROUND + 1 }, (_, index) => first + index).filter((day) => day <= MOST);
    }

    async around() {
        this.known = await readDays(this.scope, this.desk.channel) ?? this.known;
        this.show();
        this.calendar?.again();
    }

    /** Of a day in the calendar.
     * @param {number} day */
    wordsOf(day) {
        const state = this.stateOf(day);
        const row = this.known?.get(day);
        return row && !row.sealed && row.frames < this.desk.rate().day ? `${state}, gaps` : state.replace('none', '');
    }

    /** @param {number} day */
    stateOf(day) {
        if (!this.known) return '';
        const row = this.known.get(day);
        if (!row) return 'none';
        return row.sealed ? 'sealed' : 'open';
    }

    show() {
        const had = document.activeElement?.closest('.days a')?.getAttribute('href');
        clear(this.strip, ...this.days().map((day) => {
            const state = this.stateOf(day);
            const date = dayDate(day);
            return make('li', {}, make('a', {
                href: this.address(day), class: state, 'aria-current': day === this.number ? 'true' : null,
            }, make('b', {}, String(day)), ` ${state === 'none' ? 'not there' : state || '...'}`,
            date ? make('small', {}, date) : null));
        }));
        if (had) /** @type {HTMLElement | null} */ (this.strip.querySelector(`a[href="${had}"]`))?.focus();
    }
}
