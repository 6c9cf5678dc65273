// A month of dates beside the day's number, where the centre has said the date of day 1. Each says what its day is: not
// there, open, open with gaps, or sealed.

import { button, clear, make } from './dom.js';
import { WEEKDAYS, dateOf, dayOfDate, monthOf } from './dates.js';
import { site, today } from './site.js';

export class Calendar {
    /** @param {number} number @param {() => number | null} onAir @param {(day: number) => string} address
     * @param {(day: number) => string} stateOf */
    constructor(number, onAir, address, stateOf) {
        this.stateOf = stateOf;
        this.number = number;
        this.onAir = onAir;
        this.address = address;
        this.date = '';
        /** @type {ReturnType<typeof monthOf>} */
        this.month;
        this.table = make('table', { class: 'calendar' });
        this.title = make('b', {});
        const turn = (/** @type {'before' | 'behind'} */ way) => () => this.show(this.month[way]);
        this.element = make('details', { class: 'calendar-box' }, make('summary', {}, 'Calendar'),
            make('div', { class: 'calendar-over' },
                make('div', { class: 'bar' }, button('<', turn('before'), { 'aria-label': 'The month before' }),
                    this.title, button('>', turn('behind'), { 'aria-label': 'The month after' })),
                this.table));
        this.element.addEventListener('keydown', (event) => {
            if (event.key !== 'Escape' || !this.element.open) return;
            event.stopPropagation();
            this.element.open = false;
            this.element.querySelector('summary')?.focus();
        });
        this.show(dateOf(site().day1, number) ?? today().date);
    }

    // The states of the days came.
    again() {
        this.show(this.date);
    }

    /** @param {string} date */
    show(date) {
        this.date = date;
        this.month = monthOf(date);
        this.title.textContent = this.month.title;
        const heads = WEEKDAYS.map((word) => make('th', { scope: 'col' }, word));
        clear(this.table, make('tr', {}, ...heads), ...this.month.weeks.map((week) => make('tr', {},
            ...week.map((each) => make('td', {}, this.cell(each))))));
    }

    /** @param {{ date: string, own: boolean }} each */
    cell({ date, own }) {
        const day = dayOfDate(site().day1, date);
        const number = String(Number(date.slice(8)));
        if (day === null) return number;
        const state = this.stateOf(day);
        const looks = [own ? '' : 'other', day === this.number ? 'shown' : '', state.split(',')[0]];
        return make('a', {
            href: this.address(day), class: looks.join(' '),
            'aria-current': day === this.onAir() ? 'date' : null,
        }, number, make('small', {}, `day ${day}${state ? `, ${state}` : ''}`));
    }
}
