// Finding in a plan: titles and reels, and items whose lent clip was recalled or is shown for the last time.

import { button, counted, make, say } from './dom.js';
import { foundIn, lentStateOf, nextOf } from './find-model.js';

export class DayFind {
    /** @param {import('./view-day.js').DayView} view */
    constructor(view) {
        this.view = view;
        /** @type {import('./day-model.js').Block[]} those whose clip was recalled */
        this.blocks = [];
        this.input = make('input', { id: 'plan-search', type: 'search', placeholder: 'title or reel in the plan',
            'aria-label': 'Find in the plan' });
        this.count = make('span', { id: 'plan-found' });
        this.input.addEventListener('input', () => this.found(false));
        this.input.addEventListener('keydown', (event) => {
            if (event.key !== 'Enter') return;
            event.preventDefault();
            this.found(true, event.shiftKey ? -1 : 1);
        });
        this.recalled = button('Next recalled', () => this.nextRecalled(), { id: 'next-recalled', hidden: true });
        this.last = make('span', { id: 'last-day', hidden: true });
        this.element = make('div', { class: 'group' }, this.input, this.count, this.recalled, this.last);
    }

    /** Enter brings the next one into view, with Shift the one before.
     * @param {boolean} brings @param {number} step */
    found(brings, step = 1) {
        const { view } = this;
        if (!view.day) return;
        const blocks = foundIn(view.day.blocks, this.input.value);
        const next = brings ? nextOf(blocks, view.timeline.cursor, step) : null;
        if (next) view.choice.bringItem(next.number);
        const at = next ? `${blocks.indexOf(next) + 1} of ` : '';
        this.count.textContent = this.input.value.trim() === '' ? '' : `${at}${blocks.length} found`;
    }

    shown() {
        const { view } = this;
        const { recalled, last } = lentStateOf(view.day.blocks, view.titles, view.number);
        this.blocks = recalled;
        this.recalled.hidden = recalled.length === 0;
        this.recalled.textContent = `Next recalled (${recalled.length})`;
        this.last.hidden = last.length === 0;
        const whose = last.length === 1 ? 'its' : 'their';
        this.last.textContent = `${counted(last.length, 'item')} in the last day of ${whose} loan`;
        this.found(false);
    }

    nextRecalled() {
        const next = nextOf(this.blocks, this.view.timeline.cursor);
        if (!next) return;
        this.view.choice.bringItem(next.number);
        say(`Item ${next.number}, ${next.source} ${next.title}, is recalled.`, 'bad', this.view.edits.place);
    }
}
