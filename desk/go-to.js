// A label is typed, and the time line and its list go there: in the day, and in what went out.

import { announce, freshId, make } from './dom.js';
import { completed, frameOf, placeOf } from './timecode.js';
import { sentenceOf } from './refusals.js';

/** @typedef {import('./day-model.js').Day} Day */

export class GoTo {
    /** @param {() => Day | null} day @param {(place: number) => void} goes */
    constructor(day, goes) {
        this.day = day;
        this.goes = goes;
        const id = freshId('go-to-fault');
        this.input = make('input', { id: 'go-to', class: 'label', accesskey: 'g', placeholder: 'go to a label',
            title: 'Alt+G, a label, Enter', 'aria-label': 'Go to a label', 'aria-describedby': id });
        this.fault = make('span', { class: 'fault', id });
        this.element = make('div', { class: 'group' }, this.input, this.fault);
        this.input.addEventListener('keydown', (/** @type {KeyboardEvent} */ event) => {
            if (event.key !== 'Enter') return;
            event.preventDefault();
            this.typed();
        });
    }

    typed() {
        const day = this.day();
        if (!day) return;
        this.input.value = completed(this.input.value, day.rate);
        const { frame, fault } = frameOf(this.input.value, day.rate);
        this.fault.textContent = frame === undefined ? sentenceOf({ code: fault ?? 1 }) : '';
        if (frame === undefined) {
            this.input.setAttribute('aria-invalid', 'true');
            announce(this.fault.textContent);
            return;
        }
        this.input.removeAttribute('aria-invalid');
        this.input.select();
        this.goes(placeOf(frame, day.start, day.rate));
    }
}
