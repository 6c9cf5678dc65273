// A source that is dragged from its list to the time line, by mouse or pen. A finger scrolls the list, so none is begun
// by it; and whatever takes the pointer away ends it.

import { make } from './dom.js';
import { gapFrom, indexAt } from './ranges.js';
import { landing } from './day-model.js';

const BEGINS = 5;

/** @typedef {import('./day-model.js').Source} Source */

export class Drag {
    /** @param {import('./view-day.js').DayView} view */
    constructor(view) {
        this.view = view;
        /** @type {Source | null} */
        this.source = null;
        /** @type {HTMLElement | null} */
        this.shadow = null;
        this.from = [0, 0];
        /** @type {[string, (event: any) => void][]} */
        this.listeners = [
            ['pointermove', (event) => this.move(event)], ['pointerup', (event) => this.drop(event)],
            ['pointercancel', () => this.end()], ['blur', () => this.end()],
            ['keydown', (event) => (event.key === 'Escape' ? this.end() : null)],
        ];
    }

    /** @param {Source} source @param {PointerEvent} event */
    begin(source, event) {
        if (event.pointerType === 'touch' || !this.view.day) return;
        this.end();
        this.source = source;
        this.from = [event.clientX, event.clientY];
        for (const [type, hearer] of this.listeners) addEventListener(type, hearer);
    }

    /** @param {PointerEvent} event */
    move(event) {
        if (!this.source) return;
        const far = Math.hypot(event.clientX - this.from[0], event.clientY - this.from[1]);
        if (!this.shadow && far < BEGINS) return;
        if (!this.shadow) {
            this.shadow = make('div', { class: `dragged ${this.source.look}` },
                `${this.source.reel} ${this.source.title}`);
            document.body.append(this.shadow);
            document.body.classList.add('dragging');
        }
        event.preventDefault();
        this.shadow.style.transform = `translate(${event.clientX + 12}px, ${event.clientY + 8}px)`;
        const { timeline } = this.view;
        const lands = this.lands(event);
        timeline.ghost = lands ? lands.landing : null;
        timeline.later();
    }

    /** The gap under the pointer, or the next one where an item is under it.
     * @param {PointerEvent} event */
    lands(event) {
        const { timeline, day } = this.view;
        if (!timeline.covers(event)) return null;
        const place = timeline.placeAt(event.clientX);
        const gap = day.gaps[indexAt(day.gaps, place)] ?? gapFrom(day.gaps, place);
        const { source } = this;
        return gap && source ? { gap, place, landing: landing(gap, source, place, event.shiftKey) } : null;
    }

    /** @param {PointerEvent} event */
    drop(event) {
        const [source, shadow] = [this.source, this.shadow];
        const lands = shadow ? this.lands(event) : null;
        this.end();
        if (lands && source) this.view.sourcing.put(source, lands.gap, true, lands.place, event.shiftKey);
    }

    end() {
        for (const [type, hearer] of this.listeners) removeEventListener(type, hearer);
        if (this.shadow) {
            this.view.timeline.ghost = null;
            this.view.timeline.later();
        }
        this.shadow?.remove();
        this.shadow = null;
        this.source = null;
        document.body.classList.remove('dragging');
    }
}
