// What the pointer does on a time line: it chooses, pans, and moves or trims an item that was chosen before. Pointer
// events alone; a finger pans and chooses.

import { OVERVIEW, RULER, PLAN } from './timeline-draw.js';
import { endOf, snapped } from './ranges.js';

/** @typedef {import('./timeline.js').TimeLine} TimeLine */
/** @typedef {import('./timeline.js').Ghost} Ghost */
/** @typedef {import('./day-model.js').Block} Block */
/** @typedef {import('./ranges.js').Range} Range */
/** @typedef {import('./list.js').How} How */
/** What hears of it; words: what is at a place.
 * @typedef {{ choose?: (block: Block | null, how: How) => unknown, open?: (place: number) => unknown,
 *     remove?: (block: Block | null) => unknown, nextFault?: (place: number) => unknown,
 *     words?: (place: number) => string, cursor?: (place: number) => unknown, mayEdit?: () => boolean,
 *     move?: (step: number) => unknown, trim?: (block: Block, range: Range) => unknown }} Hears */
/** @typedef {{ block: Block, edge: 'begin' | 'end' | null }} Grasped */
/** @typedef {{ x: number, from: number, overview: boolean, grasped: Grasped | null, moved: boolean,
 *     place: number }} Begun what the pointer began */

const BEGINS = 4;
const EDGE = 6;
const SNAPS = 8;

export class Press {
    /** @param {TimeLine} timeline */
    constructor(timeline) {
        this.timeline = timeline;
        /** @type {Begun | null} */
        this.begun = null;
        const { surface } = timeline;
        surface.addEventListener('pointerdown', (event) => this.down(event));
        surface.addEventListener('pointermove', (event) => this.hover(event));
    }

    /** Whether a chosen item is under the pointer, and which of its edges.
     * @param {PointerEvent} event @returns {Grasped | null} */
    grasped(event) {
        const { timeline } = this;
        const y = event.clientY - timeline.surface.getBoundingClientRect().top;
        const onPlan = y > OVERVIEW + RULER && y < OVERVIEW + RULER + PLAN;
        if (!timeline.hears.mayEdit?.() || !onPlan || event.pointerType === 'touch') return null;
        const x = event.clientX - timeline.surface.getBoundingClientRect().left;
        for (const block of timeline.marked()) {
            const [left, right] = [timeline.x(block.place), timeline.x(endOf(block))];
            if (x < left - EDGE / 2 || x > right + EDGE / 2) continue;
            const trims = timeline.marked().length === 1 && right - left > 3 * EDGE;
            if (trims && Math.abs(x - left) <= EDGE) return { block, edge: 'begin' };
            if (trims && Math.abs(x - right) <= EDGE) return { block, edge: 'end' };
            if (x >= left && x <= right) return { block, edge: null };
        }
        return null;
    }

    /** @param {PointerEvent} event */
    hover(event) {
        if (this.begun || !this.timeline.day) return;
        const grasped = this.grasped(event);
        this.timeline.surface.classList.toggle('over-edge', Boolean(grasped?.edge));
        this.timeline.surface.classList.toggle('over-item', Boolean(grasped && !grasped.edge));
    }

    /** @param {PointerEvent} event */
    down(event) {
        const { timeline } = this;
        if (!timeline.day || event.button !== 0 || this.begun) return;
        const overview = event.clientY - timeline.surface.getBoundingClientRect().top < OVERVIEW;
        const grasped = overview ? null : this.grasped(event);
        /** @type {Begun} */
        const begun = { x: event.clientX, from: timeline.from, overview, grasped, moved: false,
            place: timeline.placeAt(event.clientX) };
        this.begun = begun;
        const move = (/** @type {PointerEvent} */ moved) => this.move(begun, moved);
        const stop = (/** @type {Event} */ stopped) => {
            for (const [type, hearer] of listeners) removeEventListener(type, hearer, true);
            this.begun = null;
            if (stopped.type === 'pointerup') this.up(begun, /** @type {PointerEvent} */ (stopped));
            else timeline.setGhosts([]);
        };
        const escape = (/** @type {KeyboardEvent} */ key) => {
            if (key.key !== 'Escape') return;
            key.preventDefault();
            key.stopPropagation();
            stop(key);
        };
        /** @type {[string, (event: any) => void][]} */
        const listeners = [['pointermove', move], ['pointerup', stop], ['pointercancel', stop], ['keydown', escape]];
        for (const [type, hearer] of listeners) addEventListener(type, hearer, true);
        if (overview) timeline.centre(timeline.placeAt(event.clientX, true));
    }

    /** @param {Begun} begun @param {PointerEvent} event */
    move(begun, event) {
        const { timeline } = this;
        begun.moved ||= Math.abs(event.clientX - begun.x) > BEGINS;
        if (begun.overview) timeline.centre(timeline.placeAt(event.clientX, true));
        else if (begun.moved && begun.grasped) timeline.setGhosts(this.wanted(begun, event, begun.grasped));
        else if (begun.moved) timeline.panTo(begun.from - (event.clientX - begun.x) * timeline.perPixel);
    }

    /** @param {Begun} begun @param {PointerEvent} event */
    up(begun, event) {
        const { timeline } = this;
        timeline.setGhosts([]);
        if (begun.overview) return;
        if (begun.moved && begun.grasped) {
            const [range] = this.wanted(begun, event, begun.grasped);
            const { block, edge } = begun.grasped;
            if (edge) timeline.hears.trim?.(block, { place: range.place, frames: range.frames });
            else timeline.hears.move?.(this.step(begun, event));
            return;
        }
        if (begun.moved) return;
        timeline.moveTo(begun.place, false);
        const how = event.shiftKey ? 'range' : event.ctrlKey || event.metaKey ? 'one more' : '';
        timeline.choose(timeline.blockAt(begun.place), true, how);
    }

    /** By how many frames the chosen items are moved: the first of them snaps, with Shift it doesn't.
     * @param {Begun} begun @param {PointerEvent} event */
    step(begun, event) {
        const { timeline } = this;
        const chosen = timeline.marked();
        const [first, last] = [chosen[0], chosen[chosen.length - 1]];
        const meant = Math.round(first.place + (event.clientX - begun.x) * timeline.perPixel);
        const stays = timeline.day.blocks.filter((block) => !chosen.includes(block));
        const near = event.shiftKey ? -1 : SNAPS * timeline.perPixel;
        const place = snapped(stays, meant, endOf(last) - first.place, near, timeline.day.frames);
        return place - first.place;
    }

    /** The ranges that the chosen items would have.
     * @param {Begun} begun @param {PointerEvent} event @param {Grasped} grasped @returns {Ghost[]} */
    wanted(begun, event, { block, edge }) {
        const { timeline } = this;
        if (!edge) {
            const step = this.step(begun, event);
            return timeline.marked().map((each) => ({ place: each.place + step, frames: each.frames, fits: true }));
        }
        const stays = timeline.day.blocks.filter((each) => each !== block);
        const near = event.shiftKey ? -1 : SNAPS * timeline.perPixel;
        const meant = Math.round((edge === 'begin' ? block.place : endOf(block))
            + (event.clientX - begun.x) * timeline.perPixel);
        const at = snapped(stays, meant, 0, near, timeline.day.frames);
        if (edge === 'begin') {
            const place = Math.min(at, endOf(block) - 1);
            return [{ place, frames: endOf(block) - place, fits: true }];
        }
        return [{ place: block.place, frames: Math.max(1, at - block.place), fits: true }];
    }
}
