// A broadcast day as a time line, drawn on a canvas: from the whole day down to single frames. Only what is in view is
// drawn. A table beside it has the same rows for a screen reader; what the cursor meets is said in the line below it.

import { make, button, announce, oncePerFrame } from './dom.js';
import { drawOverview, drawTrack, heightOf, OVERVIEW, RULER } from './timeline-draw.js';
import { labelAt } from './day-model.js';
import { Press } from './timeline-press.js';
import { endOf, indexAt } from './ranges.js';
import { onTheme } from './theme.js';

const NEAREST = 1 / 40;
const STEP = 1.5;
const FEW = 12;

/** @typedef {import('./day-model.js').Day} Day */
/** @typedef {import('./day-model.js').Block} Block */
/** @typedef {import('./ranges.js').Range} Range */
/** @typedef {import('./list.js').How} How */
/** @typedef {Range & { fits: boolean }} Ghost where something would come to lie, and whether it has room there */
/** @typedef {import('./timeline-press.js').Hears} Hears */

export class TimeLine {
    /** @param {string} label @param {Hears} hears */
    constructor(label, hears = {}) {
        this.hears = hears;
        /** @type {Day} once one was shown */
        this.day = /** @type {any} */ (null);
        this.from = 0;
        this.perPixel = 1;
        this.cursor = 0;
        /** @type {Block | null} */
        this.chosen = null;
        /** @type {Block[]} */
        this.selected = [];
        /** @type {Ghost | null} */
        this.ghost = null;
        /** @type {Ghost[]} */
        this.dragged = [];
        /** @type {number | null} */
        this.now = null;
        this.later = oncePerFrame(() => this.draw());
        this.canvas = make('canvas', { 'aria-hidden': 'true' });
        this.readout = make('p', { class: 'readout' });
        this.surface = make('div', {
            class: 'timeline', tabindex: 0, role: 'application', 'aria-roledescription': 'time line',
            'aria-label': label, 'aria-describedby': 'keys',
        }, this.canvas);
        this.element = make('div', { class: 'timeline-box' }, this.surface, this.readout);
        this.surface.addEventListener('keydown', (event) => this.key(event));
        this.surface.addEventListener('wheel', (event) => this.wheel(event), { passive: false });
        this.surface.addEventListener('dblclick', (event) => this.double(event));
        this.press = new Press(this);
        new ResizeObserver(() => this.resized()).observe(this.surface);
        this.leave = onTheme(() => this.later());
    }

    /** @param {Day} day */
    show(day) {
        const first = this.day === null || this.day.frames !== day.frames;
        this.day = day;
        this.chosen = day.blocks.find((block) => block.key === this.chosen?.key) ?? null;
        const keys = new Set(this.selected.map((block) => block.key));
        this.selected = day.blocks.filter((block) => keys.has(block.key));
        this.resized();
        if (first) this.whole();
        this.later();
        this.tell(false);
    }

    // The chosen items, by place.
    marked() {
        if (this.selected.length > 0) return this.selected;
        return this.chosen ? [this.chosen] : [];
    }

    ghosts() {
        return this.ghost ? [this.ghost, ...this.dragged] : this.dragged;
    }

    /** @param {Ghost[]} ranges */
    setGhosts(ranges) {
        this.dragged = ranges;
        this.later();
    }

    /** @param {number | null} place */
    setNow(place) {
        this.now = place;
        this.later();
    }

    width() {
        return Math.max(100, this.surface.clientWidth);
    }

    resized() {
        if (!this.day || this.surface.clientWidth === 0) return;
        const sharp = window.devicePixelRatio || 1;
        const [width, height] = [this.width(), heightOf(this.day)];
        this.canvas.width = Math.round(width * sharp);
        this.canvas.height = Math.round(height * sharp);
        this.canvas.style.width = `${width}px`;
        this.canvas.style.height = `${height}px`;
        this.context().setTransform(sharp, 0, 0, sharp, 0, 0);
        this.bound();
        this.draw();
    }

    bound() {
        const most = this.day.frames / this.width();
        this.perPixel = Math.min(most, Math.max(NEAREST, this.perPixel));
        this.from = Math.max(0, Math.min(this.day.frames - this.width() * this.perPixel, this.from));
    }

    whole() {
        if (!this.day) return;
        this.perPixel = this.day.frames / this.width();
        this.from = 0;
        this.later();
    }

    context() {
        return /** @type {CanvasRenderingContext2D} */ (this.canvas.getContext('2d'));
    }

    draw() {
        if (!this.day) return;
        const begun = performance.now();
        const context = this.context();
        drawOverview(context, this);
        drawTrack(context, this);
        const { dataset } = this.surface;
        dataset.from = String(this.from);
        dataset.perPixel = String(this.perPixel);
        dataset.cursor = String(this.cursor);
        dataset.now = String(this.now ?? '');
        dataset.chosen = this.marked().map((block) => block.number).join(' ');
        dataset.top = String(OVERVIEW + RULER);
        dataset.took = (performance.now() - begun).toFixed(2);
    }

    /** @param {number} place */
    x(place) {
        return (place - this.from) / this.perPixel;
    }

    /** @param {number} place */
    label(place) {
        return labelAt(this.day, place);
    }

    /** The place under the pointer; in the overview strip, of the whole day.
     * @param {number} clientX @param {boolean} overview */
    placeAt(clientX, overview = false) {
        const x = clientX - this.surface.getBoundingClientRect().left;
        const place = overview ? x * this.day.frames / this.width() : this.from + x * this.perPixel;
        return Math.max(0, Math.min(this.day.frames - 1, Math.floor(place)));
    }

    /** @param {MouseEvent} event */
    covers(event) {
        const box = this.surface.getBoundingClientRect();
        return event.clientX >= box.left && event.clientX < box.right && event.clientY >= box.top
            && event.clientY < box.bottom;
    }

    /** @param {number} factor @param {number} about */
    zoom(factor, about = this.cursor) {
        if (!this.day) return;
        const x = this.x(about);
        const anchored = x >= 0 && x <= this.width();
        this.perPixel *= factor;
        this.bound();
        this.from = anchored ? about - x * this.perPixel : about - this.width() * this.perPixel / 2;
        this.bound();
        this.later();
    }

    /** Brings a range into view, with something of its neighbours.
     * @param {number} place @param {number} frames */
    bring(place, frames) {
        if (!this.day) return;
        this.perPixel = Math.max(NEAREST, frames * 3 / this.width());
        this.bound();
        this.panTo(place + frames / 2 - this.width() * this.perPixel / 2);
        this.moveTo(place);
    }

    /** @param {number} from */
    panTo(from) {
        this.from = from;
        this.bound();
        this.later();
    }

    /** The cursor leaves what was chosen where it leaves its place.
     * @param {number} place @param {boolean} leaves */
    moveTo(place, leaves = true) {
        if (!this.day) return;
        this.cursor = Math.max(0, Math.min(this.day.frames - 1, place));
        const x = this.x(this.cursor);
        if (x < 0 || x > this.width() - 8) this.from = this.cursor - this.width() * this.perPixel / 2;
        this.bound();
        const has = (/** @type {Block} */ block) => block.place <= this.cursor && this.cursor < endOf(block);
        if (leaves && this.marked().length > 0 && !this.marked().some(has)) this.choose(null);
        this.later();
        this.tell();
        this.hears.cursor?.(this.cursor);
    }

    /** @param {boolean} aloud */
    tell(aloud = true) {
        const words = `${this.label(this.cursor)}  ${this.hears.words?.(this.cursor) ?? ''}`;
        this.readout.textContent = words;
        if (aloud && document.activeElement === this.surface) announce(words);
    }

    /** @param {number} place */
    blockAt(place) {
        return this.day.blocks[indexAt(this.day.blocks, place)] ?? null;
    }

    /** @param {Block | null} block @param {boolean} tell @param {How} how */
    choose(block, tell = true, how = '') {
        this.chosen = block;
        if (!block) this.selected = [];
        this.later();
        if (tell) this.hears.choose?.(block, how);
    }

    /** @param {Block[]} blocks */
    setSelected(blocks) {
        this.selected = [...blocks].sort((one, other) => one.place - other.place);
        this.later();
    }

    /** @param {number} step */
    stepBlock(step) {
        const { blocks } = this.day;
        const index = step > 0 ? blocks.findIndex((block) => block.place > this.cursor)
            : blocks.map((block) => block.place < this.cursor).lastIndexOf(true);
        if (index < 0) return;
        this.moveTo(blocks[index].place, false);
        this.choose(blocks[index]);
    }

    /** @param {KeyboardEvent} event */
    key(event) {
        if (!this.day || event.altKey || event.metaKey) return;
        const second = this.day.rate.count;
        const page = Math.max(1, Math.round(this.width() * this.perPixel * 0.8));
        const pace = event.ctrlKey ? 60 * second : event.shiftKey ? second : Math.max(1, Math.round(this.perPixel));
        /** @type {Object<string, () => unknown>} */
        const keys = {
            ArrowLeft: () => this.moveTo(this.cursor - pace), ArrowRight: () => this.moveTo(this.cursor + pace),
            PageUp: () => this.moveTo(this.cursor - page), PageDown: () => this.moveTo(this.cursor + page),
            Home: () => this.moveTo(0), End: () => this.moveTo(this.day.frames - 1),
            '+': () => this.zoom(1 / STEP), '=': () => this.zoom(1 / STEP), '-': () => this.zoom(STEP),
            0: () => this.whole(),
            n: () => this.stepBlock(1), p: () => this.stepBlock(-1), g: () => this.hears.nextFault?.(this.cursor),
            Enter: () => this.hears.open?.(this.cursor),
            Delete: () => this.marked().length > 0 && this.hears.remove?.(this.chosen),
        };
        const does = keys[event.key.length === 1 ? event.key.toLowerCase() : event.key];
        if (!does || (event.ctrlKey && event.key.length === 1)) return;
        event.preventDefault();
        does();
    }

    /** @param {WheelEvent} event */
    wheel(event) {
        if (!this.day) return;
        event.preventDefault();
        if (event.shiftKey || Math.abs(event.deltaX) > Math.abs(event.deltaY)) {
            this.panTo(this.from + (event.deltaX || event.deltaY) * this.perPixel);
        } else this.zoom(event.deltaY > 0 ? STEP : 1 / STEP, this.placeAt(event.clientX));
    }

    /** @param {number} place */
    centre(place) {
        this.panTo(place - this.width() * this.perPixel / 2);
    }

    /** @param {MouseEvent} event */
    double(event) {
        if (!this.day) return;
        const block = this.blockAt(this.placeAt(event.clientX));
        if (block) this.bring(block.place, block.frames);
    }
}

/** The buttons of a time line, for those who have no wheel and no keys.
 * @param {TimeLine} timeline */
export function zoomButtons(timeline) {
    return make('div', { class: 'group' },
        button('Whole day', () => timeline.whole()),
        button('+', () => timeline.zoom(1 / 2), { 'aria-label': 'Zoom in' }),
        button('-', () => timeline.zoom(2), { 'aria-label': 'Zoom out' }),
        button('Frames', () => timeline.day && timeline.bring(timeline.cursor, FEW)));
}
