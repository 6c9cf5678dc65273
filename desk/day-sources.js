// What can be put into a day: the list beside the plan, its search, and where a source goes that is chosen there.

import { button, focusOn, make, say } from './dom.js';
import { List } from './list.js';
import { Drag } from './drag.js';
import { landing, sourcesOf } from './day-model.js';
import { isForDay } from './lent-days.js';
import { gapFrom, indexAt } from './ranges.js';
import { frameAt, lengthLabel } from './timecode.js';

/** @typedef {import('./day-model.js').Source & { long: string }} Source */
/** @typedef {import('./ranges.js').Range} Range */

/** @type {import('./list-columns.js').Column<Source>[]} */
const COLUMNS = [
    { name: 'Reel', width: '5.6rem', text: (source) => source.reel, mark: (source) => `code ${source.look}` },
    { name: 'Title', width: 'minmax(7rem, 1fr)', text: (source) => source.title, tail: true },
    { name: 'Length', width: '6.2rem', text: (source) => source.long, mark: () => 'code',
        sort: (source) => source.frames ?? 0 },
];

export class DaySources {
    /** @param {import('./view-day.js').DayView} view */
    constructor(view) {
        this.view = view;
        /** @type {Source[]} */
        this.sources = [];
        /** @type {Promise<unknown>} */
        this.turn = Promise.resolve();
        this.asksFirst = false; // what is chosen was only just moved or trimmed, and stays chosen for that
        this.drag = new Drag(view);
        this.list = new List('What can be put into the day', COLUMNS, {
            open: (source, withShift) => (withShift ? this.insert(source) : this.take(source)),
            drag: (source, event) => this.drag.begin(source, event),
        });
        this.search = make('input', { id: 'source-search', type: 'search', placeholder: 'title or reel' });
        this.search.addEventListener('input', () => this.filter());
        this.search.addEventListener('keydown', (event) => this.key(event));
        this.element = make('section', { class: 'panel sources', 'aria-label': 'Sources' },
            make('div', { class: 'panel-head' }, make('label', { for: 'source-search' }, 'Sources'), this.search,
                button('Put in', () => this.list.open(), { id: 'put-in', title: 'Enter, or a double click' }),
                button('Insert', () => this.list.open(true), { id: 'insert',
                    title: 'Shift+Enter: before what is chosen, or at the cursor; what follows is pushed on' })),
            this.list.element);
    }

    /** @param {import('./tables.js').Clip[]} clips @param {import('./tables.js').LentClip[]} lent */
    show(clips, lent) {
        const { desk, number } = this.view;
        const { rate } = desk.rate();
        const usable = sourcesOf(clips.filter((clip) => clip.state === 'active'),
            lent.filter((clip) => clip.state === 'open' && clip.rate === rate && isForDay(clip.days, number)));
        this.sources = usable.map((source) => ({
            ...source, long: source.frames === null ? 'any' : lengthLabel(source.frames, desk.rate()),
        }));
        this.filter();
    }

    filter() {
        const wanted = this.search.value.trim().toLowerCase();
        this.list.show(this.sources.filter((source) => source.words.includes(wanted)), 'No source is like this.');
    }

    focus() {
        this.list.element.focus();
        if (this.list.active < 0) this.list.choose(0);
    }

    /** Enter in the search takes the first that is found, and a second one adds it; the search has the focus then.
     * @param {KeyboardEvent} event */
    key(event) {
        if (event.key === 'ArrowDown') this.focus();
        else if (event.key === 'Enter') {
            const source = this.list.rows[0];
            if (!source) say('No source is like this.', 'bad', this.view.edits.place);
            else {
                this.view.returnTo = this.search;
                if (event.shiftKey) this.insert(source);
                else this.take(source);
            }
        } else return;
        event.preventDefault();
    }

    /** A source goes to the open place, by the form; where an item is chosen, it takes its place.
     * @param {Source} source */
    take(source) {
        const { view } = this;
        if (!view.day || view.day.sealed) return;
        const [block, ...more] = view.choice.blocks();
        if (block && more.length === 0 && this.asksFirst) {
            this.asksFirst = false;
            say(`Item ${block.number} ${block.title} was just changed and is chosen still. Once more, and `
                + `${source.reel} takes its place.`, 'plain', view.edits.place);
        } else if (block && more.length === 0) {
            view.edits.replace(block, source);
            this.list.element.focus();
        } else this.put(source, null, false);
    }

    /** What follows is pushed on to the next gaps. Black and bars have no length of their own: it is typed in the form.
     * @param {import('./day-model.js').Source} source */
    async insert(source) {
        const { view } = this;
        if (!view.day || view.day.sealed) return;
        const place = view.choice.insertPlace();
        if (source.frames === null) {
            view.forms.item.fill({ source: source.reel, at: view.timeline.label(place), length: '' });
            view.forms.item.inputs.length.focus();
            say(`How long? Type a length, and press Insert and push.`, 'plain', view.edits.place);
            return;
        }
        const from = source.first === null ? 0 : frameAt(source.first, view.day.rate);
        const piece = { place, frames: source.frames, source: source.reel, from, kind: 'C', mix: 0 };
        const outcome = await view.edits.insert(piece);
        if (outcome.kind === 'not') say(outcome.words, 'bad', view.edits.place);
        if (view.returnTo && outcome.kind === 'done') focusOn(view.returnTo);
        view.returnTo = null;
    }

    /** One behind the other: what is put in finds the place behind what was put in before.
     * @param {Parameters<DaySources['putNow']>} words */
    put(...words) {
        this.turn = this.turn.then(() => this.putNow(...words));
        return this.turn;
    }

    /** Puts a source into a gap, the open place where none is named: into the form, and on to the office where it fits.
     * @param {import('./day-model.js').Source} source @param {Range | null} gap @param {boolean} send
     * @param {number} place @param {boolean} free */
    async putNow(source, gap, send, place = gap?.place ?? 0, free = false) {
        const { view } = this;
        const { item } = view.forms;
        await item.idle;
        const meant = gap ? view.day.gaps[indexAt(view.day.gaps, place)] ?? gapFrom(view.day.gaps, place) : null;
        const room = meant ?? view.choice.openPlace();
        if (!room) {
            say('The day has no gap to put it into.', 'bad', view.edits.place);
            return;
        }
        const lands = landing(room, source, meant ? place : room.place, free);
        view.forms.fillItem(source, lands);
        if (!lands.fits) {
            const { field, message } = view.forms.tooLong(lands);
            item.fault(field ?? '', message);
        } else if (send) await item.pressed();
        else item.submit.focus();
    }

    leave() {
        this.drag.end();
    }
}
