// What of a day is chosen: items, or the gap where things are put. The time line and the plan beside it show the same.

import { say } from './dom.js';
import { endOf, gapFrom, indexAt } from './ranges.js';
import { gapWords } from './day-model.js';
import { insertPlace, isSame } from './edits.js';
import { frameOf, placeOf } from './timecode.js';

/** @typedef {import('./day-model.js').Block} Block */
/** @typedef {import('./day-model.js').PlanRow} PlanRow */

export class DayChoice {
    /** @param {import('./view-day.js').DayView} view */
    constructor(view) {
        this.view = view;
        this.turn = 0; // counts what staff chose, so that a change that ends later chooses nothing else
    }

    // The gap at the cursor, else the next one.
    openPlace() {
        const { day, timeline } = this.view;
        return day ? gapFrom(day.gaps, timeline.cursor) : null;
    }

    // Copied items go to the cursor, or to the open place where an item is at the cursor.
    pastePlace() {
        const { day, timeline } = this.view;
        const at = day.gaps[indexAt(day.gaps, timeline.cursor)];
        return at ? timeline.cursor : this.openPlace()?.place ?? timeline.cursor;
    }

    // Things are inserted before what is chosen, or before the item at the cursor, or at the cursor.
    insertPlace() {
        const { day, timeline } = this.view;
        return this.blocks()[0]?.place ?? insertPlace(day.blocks, timeline.cursor);
    }

    /** A place that staff go to: the cursor is there, and what is there is chosen.
     * @param {number} place */
    goTo(place) {
        const { day, timeline, list } = this.view;
        const block = day.blocks[indexAt(day.blocks, place)];
        list.chooseKey(block?.key ?? `gap-${day.gaps[indexAt(day.gaps, place)]?.place}`, true);
        timeline.moveTo(place, false);
    }

    showOpenPlace() {
        const { day, openWords } = this.view;
        const gap = this.openPlace();
        const blocks = this.blocks();
        const one = blocks.length === 1;
        if (one) openWords.textContent = `REPLACES item ${blocks[0].number} ${blocks[0].title}`;
        else if (gap) openWords.textContent = `OPEN PLACE  ${gapWords(day, gap).slice(9)}`;
        else openWords.textContent = 'NO OPEN PLACE: the day is full';
        openWords.classList.toggle('full', !gap && !one);
        openWords.classList.toggle('replaces', one);
    }

    /** Chosen items, by place.
     * @returns {Block[]} */
    blocks() {
        return this.view.day ? this.view.timeline.marked() : [];
    }

    /** @param {string | number} key */
    blockOf(key) {
        return this.view.day.blocks.find((each) => each.key === key) ?? null;
    }

    // What staff choose is meant, whatever was typed or changed before.
    byStaff() {
        const { edits, sourcing } = this.view;
        this.turn += 1;
        sourcing.asksFirst = false;
        edits.forms.chosen();
    }

    /** A row was chosen: an item, or a gap, which is then where things are put.
     * @param {PlanRow} row */
    row(row) {
        this.byStaff();
        const { timeline, forms } = this.view;
        timeline.chosen = this.blockOf(row.key);
        if (!timeline.chosen) timeline.selected = [];
        timeline.moveTo(row.place, false);
        if (timeline.chosen) forms.remove.offer({ item: row.number });
    }

    /** @param {{ key: string | number }[]} rows */
    rows(rows) {
        const { day, timeline, forms, edits } = this.view;
        const keys = new Set(rows.map((row) => row.key));
        timeline.setSelected(day.blocks.filter((block) => keys.has(block.key)));
        const numbers = this.blocks().map((block) => block.number);
        if (numbers.length > 1) forms.remove.offer({ item: numbers.join(' ') });
        edits.forms.shown();
        this.showOpenPlace();
    }

    /** An item was chosen on the time line, or none.
     * @param {Block | null} block @param {import('./list.js').How} how */
    block(block, how) {
        this.byStaff();
        const { list, forms } = this.view;
        if (!block) list.none();
        else list.choose(list.rows.findIndex((row) => row.key === block.key), false, how);
        if (block) forms.remove.offer({ item: block.number });
        this.rows(list.chosenRows());
    }

    /** What was put in by a change.
     * @param {import('./edits.js').Piece[]} pieces */
    pieces(pieces) {
        const { day, list, timeline } = this.view;
        const keys = new Set(day.blocks.filter((block) => pieces.some((piece) => isSame(piece, block)))
            .map((block) => block.key));
        const rows = list.rows.filter((row) => keys.has(row.key));
        if (rows.length === 0) return;
        list.chooseKey(rows[0].key);
        list.selectKeys(keys);
        timeline.chosen = this.blockOf(rows[0].key);
        timeline.moveTo(rows[0].place, false);
        this.rows(rows);
    }

    /** The plan has the focus again, at the row of a place, once what had it went away.
     * @param {number} place */
    focusOnPlan(place) {
        const { list } = this.view;
        const index = list.rows.findIndex((row) => row.place <= place && place < endOf(row));
        list.choose(Math.max(0, index));
        list.element.focus();
    }

    /** @param {number} place */
    nextGap(place) {
        const { day, timeline, list, edits } = this.view;
        const gap = day.gaps.find((each) => each.place > place) ?? day.gaps[0];
        if (!gap) {
            say('The day has no gap.', 'good', edits.place);
            return;
        }
        timeline.choose(null);
        timeline.bring(gap.place, gap.frames);
        list.chooseKey(`gap-${gap.place}`);
    }

    /** The first place of a label that the office told, in view.
     * @param {string} label */
    bringLabel(label) {
        const { day, timeline, list } = this.view;
        const { frame } = frameOf(label, day.rate);
        if (frame === undefined) return;
        const place = placeOf(frame, day.start, day.rate);
        const gap = day.gaps[indexAt(day.gaps, place)];
        const block = day.blocks[indexAt(day.blocks, place)];
        timeline.bring(place, (gap ?? block)?.frames ?? 100);
        list.chooseKey(block ? block.key : `gap-${gap?.place}`);
    }

    /** @param {number} number */
    bringItem(number) {
        const { timeline, list } = this.view;
        list.chooseKey(`item-${number}`, true);
        const block = this.blockOf(`item-${number}`);
        if (block) timeline.bring(block.place, block.frames);
    }
}
