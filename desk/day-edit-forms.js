// The forms by which chosen items are changed, moved and shifted, a stretch is made empty, and a day is copied.

import { Form } from './form.js';
import { FieldFault } from './fields.js';
import { labelAt } from './day-model.js';
import { frameAt, lengthLabel, placeOf } from './timecode.js';
import { button, counted } from './dom.js';
import { isSame } from './edits.js';
import { endOf } from './ranges.js';

const KINDS = [['C', 'Cut'], ['D', 'Dissolve'], ['W', 'Wipe']];

/** The kind as its three fields have it, or a fault beside one of them.
 * @param {import('./fields.js').Values} values */
function kindFrom({ kind, mix, wipe, length }) {
    if (kind === 'C') return { kind, mix: 0 };
    if (mix < 1) throw new FieldFault('A dissolve and a wipe have a mix of 1 frame or more.', 'mix');
    if (mix > length) throw new FieldFault('The mix is longer than its item.', 'mix');
    if (kind === 'D') return { kind, mix };
    if (wipe > 999) throw new FieldFault('Wipes are 0 to 999.', 'wipe');
    return { kind: `W${String(wipe).padStart(3, '0')}`, mix };
}

/** @typedef {import('./day-model.js').Block} Block */

export class EditForms {
    /** @param {import('./day-edits.js').DayEdits} edits */
    constructor(edits) {
        this.edits = edits;
        const { view } = edits;
        this.view = view;
        this.shifts = false;
        /** @type {Block | null} the item that the fields are filled from */
        this.offered = null;
        this.common = { place: `${view.desk.channel}/${view.number}`, rate: view.desk.rate, ready: () => view.day };
        this.edit = this.editForm();
        this.move = this.moveForm();
        this.empty = this.emptyForm();
        this.copy = this.copyForm();
    }

    /** @param {string} label */
    placeOf(label) {
        const { rate, start } = this.view.day;
        return placeOf(frameAt(label, rate), start, rate);
    }

    chosenOne() {
        const blocks = this.view.choice.blocks();
        if (blocks.length !== 1) throw new FieldFault('Choose one item in the plan first.', '');
        return blocks[0];
    }

    editForm() {
        return new Form({
            ...this.common, name: 'edit-item', title: 'Change the chosen item', word: 'Change',
            fields: [
                { name: 'at', label: 'Begins', kind: 'label' },
                { name: 'length', label: 'Length', kind: 'length', title: 'a label, or a number of frames' },
                { name: 'in', label: 'From', kind: 'label' },
                { name: 'source', label: 'Source', kind: 'text', title: 'BL, BARS, or the reel of a clip' },
                { name: 'kind', label: 'Kind', kind: 'select', options: KINDS },
                { name: 'mix', label: 'Mix', kind: 'number', value: '0', title: 'frames, of a dissolve or a wipe' },
                { name: 'wipe', label: 'Wipe', kind: 'number', value: '0', title: 'its number, of a wipe' },
            ],
            prepare: (values) => {
                values.block = this.chosenOne();
                if (this.offered && !isSame(this.offered, values.block)) {
                    throw new FieldFault('The item was changed since its fields were filled. Choose it again.', '');
                }
                values.as = kindFrom(values);
            },
            run: (values) => this.edits.change(values.block, {
                place: this.placeOf(values.at), frames: values.length, source: values.source,
                from: frameAt(values.in, this.view.day.rate), ...values.as,
            }),
            done: (answer) => `${answer.words ?? 'Changed'}`,
            after: () => this.shown(),
        });
    }

    moveForm() {
        return new Form({
            ...this.common, name: 'move', title: 'Move or shift', word: 'Move what is chosen',
            fields: [{ name: 'step', label: 'By', kind: 'step', hint: '+00:01:00 or -250', stays: true, wide: true }],
            extra: [button('Shift all from here on', () => this.shift(), { id: 'shift' })],
            prepare: (values) => {
                [values.shifts, this.shifts] = [this.shifts, false];
                if (values.step === 0) throw new FieldFault('Type a length other than none.', 'step');
                values.blocks = this.view.choice.blocks();
                values.place = values.blocks[0]?.place ?? this.view.timeline.cursor;
                if (!values.shifts && values.blocks.length === 0) {
                    throw new FieldFault('Choose an item in the plan first.', 'step');
                }
                if (values.shifts && !this.view.day.blocks.some((block) => block.place >= values.place)) {
                    throw new FieldFault('No item begins at the cursor or behind it.', 'step');
                }
            },
            run: async (values) => (values.shifts ? this.edits.shift(values.place, values.step)
                : this.edits.move(values.step)),
            done: (answer) => `${answer.change.words}.`,
        });
    }

    // The chosen item, or the cursor, and all that follows.
    shift() {
        this.shifts = true;
        this.move.pressed();
    }

    emptyForm() {
        return new Form({
            ...this.common, name: 'clear', title: 'Make a stretch empty', word: 'Clear',
            fields: [{ name: 'first', label: 'From', kind: 'label' }, { name: 'end', label: 'To', kind: 'label' }],
            prepare: (values) => {
                const { rate } = this.view.day;
                values.place = this.placeOf(values.first);
                values.till = this.placeOf(values.end) || rate.day;
                if (values.till <= values.place) throw new FieldFault('It ends before it begins.', 'end');
                values.blocks = this.view.day.blocks.filter((block) => block.place < values.till
                    && endOf(block) > values.place);
                if (values.blocks.length === 0) throw new FieldFault('No item is there.', 'first');
            },
            confirm: (values) => `Take out ${counted(values.blocks.length, 'item')} from ${values.first} to `
                + `${values.end}? Those that lie over an end are cut off there.`,
            run: (values) => this.edits.clearStretch(values.place, values.till),
            done: (answer) => `${answer.change.words}.`,
        });
    }

    copyForm() {
        const { view } = this;
        return new Form({
            ...this.common, name: 'copy-day', title: 'Copy a day into this one', word: 'Copy',
            fields: [{ name: 'from', label: 'Day', kind: 'day', value: String(Math.max(1, view.number - 1)),
                hint: 'yesterday, or any' }],
            prepare: (values) => {
                if (values.from === view.number) throw new FieldFault('This is the day itself.', 'from');
            },
            run: (values) => this.edits.copyDay(values.from),
            done: (answer) => `${answer.change.words}.`,
            asked: async (values) => {
                await view.againPlan();
                const many = view.day.blocks.length;
                if (many === 0) return { done: false };
                const words = `the day has ${counted(many, 'item')}, those of day ${values.from} among them.`;
                return { done: true, words };
            },
        });
    }

    // The fields of what is chosen. What was typed into them is left alone, and it is said where the item was changed
    // below it.
    shown() {
        const { view } = this;
        if (!view.day) return;
        const blocks = view.choice.blocks();
        const label = (/** @type {number} */ place) => labelAt(view.day, place);
        if (blocks.length === 1) this.offer(blocks[0], label);
        if (blocks.length > 0 && this.empty.typed.size === 0) {
            this.empty.offer({ first: label(blocks[0].place), end: label(endOf(blocks[blocks.length - 1])) });
        }
    }

    /** @param {Block} block @param {(place: number) => string} label */
    offer(block, label) {
        const { edit, offered } = this;
        if (offered?.number === block.number && edit.typed.size > 0) {
            if (!isSame(offered, block)) {
                edit.message.textContent = `Item ${block.number} was changed meanwhile: it begins at `
                    + `${label(block.place)} now. What you typed is kept; choose the item again to begin anew.`;
            }
            return;
        }
        this.offered = block;
        edit.offer({
            at: label(block.place), length: lengthLabel(block.frames, this.view.day.rate), in: block.first,
            source: block.source, kind: block.kind[0], mix: String(block.mix), wipe: block.kind.slice(1) || '0',
        });
    }

    // An item that staff choose is offered, whatever was typed before.
    chosen() {
        this.offered = null;
        this.edit.typed.clear();
        this.empty.typed.clear();
    }
}
