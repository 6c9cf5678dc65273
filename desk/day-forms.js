// What is put into a day, taken out of it, imported and sealed: each form is one message.

import { Form } from './form.js';
import { foundIn } from './doubt.js';
import { listForm, sealForm } from './day-list-forms.js';
import { FieldFault } from './fields.js';
import { readPlan } from './facts.js';
import { labelOf, lengthLabel, frameOf, frameAt, lengthOf, placeOf, completed } from './timecode.js';
import { sentenceOf } from './refusals.js';
import { blockWords, dayOf, landing } from './day-model.js';
import { isSame, pieceOf, sameIn } from './edits.js';
import { button, counted, focusOn } from './dom.js';

const KINDS = [['C', 'Cut'], ['D', 'Dissolve']];
// Behind these the plan isn't what it was on the screen.
const STALE = [71, 73, 75, 82];

/** @typedef {import('./day-model.js').Block} Block */

export class DayForms {
    /** @param {import('./view-day.js').DayView} view */
    constructor(view) {
        this.view = view;
        this.pushes = false;
        const place = `${view.desk.channel}/${view.number}`;
        this.common = {
            place, rate: view.desk.rate, ready: () => view.day, after: () => view.againPlan(),
            refused: (/** @type {import('./requests.js').Refused} */ refusal) => (STALE.includes(refusal.code)
                ? view.againPlan() : null),
        };
        this.open = this.openForm();
        this.item = this.itemForm();
        this.remove = this.removeForm();
        /** @type {Form} */
        this.list = listForm(this);
        this.seal = sealForm(this);
    }

    /** @param {(plan: import('./tables.js').Plan) => string | null | undefined} look */
    async asked(look) {
        const { plan, answer } = await readPlan(this.view.scope, this.view.desk.channel, this.view.number);
        return foundIn(plan ? { kind: 'done' } : answer, () => (plan ? look(plan) : null));
    }

    // The day's items as the office has them now.
    async blocksNow() {
        const { view } = this;
        const { plan, answer } = await readPlan(view.scope, view.desk.channel, view.number);
        if (answer?.kind === 'lost') throw new FieldFault(`${answer.words}. Nothing was sent.`, '');
        if (answer) throw new FieldFault(sentenceOf(answer), '');
        if (plan.sealed) throw new FieldFault(sentenceOf({ code: 73 }), '');
        return dayOf(plan, view.day.start, view.day.rate, view.titles).blocks;
    }

    openForm() {
        const { view } = this;
        return new Form({
            ...this.common, name: 'open-day', title: 'Open a day', word: 'Open', ready: undefined,
            fields: [{ name: 'day', label: 'Day', kind: 'day', value: view.number, hint: '1 to 99,999',
                stays: true }],
            extra: view.number > 1 ? [button(`Open as day ${view.number - 1} was`, () => this.openAsBefore(),
                { id: 'open-as-before' })] : [],
            message: (values) => ({ path: `/ch/${view.desk.channel}/days`, body: { day: values.day } }),
            done: (answer) => `Day ${answer.value.day} is open.`,
            asked: async (values) => {
                const { plan, answer } = await readPlan(view.scope, view.desk.channel, values.day);
                return foundIn(plan ? { kind: 'done' } : answer, () => (plan ? `day ${values.day} is there.` : null));
            },
            after: async (values) => {
                const opened = values.day;
                if (opened !== view.number) view.desk.goTo('day', opened);
                else await view.again();
            },
        });
    }

    async openAsBefore() {
        this.open.fill({ day: this.view.number });
        await this.open.pressed();
        if (this.view.day) await this.view.edits.copyDay(this.view.number - 1);
    }

    itemForm() {
        const { view } = this;
        const form = new Form({
            ...this.common, name: 'add-item', title: 'Add an item', word: 'Add',
            fields: [
                { name: 'source', label: 'Source', kind: 'text', title: 'BL, BARS, or the reel of a clip' },
                { name: 'at', label: 'Begins', kind: 'label', optional: true, title: 'empty: at the open place' },
                { name: 'length', label: 'Length', kind: 'length', optional: true,
                    title: 'a label, or a number of frames; empty: as long as the source' },
                { name: 'in', label: 'From', kind: 'label', value: labelOf(0, view.desk.rate()) },
                { name: 'kind', label: 'Kind', kind: 'select', options: KINDS },
                { name: 'mix', label: 'Mix', kind: 'number', value: '0', title: 'frames' },
            ],
            extra: [button('To the open place', () => this.toOpenPlace()),
                button('Insert and push', () => this.insert(), { id: 'insert-push',
                    title: 'what follows is pushed on to the next gaps' })],
            changed: () => this.ghost(),
            prepare: (values) => this.takesItsOwn(values),
            run: async (values) => (values.pushes ? view.edits.insert(this.pieceFrom(values)) : null),
            message: (values) => ({ path: `${view.path}/items`, body: this.itemBody(values) }),
            done: (answer, values) => (values.pushes ? `${answer.change.words}.`
                : `Item ${answer.value.item}, ${values.source}, begins at ${values.at}.`),
            asked: (values) => this.asked((plan) => {
                const found = plan.items.find((item) => item.at === values.at && item.frames === values.length
                    && item.source === (values.source === 'BLACK' ? 'BL' : values.source));
                return found ? `item ${found.number} begins at ${found.at}.` : null;
            }),
            refused: async (refusal) => {
                await this.common.refused(refusal);
                if (refusal.code === 75) view.choice.bringLabel(refusal.at ?? '');
            },
            after: (values) => this.itemAdded(values),
        });
        return form;
    }

    /** A source that is typed alone is put at the open place, as long as it is.
     * @param {import('./fields.js').Values} values */
    takesItsOwn(values) {
        const { view } = this;
        [values.pushes, this.pushes] = [this.pushes, false];
        if (values.kind === 'D' && values.mix < 1) {
            throw new FieldFault('A dissolve has a mix of 1 frame or more.', 'mix');
        }
        if (values.source === 'BLACK') values.source = 'BL';
        const gap = view.choice.openPlace();
        if (values.at === null && values.pushes) values.at = view.timeline.label(view.choice.insertPlace());
        if (values.at === null) {
            if (!gap) throw new FieldFault('The day is full. Type the label at which it begins.', 'at');
            values.at = view.timeline.label(gap.place);
            this.item.fill({ at: values.at });
        }
        if (values.length !== null) return;
        const source = view.sources.find((each) => each.reel === values.source);
        if (!source) throw new FieldFault('This day has no such source. Choose one from the list.', 'source');
        const place = placeOf(frameAt(values.at, view.day.rate), view.day.start, view.day.rate);
        const room = view.day.gaps.find((each) => each.place <= place && place < each.place + each.frames);
        const lands = landing(room && !values.pushes ? room : { place, frames: view.day.frames - place }, source,
            place, true);
        this.fillItem(source, lands);
        [values.length, values.in] = [lands.frames, source.first ?? labelOf(0, view.day.rate)];
        if (!lands.fits) throw this.tooLong(lands);
    }

    /** @param {ReturnType<typeof landing>} lands */
    tooLong(lands) {
        const { rate } = this.view.day;
        return new FieldFault(`It is longer than the gap by ${lengthLabel(lands.frames - lands.room, rate)}. `
            + `Shorten it to ${lengthLabel(lands.room, rate)} or less, or choose another.`, 'length');
    }

    /** @param {import('./fields.js').Values} values */
    async itemAdded(values) {
        const { view } = this;
        view.timeline.ghost = null;
        if (values.pushes) return;
        view.edits.wasChanged({
            words: `${values.source} at ${values.at} is added`, out: [], add: [this.pieceFrom(values)],
        });
        await view.againPlan();
        const gap = view.choice.openPlace();
        if (gap) view.timeline.moveTo(gap.place);
        if (view.returnTo) focusOn(view.returnTo);
        view.returnTo = null;
    }

    /** @param {import('./fields.js').Values} values */
    pieceFrom(values) {
        const { rate, start } = this.view.day;
        return {
            place: placeOf(frameAt(values.at, rate), start, rate), frames: values.length, source: values.source,
            from: frameAt(values.in, rate), kind: values.kind === 'C' || values.mix === 0 ? 'C' : 'D',
            mix: values.kind === 'C' ? 0 : values.mix,
        };
    }

    insert() {
        this.pushes = true;
        this.item.pressed();
    }

    /** @param {import('./fields.js').Values} values */
    itemBody(values) {
        return {
            at: values.at, frames: values.length, in: values.in, mix: values.kind === 'C' ? 0 : values.mix,
            source: values.source,
        };
    }

    // A mix is for dissolves: a number typed into it makes the item one.
    ghost() {
        const { view } = this;
        const rate = view.desk.rate();
        const { at, length, mix, kind } = this.item.inputs;
        if (document.activeElement === mix && Number(mix.value) > 0) kind.value = 'D';
        const begins = frameOf(completed(at.value, rate), rate);
        const long = lengthOf(completed(length.value, rate), rate);
        if (begins.frame === undefined || long.frames === undefined || !view.day) view.timeline.ghost = null;
        else {
            const place = placeOf(begins.frame, view.day.start, rate);
            const end = place + long.frames;
            const fits = view.day.gaps.some((gap) => gap.place <= place && end <= gap.place + gap.frames);
            view.timeline.ghost = { place, frames: long.frames, fits };
        }
        view.timeline.later();
    }

    toOpenPlace() {
        const gap = this.view.choice.openPlace();
        if (gap) this.item.fill({ at: this.view.timeline.label(gap.place) });
        this.item.inputs.at.focus();
        this.ghost();
    }

    /** The kind and the mix stay as they were chosen.
     * @param {import('./day-model.js').Source} source @param {ReturnType<typeof landing>} lands */
    fillItem(source, lands) {
        const { rate, start } = this.view.day;
        this.item.fill({
            at: labelOf(start + lands.place, rate), length: lengthLabel(lands.frames, rate), source: source.reel,
            in: source.first ?? labelOf(0, rate),
        });
        this.ghost();
    }

    removeForm() {
        const { view } = this;
        return new Form({
            ...this.common, name: 'remove-item', title: 'Take out items', word: 'Take out',
            fields: [{ name: 'item', label: 'Item', kind: 'text', title: 'its number, or several' }],
            prepare: (values) => {
                if (!/^\d{1,5}([ ,]+\d{1,5})*$/.test(values.item.trim())) {
                    throw new FieldFault('Type a whole number, or several with blanks between.', 'item');
                }
                values.numbers = values.item.trim().split(/[ ,]+/).map(Number);
                values.shown = values.numbers.map((/** @type {number} */ number) => (
                    view.day.blocks.find((each) => each.number === number)));
            },
            check: (values) => this.checkRemoved(values),
            confirm: (values) => (values.blocks.length === 1 ? `Take out ${blockWords(view.day, values.blocks[0])}?`
                : `Take out ${counted(values.blocks.length, 'item')}, from ${blockWords(view.day, values.blocks[0])}?`),
            run: async (values) => (values.blocks.length === 1 ? null : view.edits.changes?.perform({
                words: `${counted(values.blocks.length, 'item')} taken out`, out: values.blocks, add: [],
            })),
            message: (values) => ({ path: `${view.path}/items/${values.numbers[0]}/remove` }),
            done: (answer, values) => (values.blocks.length === 1 ? `Item ${values.numbers[0]} is taken out.`
                : `${counted(values.blocks.length, 'item')} are taken out.`),
            asked: (values) => this.asked((plan) => {
                const { rate, start } = view.day;
                const now = dayOf(plan, start, rate, view.titles).blocks;
                const still = values.blocks.some((/** @type {Block} */ block) => sameIn(now, block));
                if (still) return null;
                return values.numbers.length === 1 ? `item ${values.numbers[0]} is taken out.` : 'they are taken out.';
            }),
            after: async (values) => {
                const gone = values.blocks.map(pieceOf);
                view.edits.wasChanged({ words: `item ${values.item} is taken out`, out: gone, add: [] });
                await view.againPlan();
                view.choice.focusOnPlan(gone[0].place);
            },
        });
    }

    /** An item's number is given again: what is taken out has to be what was on the screen.
     * @param {import('./fields.js').Values} values */
    async checkRemoved(values) {
        const now = await this.blocksNow();
        const numbers = /** @type {number[]} */ (values.numbers);
        values.blocks = numbers.map((number, index) => {
            const block = now.find((each) => each.number === number);
            const shown = values.shown[index];
            if (block && isSame(block, shown)) return block;
            this.view.againPlan();
            if (!block) throw new FieldFault(sentenceOf({ code: 82 }), 'item');
            throw new FieldFault(`Item ${number} isn't what was shown any more: it is now `
                + `${blockWords(this.view.day, block)}. Nothing was taken out; look again.`, 'item');
        });
    }

    takeOut() {
        const blocks = this.view.choice.blocks();
        if (blocks.length === 0) return;
        this.remove.fill({ item: blocks.map((block) => block.number).join(' ') });
        this.remove.pressed();
    }

    /** @param {FileList} files */
    dropList(files) {
        if (this.view.work.hidden || !this.view.day || this.view.day.sealed) return;
        this.list.drop('file', files);
        this.list.pressed();
    }
}
