// What is done with clips: they are added, retired, lent and recalled, each by one message.

import { button, counted } from './dom.js';
import { clipsOf, offersOf } from './tables.js';
import { Scope } from './office.js';
import { Form } from './form.js';
import { foundIn } from './doubt.js';
import { FieldFault } from './fields.js';
import { Bulk } from './bulk.js';
import { clipRows, tapeNamed } from './bulk-model.js';
import { Many, namesIn, severalWords } from './many.js';
import { freshUmid } from './umid.js';
import { daysOf, forDays, sameDays } from './lent-days.js';
import { channelWords } from './site.js';
import { frameAt, labelOf } from './timecode.js';

/** The number in a reel for a path; a text that is no reel goes as 0, which the office refuses.
 * @param {string} reel */
function numberOf(reel) {
    return /^C\d{7}$/.test(reel) ? Number(reel.slice(1)) : 0;
}

/** @typedef {import('./tables.js').Days} Days */
/** @typedef {import('./tables.js').Clip} Clip */
/** @typedef {{ reel: string, to: number, days: Days | null }} Loan */

export class ClipForms {
    /** @param {import('./view-clips.js').ClipsView} view */
    constructor(view) {
        this.view = view;
        this.root = view.root;
        this.common = { place: view.desk.channel, rate: view.desk.rate, after: () => view.again() };
        this.add = this.addForm();
        /** @type {Form} */
        this.retire = this.retireForm();
        /** @type {Form} */
        this.lend = this.lendForm();
        /** @type {Form} */
        this.recall = this.recallForm();
        this.bulk = this.bulkForm();
        /** @type {{ lend: Many, retire: Many, recall: Many }} the reports of several */
        this.many = this.reports();
    }

    /** @template R @param {string} table @param {(text: string) => R[]} parse @param {(row: R) => boolean} look
     * @param {(row: R) => string} words @param {Scope} scope */
    async asked(table, parse, look, words, scope = this.view.scope) {
        const answer = await scope.read(`${this.root}/${table}`);
        return foundIn(answer, () => {
            const row = answer.kind === 'done' ? parse(answer.text).find(look) : null;
            return row ? words(row) : null;
        });
    }

    addForm() {
        const another = button('New', () => form.fill({ umid: freshUmid() }), { title: 'Make a new UMID' });
        const form = new Form({
            ...this.common, name: 'add-clip', title: 'Add a clip', word: 'Add', next: 'title',
            fields: [
                { name: 'title', label: 'Title', kind: 'text', wide: true },
                { name: 'tape', label: 'Tape', kind: 'text', hint: 'barcode or number', stays: true },
                { name: 'in', label: 'First frame', kind: 'label', value: labelOf(0, this.view.desk.rate()),
                    stays: true },
                { name: 'length', label: 'Length', kind: 'length', hint: 'label or frames' },
                {
                    name: 'umid', label: 'UMID', kind: 'text', wide: true, value: freshUmid(), fresh: freshUmid,
                    beside: another,
                },
            ],
            prepare: (values) => {
                const { number, fault } = tapeNamed(values.tape, this.view.tapes);
                if (fault) throw new FieldFault(fault, 'tape');
                values.tape = number;
            },
            message: (values) => ({
                path: `${this.root}/clips`,
                body: {
                    frames: values.length, in: values.in, tape: values.tape, title: values.title, umid: values.umid,
                },
            }),
            done: (answer, values) => `${answer.value.clip} ${values.title} is entered.`,
            asked: (values) => this.asked('clips', clipsOf, (clip) => clip.umid === values.umid.toLowerCase(),
                (clip) => `${clip.reel} ${clip.title} is entered.`),
            after: (values) => this.added(values),
        });
        return form;
    }

    /** The next clip of a tape begins where the last one ends; the new row is in view.
     * @param {import('./fields.js').Values} values */
    async added(values) {
        await this.view.again();
        const rate = this.view.desk.rate();
        this.add.put({ in: labelOf(frameAt(values.in, rate) + values.length, rate) });
        const row = this.view.clips.find((clip) => clip.umid === values.umid.toLowerCase());
        if (row) this.view.list.chooseKey(row.key);
    }

    /** @returns {Form} */
    retireForm() {
        return new Form({
            ...this.common, name: 'retire-clip', title: 'Retire a clip', word: 'Retire', final: true,
            fields: [{ name: 'clip', label: 'Clip', kind: 'text', hint: 'reel, or several' }],
            prepare: (values) => { values.all = namesIn(values.clip); },
            confirm: ({ all }) => (all.length > 1
                ? `${this.severalNamed(all)} are then retired for good.`
                : `${this.named(all[0])} is then retired for good.`),
            run: async ({ all }) => (all.length === 1 ? null : this.many.retire.beginAll(
                `${counted(all.length, 'clip')} retired`,
                all.map((/** @type {string} */ reel) => ({ words: this.named(reel), values: { reel } })))),
            message: ({ all }) => this.retires(all[0]),
            done: (answer) => answer.words ?? `${answer.value.clip} is retired.`,
            asked: ({ all }) => this.isRetired(all[0]),
        });
    }

    /** @param {string[]} reels */
    severalNamed(reels) {
        return severalWords(reels.map((reel) => this.named(reel)), 'clip');
    }

    /** @param {string} reel */
    named(reel) {
        return `${reel} ${this.view.titleOf(reel)}`.trim();
    }

    /** @param {string} reel */
    retires(reel) {
        return { path: `${this.root}/clips/${numberOf(reel)}/retire` };
    }

    /** @param {string} reel @param {Scope} scope */
    isRetired(reel, scope = this.view.scope) {
        return this.asked('clips', clipsOf, (clip) => clip.reel === reel && clip.state === 'retired',
            (clip) => `${clip.reel} is retired.`, scope);
    }

    /** @returns {Form} */
    recallForm() {
        return new Form({
            ...this.common, name: 'recall', title: 'Recall a lent clip', word: 'Recall', final: true,
            fields: [{ name: 'offer', label: 'Offer', kind: 'text', hint: 'number, or several', wide: true,
                says: (text) => (/^\d+$/.test(text.trim()) ? this.view.offerWords(Number(text)) : '') }],
            prepare: (values) => {
                const names = namesIn(values.offer);
                const areNumbers = names.every((name) => /^\d{1,9}$/.test(name));
                if (!areNumbers) throw new FieldFault('Type a whole number, or several.', 'offer');
                values.all = names.map(Number);
            },
            confirm: ({ all }) => (all.length > 1
                ? `${severalWords(all, 'offer')} are then withdrawn for good. The clips may be lent again.`
                : `Offer ${all[0]}${this.of(all[0])} is then withdrawn for good. The clip may be lent again.`),
            run: async ({ all }) => (all.length === 1 ? null : this.many.recall.beginAll(
                `${counted(all.length, 'offer')} withdrawn`,
                all.map((/** @type {number} */ offer) => ({
                    words: `${offer} ${this.view.offerWords(offer)}`, values: { offer },
                })))),
            message: ({ all }) => this.recalls(all[0]),
            done: (answer) => answer.words ?? `Offer ${answer.value.offer} is withdrawn.`,
            asked: ({ all }) => this.isRecalled(all[0]),
        });
    }

    /** @param {number} offer */
    recalls(offer) {
        return { path: `${this.root}/offers/${offer}/withdraw` };
    }

    /** @param {number} number @param {Scope} scope */
    isRecalled(number, scope = this.view.scope) {
        return this.asked('offers', offersOf, (offer) => offer.number === number && offer.state === 'withdrawn',
            (offer) => `offer ${offer.number} is withdrawn.`, scope);
    }

    /** @returns {Form} */
    lendForm() {
        return new Form({
            ...this.common, name: 'lend', title: 'Lend a clip', word: 'Lend',
            fields: [
                { name: 'clip', label: 'Clip', kind: 'text', hint: 'reel, or several' },
                { name: 'to', label: 'To channel', kind: 'channel' },
                { name: 'first', label: 'First day', kind: 'day', optional: true, hint: 'or each day' },
                { name: 'last', label: 'Last day', kind: 'day', optional: true },
            ],
            prepare: (values) => {
                values.days = daysOf(values);
                values.all = namesIn(values.clip);
            },
            confirm: ({ all, to, days }) => (all.length === 1 ? null
                : `Lend ${this.severalNamed(all)} to ${channelWords(to)}`
                    + `${forDays(days)}?`),
            run: async ({ all, to, days }) => (all.length === 1 ? null : this.many.lend.beginAll(
                `${counted(all.length, 'clip')} lent to ${channelWords(to)}`,
                all.map((/** @type {string} */ reel) => ({ words: this.named(reel), values: { reel, to, days } })))),
            message: ({ all, to, days }) => this.lends({ reel: all[0], to, days }),
            done: (answer, { all, to, days }) => answer.words
                ?? this.lentWords(all[0], to, days, answer.value.offer),
            asked: ({ all, to, days }) => this.isLent({ reel: all[0], to, days }),
        });
    }

    /** @param {Loan} loan */
    lends({ reel, to, days }) {
        return { path: `${this.root}/offers`, body: { clip: reel, ...days, to } };
    }

    /** @param {Loan} loan @param {Scope} scope */
    isLent({ reel, to, days }, scope = this.view.scope) {
        return this.asked('offers', offersOf, (offer) => offer.reel === reel && offer.to === to
            && offer.state === 'open' && sameDays(offer.days, days),
        (offer) => this.lentWords(offer.reel, offer.to, offer.days, offer.number), scope);
    }

    /** The report of what is done with several; it goes on while the view is left, so it asks by a scope of its own.
     * @param {string} name @param {Form} form @param {(values: any) => import('./form-messages.js').Message} message
     * @param {(answer: any, values: any) => string} done
     * @param {(values: any, scope: Scope) => Promise<import('./requests.js').Found>} asked */
    manyOf(name, form, message, done, asked) {
        return new Many({
            name: `many-${name}`, title: form.what.title, place: this.view.desk.channel,
            message: ({ values }) => message(values), done: (answer, { values }) => done(answer, values),
            isThere: async ({ values }) => {
                const found = await asked(values, new Scope());
                return found.done ? found.words : null;
            },
            after: () => this.view.again(),
        }, form);
    }

    reports() {
        return {
            lend: this.manyOf('lend', this.lend, (values) => this.lends(values),
                (answer, { reel, to, days }) => this.lentWords(reel, to, days, answer.value.offer),
                (values, scope) => this.isLent(values, scope)),
            retire: this.manyOf('retire', this.retire, ({ reel }) => this.retires(reel),
                (answer) => `${answer.value.clip} is retired.`, ({ reel }, scope) => this.isRetired(reel, scope)),
            recall: this.manyOf('recall', this.recall, ({ offer }) => this.recalls(offer),
                (answer) => `Offer ${answer.value.offer} is withdrawn.`,
                ({ offer }, scope) => this.isRecalled(offer, scope)),
        };
    }

    /** Of an offer in words, where there is one of this number.
     * @param {number} number */
    of(number) {
        const words = this.view.offerWords(number);
        return words ? `, ${words},` : '';
    }

    /** @param {string} reel @param {number} to @param {Days | null} days @param {number} number */
    lentWords(reel, to, days, number) {
        return `${reel} is lent to ${channelWords(to)}${forDays(days)} by offer ${number}.`;
    }

    bulkForm() {
        const { view } = this;
        return new Bulk({
            name: 'bulk-clips', title: 'Clips from a file', hint: 'title,tape,first frame,length',
            place: view.desk.channel,
            rowsOf: (text) => clipRows(text, view.tapes, view.desk.rate(), freshUmid),
            message: ({ values }) => ({ path: `${this.root}/clips`, body: values }),
            done: (answer, { values }) => `${answer.value.clip} ${values.title} is entered.`,
            isThere: async ({ values }) => {
                const found = await this.asked('clips', clipsOf, (clip) => clip.umid === values.umid.toLowerCase(),
                    (clip) => `${clip.reel} ${clip.title} is entered.`, new Scope());
                return found.done ? found.words : null;
            },
            after: () => view.again(),
        });
    }
}
