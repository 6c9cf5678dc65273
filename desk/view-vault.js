// The vault: the shelf by slots, what is out, and the tapes that are added, pulled and shelved.

import { make, clear, panel, fold, say, counted, options } from './dom.js';
import { vaultOf, clipsOf } from './tables.js';
import { Scope } from './office.js';
import { List } from './list.js';
import { Form } from './form.js';
import { foundIn } from './doubt.js';
import { FieldFault } from './fields.js';
import { Bulk } from './bulk.js';
import { freeSlot, tapeNamed, tapeRows, tapeWord } from './bulk-model.js';
import { Many, namesIn, severalWords } from './many.js';
import { refusedIn } from './requests.js';
import { sentenceOf } from './refusals.js';
import { filtered, shelfRows } from './shelf-model.js';

/** @typedef {import('./desk.js').Desk} Desk */
/** @typedef {import('./tables.js').Clip} Clip */
/** @typedef {import('./shelf-model.js').Shelf} Shelf */

const SHOWN = [['all', 'All slots'], ['shelved', 'Shelved'], ['out', 'Out'], ['free', 'Free slots']];

/** @type {import('./list-columns.js').Column<Shelf>[]} */
const COLUMNS = [
    { name: 'Slot', width: '4.5rem', align: 'right', text: (row) => row.slot ?? 'OUT', mark: () => 'number',
        sort: (row) => row.slot ?? 100000 },
    { name: 'Barcode', width: '7rem', text: (row) => (row.tape ? row.tape.barcode : 'free'), mark: () => 'code' },
    { name: 'Tape', width: '4.5rem', align: 'right', text: (row) => row.tape?.number ?? '', mark: () => 'number' },
    { name: 'Clips', width: '4rem', align: 'right', text: (row) => row.clips.length || '', mark: () => 'number' },
    { name: 'Titles', width: 'minmax(12rem, 1fr)', text: (row) => row.clips.map((clip) => clip.title).join(' / ') },
];

class Vault {
    /** @param {HTMLElement} main @param {Desk} desk @param {Scope} scope */
    constructor(main, desk, scope) {
        this.desk = desk;
        this.scope = scope;
        /** @type {import('./tables.js').VaultTable} once it was read */
        this.vault = /** @type {any} */ (null);
        this.path = `/ch/${desk.channel}/tapes`;
        /** @type {Shelf[]} */
        this.rows = [];
        /** @type {HTMLInputElement} */
        this.search;
        /** @type {HTMLSelectElement} */
        this.shown;
        /** @type {HTMLElement} */
        this.summary;
        /** @type {Bulk} */
        this.bulk;
        /** @type {Form} */
        this.add;
        /** @type {Form} */
        this.pull;
        /** @type {Many} */
        this.pullMany;
        /** @type {Form} */
        this.shelve;
        this.list = new List('Shelf by slots', COLUMNS, {
            choose: (row) => this.chosen(row), open: (row) => this.open(row), select: (rows) => this.chose(rows),
        }, true);
        /** @type {List<Clip & { key: string }>} */
        this.held = new List('Clips on the chosen tape', [
            { name: 'Reel', width: '6rem', text: (clip) => clip.reel, mark: () => 'code' },
            { name: 'Title', width: 'minmax(4rem, 1fr)', text: (clip) => clip.title },
            { name: 'State', width: '4.5rem', text: (clip) => clip.state },
        ]);
        this.held.show([], 'No tape is chosen.');
        this.build(main);
    }

    /** @param {HTMLElement} main */
    build(main) {
        this.search = make('input', { id: 'vault-search', type: 'search', placeholder: 'barcode, title or reel' });
        this.shown = make('select', { id: 'vault-shown' }, ...options(SHOWN));
        this.summary = make('p', { class: 'summary' }, 'Loading...');
        for (const each of [this.search, this.shown]) each.addEventListener('input', () => this.filter());
        const bar = make('div', { class: 'bar', role: 'search' }, make('label', { for: 'vault-search' }, 'Search'),
            this.search, make('label', { for: 'vault-shown' }, 'Show'), this.shown, this.summary);
        const left = make('section', { class: 'work', 'aria-label': 'Shelf' }, bar, this.list.element);
        this.forms();
        this.bulk = this.bulkForm();
        const right = make('div', { class: 'side' },
            panel('Tapes', this.add.element, this.pull.element, this.pullMany.element, this.shelve.element,
                fold('bulk-tapes', 'Tapes from a file', false, this.bulk.element)),
            panel('On the chosen tape', this.held.element));
        clear(main, left, right);
    }

    common() {
        return { place: this.desk.channel, rate: this.desk.rate };
    }

    /** A tape's field takes its barcode, as a scanner types it with Enter, or its number.
     * @param {import('./fields.js').Values} values */
    named(values) {
        values.tape = this.numberOf(values.tape);
    }

    /** @param {string} text */
    numberOf(text) {
        const { number, fault } = tapeNamed(text, this.vault?.tapes ?? []);
        if (fault) throw new FieldFault(fault, 'tape');
        return number;
    }

    /** @param {number} number */
    tapeWords(number) {
        return this.vault?.tapes.find((each) => each.number === number)?.barcode ?? `tape ${number}`;
    }

    /** Several that are chosen are pulled together; one of them, by Enter.
     * @param {Shelf[]} rows */
    chose(rows) {
        const tapes = rows.flatMap((row) => (row.tape && row.slot !== null ? [tapeWord(row.tape)] : []));
        if (tapes.length > 1) this.pull.fill({ tape: tapes.join(' ') });
    }

    /** The slot that is filled next is the free one behind the last.
     * @param {number} slot */
    async behind(slot = 0) {
        await this.again();
        this.offerSlot(slot);
    }

    /** @param {number} slot */
    offerSlot(slot) {
        if (!this.vault) return;
        const { tapes, slots } = this.vault;
        const free = freeSlot(tapes, slots, slot + 1) ?? freeSlot(tapes, slots) ?? '';
        for (const form of [this.add, this.shelve]) form.put({ slot: free });
    }

    /** Asks the vault whether a tape is as it was to be.
     * @param {(tape: import('./tables.js').Tape) => boolean} look @param {Scope} scope */
    async asked(look, scope = this.scope) {
        const answer = await scope.read(this.path);
        return foundIn(answer, () => {
            const tape = answer.kind === 'done' ? vaultOf(answer.text).tapes.find(look) : null;
            const stands = tape?.slot ? `stands in slot ${tape.slot}` : 'is out';
            return tape ? `tape ${tape.number}, ${tape.barcode}, ${stands}.` : null;
        });
    }

    forms() {
        /** @type {import('./fields.js').Field} */
        const tape = { name: 'tape', label: 'Tape', kind: 'text', hint: 'barcode or number' };
        /** @type {import('./fields.js').Field} */
        const slot = { name: 'slot', label: 'Slot', kind: 'number' };
        this.add = new Form({
            ...this.common(), name: 'add-tape', title: 'Add a tape', word: 'Add',
            fields: [{ name: 'barcode', label: 'Barcode', kind: 'text' }, slot], next: 'barcode', scans: true,
            prepare: (values) => { values.barcode = values.barcode.toUpperCase(); },
            after: (values) => this.behind(values.slot),
            message: (values) => ({ path: this.path, body: { barcode: values.barcode, slot: values.slot } }),
            done: (answer, values) => `Tape ${answer.value.tape}, ${values.barcode}, stands in slot ${values.slot}.`,
            asked: (values) => this.asked((each) => each.barcode === values.barcode && each.slot === values.slot),
        });
        this.pull = this.pullForm();
        this.pullMany = this.pullReport();
        this.shelve = new Form({
            ...this.common(), name: 'shelve-tape', title: 'Shelve a tape', word: 'Shelve', fields: [tape, slot],
            next: 'tape', scans: true, prepare: (values) => this.named(values),
            after: (values) => this.behind(values.slot),
            message: (values) => ({ path: `${this.path}/${values.tape}/shelve`, body: { slot: values.slot } }),
            done: (answer, values) => `Tape ${answer.value.tape} stands in slot ${values.slot}.`,
            asked: (values) => this.asked((each) => each.number === values.tape && each.slot === values.slot),
        });
    }

    pullForm() {
        const words = (/** @type {number} */ number) => this.tapeWords(number);
        return new Form({
            ...this.common(), name: 'pull-tape', title: 'Pull a tape', word: 'Pull', next: 'tape', scans: true,
            fields: [{ name: 'tape', label: 'Tape', kind: 'text', hint: 'or several' }],
            prepare: (values) => { values.all = namesIn(values.tape).map((each) => this.numberOf(each)); },
            confirm: ({ all }) => (all.length === 1 ? null
                : `Pull ${severalWords(all.map(words), 'tape').slice(0, -1)}?`),
            run: async ({ all }) => (all.length === 1 ? null : this.pullMany.beginAll(
                `${counted(all.length, 'tape')} pulled`,
                all.map((/** @type {number} */ tape) => ({
                words: this.tapeWords(tape), values: { tape },
            })))),
            after: () => this.again(),
            message: ({ all }) => ({ path: `${this.path}/${all[0]}/pull` }),
            done: (answer) => answer.words ?? `Tape ${answer.value.tape} is out.`,
            asked: ({ all }) => this.asked((each) => each.number === all[0] && each.slot === null),
        });
    }

    pullReport() {
        return new Many({
            name: 'many-pull', title: 'Pull a tape', place: this.desk.channel,
            message: ({ values }) => ({ path: `${this.path}/${values.tape}/pull` }),
            done: (answer) => `Tape ${answer.value.tape} is out.`,
            isThere: async ({ values }) => {
                /** @param {import('./tables.js').Tape} tape */
                const isOut = (tape) => tape.number === values.tape && tape.slot === null;
                const found = await this.asked(isOut, new Scope());
                return found.done ? found.words : null;
            },
            after: () => this.again(),
        }, this.pull);
    }

    bulkForm() {
        return new Bulk({
            name: 'bulk-tapes', title: 'Tapes from a file', hint: 'barcode,slot: no slot, the next free',
            place: this.desk.channel,
            rowsOf: (text) => tapeRows(text),
            message: ({ values }) => {
                const slot = values.slot ?? freeSlot(this.vault.tapes, this.vault.slots);
                if (slot === null) return { fault: 'No slot is free.' };
                values.used = slot;
                return { path: this.path, body: { barcode: values.barcode, slot } };
            },
            done: (answer, { values }) => {
                this.vault.tapes.push({ number: answer.value.tape, barcode: values.barcode, slot: values.used });
                return `tape ${answer.value.tape} stands in slot ${values.used}.`;
            },
            isThere: async ({ values }) => {
                const found = await this.asked((each) => each.barcode === values.barcode, new Scope());
                return found.done ? found.words : null;
            },
            after: () => this.behind(),
        });
    }

    async again() {
        const [tapes, clips] = await Promise.all([this.scope.read(this.path),
            this.scope.read(`/ch/${this.desk.channel}/clips`)]);
        if (tapes.kind !== 'done' || clips.kind !== 'done') {
            const fault = refusedIn([tapes, clips]);
            if (fault) say(sentenceOf(fault), 'bad');
            return;
        }
        this.vault = vaultOf(tapes.text);
        this.rows = shelfRows(this.vault, clipsOf(clips.text));
        this.filter();
        if (this.add.inputs.slot.value === '' && this.shelve.inputs.slot.value === '') this.offerSlot(0);
    }

    filter() {
        if (!this.vault) return;
        const rows = filtered(this.rows, this.shown.value, this.search.value);
        this.list.show(rows, 'Nothing that is like this stands on the shelf.');
        const out = this.vault.tapes.length - this.vault.shelved;
        this.summary.textContent = `${counted(this.vault.tapes.length, 'tape')}, ${out} out, `
            + `${counted(this.vault.slots, 'slot')}; ${counted(rows.length, 'row')} shown`;
        this.chosen(this.list.chosen());
    }

    /** @param {Shelf | null} row */
    chosen(row) {
        const clips = (row?.clips ?? []).map((clip) => ({ ...clip, key: clip.reel, mark: clip.state }));
        this.held.show(clips, row?.tape ? 'No clip is on it.' : 'No tape is chosen.');
    }

    /** Puts what was chosen into the forms that can use it, and goes on there.
     * @param {Shelf} row */
    open(row) {
        if (!row.tape) {
            this.add.fill({ slot: row.slot });
            this.shelve.fill({ slot: row.slot });
            this.add.inputs.barcode.focus();
            return;
        }
        const several = this.list.chosenRows().length > 1;
        if (several) this.chose(this.list.chosenRows());
        else this.pull.fill({ tape: tapeWord(row.tape) });
        this.shelve.fill({ tape: tapeWord(row.tape) });
        (row.slot === null ? this.shelve.inputs.slot : this.pull.submit).focus();
    }

    sheet() {
        return this.vault && {
            title: 'Vault', words: `${this.shown.selectedOptions[0].textContent}. ${this.summary.textContent}.`,
            columns: COLUMNS, rows: this.list.rows,
        };
    }
}

/** @param {HTMLElement} main @param {Desk} desk @param {string[]} more @param {Scope} scope */
export function vaultView(main, desk, more, scope) {
    return new Vault(main, desk, scope);
}
