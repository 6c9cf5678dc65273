// A list of an editing system, whose reels are tapes or AX: each of its sources is brought together with a clip, and
// what is imported is the list in the office's own form. What was chosen is kept in the browser for the next list.

import { announce, button, clear, counted, make, say } from './dom.js';
import { FieldFault, bytesOf } from './fields.js';
import { vaultOf, clipsOf, lentOf } from './tables.js';
import { placed } from './day-list-forms.js';
import { listOf } from './edl.js';
import { faultSentence, faultWords, moreWords } from './fault-words.js';
import { readAll } from './list-faults.js';
import {
    LEFT_OUT, plannedOf, wantedOf, proposalsOf, isOpenChoice, keptOf, refusedEvents, relinked,
} from './relink-model.js';
import { RelinkRow } from './relink-row.js';
import { isForDay } from './lent-days.js';
import { areDone } from './requests.js';

/** @typedef {import('./relink-model.js').Wanted} Wanted */
/** @typedef {import('./relink-model.js').Proposal} Proposal */

export class Relink {
    /** @param {import('./view-day.js').DayView} view */
    constructor(view) {
        this.view = view;
        this.key = `desk/relink/${view.desk.channel}`;
        /** @type {{ name: string, title: string, ignore: boolean, events: import('./edl.js').EditEvent[] }} */
        this.read = { name: '', title: '', ignore: false, events: [] };
        /** @type {RelinkRow[]} */
        this.rows = [];
        /** @type {Map<string, any>} by the keys of what is wanted */
        this.chosen = new Map();
        this.words = make('p', {});
        this.fault = make('p', { class: 'fault' });
        this.table = make('table', { class: 'relink' });
        this.keep = make('input', { type: 'checkbox', id: 'relink-keep', checked: true });
        this.send = button('Import it so', () => this.imported(), { class: 'main', id: 'relink-send' });
        this.element = make('section', { class: 'notice', hidden: true, 'aria-label': 'Relink a list' }, this.words,
            make('div', { class: 'table-scroll' }, this.table), this.fault,
            make('div', { class: 'buttons' }, this.send,
                button('Show it first', () => this.showList(), { id: 'relink-show' }),
                button('Not now', () => this.close()),
                make('label', { for: 'relink-keep' }, this.keep, ' keep these for the next list')));
    }

    kept() {
        return JSON.parse(localStorage.getItem(this.key) ?? '{}');
    }

    /** @param {File | undefined} file @param {string} mode @param {string} where */
    async begin(file, mode, where) {
        const { view } = this;
        const input = view.forms.list;
        input.clearFaults();
        try {
            const bytes = placed(view, await bytesOf(file), mode, where);
            this.read = this.listOf(file?.name ?? '', bytes, mode === 'ignore');
        } catch (fault) {
            if (!(fault instanceof FieldFault)) throw fault;
            input.fault('file', fault.message);
            return;
        }
        await this.offer();
    }

    /** The events of the list, or all its faults with their lines.
     * @param {string} name @param {Uint8Array} bytes @param {boolean} ignore */
    listOf(name, bytes, ignore) {
        const { view } = this;
        const { title, events, faults } = readAll(bytes, view.day.rate);
        const planned = plannedOf(events, ignore);
        const refused = [...faults, ...refusedEvents(planned, ignore)].sort((one, other) => one.line - other.line);
        if (refused.length === 0) return { name, title, ignore, events: planned };
        const words = `${faultSentence(refused[0])}${moreWords(refused.length - 1, counted)}`;
        view.text.show(name, new TextDecoder().decode(bytes), refused[0].line, words,
            refused.map((fault) => ({ line: fault.line, words: faultWords(fault) })));
        throw new FieldFault(words, 'file');
    }

    // Active clips with the barcodes of their tapes, and what is lent to the channel for this day.
    async candidates() {
        const { view } = this;
        const root = `/ch/${view.desk.channel}`;
        const tables = ['tapes', 'clips', 'lent'];
        const answers = await Promise.all(tables.map((table) => view.scope.read(`${root}/${table}`)));
        if (!areDone(answers)) return null;
        const barcodes = new Map(vaultOf(answers[0].text).tapes.map((tape) => [tape.number, tape.barcode]));
        const own = clipsOf(answers[1].text).filter((clip) => clip.state === 'active')
            .map((clip) => ({ ...clip, barcode: barcodes.get(clip.tape) ?? '' }));
        const lent = lentOf(answers[2].text).filter((clip) => clip.state === 'open' && clip.rate === view.day.rate.rate
            && isForDay(clip.days, view.number)).map((clip) => ({ ...clip, barcode: '' }));
        return [...own, ...lent];
    }

    async offer() {
        const clips = await this.candidates();
        if (!clips) {
            say('The clips can\'t be read now. Try again.', 'bad', this.view.edits.place);
            return;
        }
        const kept = this.kept();
        const { rate } = this.view.day;
        this.rows = wantedOf(this.read.events).map((wanted) => {
            const proposals = proposalsOf(wanted, clips, rate, this.read.ignore, kept);
            // Where two clips fit as well, nothing is chosen for staff.
            const value = kept[wanted.key] === LEFT_OUT ? LEFT_OUT : isOpenChoice(proposals) ? '' : proposals[0].reel;
            return new RelinkRow(wanted, proposals, value, clips, rate, this.read.ignore);
        });
        const heads = ['Reel in the list', 'Its name', 'Events', 'Is the clip', 'First frame'];
        clear(this.table, make('tr', {}, ...heads.map((word) => make('th', { scope: 'col' }, word))),
            ...this.rows.map((row) => row.element));
        this.element.hidden = false;
        const open = this.rows.filter((row) => row.isOpen).length;
        const [events, sources] = [counted(this.read.events.length, 'event'), counted(this.rows.length, 'source')];
        this.words.textContent = `${this.read.name}: ${events} of ${sources}. `
            + `${open === 0 ? 'A clip fits each of them.' : `${counted(open, 'source')} to be chosen.`}`;
        this.fault.textContent = '';
        announce(this.words.textContent);
        (this.rows.find((row) => row.isOpen)?.select ?? this.send).focus();
    }

    pieces() {
        const open = this.rows.find((row) => row.isOpen);
        if (open) return this.asks(`Choose the clip of ${open.wanted.reel} ${open.wanted.name} first.`, open.select);
        const rows = this.rows.filter((row) => row.value !== LEFT_OUT);
        this.chosen = new Map(rows.map((row) => [row.wanted.key, row.read()]));
        const bad = rows.find((row) => !this.chosen.get(row.wanted.key));
        if (bad) return this.asks(bad.fault.textContent ?? '', bad.first);
        const { rate, start } = this.view.day;
        const pieces = relinked(this.read.events, this.chosen, start, rate, this.read.ignore);
        return pieces.length > 0 ? pieces : this.asks('All of its events are left out.', this.send);
    }

    /** @param {string} words @param {HTMLElement} element */
    asks(words, element) {
        this.fault.textContent = words;
        announce(words);
        element.focus();
        return null;
    }

    /** @param {import('./edits.js').Piece[]} pieces */
    text(pieces) {
        const { rate, start } = this.view.day;
        return listOf(this.read.title || 'RELINKED', pieces, start, rate,
            (piece) => this.view.titles.get(piece.source)?.title ?? '');
    }

    showList() {
        const pieces = this.pieces();
        if (pieces) this.view.text.show(`${this.read.name} as it is sent`, this.text(pieces));
    }

    async imported() {
        const pieces = this.pieces();
        if (!pieces) return;
        if (this.keep.checked) {
            const kept = this.kept();
            for (const { wanted } of this.rows) {
                const choice = this.chosen.get(wanted.key);
                kept[wanted.key] = choice ? keptOf(choice) : LEFT_OUT;
            }
            localStorage.setItem(this.key, JSON.stringify(kept));
        }
        const words = `${counted(pieces.length, 'item')} of ${this.read.name} imported`;
        const outcome = await this.view.edits.carryAndChoose({ words, out: [], add: pieces });
        if (outcome.kind === 'done') this.close();
        else {
            this.fault.textContent = outcome.words;
            this.send.focus();
        }
    }

    close() {
        this.element.hidden = true;
        this.view.list.element.focus();
    }
}
