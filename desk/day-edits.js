// What staff change of a planned day: chosen items are moved, trimmed, replaced, copied and pasted, a stretch is made
// empty, another day is copied. Each is a change of plan-changes.js, and can be taken back.

import { button, counted, make, say, show, targetOf } from './dom.js';
import { copyDay } from './day-copy.js';
import {
    changed, cleared, inserted, moved, packed, pasted, pieceOf, replaced, reversed, shifted, trimmed, unpacked, without,
} from './edits.js';
import { framesOf } from './edl.js';
import { endOf } from './ranges.js';
import { EditForms } from './day-edit-forms.js';
import { History } from './history.js';
import { Notice } from './notice.js';
import { PlanChanges } from './plan-changes.js';
import { STOPPED, watched } from './progress.js';
import { kept, put } from './tab.js';
import { stepLabel, lengthLabel } from './timecode.js';
import { sentenceOf } from './refusals.js';

/** @typedef {import('./edits.js').Change} Change */
/** @typedef {import('./day-model.js').Block} Block */
/** What came of a change, in words that were said.
 * @typedef {{ kind: string, words: string, change?: Change, isUnasked?: boolean, code?: number }} Carried */

/** Whether a change that wasn't done may be done later: nobody was asked, no answer came, or it isn't the rows that
 * refuse.
 * @param {Carried} outcome */
function mayComeLater(outcome) {
    return outcome.kind === 'lost' || outcome.isUnasked === true || (outcome.code ?? 0) >= 100;
}

export class DayEdits {
    /** @param {import('./view-day.js').DayView} view */
    constructor(view) {
        this.view = view;
        this.place = `${view.desk.channel}/${view.number}`;
        this.history = new History(this.place);
        this.clipboard = `desk/clipboard/${view.desk.channel}`; // of all windows of this browser
        /** @type {PlanChanges | null} */
        this.changes = null;
        this.notice = new Notice();
        this.forms = new EditForms(this);
        this.undoButton = button('Undo', () => this.undo(), { id: 'undo', title: 'Ctrl+Z' });
        this.redoButton = button('Redo', () => this.redo(), { id: 'redo', title: 'Ctrl+Y' });
        this.tools = make('div', { class: 'group' }, this.undoButton, this.redoButton,
            button('Copy', () => this.copy(), { id: 'copy', title: 'Ctrl+C' }),
            button('Cut', () => this.cut(), { id: 'cut', title: 'Ctrl+X' }),
            button('Paste', () => this.paste(), { id: 'paste', title: 'Ctrl+V, at the cursor' }));
        this.showHistory();
    }

    // Once the day was read: its start and rate are known, and what became of a change that got no answer.
    shown() {
        const { view } = this;
        const { rate, start } = view.day;
        this.changes ??= new PlanChanges({ channel: view.desk.channel, number: view.number, start, rate });
        this.settleDoubt();
        this.forms.shown();
    }

    settleDoubt() {
        const doubted = this.changes?.doubted(this.view.day.blocks);
        if (!doubted) return;
        if (doubted.done) this.wasChanged(doubted.change);
        const words = doubted.done ? `It was done: ${doubted.change.words}.` : doubted.words;
        say(words, doubted.done ? 'good' : 'bad', this.place);
    }

    showHistory() {
        for (const [element, word] of /** @type {const} */ ([[this.undoButton, 'Undo'], [this.redoButton, 'Redo']])) {
            const entry = word === 'Undo' ? this.history.toUndo() : this.history.toRedo();
            element.setAttribute('aria-disabled', String(!entry));
            element.title = entry ? `${word}: ${entry.words}` : `Nothing to ${word.toLowerCase()}`;
        }
    }

    /** @param {Change} change */
    wasChanged(change) {
        this.history.push(change);
        this.showHistory();
    }

    /** Of an import: what the list had, as far as it is in the plan now and wasn't before.
     * @param {import('./fields.js').Values} values */
    wereImported({ list, mode, before, file }) {
        const { rate, start, blocks } = this.view.day;
        const events = /** @type {import('./edl.js').EditEvent[]} */ (list.events);
        const places = new Map(events.map((event) => [(event.record - start + rate.day) % rate.day, event]));
        const add = without(blocks, before).filter((block) => {
            const event = places.get(block.place);
            return event && framesOf(event, mode === 'ignore') === block.frames;
        });
        this.wasChanged({ words: `${counted(add.length, 'item')} of ${file.name} imported`, out: [],
            add: add.map(pieceOf) });
    }

    /** Carries out a change and tells what became of it.
     * @param {Change} change @param {boolean} remember @returns {Promise<Carried>} */
    async carry(change, remember = true) {
        if (!this.changes || this.view.day.sealed) return { kind: 'not', words: 'The day can\'t be changed now.' };
        show(`${change.words}...`, 'plain', this.place);
        const control = { stopped: false };
        const asked = this.changes.perform(change, control);
        const outcome = await watched(() => `${change.words}...`, this.place, asked, control);
        if (outcome !== STOPPED) return this.came(change, outcome, remember);
        asked.then((late) => this.came(change, late, remember));
        const words = 'Stopped waiting. What became of it is told once the office answers.';
        say(words, 'bad', this.place);
        return { kind: 'lost', words };
    }

    /** @param {Change} change @param {import('./plan-changes.js').Outcome} outcome @param {boolean} remember
     * @returns {Promise<Carried>} */
    async came(change, outcome, remember) {
        if (outcome.kind === 'done' && remember) this.wasChanged(outcome.change);
        const words = outcome.words ?? (outcome.kind === 'refused' ? sentenceOf(outcome) : '');
        if (outcome.kind === 'done') say(`${change.words}.`, 'good', this.place);
        else say(words, 'bad', this.place);
        if (!this.view.scope.gone) await this.view.againPlan();
        return { ...outcome, words };
    }

    /** What was put in is chosen then, so that it can be changed on.
     * @param {Change} change */
    async carryAndChoose(change) {
        const { choice, scope } = this.view;
        const { turn } = choice;
        const outcome = await this.carry(change);
        if (outcome.change && !scope.gone && turn === choice.turn) {
            choice.pieces(outcome.change.add);
            this.view.sourcing.asksFirst = true;
        }
        return outcome;
    }

    isBusy() {
        return this.changes?.isBusy() ?? false;
    }

    /** @param {Block[]} blocks */
    nameOf(blocks) {
        return blocks.length === 1 ? `Item ${blocks[0].number} ${blocks[0].title}` : counted(blocks.length, 'item');
    }

    /** @param {number} step @returns {Promise<Carried> | null} */
    move(step) {
        const blocks = this.view.choice.blocks();
        if (blocks.length === 0 || step === 0) return null;
        return this.carryAndChoose(moved(blocks, step, `${this.nameOf(blocks)} moved by ${this.step(step)}`));
    }

    /** @param {number} place @param {number} step */
    shift(place, step) {
        const blocks = this.view.day.blocks.filter((block) => block.place >= place);
        const words = `${counted(blocks.length, 'item')} from ${this.view.timeline.label(place)} on moved by `
            + `${this.step(step)}`;
        return this.carry(shifted(this.view.day.blocks, place, step, words));
    }

    /** @param {number} step */
    step(step) {
        return stepLabel(step, this.view.day.rate);
    }

    /** @param {Block} block @param {import('./ranges.js').Range} range */
    trim(block, range) {
        const words = `${this.nameOf([block])} trimmed to ${lengthLabel(range.frames, this.view.day.rate)}`;
        return this.carryAndChoose(trimmed(block, range, words));
    }

    /** @param {Block} block @param {Partial<import('./edits.js').Piece>} values */
    change(block, values) {
        return this.carryAndChoose(changed(block, values, `${this.nameOf([block])} changed`));
    }

    /** A piece put in before what is chosen, or at the cursor, and what follows pushed on to the next gaps.
     * @param {import('./edits.js').Piece} piece @returns {Promise<Carried>} */
    async insert(piece) {
        const { day, timeline } = this.view;
        const change = inserted(day.blocks, [piece], piece.place, '');
        const over = Math.max(...change.add.map(endOf)) - day.frames;
        if (over > 0) {
            return { kind: 'not', words: 'The gaps behind it don\'t take so much: '
                + `${lengthLabel(over, day.rate)} too long. Nothing was changed.` };
        }
        const pushed = change.out.length > 0 ? `, ${counted(change.out.length, 'item')} pushed on` : '';
        change.words = `${piece.source} inserted at ${timeline.label(piece.place)}${pushed}`;
        return this.carryAndChoose(change);
    }

    /** @param {Block} block @param {import('./day-model.js').Source} source */
    async replace(block, source) {
        const words = `${this.nameOf([block])} replaced by ${source.reel} ${source.title}`;
        const outcome = await this.carryAndChoose(replaced(block, source, this.view.day.rate, words));
        this.view.sourcing.asksFirst = false;
        return outcome;
    }

    /** @param {number} place @param {number} end */
    clearStretch(place, end) {
        const { timeline, day } = this.view;
        return this.carry(cleared(day.blocks, place, end,
            `${timeline.label(place)} to ${timeline.label(end)} made empty`));
    }

    copy() {
        const blocks = this.view.choice.blocks();
        if (blocks.length === 0) say('Choose an item first.', 'bad', this.place);
        else {
            const isKept = put(this.clipboard, packed(blocks), localStorage);
            if (isKept) say(`${this.nameOf(blocks)} copied.`, 'good', this.place);
            else say('The browser has no room to copy so many items.', 'bad', this.place);
        }
        return blocks;
    }

    cut() {
        const blocks = this.copy();
        if (blocks.length === 0) return null;
        return this.carry({ words: `${this.nameOf(blocks)} cut`, out: blocks, add: [] });
    }

    paste() {
        const pieces = unpacked(kept(this.clipboard, localStorage) ?? []);
        if (pieces.length === 0) {
            say('Nothing was copied yet.', 'bad', this.place);
            return null;
        }
        const { timeline } = this.view;
        const place = this.view.choice.pastePlace();
        const words = `${counted(pieces.length, 'item')} pasted at ${timeline.label(place)}`;
        return this.carryAndChoose(pasted(pieces, place, words));
    }

    undo() {
        const entry = this.history.toUndo();
        if (!entry) return say('Nothing to take back.', 'plain', this.place);
        this.history.wasUndone();
        return this.again({ ...reversed(entry), words: `Taken back: ${entry.words}` }, {
            lost: () => this.history.wasRedone(), impossible: () => this.history.forgetUndone(),
        });
    }

    redo() {
        const entry = this.history.toRedo();
        if (!entry) return say('Nothing to do again.', 'plain', this.place);
        this.history.wasRedone();
        return this.again({ ...entry, words: `Done again: ${entry.words}` }, {
            lost: () => this.history.wasUndone(), impossible: () => this.history.forgetDone(),
        });
    }

    /** One behind the other, so that a key that is pressed twice takes back two things. What got no answer stays to do;
     * what others made impossible is passed over, so that what was done before it can be taken back.
     * @param {Change} change @param {{ lost: () => void, impossible: () => void }} fails */
    async again(change, fails) {
        this.showHistory();
        const outcome = await this.carry(change, false);
        if (outcome.kind !== 'done' && mayComeLater(outcome)) fails.lost();
        else if (outcome.kind !== 'done') {
            fails.impossible();
            say(`Passed over, since it can't be: ${outcome.words}`, 'bad', this.place);
        }
        this.showHistory();
    }

    /** @param {number} from */
    copyDay(from) {
        return copyDay(this, from);
    }

    /** @param {KeyboardEvent} event */
    key(event) {
        if (!(event.ctrlKey || event.metaKey) || event.altKey || targetOf(event).matches('input, select')) return;
        // A text that is marked is copied as everywhere.
        if (event.key.toLowerCase() === 'c' && String(getSelection() ?? '') !== '') return;
        /** @type {Object<string, () => unknown>} */
        const keys = {
            z: () => (event.shiftKey ? this.redo() : this.undo()), y: () => this.redo(), c: () => this.copy(),
            x: () => this.cut(), v: () => this.paste(),
        };
        const does = keys[event.key.toLowerCase()];
        if (!does || !this.view.day || this.view.day.sealed) return;
        event.preventDefault();
        does();
    }
}
