// Carries out a change of a day: one message takes items out and puts others in, whole or not at all. It says items by
// their numbers, so the plan is read before, and has to be as it was on the screen. Where no answer came, the next plan
// that is read tells whether it was done: until then it is kept in this tab, over a reload too.

import { change as send, Scope } from './office.js';
import { inDoubt, mayBeDone } from './requests.js';
import { clipsOf, lentOf } from './tables.js';
import { readPlan } from './facts.js';
import { dayOf } from './day-model.js';
import { becameOf, clashOf, packed, pieceOf, refusalOf, revisionOf, sameIn, unpacked } from './edits.js';
import { put, taken } from './tab.js';
import { labelOf, lengthLabel } from './timecode.js';
import { sentenceOf } from './refusals.js';

/** @typedef {import('./day-model.js').Block} Block */

// What is under way, by channel and day: a view that is left and opened again waits for it.
/** @type {Map<string, Promise<unknown>>} */
const turns = new Map();

const FAULTS = { outside: 'is outside the day', empty: 'has no frame', taken: 'is taken' };

/** @typedef {import('./edits.js').Piece} Piece */
/** @typedef {import('./edits.js').Change} Change */
/** @typedef {import('./day-model.js').Day} Day */
/** @typedef {import('./day-model.js').Sources} Sources */
/** @typedef {import('./requests.js').Refused} Refused */
/** @typedef {import('./facts.js').NotDone} NotDone */
/** @typedef {{ day: Day, titles: Sources, fault?: undefined }} Now as the office has it */
/** What came of a change. 'not': nothing was changed, and where it is unasked, the office wasn't asked; 'lost': it may
 * have been done, or not.
 * @typedef {{ kind: 'done', change: Change, words?: undefined } | Refused
 *     | { kind: 'not', words: string, isUnasked?: boolean } | { kind: 'lost', words: string }} Outcome */

export class PlanChanges {
    /** @param {{ channel: number, number: number, start: number, rate: import('./timecode.js').Rate }} place */
    constructor(place) {
        this.scope = new Scope(); // A change isn't given up as its view is left.
        this.place = place;
        this.path = `/ch/${place.channel}/days/${place.number}`;
        this.key = `${place.channel}/${place.number}/doubt`;
    }

    isBusy() {
        return turns.has(this.key);
    }

    /** @param {number} place */
    label(place) {
        return labelOf(this.place.start + place, this.place.rate);
    }

    /** @param {Piece} piece */
    pieceWords(piece) {
        return `${piece.source} at ${this.label(piece.place)}, ${lengthLabel(piece.frames, this.place.rate)} long`;
    }

    /** One change behind the other; control: where staff stop before it is sent, nothing is.
     * @param {Change} change @param {import('./progress.js').Control | null} control @returns {Promise<Outcome>} */
    perform(change, control = null) {
        const before = turns.get(this.key) ?? Promise.resolve();
        const asked = before.then(() => this.carried(change, control));
        const ended = asked.catch(() => null).then(() => {
            if (turns.get(this.key) === ended) turns.delete(this.key);
        });
        turns.set(this.key, ended);
        return asked;
    }

    /** The day, its clips and what it is lent as they are now, or an outcome.
     * @returns {Promise<Now | { fault: NotDone }>} */
    async now() {
        const { read } = this.scope;
        const root = `/ch/${this.place.channel}`;
        const [{ plan, answer }, clips, lent] = await Promise.all([
            readPlan(this.scope, this.place.channel, this.place.number), read(`${root}/clips`), read(`${root}/lent`),
        ]);
        if (!plan) return { fault: /** @type {NotDone} */ (answer) };
        if (plan.sealed) return { fault: { kind: 'refused', code: 73, refused: 'DaySealed' } };
        if (clips.kind !== 'done') return { fault: clips };
        if (lent.kind !== 'done') return { fault: lent };
        const titles = new Map([...clipsOf(clips.text), ...lentOf(lent.text)].map((each) => [each.reel, each]));
        return { day: dayOf(plan, this.place.start, this.place.rate, titles), titles };
    }

    /** Why the change can't be, in words and by the fields that it is about, or null.
     * @param {Day} day @param {Sources} titles @param {Change} change */
    against(day, titles, change) {
        for (const piece of change.out) {
            if (!sameIn(day.blocks, piece)) {
                return { fields: [], words: `The plan isn't as it was shown: ${this.pieceWords(piece)} isn't there any `
                    + 'more. Nothing was changed; look again.' };
            }
        }
        for (const piece of change.add) {
            const refusal = refusalOf(piece, titles, this.place.number, this.place.rate);
            if (refusal) {
                return { fields: [refusal.code === 79 ? 'in' : 'source'],
                    words: `${this.pieceWords(piece)} can't be put in: ${refusal.why}. Nothing was changed.` };
            }
        }
        const clash = clashOf(day.blocks, change, this.place.rate.day);
        if (!clash) return null;
        const where = clash.fault === 'taken' ? `${this.label(clash.place)} ` : '';
        const words = `${this.pieceWords(clash.piece)} can't be put in: ${where}${FAULTS[clash.fault]}. Nothing was `
            + 'changed.';
        return { fields: [clash.fault === 'empty' ? 'length' : 'at'], words };
    }

    /** @param {Change} change @param {import('./progress.js').Control | null} control @returns {Promise<Outcome>} */
    async carried(change, control) {
        const now = await this.now();
        if (now.fault?.kind === 'lost') {
            return { kind: 'not', isUnasked: true, words: `${now.fault.words}. Nothing was changed.` };
        }
        if (!('day' in now)) return now.fault;
        const { day, titles } = now;
        const against = this.against(day, titles, change);
        if (against) return { kind: 'not', ...against };
        if (control?.stopped) return { kind: 'not', words: 'It was stopped before it was sent. Nothing was changed.' };
        const out = change.out.map((piece) => /** @type {Block} */ (sameIn(day.blocks, piece)));
        const pieces = { ...change, out: out.map(pieceOf), add: change.add.map(pieceOf) };
        const body = revisionOf(out.map((block) => block.number), pieces.add, this.place.start, this.place.rate);
        put(this.key, { words: change.words, out: packed(pieces.out), add: packed(pieces.add) });
        const answer = await send(`${this.path}/revise`, body);
        if (answer.kind === 'done') return this.settled({ kind: 'done', change: pieces });
        if (answer.kind === 'lost') {
            return { kind: 'lost', words: `${inDoubt(answer)} It is looked up once the office answers.` };
        }
        if (mayBeDone(answer, 'revise') && await this.wasDone(pieces)) {
            return this.settled({ kind: 'done', change: pieces });
        }
        return this.settled({ ...answer, words: this.refusalOf(answer, pieces) });
    }

    /** @param {Outcome} outcome */
    settled(outcome) {
        taken(this.key);
        return outcome;
    }

    /** A refusal says the item's place in its list.
     * @param {Refused} refusal @param {Change} pieces */
    refusalOf(refusal, pieces) {
        const piece = (refusal.code === 82 ? pieces.out : pieces.add)[(refusal.item ?? 0) - 1];
        const which = piece ? `${this.pieceWords(piece)}: ` : '';
        return `${which}${sentenceOf(refusal)} Nothing was changed.`;
    }

    /** @param {Change} pieces */
    async wasDone(pieces) {
        const { plan } = await readPlan(this.scope, this.place.channel, this.place.number);
        if (!plan) return false;
        return becameOf(pieces, dayOf(plan, this.place.start, this.place.rate, new Map()).blocks) === 'done';
    }

    /** What a plan that was read tells of a change that got no answer: { done: true, change }, { done: false, words },
     * or null where there is none.
     * @param {Piece[]} blocks @returns {{ done: true, change: Change } | { done: false, words: string } | null} */
    doubted(blocks) {
        if (turns.has(this.key)) return null;
        const kept = taken(this.key);
        if (!kept) return null;
        const change = { words: kept.words, out: unpacked(kept.out), add: unpacked(kept.add) };
        const became = becameOf(change, blocks);
        if (became === 'done') return { done: true, change };
        const words = became === 'not' ? `It was not done: ${change.words}. You can do it again.`
            : `Whether this was done can't be told, since the plan was changed by others: ${change.words}. Look at it.`;
        return { done: false, words };
    }
}
