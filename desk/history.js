// What was changed of a day in this tab, so that it can be taken back and done again: the last fifty changes, and of
// these as many as have 20,000 items together. Another view of the same day, and a reload, find it again.

import { packed, unpacked } from './edits.js';
import { kept, put } from './tab.js';

/** @typedef {import('./edits.js').Change} Change */
/** @typedef {import('./edits.js').Packed} Packed */
/** @typedef {{ words: string, out: Packed[], add: Packed[] }} Entry */

const MOST = 50;
const MOST_ITEMS = 20000;

/** @param {Entry} entry */
function itemsOf(entry) {
    return entry.out.length + entry.add.length;
}

export class History {
    /** @param {string} place the channel and the day */
    constructor(place) {
        this.key = `${place}/history`;
        const was = kept(this.key) ?? { done: [], undone: [] };
        /** @type {Entry[]} */
        this.done = was.done;
        /** @type {Entry[]} */
        this.undone = was.undone;
    }

    // The oldest go: of what was done first, then of what was taken back.
    keep() {
        let items = [...this.done, ...this.undone].reduce((sum, entry) => sum + itemsOf(entry), 0);
        while (this.done.length > MOST || (items > MOST_ITEMS && this.done.length > 1)) {
            const oldest = this.done.shift();
            items -= oldest ? itemsOf(oldest) : 0;
        }
        while (items > MOST_ITEMS && this.undone.length > 1) {
            const oldest = this.undone.shift();
            items -= oldest ? itemsOf(oldest) : 0;
        }
        put(this.key, { done: this.done, undone: this.undone });
    }

    /** @param {Change} change */
    push(change) {
        this.done.push({ words: change.words, out: packed(change.out), add: packed(change.add) });
        this.undone = [];
        this.keep();
    }

    /** @param {Entry[]} list @returns {Change | null} */
    last(list) {
        const entry = list[list.length - 1];
        return entry ? { words: entry.words, out: unpacked(entry.out), add: unpacked(entry.add) } : null;
    }

    toUndo() {
        return this.last(this.done);
    }

    toRedo() {
        return this.last(this.undone);
    }

    wasUndone() {
        const entry = this.done.pop();
        if (entry) this.undone.push(entry);
        this.keep();
    }

    wasRedone() {
        const entry = this.undone.pop();
        if (entry) this.done.push(entry);
        this.keep();
    }

    // A change that others made impossible is passed over.
    forgetUndone() {
        this.undone.pop();
        this.keep();
    }

    forgetDone() {
        this.done.pop();
        this.keep();
    }
}
