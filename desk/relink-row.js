// One source of a list that is relinked: the clip that it is, which may be any, or none where its events are left out,
// and the frame of the clip at which the list begins to use it.

import { freshId, make, options } from './dom.js';
import { CellError, sourceOf } from './cells-model.js';
import { LEFT_OUT, choiceOf, firstLabel, missingWords } from './relink-model.js';
import { completed, frameOf } from './timecode.js';
import { sentenceOf } from './refusals.js';

/** @typedef {import('./relink-model.js').Wanted} Wanted */
/** @typedef {import('./relink-model.js').Proposal} Proposal */
/** @typedef {import('./relink-model.js').Candidate} Candidate */

// Why a clip is proposed.
/** @type {Object<string, string>} */
const HOW = {
    kept: 'as the last time', reel: 'by its reel', title: 'by its title', barcode: 'by barcode and label',
    begins: 'by how its title begins', chosen: 'as chosen',
};
const ANOTHER = '?';

export class RelinkRow {
    /** @param {Wanted} wanted @param {Proposal[]} proposals @param {string} value what is chosen at first
     * @param {Candidate[]} clips @param {import('./timecode.js').Rate} rate @param {boolean} ignore */
    constructor(wanted, proposals, value, clips, rate, ignore) {
        this.wanted = wanted;
        this.proposals = proposals;
        this.clips = clips;
        this.rate = rate;
        this.ignore = ignore;
        const name = `${wanted.reel} ${wanted.name}`;
        this.select = make('select', { id: freshId('relink'), 'data-reel': wanted.reel, 'data-name': wanted.name,
            'aria-label': `The clip of ${name}` });
        this.search = make('input', { hidden: true, class: 'relink-any', 'aria-label': `Another clip for ${name}`,
            placeholder: 'reel or title, Enter' });
        const id = freshId('relink-fault');
        this.first = make('input', { class: 'label relink-first', 'aria-describedby': id,
            'aria-label': `First frame of the clip of ${name}`, title: 'the clip\'s frame at which the list begins' });
        this.fault = make('p', { class: 'fault', id });
        this.offer(value);
        this.select.addEventListener('change', () => this.chosen());
        this.search.addEventListener('keydown', (/** @type {KeyboardEvent} */ event) => {
            if (event.key !== 'Enter') return;
            event.preventDefault();
            this.another();
        });
        this.first.addEventListener('change', () => { this.first.value = completed(this.first.value, this.rate); });
        this.element = make('tr', {}, make('td', { class: 'code' }, wanted.reel), make('td', {}, wanted.name || '-'),
            make('td', { class: 'right' }, String(wanted.uses)), make('td', {}, this.select, this.search),
            make('td', {}, this.first, this.fault));
    }

    /** @param {string} value */
    offer(value) {
        const none = this.proposals.length === 0 ? 'no clip fits' : 'choose';
        const clips = this.proposals.map((each) => [each.reel, `${each.reel} ${each.title} (${HOW[each.how]}`
            + `${each.shift === 0 || each.how === 'chosen' ? '' : ', from its first frame'})`]);
        this.select.replaceChildren(...options([['', none], ...clips, [ANOTHER, 'another clip..'],
            [LEFT_OUT, 'leave its events out']]));
        this.select.value = value;
        this.showFirst();
    }

    get value() {
        return this.select.value;
    }

    // Whether staff have to choose still.
    get isOpen() {
        return this.value === '' || this.value === ANOTHER;
    }

    proposal() {
        return this.proposals.find((each) => each.reel === this.value) ?? null;
    }

    showFirst() {
        const proposal = this.proposal();
        this.first.hidden = !proposal;
        this.first.value = proposal ? firstLabel(this.wanted, proposal.shift, this.rate) : '';
        this.fault.textContent = '';
    }

    chosen() {
        this.search.hidden = this.value !== ANOTHER;
        if (this.value === ANOTHER) this.search.focus();
        this.showFirst();
    }

    // Any clip of the channel, or one that it is lent, as its cells in the plan name it.
    another() {
        const named = this.clips.map((clip) => ({ ...clip, key: clip.reel, look: '',
            words: `${clip.reel}\n${clip.title}`.toLowerCase() }));
        try {
            const { reel } = sourceOf(this.search.value, named);
            const clip = /** @type {Candidate} */ (this.clips.find((each) => each.reel === reel));
            this.proposals = [...this.proposals.filter((each) => each.reel !== reel),
                choiceOf(this.wanted, clip, this.rate, this.ignore)];
            this.search.hidden = true;
            this.offer(reel);
            this.first.focus();
        } catch (fault) {
            if (!(fault instanceof CellError)) throw fault;
            this.fault.textContent = fault.message;
        }
    }

    /** The clip that was chosen with its first frame, or null and the fault beside it.
     * @returns {Proposal | null} */
    read() {
        const proposal = this.proposal();
        if (!proposal) return null;
        this.first.value = completed(this.first.value, this.rate);
        const { frame, fault } = frameOf(this.first.value, this.rate);
        const clip = this.clips.find((each) => each.reel === proposal.reel);
        const shift = frame === undefined ? 0 : frame - Math.min(...this.wanted.events.map((event) => event.source));
        this.fault.textContent = frame === undefined ? sentenceOf({ code: fault ?? 1 })
            : clip ? missingWords(this.wanted, clip, shift, this.rate, this.ignore) : '';
        return this.fault.textContent ? null : { ...proposal, shift };
    }
}
