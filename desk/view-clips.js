// The clips of the channel, those that it lends, and those that it is lent.

import { make, clear, panel, fold, button, say, counted, options } from './dom.js';
import { clipsOf, offersOf, lentOf, vaultOf } from './tables.js';
import { List } from './list.js';
import { ClipForms } from './clip-forms.js';
import { PlannedWhere } from './planned-where.js';
import { areDone, refusedIn } from './requests.js';
import { sentenceOf } from './refusals.js';
import { daysWords, forDays } from './lent-days.js';
import { channelShort } from './site.js';
import { lentCounts } from './find-model.js';
import { dayOnAir } from './facts.js';
import { lengthLabel, rateOf } from './timecode.js';

/** @typedef {Clips} ClipsView */
/** @typedef {import('./desk.js').Desk} Desk */
/** @typedef {import('./office.js').Scope} Scope */
/** @typedef {import('./tables.js').LentClip} LentClip */
/** @typedef {import('./tables.js').Clip & { key: string, mark: string, lentTo: string, barcode: string,
 *     slot: number | string, words: string }} ClipRow */
/** @typedef {import('./tables.js').Offer & { key: number, mark: string, title: string }} OfferRow */
/** @typedef {LentClip & { key: string, mark: string, words: string }} LentRow */

const SHOWN = [['all', 'All clips'], ['active', 'Active'], ['retired', 'Retired']];

// The days that a lent clip is for.
/** @type {import('./list-columns.js').Column<{ days: import('./tables.js').Days | null }>} */
const DAYS_COLUMN = { name: 'Days', width: '6rem', text: (row) => daysWords(row.days), mark: () => 'number' };

/** @param {import('./timecode.js').Rate} rate @returns {import('./list-columns.js').Column<ClipRow>[]} */
function clipColumns(rate) {
    return [
        { name: 'Reel', width: '6rem', text: (clip) => clip.reel, mark: () => 'code' },
        { name: 'Title', width: 'minmax(12rem, 1fr)', text: (clip) => clip.title, tail: true },
        { name: 'State', width: '4.8rem', text: (clip) => clip.state, mark: (clip) => clip.state },
        { name: 'First frame', width: '6.6rem', text: (clip) => clip.first, mark: () => 'code' },
        { name: 'Length', width: '6.6rem', text: (clip) => lengthLabel(clip.frames, rate), mark: () => 'code',
            sort: (clip) => clip.frames },
        { name: 'Frames', width: '5rem', align: 'right', text: (clip) => clip.frames, mark: () => 'number' },
        { name: 'Tape', width: '3.6rem', align: 'right', text: (clip) => clip.tape, mark: () => 'number' },
        { name: 'Barcode', width: '5.4rem', text: (clip) => clip.barcode, mark: () => 'code' },
        { name: 'Slot', width: '3.4rem', align: 'right', text: (clip) => clip.slot, mark: () => 'number' },
        { name: 'Lent to', width: '6rem', text: (clip) => clip.lentTo, mark: () => 'number' },
        { name: 'UMID ends', width: '8rem', text: (clip) => clip.umid.slice(-12), mark: () => 'code dim' },
    ];
}

/** @type {import('./list-columns.js').Column<LentRow>[]} */
const LENT_COLUMNS = [
    { name: 'Reel', width: '5.4rem', text: (clip) => clip.reel, mark: () => 'code' },
    { name: 'Title', width: 'minmax(7rem, 1fr)', text: (clip) => clip.title, tail: true },
    { name: 'State', width: '5.4rem', text: (clip) => clip.words, mark: (clip) => clip.state },
    DAYS_COLUMN,
    { name: 'Owner', width: '7.4rem', text: (clip) => channelShort(clip.owner), mark: () => 'number' },
    { name: 'Rate', width: '4.2rem', text: (clip) => rateOf(clip.rate)?.name ?? clip.rate, mark: () => 'number' },
    { name: 'First frame', width: '6.6rem', text: (clip) => clip.first, mark: () => 'code' },
    { name: 'Frames', width: '4.8rem', align: 'right', text: (clip) => clip.frames, mark: () => 'number' },
];

/** @type {import('./list-columns.js').Column<OfferRow>[]} */
const OFFER_COLUMNS = [
    { name: 'Offer', width: '2.7rem', align: 'right', text: (offer) => offer.number, mark: () => 'number' },
    { name: 'Reel', width: '5.2rem', text: (offer) => offer.reel, mark: () => 'code' },
    { name: 'Title', width: 'minmax(6rem, 1fr)', text: (offer) => offer.title, tail: true },
    { name: 'To', width: 'minmax(5.4rem, 0.5fr)', text: (offer) => channelShort(offer.to), mark: () => 'number' },
    { name: 'State', width: '4.4rem', text: (offer) => (offer.state === 'open' ? 'lent' : 'recalled'),
        mark: (offer) => offer.state },
    DAYS_COLUMN,
];

class Clips {
    /** @param {HTMLElement} main @param {Desk} desk @param {Scope} scope */
    constructor(main, desk, scope) {
        this.desk = desk;
        this.scope = scope;
        this.root = `/ch/${desk.channel}`;
        /** @type {ClipRow[]} */
        this.clips = [];
        /** @type {import('./tables.js').Tape[]} */
        this.tapes = [];
        /** @type {LentClip[]} */
        this.loans = [];
        /** @type {HTMLInputElement} */
        this.search;
        /** @type {HTMLSelectElement} */
        this.shown;
        /** @type {HTMLElement} */
        this.summary;
        /** @type {HTMLElement} */
        this.lentWords;
        /** @type {HTMLElement} */
        this.nextLent;
        this.list = new List('Clips', clipColumns(desk.rate()), {
            open: (clip) => this.open(clip), select: (clips) => this.chose(clips),
        }, true);
        this.offers = new List('Lent by this channel', OFFER_COLUMNS, {
            open: (offer) => this.openOffer(offer), select: (offers) => this.choseOffers(offers),
        }, true);
        this.lent = new List('Lent to this channel', LENT_COLUMNS, { open: (clip) => this.openLent(clip) });
        this.where = new PlannedWhere(desk, scope);
        this.forms = new ClipForms(this);
        this.build(main);
    }

    /** @param {HTMLElement} main */
    build(main) {
        this.search = make('input', { id: 'clip-search', type: 'search', placeholder: 'title, reel, tape or UMID' });
        this.shown = make('select', { id: 'clip-shown' }, ...options(SHOWN));
        this.summary = make('p', { class: 'summary' }, 'Loading...');
        for (const each of [this.search, this.shown]) each.addEventListener('input', () => this.filter());
        const bar = make('div', { class: 'bar', role: 'search' }, make('label', { for: 'clip-search' }, 'Search'),
            this.search, make('label', { for: 'clip-shown' }, 'Show'), this.shown, this.summary);
        this.lentWords = make('p', { class: 'dim', id: 'lent-summary' });
        this.nextLent = button('Next recalled', () => this.nextRecalled(), { id: 'lent-next', hidden: true });
        const lists = make('div', { class: 'two' }, panel('Lent by this channel', this.offers.element),
            panel('Lent to this channel', make('div', { class: 'bar' }, this.lentWords, this.nextLent),
                this.lent.element));
        const { add, retire, lend, recall, bulk, many } = this.forms;
        const left = make('section', { class: 'work', 'aria-label': 'Clips' }, bar, this.list.element, lists);
        const right = make('div', { class: 'side' },
            panel('Clip', add.element, fold('bulk-clips', 'Clips from a file', false, bulk.element), retire.element,
                many.retire.element),
            panel('Lending', lend.element, many.lend.element, recall.element, many.recall.element),
            panel('Finding', fold('where', 'Where a clip is planned', false, this.where.element)));
        clear(main, left, right);
    }

    /** An offer in words, or '' where there is none of this number.
     * @param {number} number */
    offerWords(number) {
        const offer = this.offers.all.find((each) => each.number === number);
        if (!offer) return '';
        const state = offer.state === 'open' ? '' : ', recalled';
        return `${offer.reel} ${offer.title} to ${channelShort(offer.to)}${forDays(offer.days)}${state}`;
    }

    /** @param {string} reel */
    titleOf(reel) {
        return this.clips.find((clip) => clip.reel === reel)?.title ?? '';
    }

    async again() {
        const tables = ['clips', 'offers', 'lent', 'tapes'];
        const answers = await Promise.all(tables.map((table) => this.scope.read(`${this.root}/${table}`)));
        const fault = refusedIn(answers);
        if (fault) say(sentenceOf(fault), 'bad');
        if (!areDone(answers)) return;
        const [clips, offers, lent] = [clipsOf(answers[0].text), offersOf(answers[1].text), lentOf(answers[2].text)];
        this.tapes = vaultOf(answers[3].text).tapes;
        this.showClips(clips, offers);
        const titles = new Map(clips.map((clip) => [clip.reel, clip.title]));
        this.offers.show(offers.map((offer) => ({
            ...offer, key: offer.number, mark: offer.state, title: titles.get(offer.reel) ?? '',
        })), 'Nothing was lent yet.');
        this.showLent(lent);
    }

    /** @param {import('./tables.js').Clip[]} clips @param {import('./tables.js').Offer[]} offers */
    showClips(clips, offers) {
        /** @type {Map<string, number[]>} */
        const grantees = new Map();
        for (const offer of offers.filter((each) => each.state === 'open')) {
            grantees.set(offer.reel, [...grantees.get(offer.reel) ?? [], offer.to]);
        }
        const tapes = new Map(this.tapes.map((tape) => [tape.number, tape]));
        this.clips = clips.map((clip) => {
            const { barcode, slot } = tapes.get(clip.tape) ?? { barcode: '', slot: null };
            return {
                ...clip, key: clip.reel, mark: clip.state, lentTo: (grantees.get(clip.reel) ?? []).join(' '), barcode,
                slot: slot ?? 'OUT',
                words: `${clip.reel}\n${clip.title}\n${clip.umid}\ntape ${clip.tape}\n${barcode}`.toLowerCase(),
            };
        });
        this.filter();
    }

    /** Windows end on a day: the one that is on, where the centre has dates, or the one that was shown last.
     * @param {LentClip[]} lent */
    showLent(lent) {
        this.loans = lent;
        this.lent.show(lent.map((clip) => ({
            ...clip, key: clip.reel, mark: clip.state, words: clip.state === 'open' ? 'lent' : 'RECALLED',
        })), 'Nothing is lent to this channel.');
        const day = dayOnAir(this.desk.channel)
            ?? Number(sessionStorage.getItem(`${this.desk.channel}/day`) ?? '1');
        const { open, recalled, ending, over } = lentCounts(lent, day);
        this.lentWords.textContent = `${open} lent, ${recalled} recalled; on day ${day}: ${ending} in the last day of `
            + `the loan, ${over} behind it`;
        this.nextLent.hidden = recalled === 0;
        this.nextLent.textContent = `Next recalled (${recalled})`;
    }

    nextRecalled() {
        const { rows, active } = this.lent;
        const place = [...rows.keys()].find((index) => index > active && rows[index].state === 'withdrawn')
            ?? rows.findIndex((row) => row.state === 'withdrawn');
        this.lent.choose(place);
        say(`${rows[place].reel} ${rows[place].title} was recalled by its owner.`, 'bad');
    }

    filter() {
        const wanted = this.search.value.trim().toLowerCase();
        const shown = this.shown.value;
        const rows = this.clips.filter((clip) => (shown === 'all' || clip.state === shown)
            && (!wanted || clip.words.includes(wanted)));
        this.list.show(rows, 'No clip is like this.');
        this.summary.textContent = `${counted(this.clips.length, 'clip')}; ${rows.length} shown`;
    }

    /** Several that are chosen are lent, retired or recalled together; one of them, by Enter.
     * @param {ClipRow[]} clips */
    chose(clips) {
        if (clips.length > 1) this.fillClips(clips);
    }

    /** @param {{ number: number }[]} offers */
    choseOffers(offers) {
        if (offers.length > 1) this.forms.recall.fill({ offer: offers.map((offer) => offer.number).join(' ') });
    }

    /** @param {{ reel: string }[]} clips */
    fillClips(clips) {
        const names = clips.map((clip) => clip.reel).join(' ');
        this.forms.retire.fill({ clip: names });
        this.forms.lend.fill({ clip: names });
    }

    /** @param {ClipRow} clip */
    open(clip) {
        const chosen = this.list.chosenRows();
        this.fillClips(chosen.length > 1 ? chosen : [clip]);
        this.where.form.fill({ clip: clip.reel });
        this.forms.lend.inputs.to.focus();
    }

    /** @param {OfferRow} offer */
    openOffer(offer) {
        const chosen = this.offers.chosenRows();
        this.forms.recall.fill({ offer: (chosen.length > 1 ? chosen : [offer]).map((each) => each.number).join(' ') });
        this.forms.recall.submit.focus();
    }

    /** @param {LentClip} clip */
    openLent(clip) {
        this.where.form.fill({ clip: clip.reel });
        const around = this.where.element.closest('details');
        if (around) around.open = true;
        this.where.form.inputs.first.focus();
    }

    sheet() {
        const columns = clipColumns(this.desk.rate()).filter((column) => column.name !== 'Frames');
        return { title: 'Clips', words: `${this.summary.textContent}.`, columns, rows: this.list.rows };
    }
}

/** @param {HTMLElement} main @param {Desk} desk @param {string[]} more @param {Scope} scope */
export function clipsView(main, desk, more, scope) {
    return new Clips(main, desk, scope);
}
