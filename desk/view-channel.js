// The channel: who speaks for it, its rate, and what it has.

import { make, clear, panel, grouped } from './dom.js';
import { vaultOf, clipsOf, offersOf, lentOf } from './tables.js';
import { channelName, site } from './site.js';
import { frameOf, lengthOf, labelOf, lengthLabel, completed } from './timecode.js';
import { areDone, refusedIn } from './requests.js';
import { sentenceOf } from './refusals.js';

/** @typedef {import('./desk.js').Desk} Desk */
/** @typedef {import('./office.js').Scope} Scope */

/** @param {string[][]} pairs */
function figures(pairs) {
    const lines = pairs.flatMap(([name, value]) => [make('dt', {}, name), make('dd', {}, value)]);
    return make('dl', { class: 'figures' }, ...lines);
}

/** @param {import('./timecode.js').Rate} rate */
function rateWords(rate) {
    const drop = rate.drop ? 'drop-frame, labels with ;' : 'non-drop, labels with :';
    return `${rate.name} (${drop}), ${grouped(rate.day)} frames a day`;
}

/** A reckoner for labels and lengths at the channel's rate.
 * @param {Desk} desk */
function reckoner(desk) {
    const sum = make('output', { class: 'sum', for: 'reckon-label reckon-length' });
    const zero = labelOf(0, desk.rate());
    const input = (/** @type {string} */ id, /** @type {string} */ word) => [make('label', { for: id }, word),
        make('input', { id, class: 'label', value: zero })];
    const box = make('div', { class: 'reckoner' }, ...input('reckon-label', 'Label'),
        ...input('reckon-length', 'and length'), make('span', {}, 'ends at'), sum);
    box.addEventListener('input', () => reckon());
    box.addEventListener('change', (event) => {
        const field = /** @type {HTMLInputElement} */ (event.target);
        field.value = completed(field.value, desk.rate());
        reckon();
    });
    const reckon = () => {
        const rate = desk.rate();
        const [label, length] = [...box.querySelectorAll('input')].map((each) => each.value);
        const [begins, long] = [frameOf(completed(label, rate), rate), lengthOf(completed(length, rate), rate)];
        const fault = begins.fault ?? long.fault;
        const [frame, frames] = [begins.frame ?? 0, long.frames ?? 0];
        sum.textContent = fault ? sentenceOf({ code: fault })
            : `${labelOf(frame + frames, rate)} (from frame ${grouped(frame)}, ${grouped(frames)} long)`;
    };
    reckon();
    return panel('Reckoner', box);
}

/** @param {number} channel @param {Scope} scope */
async function counts(channel, scope) {
    const tables = ['tapes', 'clips', 'offers', 'lent'];
    const answers = await Promise.all(tables.map((name) => scope.read(`/ch/${channel}/${name}`)));
    const refused = refusedIn(answers);
    if (refused) throw new Refusal(sentenceOf(refused));
    if (!areDone(answers)) return null;
    const texts = answers.map((answer) => answer.text);
    const [vault, clips, offers, lent] = [vaultOf(texts[0]), clipsOf(texts[1]), offersOf(texts[2]), lentOf(texts[3])];
    const active = clips.filter((clip) => clip.state === 'active').length;
    const open = (/** @type {{ state: string }[]} */ rows) => rows.filter((row) => row.state === 'open').length;
    return [
        ['Slots', grouped(vault.slots)],
        ['Tapes', `${grouped(vault.tapes.length)}, ${grouped(vault.tapes.length - vault.shelved)} of them out`],
        ['Clips', `${grouped(clips.length)}, ${grouped(active)} of them active`],
        ['Lent by this channel', `${grouped(open(offers))} open, ${grouped(offers.length - open(offers))} recalled`],
        ['Lent to this channel', `${grouped(open(lent))} open, ${grouped(lent.length - open(lent))} recalled`],
    ];
}

class Refusal extends Error {}

class Channel {
    /** @param {HTMLElement} main @param {Desk} desk @param {Scope} scope */
    constructor(main, desk, scope) {
        this.desk = desk;
        this.scope = scope;
        /** @type {string[][]} */
        this.pairs = [];
        this.identity = make('div', {});
        this.has = make('div', { id: 'channel-has' }, make('p', { class: 'dim' }, 'Loading...'));
        clear(main, make('div', { class: 'columns' }, panel('Channel', this.identity), panel('What it has', this.has),
            reckoner(desk)));
        this.showIdentity();
    }

    showIdentity() {
        const { desk } = this;
        const rate = desk.rate();
        const pairs = [
            ['You are', desk.user],
            ['You may speak for', desk.channels.map(channelName).join(', ')],
            ['This channel', channelName(desk.channel)],
            ['Rate', rateWords(rate)],
            ['A day begins at', labelOf(desk.start(), rate)],
            ['A day is', lengthLabel(rate.day, rate)],
        ];
        const { day1 } = site();
        if (day1) pairs.push(['Day 1 was', day1]);
        clear(this.identity, figures(pairs));
    }

    async again() {
        try {
            const has = await counts(this.desk.channel, this.scope);
            if (has) this.pairs = has;
            clear(this.has, has ? figures(has) : make('p', { class: 'fault' }, 'The office doesn\'t answer.'));
        } catch (fault) {
            if (!(fault instanceof Refusal)) throw fault;
            clear(this.has, make('p', { class: 'fault' }, fault.message));
        }
    }

    sheet() {
        /** @type {import('./sheet.js').Sheet['columns']} */
        const columns = [{ name: 'What', text: (row) => row[0] }, { name: 'How many', text: (row) => row[1] }];
        return { title: 'What it has', words: 'The channel.', columns, rows: this.pairs };
    }
}

/** @param {HTMLElement} main @param {Desk} desk @param {string[]} more @param {Scope} scope */
export function channelView(main, desk, more, scope) {
    return new Channel(main, desk, scope);
}
