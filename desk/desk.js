// The page: who may speak for which channels, which view is shown, and whether the office answers.

import { make, clear, say, unsay, byId, selectById, keepFocus } from './dom.js';
import { onConnection, page, probeAs, Left, Scope } from './office.js';
import { knownRate, knownStart, readRow } from './facts.js';
import { site, readSite, channelName } from './site.js';
import { sentenceOf } from './refusals.js';
import { goesToLogin, leaving, offerLogout } from './sign-on.js';
import { chosenTheme, setTheme, startTheme } from './theme.js';
import { fillSheet, emptySheet, saveSheet } from './sheet.js';
import { channelView } from './view-channel.js';
import { vaultView } from './view-vault.js';
import { clipsView } from './view-clips.js';
import { dayView } from './view-day.js';
import { daysView } from './view-days.js';
import { pullView } from './view-pull.js';
import { airedView } from './view-aired.js';

const LISTS = 'Lists: arrows choose, Left and Right a column, S sorts, + and - widen';
/** @typedef {import('./timecode.js').Rate} Rate */
/** What the views know: who asks, for which channel, and where else there is to go.
 * @typedef {{ user: string, channels: number[], channel: number,
 *     goTo: (view: string, ...more: (string | number)[]) => void,
 *     rate: () => Rate, start: () => number }} Desk the rate and the start are known before a view is shown */
/** A view in the page: it reads again what it shows, is left, and has a sheet to print.
 * @typedef {{ again: () => unknown, leave?: () => void,
 *     sheet?: () => import('./sheet.js').Sheet | null | undefined | false }} Shown */
/** @typedef {{ name: string, word: string, key: string, keys: string,
 *     show: (main: HTMLElement, desk: Desk, more: string[], scope: Scope) => Shown }} ViewOf */

/** @type {ViewOf[]} */
const VIEWS = [
    { name: 'channel', word: 'Channel', key: 'c', show: channelView, keys: '' },
    {
        name: 'vault', word: 'Vault', key: 'v', show: vaultView,
        keys: `Enter puts the tape into the forms. ${LISTS}`,
    },
    {
        name: 'clips', word: 'Clips', key: 'k', show: clipsView,
        keys: `Enter puts the clip into the forms. ${LISTS}`,
    },
    {
        name: 'days', word: 'Days', key: 'm', show: daysView,
        keys: 'Arrows go from day to day, Page Up and Page Down to the neighbours, Enter opens one',
    },
    {
        name: 'day', word: 'Day', key: 'y', show: dayView,
        keys: 'Time line: + and - zoom, arrows move, G next gap, N and P items, Enter puts, Delete takes out, '
            + 'Ctrl+Z undo',
    },
    {
        name: 'pull', word: 'Pull list', key: 'l', show: pullView,
        keys: `Enter goes to the vault. ${LISTS}`,
    },
    {
        name: 'aired', word: 'What went out', key: 'w', show: airedView,
        keys: 'Time line: + and - zoom, arrows move, G next fault, N and P items',
    },
];

/** @type {Desk} */
const desk = {
    user: '', channels: [], channel: 0, goTo,
    rate: () => /** @type {Rate} */ (knownRate(desk.channel)), start: () => knownStart(desk.channel) ?? 0,
};
/** @type {Shown | null} */
let current = null;
let scope = new Scope();

/** @param {string} view @param {(string | number)[]} more */
function goTo(view, ...more) {
    location.hash = ['', desk.channel, view, ...more].join('/');
}

// The address is #/CHANNEL/VIEW/MORE, so that each view of each channel can be kept as a link.
function route() {
    const [, channel, name, ...more] = location.hash.split('/');
    const view = VIEWS.find((each) => each.name === name) ?? VIEWS[0];
    return { channel: channel ? Number(channel) : desk.channels[0], named: channel, view, more };
}

/** @param {number} channel @param {ViewOf} view */
function showNavigation(channel, view) {
    const links = VIEWS.map((each) => make('a', {
        href: `#/${channel}/${each.name}`, accesskey: each.key, 'data-view': each.name,
        'aria-current': each === view ? 'page' : null, title: `Alt+${each.key.toUpperCase()}`,
    }, each.word));
    clear(byId('views'), ...links);
    selectById('channel').value = String(desk.channel);
    byId('keys').textContent = view.keys;
    document.title = `${view.word} - ${channelName(desk.channel)} - Temolunai desk`;
}

function showRate() {
    const rate = desk.rate();
    const badge = byId('rate');
    badge.textContent = rate ? rate.name : 'rate ?';
    badge.classList.toggle('drop', Boolean(rate?.drop));
}

// A view's frame stands at once, and what it reads comes into it. What the view before asked for is given up.
async function show() {
    scope.leave();
    const mine = new Scope();
    scope = mine;
    const { channel, named, view, more } = route();
    current?.leave?.();
    current = null;
    document.body.dataset.ready = '';
    unsay(`${channel}/${more[0] ?? ''}`);
    const main = byId('main');
    main.className = `view-${view.name}`;
    const isOwn = desk.channels.includes(channel);
    desk.channel = isOwn ? channel : desk.channels[0];
    showNavigation(desk.channel, view);
    if (!isOwn) return refuseChannel(main, named);
    probeAs(channel);
    showRate();
    main.focus({ preventScroll: true });
    try {
        if (!desk.rate()) {
            clear(main, make('p', { class: 'loading', id: 'loading' }, `${view.word}: loading...`));
            const answer = await readRow(mine, channel);
            showRate();
            if (!desk.rate()) return withoutRow(main, answer);
        }
        current = view.show(main, desk, more, mine);
        document.body.dataset.frame = `${channel}/${view.name}`;
        await current.again();
        if (scope === mine) document.body.dataset.ready = `${channel}/${view.name}`;
    } catch (fault) {
        if (!(fault instanceof Left)) throw fault;
    }
    return null;
}

/** An address of a channel that isn't the user's shows no other channel's rows in its place.
 * @param {HTMLElement} main @param {string} named */
function refuseChannel(main, named) {
    document.title = 'No such channel of yours - Temolunai desk';
    clear(main, make('div', { class: 'missing', id: 'not-yours' },
        make('p', { class: 'fault' }, `You may not speak for channel ${named}, or there is none of this number.`),
        make('p', {}, 'Choose one of yours above.')));
    say(`You may not speak for channel ${named}.`, 'bad');
    document.body.dataset.ready = 'not-yours';
    return null;
}

/** Labels can't be read without a rate: until the office tells it, nothing of the channel is shown.
 * @param {HTMLElement} main @param {import('./requests.js').Answer} answer */
function withoutRow(main, answer) {
    const words = answer.kind === 'refused' ? sentenceOf(answer) : 'The office doesn\'t tell this channel\'s rate yet.';
    clear(main, make('p', { class: 'fault', id: 'no-row' }, words));
    current = { again: show };
    return null;
}

async function again() {
    try {
        await current?.again?.();
    } catch (fault) {
        if (!(fault instanceof Left)) throw fault;
    }
}

/** @param {import('./office.js').Connection} now @param {string} words @param {string} was */
function showConnection(now, words, was) {
    const badge = byId('connection');
    badge.textContent = { connected: 'CONNECTED', slow: 'WAITING', gone: 'NO ANSWER' }[now];
    badge.className = `connection ${now}`;
    const lost = byId('lost');
    lost.hidden = now !== 'gone';
    if (now === 'gone') {
        const time = new Date().toTimeString().slice(0, 8);
        lost.textContent = `${words}, since ${time}. What you typed is kept, and nothing is sent again by itself. The `
            + 'desk tries to reach the office every few seconds.';
        say(lost.textContent, 'bad');
    }
    if (now === 'connected' && was === 'gone') {
        say('The office answers again.', 'good');
        again();
    }
}

async function whoAmI() {
    const response = await page('/me');
    if (goesToLogin(response)) return leaving();
    if (!response.ok) throw new Error(`/me was answered ${response.status}`);
    const { user, channels } = await response.json();
    desk.user = user;
    desk.channels = channels;
    byId('user').textContent = user;
    offerLogout(byId('logout'), response);
    return null;
}

function hears() {
    selectById('channel').addEventListener('change', () => {
        location.hash = `/${selectById('channel').value}/${route().view.name}`;
    });
    addEventListener('hashchange', show);
    addEventListener('focus', again);
    addEventListener('beforeprint', () => fillSheet(current?.sheet?.(), desk));
    addEventListener('afterprint', emptySheet);
    byId('save-csv').addEventListener('click', () => saveSheet(current?.sheet?.(), desk));
    document.querySelector('.skip')?.addEventListener('click', (event) => {
        event.preventDefault();
        byId('main').focus();
    });
}

async function start() {
    try {
        await Promise.all([readSite(), whoAmI()]);
    } catch {
        const lost = byId('lost');
        lost.hidden = false;
        lost.textContent = 'Who you are can\'t be learned: the server in front doesn\'t answer. Trying again.';
        setTimeout(start, 3000);
        return;
    }
    byId('lost').hidden = true;
    clear(byId('channel'), ...desk.channels.map((each) => make('option', { value: each }, channelName(each))));
    if (desk.channels.length === 0) {
        clear(byId('main'), make('p', { class: 'empty' }, `${desk.user} may speak for no channel.`));
        return;
    }
    onConnection(showConnection);
    byId('connection').textContent = 'CONNECTED';
    hears();
    await show();
    if (site().faults.length > 0) say(`site.json: ${site().faults.join('; ')}.`, 'bad');
}

// A table that the desk can't read, say: nothing is shown that isn't so. What was left is no fault.
addEventListener('unhandledrejection', (event) => {
    if (event.reason instanceof Left) event.preventDefault();
    else say(`The desk met a fault: ${event.reason?.message}`, 'bad');
});
startTheme();
const theme = selectById('theme');
theme.value = chosenTheme();
theme.addEventListener('change', () => setTheme(theme.value));
keepFocus(byId('main'));
start();
