// Requests: their order, late answers, repetitions, and those that had no answer.

import test from 'node:test';
import assert from 'node:assert/strict';
import { foundIn, inDoubt, Left, mayBeDone, Requests } from '../../desk/requests.js';
import { answerOf } from '../../desk/office.js';

const later = (ms = 0) => new Promise((resolve) => { setTimeout(resolve, ms); });

/** An office whose answers are given by hand: it keeps what it was asked, and what is heard of it. */
class ByHand {
    constructor(times = { patience: 1000, slow: 1000 }) {
        this.asked = [];
        this.heard = [];
        this.waits = new Map();
        this.requests = new Requests((method, path, body, signal) => this.ask(method, path, body, signal),
            (now) => this.heard.push(now), times);
    }

    ask(method, path, body, signal) {
        const name = body === undefined ? path : `${path} ${body}`;
        this.asked.push(name);
        return new Promise((resolve, refuse) => this.waits.set(name, {
            signal, answers: (text) => resolve({ kind: 'done', text, value: null }), breaks: refuse,
        }));
    }

    async answers(name, text = name) {
        this.waits.get(name).answers(text);
        await later();
    }
}

test('changes go one after another, in the order in which they were made', async () => {
    const office = new ByHand();
    const done = [];
    for (const body of ['one', 'two', 'three']) office.requests.change('/x', body).then(() => done.push(body));
    await later();
    assert.deepEqual(office.asked, ['/x one']);
    await office.answers('/x one');
    assert.deepEqual([office.asked, done], [['/x one', '/x two'], ['one']]);
    await office.answers('/x two');
    await office.answers('/x three');
    assert.deepEqual(done, ['one', 'two', 'three']);
});

test('a read waits for the changes before it, and not for those behind it', async () => {
    const office = new ByHand();
    office.requests.change('/x', 'one');
    const read = office.requests.read('/clips');
    office.requests.change('/x', 'two');
    await later();
    assert.deepEqual(office.asked, ['/x one']);
    await office.answers('/x one');
    assert.deepEqual(office.asked.toSorted(), ['/clips', '/x one', '/x two']);
    await office.answers('/clips');
    assert.equal((await read).text, '/clips');
});

test('reads go side by side, and those of one path one after another', async () => {
    const office = new ByHand();
    const texts = [];
    office.requests.read('/plan').then(({ text }) => texts.push(text));
    office.requests.read('/clips').then(({ text }) => texts.push(text));
    office.requests.read('/plan').then(({ text }) => texts.push(text));
    await later();
    assert.deepEqual(office.asked, ['/plan', '/clips']);
    await office.answers('/clips');
    await office.answers('/plan', 'old');
    assert.deepEqual(office.asked, ['/plan', '/clips', '/plan']);
    await office.answers('/plan', 'new');
    assert.deepEqual(texts, ['/clips', 'old', 'new']);
    assert.equal(office.requests.reading.size, 0);
});

test('one without an answer is given up after its time, and what comes late is nobody\'s answer', async () => {
    const office = new ByHand({ patience: 20, slow: 5 });
    const first = office.requests.change('/x', 'one');
    const second = office.requests.change('/x', 'two');
    await later();
    const late = office.waits.get('/x one');
    assert.deepEqual(await first, { kind: 'lost', words: 'No answer in a minute' });
    assert.ok(late.signal.aborted);
    late.answers('late');
    await later();
    assert.deepEqual(office.asked, ['/x one', '/x two']);
    office.waits.get('/x two').answers('in time');
    assert.equal((await second).text, 'in time');
    assert.deepEqual(office.heard.slice(0, 2), ['slow', 'lost']);
    assert.equal(office.heard.at(-1), 'answered');
});

test('a broken connection is no answer, and what is behind it goes on', async () => {
    const office = new ByHand();
    const [first, second] = [office.requests.change('/x', 'one'), office.requests.read('/plan')];
    await later();
    office.waits.get('/x one').breaks(new TypeError('network'));
    assert.deepEqual(await first, { kind: 'lost', words: 'No connection' });
    await later();
    await office.answers('/plan');
    assert.equal((await second).kind, 'done');
    assert.deepEqual(office.heard, ['lost', 'answered']);
    assert.equal(office.requests.waiting, 0);
});

test('what a view asked for is given up as it is left, a change never', async () => {
    const office = new ByHand();
    const view = new AbortController();
    const [open, waits] = ['/plan', '/plan'].map((path) => office.requests.read(path, view.signal));
    const change = office.requests.change('/x', 'one');
    await later();
    view.abort();
    await assert.rejects(open, Left);
    await assert.rejects(waits, Left);
    assert.deepEqual(office.asked, ['/plan', '/x one']);
    await office.answers('/x one');
    assert.equal((await change).kind, 'done');
    assert.deepEqual(office.heard, ['left', 'answered']);
});

test('one that was sent again by a browser is refused for what the first one did', () => {
    const refused = (code) => ({ kind: 'refused', code, refused: 'X' });
    assert.deepEqual([43, 55, 75, 82].map((code) => mayBeDone(refused(code), 'form')), [true, true, true, false]);
    assert.deepEqual([43, 55, 75, 82].map((code) => mayBeDone(refused(code), 'revise')), [false, false, true, true]);
    assert.ok(!mayBeDone({ kind: 'lost', words: '' }, 'form'));
});

test('what no answer means, in words', () => {
    assert.equal(inDoubt({ kind: 'lost', words: 'No connection' }), 'No connection. It may have been done, or not.');
    assert.deepEqual(foundIn({ kind: 'lost' }, () => 'there'), { lost: true });
    assert.deepEqual(foundIn({ kind: 'done' }, () => 'it is there.'), { done: true, words: 'it is there.' });
    assert.deepEqual(foundIn({ kind: 'done' }, () => null), { done: false });
});

test('a server in front that doesn\'t know is no answer', () => {
    assert.equal(answerOf(502, '{"code":502,"refused":"BadGateway"}', 'application/json').kind, 'lost');
    assert.equal(answerOf(500, '{"code":100,"refused":"Unavailable"}', 'application/json').kind, 'refused');
    assert.equal(answerOf(200, '<html>', 'text/html').kind, 'lost');
});
