// What is typed into the cells of a plan.

import test from 'node:test';
import assert from 'node:assert/strict';
import { begins, cellText, changedOf, kindOf, nowWords, pieceTyped, sourceOf } from '../../desk/cells-model.js';
import { cellRefused } from '../../desk/plan-cells.js';
import { dayOf, planRows, sourcesOf } from '../../desk/day-model.js';
import { planOf } from '../../desk/tables.js';
import { rateOf } from '../../desk/timecode.js';

const pal = rateOf('25');
const clip = (number, title, frames, first = '10:00:00:00') => ({ reel: `C000000${number}`, state: 'active', first,
    frames, tape: 1, umid: '', title });
const CLIPS = [clip(1, 'NEWS', 1500), clip(2, 'SPORT NEWS', 100), clip(3, 'FILM', 50000, '00:00:00:00')];
const sources = sourcesOf(CLIPS, []);
const day = dayOf(planOf(`DAY 7 OPEN
   1 06:00:00:00    1000 C    000 BL       00:00:00:00
   2 06:00:40:00     500 D    025 C0000001 10:00:10:00
   3 06:02:00:00      25 W001 010 BARS     00:00:00:00
ITEMS 3 FRAMES 1525 OF 2160000
`), 6 * 3600 * 25, pal, new Map(CLIPS.map((each) => [each.reel, each])));
const rows = planRows(day);
const [black, news, gap, bars] = rows;
const typed = (row, what) => pieceTyped(row, what, day, sources);
const refuses = (does, field, words) => assert.throws(does, (fault) => fault.field === field
    && fault.message.includes(words));

test('a cell has what its row shows', () => {
    assert.deepEqual(['at', 'length', 'source', 'kind', 'in'].map((field) => cellText(news, field, day)),
        ['06:00:40:00', '00:00:20:00', 'C0000001', 'dissolve 25', '10:00:10:00']);
    assert.deepEqual(['at', 'length', 'source', 'kind', 'in'].map((field) => cellText(gap, field, day)),
        ['06:01:00:00', '00:01:00:00', '', '', '']);
    assert.deepEqual(['0', 'c', 'S', '+', 'F2'].map((key) => [begins('at', key), begins('kind', key),
        begins('source', key)]), [[true, false, true], [false, true, true], [false, false, true],
        [false, false, false], [false, false, false]]);
});

test('kinds as they are typed', () => {
    for (const text of ['c', 'C', 'cut', ' Cut ']) assert.deepEqual(kindOf(text), { kind: 'C', mix: 0 });
    for (const text of ['d 25', 'D25', 'dissolve 25']) assert.deepEqual(kindOf(text), { kind: 'D', mix: 25 });
    for (const text of ['w 12 5', 'wipe 012, 5', 'W12,5']) assert.deepEqual(kindOf(text), { kind: 'W012', mix: 5 });
    for (const text of ['', 'd', 'd 0', 'w 5', 'w 1000 5', 'x', 'd 2 5', 'cu', 'w 1 0']) {
        refuses(() => kindOf(text), 'kind', 'Type cut');
    }
});

test('sources by reel or title', () => {
    assert.equal(sourceOf('c0000002', sources).reel, 'C0000002');
    assert.equal(sourceOf('black', sources).reel, 'BL');
    assert.equal(sourceOf('news', sources).reel, 'C0000001');
    assert.equal(sourceOf('fil', sources).reel, 'C0000003');
    refuses(() => sourceOf('new', sources), 'source', '2 sources are like this, as C0000001 NEWS and C0000002');
    refuses(() => sourceOf('opera', sources), 'source', 'No source');
    refuses(() => sourceOf('', sources), 'source', 'No source');
});

test('an item by what is typed', () => {
    const plain = { kind: 'D', mix: 25, source: 'C0000001', place: 1000, frames: 500, from: 900250 };
    assert.deepEqual(typed(news, {}), plain);
    assert.deepEqual(typed(news, { at: '06010000' }), { ...plain, place: 1500 });
    assert.deepEqual(typed(news, { at: '05:59:59:24' }).place, 2159999);
    assert.deepEqual(typed(news, { length: '50' }), { ...plain, frames: 50 });
    assert.deepEqual(typed(news, { in: '10000000', length: '00000110' }), { ...plain, frames: 35, from: 900000 });
    assert.deepEqual(typed(news, { kind: 'c' }), { ...plain, kind: 'C', mix: 0 });
    assert.deepEqual(typed(news, { kind: 'w 3 20' }), { ...plain, kind: 'W003', mix: 20 });
    assert.deepEqual(typed(news, { source: 'film' }), { ...plain, source: 'C0000003', from: 0 });
    assert.deepEqual(typed(news, { source: 'sport' }), { ...plain, source: 'C0000002', from: 900000, frames: 100 });
    assert.deepEqual(typed(news, { source: 'film', in: '00000100', length: '7' }),
        { ...plain, source: 'C0000003', from: 25, frames: 7 });
    assert.equal(typed(bars, { in: '01000000' }).from, 0);
    refuses(() => typed(news, { at: '24000000' }), 'at', '2 LabelRange');
    refuses(() => typed(news, { length: '0' }), 'length', '87 EmptyItem');
    refuses(() => typed(news, { length: 'x' }), 'length', '1 LabelForm');
    refuses(() => typed(news, { in: '1' }), 'in', '1 LabelForm');
    refuses(() => typed(news, { length: '20', kind: 'd 21' }), 'kind', 'longer than its item');
});

test('an item in a gap', () => {
    assert.deepEqual(typed(gap, { source: 'sport' }), { place: 1500, frames: 100, source: 'C0000002', from: 900000,
        kind: 'C', mix: 0 });
    assert.deepEqual(typed(gap, { source: 'bl' }).frames, 1500);
    assert.deepEqual(typed(gap, { source: 'bl', at: '06:01:10:00', length: '10', kind: 'd 5' }),
        { place: 1750, frames: 10, source: 'BL', from: 0, kind: 'D', mix: 5 });
    refuses(() => typed(gap, { at: '06:01:10:00' }), 'source', 'Type the source');
});

test('what was typed, where it differs', () => {
    assert.deepEqual(changedOf(news, { at: '06004000', length: '00:00:20:00', kind: 'dissolve 25' }, day), {});
    assert.deepEqual(changedOf(news, { at: '06004001', in: '10:00:10:00' }, day), { at: '06004001' });
    assert.equal(nowWords(news, day), 'item 2 is C0000001 NEWS, 06:00:40:00 to 06:01:00:00 now');
    assert.equal(nowWords(gap, day), 'the gap is 06:01:00:00 to 06:02:00:00 now');
    assert.equal(nowWords(null, day), 'it was taken out');
    assert.equal(black.number, 1);
});

test('a refusal stands beside its cell', () => {
    assert.equal(cellRefused({ code: 75 }, { at: '1', length: '2' }), 'at');
    assert.equal(cellRefused({ code: 75 }, { length: '2', kind: 'c' }), 'length');
    assert.equal(cellRefused({ code: 79 }, { source: 'x', length: '2' }), 'length');
    assert.equal(cellRefused({ code: 79 }, { source: 'x' }), 'source');
    assert.equal(cellRefused({ code: 80 }, { length: '2', kind: 'd 3' }), 'kind');
    assert.equal(cellRefused({ code: 77 }, {}), 'source');
    assert.equal(cellRefused({ fields: ['in'] }, { in: '2' }), 'in');
    assert.equal(cellRefused({}, {}), 'at');
});
