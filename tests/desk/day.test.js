// A day as it is shown, and what becomes of its items as staff change them.

import test from 'node:test';
import assert from 'node:assert/strict';
import { planOf } from '../../desk/tables.js';
import { rateOf } from '../../desk/timecode.js';
import {
    blockWords, dayOf, endLabel, gapWords, kindWords, landing, planRows, sourcesOf,
} from '../../desk/day-model.js';
import {
    becameOf, changed, clashOf, cleared, insertPlace, inserted, isSame, moved, packed, pasted, pieceOf, replaced,
    reversed, revisionOf, sameIn, shifted, sorted, trimmed, unpacked, whyNot, without,
} from '../../desk/edits.js';
import { History } from '../../desk/history.js';
import { pullRows, reelsOut } from '../../desk/pull-model.js';
import { foundIn, lentCounts, lentStateOf, nextOf, plannedIn } from '../../desk/find-model.js';

const pal = rateOf('25');
const START = 6 * 3600 * 25;
const NEWS = { reel: 'C0000001', state: 'active', first: '10:00:00:00', frames: 1500, tape: 1, umid: '',
    title: 'NEWS' };
const OLD = { ...NEWS, reel: 'C0000002', state: 'retired', title: 'OLD' };
const GOAL = { reel: 'L0020001', owner: 2, state: 'withdrawn', days: null, rate: '25', first: '00:00:00:00',
    frames: 750, umid: '', title: 'GOAL' };
const WINDOW = { ...GOAL, reel: 'L0020002', state: 'open', days: { first: 3, last: 7 }, title: 'WINDOW' };
const NTSC = { ...GOAL, reel: 'L0020003', state: 'open', rate: 'df', title: 'NTSC' };
const sources = new Map([NEWS, OLD, GOAL, WINDOW, NTSC].map((each) => [each.reel, each]));
const plan = planOf(`DAY 7 OPEN
   1 06:00:00:00    1000 C    000 BL       00:00:00:00
   2 06:00:40:00     500 D    025 C0000001 10:00:10:00
   4 06:02:00:00     750 C    000 L0020001 00:00:00:00
   3 05:59:59:00      25 W001 010 BARS     00:00:00:00
ITEMS 4 FRAMES 2275 OF 2160000
`);
const day = dayOf(plan, START, pal, sources);
const [black, news, goal, bars] = day.blocks;
const piece = (place, frames, source, from = 0, kind = 'C', mix = 0) => ({ place, frames, source, from, kind, mix });

test('items have their places, titles and looks', () => {
    assert.deepEqual(day.blocks.map((block) => [block.number, block.place, block.title, block.look, block.recalled]), [
        [1, 0, 'BLACK', 'black', false], [2, 1000, 'NEWS', 'clip', false], [4, 3000, 'GOAL', 'lent', true],
        [3, 2159975, 'BARS', 'bars', false],
    ]);
    assert.deepEqual(day.gaps, [{ place: 1500, frames: 1500 }, { place: 3750, frames: 2156225 }]);
    assert.deepEqual(planRows(day).map((row) => row.key),
        ['item-1', 'item-2', 'gap-1500', 'item-4', 'gap-3750', 'item-3']);
});

test('in words', () => {
    assert.equal(endLabel(day, bars), '06:00:00:00');
    assert.equal(kindWords(bars), 'wipe 001, 10');
    assert.equal(blockWords(day, goal), 'item 4: RECALLED, L0020001 GOAL, 06:02:00:00 to 06:02:30:00, length '
        + '00:00:30:00, cut');
    assert.equal(gapWords(day, day.gaps[0]), 'GAP from 06:01:00:00 to 06:02:00:00, length 00:01:00:00 (1500 frames)');
});

test('a source lands behind its neighbour, or freely', () => {
    const [gap] = day.gaps;
    assert.deepEqual(landing(gap, { frames: 100 }, 2000, false), { place: 1500, frames: 100, room: 1500, fits: true });
    assert.deepEqual(landing(gap, { frames: 100 }, 2000, true), { place: 2000, frames: 100, room: 1000, fits: true });
    assert.deepEqual(landing(gap, { frames: null }, 2000, true), { place: 2000, frames: 1000, room: 1000, fits: true });
    assert.equal(landing(gap, { frames: 1501 }, 1500, false).fits, false);
});

test('sources are black, bars, what is lent and what is owned', () => {
    assert.deepEqual(sourcesOf([NEWS], [WINDOW]).map((each) => each.reel), ['BL', 'BARS', 'L0020002', 'C0000001']);
});

test('an item moves with all that it has', () => {
    const change = moved([news], 250, '');
    assert.deepEqual(change.out, [news]);
    assert.deepEqual(change.add, [piece(1250, 500, 'C0000001', 900250, 'D', 25)]);
});

test('all that follows is shifted, from an item on', () => {
    assert.deepEqual(shifted(day.blocks, 1000, 1500, '').add.map((each) => each.place), [2500, 4500, 2161475]);
});

test('a trim at the begin moves the source along, one at the end doesn\'t', () => {
    const add = (block, range) => trimmed(block, range, '').add;
    assert.deepEqual(add(news, { place: 1100, frames: 400 }), [piece(1100, 400, 'C0000001', 900350, 'D', 25)]);
    assert.deepEqual(add(news, { place: 1000, frames: 10 }), [piece(1000, 10, 'C0000001', 900250, 'D', 10)]);
    assert.deepEqual(trimmed(black, { place: 100, frames: 900 }, '').add, [piece(100, 900, 'BL')]);
});

test('a replaced item keeps its place, and its length where the source has it', () => {
    assert.deepEqual(replaced(goal, NEWS, pal, '').add, [piece(3000, 750, 'C0000001', 900000)]);
    assert.deepEqual(replaced(black, { reel: 'L0020002', frames: 750, first: '00:00:00:00' }, pal, '').add,
        [piece(0, 750, 'L0020002')]);
    assert.deepEqual(replaced(news, { reel: 'BARS', frames: null, first: null }, pal, '').add,
        [piece(1000, 500, 'BARS', 0, 'D', 25)]);
});

test('an item as its form has it', () => {
    assert.deepEqual(changed(news, { place: 1600, frames: 20, from: 900000 }, '').add,
        [piece(1600, 20, 'C0000001', 900000, 'D', 20)]);
});

test('a stretch is made empty: what lies over its ends is cut off', () => {
    const change = cleared(day.blocks, 900, 1200, '');
    assert.deepEqual(change.out.map((each) => each.number), [1, 2]);
    assert.deepEqual(change.add, [piece(0, 900, 'BL'), piece(1200, 300, 'C0000001', 900450)]);
});

test('copied items are pasted as far apart as they were', () => {
    assert.deepEqual(pasted([news, goal].map(pieceOf), 5000, '').add.map((each) => [each.place, each.source]),
        [[5000, 'C0000001'], [7000, 'L0020001']]);
});

test('what is taken back is the other way round', () => {
    const change = moved([news], 250, 'moved');
    assert.deepEqual(reversed(change), { words: 'moved', out: change.add, add: [pieceOf(news)] });
});

test('the same item is one of the same place, length, source and kind, whatever its number', () => {
    assert.ok(isSame({ ...news, number: 9 }, news));
    const others = [{ place: 1001 }, { frames: 499 }, { source: 'C0000002' }, { from: 0 }, { kind: 'W001' }, { mix: 24 }];
    for (const other of others) {
        assert.ok(!isSame({ ...news, ...other }, news), JSON.stringify(other));
    }
    assert.ok(isSame({ ...black, from: 7 }, black));
    assert.equal(sameIn(day.blocks, pieceOf(goal)), goal);
    assert.deepEqual(without(day.blocks, [pieceOf(news)]), [black, goal, bars]);
});

test('what clashes is told with its place', () => {
    const clash = (change) => clashOf(day.blocks, { words: '', out: [], ...change }, pal.day);
    assert.equal(clash({ add: [piece(1500, 1500, 'BL')] }), null);
    assert.deepEqual(clash({ add: [piece(1500, 1501, 'BL')] })?.place, 3000);
    assert.deepEqual(clash({ add: [piece(900, 10, 'BL')] })?.fault, 'taken');
    assert.equal(clash({ out: [black], add: [piece(900, 100, 'BL')] }), null);
    assert.equal(clash({ add: [piece(1600, 10, 'BL'), piece(1605, 10, 'BL')] })?.place, 1605);
    assert.equal(clash({ out: [bars], add: [piece(2159975, 26, 'BARS')] })?.fault, 'outside');
    assert.equal(clash({ add: [piece(1600, 0, 'BL')] })?.fault, 'empty');
    assert.equal(clash({ add: [piece(-5, 3, 'BL')] })?.fault, 'outside');
});

test('what the office wouldn\'t take is told with why', () => {
    const why = (source, from = 0, frames = 10) => whyNot(piece(1600, frames, source, from), sources, 7, pal);
    assert.equal(why('BL', 5, 99999), null);
    assert.match(why('C0000009'), /no such source/);
    assert.match(why('C0000002', 900000), /retired/);
    assert.match(why('L0020001'), /recalled/);
    assert.equal(why('L0020002'), null);
    assert.match(whyNot(piece(0, 10, 'L0020002'), sources, 8, pal) ?? '', /days 3 to 7/);
    assert.match(whyNot(piece(0, 10, 'L0020002'), sources, 2, pal) ?? '', /days 3 to 7/);
    assert.match(why('L0020003'), /another rate/);
    assert.equal(why('C0000001', 900000, 1500), null);
    assert.match(why('C0000001', 900001, 1500), /all these frames/);
    assert.match(why('C0000001', 899999, 10), /all these frames/);
});

test('of a copied day, what can come and what can\'t', () => {
    const pieces = [piece(1500, 100, 'BL'), piece(1600, 100, 'L0020001'), piece(3100, 10, 'BL'),
        piece(1700, 100, 'C0000001', 900000)];
    const { come, stay } = sorted(pieces, day.blocks, sources, 7, pal);
    assert.deepEqual(come.map((each) => each.place), [1500, 1700]);
    assert.deepEqual(stay.map((each) => [each.piece.place, each.why]),
        [[1600, 'its owner recalled the clip'], [3100, 'its place is taken']]);
});

test('a change is one revision, wipes and dissolves too', () => {
    const add = [piece(0, 100, 'BL'), piece(1000, 50, 'C0000001', 900000, 'D', 12), piece(2000, 25, 'BARS', 0, 'W007', 5)];
    assert.deepEqual(revisionOf([3, 1], add, START, pal), {
        remove: [3, 1],
        add: [
            { at: '06:00:00:00', frames: 100, in: '00:00:00:00', mix: 0, source: 'BL' },
            { at: '06:00:40:00', frames: 50, in: '10:00:00:00', mix: 12, source: 'C0000001' },
            { at: '06:01:20:00', frames: 25, in: '00:00:00:00', mix: 5, source: 'BARS', wipe: 7 },
        ],
    });
    assert.deepEqual(unpacked(packed(add)), add);
});

test('a plan tells whether a change was done that got no answer', () => {
    const change = moved([black, news], 10, 'two moved');
    assert.equal(becameOf(change, day.blocks), 'not');
    assert.equal(becameOf(change, [...change.add, goal, bars]), 'done');
    // A colleague changed what it was about.
    assert.equal(becameOf(change, [goal, bars]), 'unknown');
    assert.equal(becameOf(change, [change.add[0], goal, bars]), 'unknown');
    // Half of the places are the same before and behind: an item of the same looks is no sign of either.
    const tiles = [0, 10, 20].map((place) => piece(place, 10, 'BL'));
    const shift = moved(tiles, 10, 'tiles moved');
    assert.equal(becameOf(shift, tiles), 'not');
    assert.equal(becameOf(shift, shift.add), 'done');
});

// What a browser's tab keeps, of so many characters.
function tab(most) {
    const kept = new Map();
    return {
        get length() { return kept.size; },
        key: (index) => [...kept.keys()][index] ?? null,
        getItem: (key) => kept.get(key) ?? null,
        removeItem: (key) => { kept.delete(key); },
        setItem: (key, text) => {
            const others = [...kept].filter(([each]) => each !== key).reduce((sum, [, each]) => sum + each.length, 0);
            if (others + text.length > most) throw new Error('QuotaExceededError');
            kept.set(key, text);
        },
    };
}

test('what was changed is kept within bounds, and gives way where the tab is full', () => {
    globalThis.sessionStorage = tab(5000000);
    const history = new History('1/7');
    const many = (count) => ({ words: 'many', out: Array.from({ length: count }, (_, index) => piece(index, 1, 'BL')),
        add: [] });
    for (let turn = 0; turn < 49; turn += 1) history.push(many(2000));
    assert.equal(new History('1/7').done.length, 10);
    for (let turn = 0; turn < 60; turn += 1) history.push(many(1));
    assert.equal(new History('1/7').done.length, 50);
    history.push(many(30000));
    assert.equal(new History('1/7').done.length, 1);
    history.wasUndone();
    assert.equal(new History('1/7').toRedo()?.out.length, 30000);
    history.forgetUndone();
    assert.equal(new History('1/7').toRedo(), null);
    // Another day's history goes before a change can't be kept.
    globalThis.sessionStorage = tab(60000);
    new History('1/7').push(many(1500));
    new History('1/8').push(many(1600));
    assert.equal(new History('1/7').toUndo(), null);
    assert.equal(new History('1/8').toUndo()?.out.length, 1600);
    new History('1/9').push(many(30000));
    assert.equal(new History('1/9').toUndo(), null);
});

test('finding in a plan', () => {
    assert.deepEqual(foundIn(day.blocks, 'news'), [news]);
    assert.deepEqual(foundIn(day.blocks, 'l00'), [goal]);
    assert.deepEqual(foundIn(day.blocks, ' '), []);
    assert.equal(nextOf(day.blocks, 1000), goal);
    assert.equal(nextOf(day.blocks, 2159975), black);
    assert.equal(nextOf(day.blocks, 1000, -1), black);
    assert.equal(nextOf(day.blocks, 0, -1), bars);
    assert.equal(nextOf([], 0), null);
    assert.deepEqual(plannedIn(plan, 'C0000001').map((row) => [row.day, row.number, row.at]), [[7, 2, '06:00:40:00']]);
});

test('what was recalled, and what is shown for the last time', () => {
    const last = dayOf({ ...plan, items: [{ ...plan.items[0], source: 'L0020002' }] }, START, pal, sources);
    assert.deepEqual(lentStateOf(day.blocks, sources, 7), { recalled: [goal], last: [] });
    assert.deepEqual(lentStateOf(last.blocks, sources, 7).last, last.blocks);
    assert.deepEqual(lentStateOf(last.blocks, sources, 6).last, []);
    assert.deepEqual(lentCounts([GOAL, WINDOW, NTSC], 7), { open: 2, recalled: 1, ending: 1, over: 0 });
    assert.deepEqual(lentCounts([GOAL, WINDOW, NTSC], 8), { open: 2, recalled: 1, ending: 0, over: 1 });
});

test('the tapes of a day, by slot', () => {
    const tapes = [{ number: 1, barcode: 'A1', slot: 9 }, { number: 2, barcode: 'A2', slot: null },
        { number: 3, barcode: 'A3', slot: 2 }, { number: 4, barcode: 'A4', slot: 1 }];
    const clips = [NEWS, { ...NEWS, reel: 'C0000002', tape: 2, title: 'TWO' }, { ...NEWS, reel: 'C0000003', tape: 3 },
        { ...NEWS, reel: 'C0000004', tape: 1, title: 'FOUR' }];
    const item = (at, source) => ({ number: 1, at, frames: 10, kind: 'C', mix: 0, source, first: '10:00:00:00' });
    const items = [item('06:00:10:00', 'C0000001'), item('07:00:00:00', 'C0000004'), item('08:00:00:00', 'C0000002'),
        item('09:00:00:00', 'C0000003'), item('05:00:00:00', 'C0000001'), item('05:30:00:00', 'L0020001'),
        item('05:40:00:00', 'BL')];
    const rows = pullRows({ ...plan, items }, clips, tapes, START, pal);
    assert.deepEqual(rows.map((row) => [row.slot, row.barcode, row.uses, row.first]),
        [[2, 'A3', 1, '09:00:00:00'], [9, 'A1', 3, '06:00:10:00'], [null, 'A2', 1, '08:00:00:00']]);
    assert.equal(rows[1].clips, 'C0000001 NEWS / C0000004 FOUR');
    assert.deepEqual([...reelsOut(clips, tapes)], ['C0000002']);
    const out = dayOf({ ...plan, items: plan.items }, START, pal, sources, new Set(['C0000001']));
    assert.deepEqual(out.blocks.map((block) => block.tapeOut), [false, true, false, false]);
});

test('inserted, and what follows pushed on to the next gaps', () => {
    const at = (place, frames) => piece(place, frames, 'BARS');
    const blocks = [at(0, 100), at(100, 50), at(160, 50), at(300, 10)];
    const places = (change) => change.add.map((each) => [each.place, each.frames]);
    const before = inserted(blocks, [at(0, 20)], 100, 'x');
    assert.deepEqual(places(before), [[100, 20], [120, 50], [170, 50]]);
    assert.deepEqual(before.out, [blocks[1], blocks[2]]);
    assert.deepEqual(places(inserted(blocks, [at(0, 10)], 150, 'x')), [[150, 10]]);
    assert.deepEqual(places(inserted(blocks, [at(0, 5)], 100, 'x')), [[100, 5], [105, 50]]);
    assert.deepEqual(places(inserted(blocks, [at(0, 200)], 0, 'x')), [[0, 200], [200, 100], [300, 50], [350, 50],
        [400, 10]]);
    assert.deepEqual(places(inserted(blocks, [at(7, 20), at(30, 5)], 210, 'x')), [[210, 20], [233, 5]]);
    assert.equal(insertPlace(blocks, 120), 100);
    assert.equal(insertPlace(blocks, 155), 155);
});
