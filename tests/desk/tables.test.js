// The office's tables as docs/FORMATS.md has them.

import test from 'node:test';
import assert from 'node:assert/strict';
import { readFileSync } from 'node:fs';
import {
    clipsOf, daysTableOf, lentOf, matchOf, offersOf, planOf, TableFault, vaultOf,
} from '../../desk/tables.js';

// The tables that the document shows, by their last lines.
const formats = readFileSync(process.env.DESK_FORMATS ?? 'docs/FORMATS.md', 'utf8');
const shown = [...formats.matchAll(/```\n([\s\S]*?)```/g)].map((each) => each[1]);
const ending = (line) => shown.find((text) => text.endsWith(`${line}\n`)) ?? assert.fail(`no table ends ${line}`);
const UMID = '060a2b340101010501010d201300000000112233445566778899aabbccddeeff';

test('the vault', () => {
    assert.deepEqual(vaultOf(ending('TAPES 2 SHELVED 1 SLOTS 40')), {
        tapes: [{ number: 1, barcode: 'A0017', slot: 5 }, { number: 2, barcode: 'A0018', slot: null }],
        shelved: 1, slots: 40,
    });
});

test('clips', () => {
    assert.deepEqual(clipsOf(ending('CLIPS 1')), [{
        reel: 'C0000001', state: 'active', first: '00:00:00:00', frames: 125, tape: 1, umid: UMID, title: 'NEWS',
    }]);
});

test('offers, with a window and without', () => {
    assert.deepEqual(offersOf(ending('OFFERS 3')), [
        { number: 1, reel: 'C0000001', to: 2, state: 'withdrawn', days: null },
        { number: 2, reel: 'C0000001', to: 999, state: 'open', days: null },
        { number: 3, reel: 'C0000001', to: 2, state: 'open', days: { first: 1, last: 7 } },
    ]);
});

test('lent clips', () => {
    const [one, other] = lentOf(ending('LENT 2'));
    assert.deepEqual([one.reel, one.owner, one.state, one.days, one.rate, one.title],
        ['L0030001', 3, 'withdrawn', null, '25', 'NEWS']);
    assert.deepEqual([other.reel, other.state, other.days, other.first, other.frames],
        ['L0030003', 'open', { first: 1, last: 7 }, '00:00:00:00', 125]);
});

test('a plan', () => {
    assert.deepEqual(planOf(ending('ITEMS 2 FRAMES 1125 OF 2160000')), {
        day: 1, sealed: false, planned: 1125, frames: 2160000, items: [
            { number: 1, at: '06:00:00:00', frames: 1000, kind: 'C', mix: 0, source: 'BL', first: '00:00:00:00' },
            { number: 2, at: '06:00:40:00', frames: 125, kind: 'D', mix: 25, source: 'C0000001', first: '00:00:00:00' },
        ],
    });
    assert.equal(planOf('DAY 7 SEALED\nITEMS 0 FRAMES 0 OF 2589408\n').sealed, true);
});

test('the days that are there', () => {
    const text = '    1 OPEN      0       0  0\n    7 SEALED 1000 2160000 64\n99999 OPEN   9999    9999  0\nDAYS 3\n';
    assert.deepEqual(daysTableOf(text), [
        { number: 1, sealed: false, items: 0, frames: 0, batches: 0 },
        { number: 7, sealed: true, items: 1000, frames: 2160000, batches: 64 },
        { number: 99999, sealed: false, items: 9999, frames: 9999, batches: 0 },
    ]);
    assert.deepEqual(daysTableOf('DAYS 0\n'), []);
    assert.throws(() => daysTableOf('    1 SHUT      0       0  0\nDAYS 1\n'), TableFault);
});

test('a match, whose counts stand in the order OK, SLIP, WRONG, MISSED', () => {
    const { runs, counts } = matchOf(ending('OK 1500 SLIP 1500 WRONG 750 MISSED 2156250'));
    assert.deepEqual(counts, { OK: 1500, SLIP: 1500, WRONG: 750, MISSED: 2156250 });
    assert.deepEqual(runs[2], { at: '06:02:00:00', frames: 750, status: 'WRONG' });
});

test('a title may have any printable byte, and blanks within', () => {
    const title = '<b>"&  \'~';
    assert.equal(clipsOf(`C0000001 retired 10:00:00:00       1    1 ${UMID} ${title}\nCLIPS 1\n`)[0].title, title);
});

test('half a table is none', () => {
    for (const text of ['', 'TAPES 0 SHELVED 0 SLOTS 40', 'TAPE 1\nTAPES 0 SHELVED 0 SLOTS 40\n', 'nothing\n']) {
        assert.throws(() => vaultOf(text), TableFault);
    }
    assert.throws(() => planOf('DAY 1 OPEN\n'), TableFault);
    assert.throws(() => planOf('DAY 1 SHUT\nITEMS 0 FRAMES 0 OF 2160000\n'), TableFault);
});
