// The match beside the plan, as-run files in batches, answers of the office and of the gateway, and refusals in words.

import test from 'node:test';
import assert from 'node:assert/strict';
import { matchOf, planOf } from '../../desk/tables.js';
import { rateOf } from '../../desk/timecode.js';
import { dayOf } from '../../desk/day-model.js';
import { dayRows, plannedBeside, runsOf, sourceRows, sourcesIn, totalsOf } from '../../desk/aired-model.js';
import { lineOfRow, partsOf, rowsBefore, rowsIn } from '../../desk/batches.js';
import { answerOf } from '../../desk/office.js';
import { sentenceOf, wordsOf } from '../../desk/refusals.js';

const pal = rateOf('25');
const sources = new Map([['C0000001', { reel: 'C0000001', title: 'NEWS', state: 'active' }]]);
const day = dayOf(planOf(`DAY 1 SEALED
   1 06:00:00:00    1000 C    000 BL       00:00:00:00
   2 06:00:40:00     500 C    000 C0000001 10:00:00:00
   3 06:01:00:00 2158500 C    000 BARS     00:00:00:00
ITEMS 3 FRAMES 2160000 OF 2160000
`), 540000, pal, sources);
const runs = runsOf(matchOf(`06:00:00:00 1100 OK
06:00:44:00 300 SLIP
06:00:56:00 200 WRONG
06:01:04:00 2158400 MISSED
OK 1100 SLIP 300 WRONG 200 MISSED 2158400
`), day);

test('each run with what was planned where it begins, and from which frame', () => {
    assert.deepEqual(dayRows(day, runs).map((row) => [row.place, row.status, row.source, row.title, row.planned]), [
        [0, 'OK', 'BL', 'BLACK and 1 more', ''], [1100, 'SLIP', 'C0000001', 'NEWS', '10:00:04:00'],
        [1400, 'WRONG', 'C0000001', 'NEWS and 1 more', '10:00:16:00'], [1600, 'MISSED', 'BARS', 'BARS', ''],
    ]);
});

test('the plan beside a run: the parts of items that lie in it', () => {
    assert.deepEqual(plannedBeside(day, runs[2]).map((row) => [row.number, row.place, row.frames, row.from]),
        [[2, 1400, 100, '10:00:16:00'], [3, 1500, 100, '']]);
});

test('the runs of one source, cut to its items, and their totals to the frame', () => {
    const rows = sourceRows(day, runs, 'C0000001');
    assert.deepEqual(rows.map((row) => [row.place, row.frames, row.status]),
        [[1000, 100, 'OK'], [1100, 300, 'SLIP'], [1400, 100, 'WRONG']]);
    assert.deepEqual(totalsOf(rows), { OK: 100, SLIP: 300, WRONG: 100, MISSED: 0 });
    assert.deepEqual(totalsOf(runs), { OK: 1100, SLIP: 300, WRONG: 200, MISSED: 2158400 });
    assert.deepEqual(sourcesIn(day), [['BL', 'BLACK'], ['C0000001', 'NEWS'], ['BARS', 'BARS']]);
});

test('rows of an as-run file: an empty line is none', () => {
    const text = '\ufeffa\r\n\nb\rc\n';
    assert.equal(rowsIn(text), 3);
    assert.deepEqual([1, 2, 3].map((row) => lineOfRow(text, row)), [1, 3, 4]);
});

test('a large file is cut between rows, and its rows are counted on', () => {
    const row = '06:00:00:00,0000001,BARS,00:00:00:00\n';
    const bytes = new TextEncoder().encode(row.repeat(60000));
    const parts = partsOf(bytes);
    assert.deepEqual(parts.map((part) => part.length), [27027 * 37, 27027 * 37, 5946 * 37]);
    assert.deepEqual(rowsBefore(parts), [0, 27027, 54054]);
    assert.equal(partsOf(bytes.subarray(0, 1000000)).length, 1);
    assert.deepEqual(rowsBefore([bytes]), [0]);
});

const kindOf = (status, value, type = 'application/json') => answerOf(status,
    typeof value === 'string' ? value : JSON.stringify(value), type).kind;

test('an answer of the office, a refusal, and no answer', () => {
    assert.equal(kindOf(200, { tape: 1 }), 'done');
    assert.equal(kindOf(200, 'TAPES 0', 'text/plain'), 'done');
    assert.equal(kindOf(200, '<html>', 'text/html'), 'lost');
    for (const [status, code] of [[409, 75], [400, 400], [404, 404], [413, 413], [503, 100], [501, 501], [403, 403],
        [401, 401], [405, 405], [408, 408]]) {
        assert.equal(kindOf(status, { code, refused: 'X' }), 'refused', `${status}`);
    }
    // The gateway's own faults say that the office didn't answer: it may have done what was asked.
    for (const status of [500, 502, 504]) {
        assert.equal(kindOf(status, { code: status, refused: 'X' }), 'lost', `${status}`);
    }
    assert.equal(kindOf(503, 'busy', 'text/html'), 'lost');
    assert.equal(kindOf(502, '<html>', 'text/html'), 'lost');
    assert.equal(kindOf(409, 'half a ref'), 'lost');
});

test('refusals say what and where', () => {
    assert.equal(sentenceOf({ code: 75, refused: 'Overlap', at: '06:00:00:00' }),
        '75 Overlap. At 06:00:00:00. A frame of the day is taken. Choose a gap, or a shorter length.');
    assert.match(sentenceOf({ code: 25, refused: 'BadLabel', at: '7 2' }), /^25 BadLabel\. Line 7\. 2 LabelRange\./);
    assert.match(sentenceOf({ code: 91, refused: 'RowForm', at: '3' }, 'batch'), /^91 RowForm\. Row 3\./);
    assert.match(sentenceOf({ code: 81, refused: 'Recalled', at: '4' }, 'seal'), /^81 Recalled\. Item 4\./);
    assert.equal(wordsOf({ code: 777, refused: 'New' }).title, '777 New');
});
