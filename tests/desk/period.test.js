// A week or a month of days, and what each day is.

import test from 'node:test';
import assert from 'node:assert/strict';
import { countsOf, dayLines, periodOf, stateOf } from '../../desk/period-model.js';
import { rateOf } from '../../desk/timecode.js';
import { shiftedList } from '../../desk/list-shift.js';
import { readList } from '../../desk/edl.js';

const pal = rateOf('25');
const DAY1 = '2026-01-01'; // a Thursday
const days = (period) => period.weeks.map((week) => week.map((cell) => cell.day));

test('by numbers where no dates are known', () => {
    const week = periodOf('week', 10, null);
    assert.deepEqual([week.title, days(week), week.before, week.behind],
        ['Days 8 to 14', [[8, 9, 10, 11, 12, 13, 14]], 7, 15]);
    const month = periodOf('month', 36, null);
    assert.deepEqual([month.title, month.weeks.length, days(month)[0][0], month.before, month.behind],
        ['Days 36 to 70', 5, 36, 35, 71]);
    assert.equal(periodOf('week', 3, null).before, 1);
    assert.equal(periodOf('week', 99999, null).behind, 99999);
    assert.equal(days(periodOf('month', 99999, null)).flat().at(-1), null);
});

test('by dates', () => {
    const month = periodOf('month', 40, DAY1); // 9 February
    assert.equal(month.title, 'February 2026');
    assert.deepEqual(days(month)[0], [26, 27, 28, 29, 30, 31, 32]);
    assert.deepEqual(month.weeks[0].map((cell) => cell.own), [false, false, false, false, false, false, true]);
    assert.deepEqual([month.before, month.behind], [31, 60]);
    const first = periodOf('week', 1, DAY1);
    assert.deepEqual(days(first), [[null, null, null, 1, 2, 3, 4]]);
    assert.deepEqual([first.title, first.before, first.behind], ['Week of 2025-12-29 (January 2026)', 1, 8]);
});

test('what a day is', () => {
    const row = (sealed, frames, batches = 0) => stateOf({ number: 1, sealed, items: 2, frames, batches }, pal);
    assert.deepEqual([stateOf(undefined, pal), row(false, 1125), row(false, 2160000), row(true, 2160000, 3)]
        .map((day) => [day.state, day.word, day.empty]), [['none', 'not there', 2160000],
        ['gaps', 'open, gaps', 2158875], ['open', 'open, full', 0], ['sealed', 'sealed', 0]]);
    const counted = (number, noun) => `${number} ${noun}${number === 1 ? '' : 's'}`;
    assert.deepEqual(dayLines(row(false, 1125), pal, counted), ['2 items', '23:59:15:00 empty']);
    assert.deepEqual(dayLines(row(true, 2160000, 3), pal, counted), ['2 items', '3 batches']);
    assert.deepEqual(dayLines(stateOf(undefined, pal), pal, counted), []);
    assert.deepEqual(countsOf([row(false, 1), row(true, 2160000), row(false, 2160000), stateOf(undefined, pal)]),
        { sealed: 1, full: 1, gaps: 1, none: 1 });
});

test('a list at another place', () => {
    const text = 'TITLE: X\r\n001  AX A     C        00:00:00:00 00:00:01:00 01:00:00:00 01:00:01:00\r\n'
        + '002  BL V     C        00:00:00:00 00:00:01:00 01:00:02:00 01:00:03:00  \r\n* a note 1 2\r\n'
        + '003  BL V     D    010 00:00:00:00 00:00:01:00 23:59:59:24 00:00:00:24\r\n4 wrong\r\n';
    const moved = shiftedList(text, pal, 6 * 90000, false);
    const records = readList(moved.replace('4 wrong', ''), pal).events.map((event) => [event.record, event.frames]);
    // The first item begins at 06:00:00:00; the sound is 2 seconds before it, the last 22:59:57:24 behind.
    assert.deepEqual(records, [[540000 - 50, 25], [540000, 25], [(540000 + 2159999 - 90050) % 2160000, 25]]);
    assert.equal(moved.split('\r\n').length, text.split('\r\n').length);
    assert.ok(moved.includes('* a note 1 2\r\n') && moved.includes('4 wrong'));
    assert.equal(shiftedList('TITLE: X\n', pal, 0, false), 'TITLE: X\n');
});
