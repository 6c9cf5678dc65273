// CSV (RFC 4180), tapes and clips of a file, dates of days, and what a centre says of itself.

import test from 'node:test';
import assert from 'node:assert/strict';
import { csvOf, recordsOf } from '../../desk/csv.js';
import { clipRows, freeSlot, tapeNamed, tapeRows, tapeWord } from '../../desk/bulk-model.js';
import { clockOf, dateOf, dateWords, dayNamed, dayOfDate, monthOf, nowIn } from '../../desk/dates.js';
import { BulkStore, sumOf } from '../../desk/bulk-store.js';
import { siteOf } from '../../desk/site-model.js';
import { freshUmid } from '../../desk/umid.js';
import { rateOf } from '../../desk/timecode.js';

const pal = rateOf('25');
const tapes = [{ number: 1, barcode: 'A0017', slot: 5 }, { number: 2, barcode: '12', slot: null },
    { number: 12, barcode: 'B1', slot: 1 }, { number: 3, barcode: '777', slot: 2 }];

test('records of CSV', () => {
    assert.deepEqual(recordsOf('a,b\r\n"c,""d""\n",e\n\nf\n'), [
        { line: 1, fields: ['a', 'b'] }, { line: 2, fields: ['c,"d"\n', 'e'] }, { line: 5, fields: ['f'] },
    ]);
    assert.deepEqual(recordsOf('\ufeffa;b\nc;d'), [{ line: 1, fields: ['a', 'b'] }, { line: 2, fields: ['c', 'd'] }]);
    assert.deepEqual(recordsOf(''), []);
    assert.deepEqual(recordsOf(',\n')[0].fields, ['', '']);
});

test('a tape by its barcode or its number', () => {
    assert.deepEqual(tapeNamed(' a0017 ', tapes), { number: 1 });
    assert.deepEqual(tapeNamed('1', tapes), { number: 1 });
    assert.deepEqual(tapeNamed('777', tapes), { number: 3 });
    assert.deepEqual(tapeNamed('99', tapes), { number: 99 });
    assert.match(tapeNamed('12', tapes).fault ?? '', /#2 or #12/);
    assert.deepEqual(tapeNamed('#12', tapes), { number: 12 });
    assert.match(tapeNamed('X9', tapes).fault ?? '', /barcode X9/);
    assert.deepEqual(tapes.map(tapeWord), ['A0017', '#2', 'B1', '#3']);
});

test('the free slots', () => {
    assert.equal(freeSlot(tapes, 40), 3);
    assert.equal(freeSlot(tapes, 40, 5), 6);
    assert.equal(freeSlot(tapes, 2), null);
});

test('tapes of a file', () => {
    const rows = tapeRows('Barcode,Slot\na0001,7\nA0002\nA0003,x\nA0004,1,2\n');
    assert.deepEqual(rows.map((row) => [row.line, row.values, Boolean(row.fault)]), [
        [2, { barcode: 'A0001', slot: 7 }, false], [3, { barcode: 'A0002', slot: null }, false],
        [4, undefined, true], [5, undefined, true],
    ]);
});

test('clips of a file', () => {
    const rows = clipRows('title,tape\nNEWS,A0017,10000000,00:01:00:00\nFILM,12,0,1\nGOAL,1,00:00:00:00,250,ab\n'
        + 'X,1,0,1\nY,1,00:00:00:00,long\nZ,1,00:00:00:00\n', tapes, pal, () => 'fresh');
    assert.deepEqual(rows[0].values, { title: 'NEWS', tape: 1, in: '10:00:00:00', frames: 1500, umid: 'fresh' });
    assert.deepEqual(rows[2].values, { title: 'GOAL', tape: 1, in: '00:00:00:00', frames: 250, umid: 'ab' });
    assert.deepEqual(rows.map((row) => Boolean(row.fault)), [false, true, false, true, true, true]);
});

test('a fresh UMID is a basic one, and another each time', () => {
    const [one, other] = [freshUmid(), freshUmid()];
    assert.match(one, /^060a2b340101010501010d2013000000[0-9a-f]{32}$/);
    assert.notEqual(one, other);
});

test('dates of days', () => {
    assert.equal(dateOf('2026-01-01', 1), '2026-01-01');
    assert.equal(dateOf('2026-01-01', 366), '2027-01-01');
    assert.equal(dateOf('2024-02-28', 2), '2024-02-29');
    assert.equal(dateOf('2026-02-30', 1), null);
    assert.equal(dateOf(null, 1), null);
    assert.equal(dayOfDate('2026-01-01', '2026-03-01'), 60);
    assert.equal(dayOfDate('2026-01-01', '2025-12-31'), null);
    assert.equal(dateWords('2026-01-05'), 'Mon 5 Jan 2026');
    assert.equal(dateWords('2024-02-29'), 'Thu 29 Feb 2024');
});

test('a month, from Monday to Sunday', () => {
    const { title, weeks, before, behind } = monthOf('2026-02-10');
    assert.deepEqual([title, weeks.length, before, behind], ['February 2026', 5, '2026-01-31', '2026-03-01']);
    assert.deepEqual(weeks[0].map((each) => each.date.slice(8)), ['26', '27', '28', '29', '30', '31', '01']);
    assert.equal(weeks.flat().filter((each) => each.own).length, 28);
});

test('before its start label a calendar\'s day is still the broadcast day before', () => {
    const start = 6 * 3600 * 25;
    assert.deepEqual(nowIn('2026-01-01', '2026-01-10', 6 * 3600, start, pal), { day: 10, place: 0 });
    assert.deepEqual(nowIn('2026-01-01', '2026-01-10', 6 * 3600 - 1, start, pal), { day: 9, place: 2160000 - 25 });
    assert.equal(nowIn('2026-01-10', '2026-01-10', 0, start, pal), null);
    assert.equal(nowIn(null, '2026-01-10', 0, start, pal), null);
});

test('the clock where the channel is', () => {
    const now = new Date('2026-07-01T22:30:05Z');
    assert.deepEqual(clockOf(now, 'Europe/Berlin'), { date: '2026-07-02', second: 1805 });
    assert.deepEqual(clockOf(now, 'America/New_York'), { date: '2026-07-01', second: 18 * 3600 + 1805 });
});

test('what a centre says of itself, and what of it isn\'t as it should be', () => {
    const site = siteOf({ day1: '2026-01-01', zone: 'Europe/Berlin', channels: {
        1: { name: 'ONE', rate: '25', start: '06:00:00:00' }, 3: { name: 'THREE' },
    } });
    assert.deepEqual(site.faults, []);
    assert.deepEqual(site.channels.get(1), { name: 'ONE' });
    assert.deepEqual(site.channels.get(3), { name: 'THREE' });
    const bad = siteOf({ day1: '1.1.2026', zone: 'Nowhere', channels: { 1: { name: 7 } } });
    assert.equal(bad.faults.length, 3);
    assert.equal(bad.day1, null);
    assert.equal(siteOf([]).faults.length, 0);
    assert.equal(siteOf('x').faults.length, 1);
});

// What a browser keeps, of so many characters.
function browser(most) {
    const kept = new Map();
    return /** @type {any} */ ({
        kept,
        getItem: (key) => kept.get(key) ?? null,
        removeItem: (key) => { kept.delete(key); },
        setItem: (key, text) => {
            const others = [...kept].filter(([each]) => each !== key).reduce((sum, [, each]) => sum + each.length, 0);
            if (others + text.length > most) throw new Error('QuotaExceededError');
            kept.set(key, text);
        },
    });
}

const linesOf = (count, umid) => Array.from({ length: count }, (_, index) => ({
    line: index + 2, words: `row ${index}`, values: { title: `T${index}`, umid: `${umid}${index}` },
}));

test('a file under way is kept row by row, and gone on with by another tab', () => {
    const storage = browser(5000000);
    const store = new BulkStore('1/bulk-clips', storage);
    const rows = linesOf(200, 'made');
    assert.ok(store.begin('clips.csv', 'sum', rows, 'one', 1000));
    Object.assign(rows[130], { state: 'done', result: 'entered' });
    store.keep('sum', rows, 130);
    const other = new BulkStore('1/bulk-clips', storage);
    const head = other.unfinished();
    assert.equal(head?.file, 'clips.csv');
    assert.deepEqual(other.rows('sum'), rows);
    assert.ok(other.isElsewhere(head, 'two', 60000));
    assert.ok(!other.isElsewhere(head, 'one', 60000));
    assert.ok(!other.isElsewhere(head, 'two', 100000));
    assert.equal(new BulkStore('2/bulk-clips', storage).unfinished(), null);
    store.isAt('sum', '', 0, true);
    assert.equal(other.unfinished(), null);
});

test('a file that comes again has the UMIDs that were made for it', () => {
    const store = new BulkStore('1/bulk-clips', browser(5000000));
    store.begin('clips.csv', sumOf('a file'), linesOf(3, 'first'), 'one', 0);
    assert.deepEqual(store.asBefore(sumOf('a file'), linesOf(3, 'again')), linesOf(3, 'first'));
    assert.deepEqual(store.asBefore(sumOf('a File'), linesOf(3, 'again')), linesOf(3, 'again'));
    for (let file = 0; file < 5; file += 1) store.begin(`${file}`, `${file}`, linesOf(70, 'x'), 'one', 0);
    assert.deepEqual(store.files(), ['4', '3', '2', '1', '0']);
    assert.equal(store.storage.kept.size, 1 + 5 * 3);
});

test('a file that the browser has no room for leaves nothing behind', () => {
    const store = new BulkStore('1/bulk-clips', browser(3000));
    assert.ok(!store.begin('clips.csv', 'sum', linesOf(200, 'made'), 'one', 0));
    assert.deepEqual([store.files(), store.unfinished(), store.storage.kept.size], [[], null, 1]);
});

test('sums tell files apart', () => {
    const sums = ['', 'a', 'b', 'ab', 'ba', 'aab', 'aba', 'NEWS,A0001,00:00:00:00,25', 'NEWS,A0001,00:00:00:00,52'].map(sumOf);
    assert.equal(new Set(sums).size, sums.length);
});

test('a day by its number or its date', () => {
    const first = '2026-01-01';
    assert.deepEqual(dayNamed(' 7 ', null), { day: 7 });
    assert.deepEqual(dayNamed('99999', first), { day: 99999 });
    assert.deepEqual(dayNamed('2026-01-15', first), { day: 15 });
    assert.deepEqual(dayNamed('15 Jan 2026', first), { day: 15 });
    assert.deepEqual(dayNamed('1 february 2026', first), { day: 32 });
    for (const text of ['0', '100000']) assert.match(dayNamed(text, first).fault ?? '', /1 to 99,999/);
    for (const text of ['abc', '', '-1', '31 Foo 2026', '2026-02-30']) {
        assert.match(dayNamed(text, first).fault ?? '', /is no day/, text);
    }
    assert.match(dayNamed('2025-12-31', first).fault ?? '', /No day has the date/);
    assert.match(dayNamed('2026-01-15', null).fault ?? '', /type a number/);
});

test('rows as CSV, and back', () => {
    const rows = [['Barcode', 'Title'], ['A0001', 'A, "B"'], ['', 'two\nlines'], ['<b>', ' blanks ']];
    assert.equal(csvOf(rows.slice(0, 2)), 'Barcode,Title\r\nA0001,"A, ""B"""\r\n');
    assert.deepEqual(recordsOf(csvOf(rows)).map((record) => record.fields), [...rows.slice(0, 3), ['<b>', 'blanks']]);
});
