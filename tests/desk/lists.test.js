// Edit lists as docs/LISTS.md has them, and how those of editing systems are relinked.

import test from 'node:test';
import assert from 'node:assert/strict';
import { rateOf } from '../../desk/timecode.js';
import { framesOf, isForPicture, isSpeed, listOf, readList, skippedOf, skippedWords } from '../../desk/edl.js';
import { faultsOf, readAll } from '../../desk/list-faults.js';
import { faultSentence, faultWords } from '../../desk/fault-words.js';
import {
    choiceOf, firstLabel, isOpenChoice, keptOf, missingWords, plannedOf, proposalsOf, refusedEvents, relinked, wantedOf,
} from '../../desk/relink-model.js';

const [pal, drop] = [rateOf('25'), rateOf('df')];
const START = 6 * 3600 * 25;
const counted = (number, noun) => `${number} ${noun}${number === 1 ? '' : 's'}`;

// The list that docs/LISTS.md shows.
const NIGHT = `TITLE: NIGHT
FCM: NON-DROP FRAME

001  BL       V     C        00:00:00:00 00:00:00:00 06:00:00:00 06:00:00:00
001  C0000001 V     D    025 00:00:00:00 00:00:05:00 06:00:00:00 06:00:05:00
* TO CLIP NAME: NEWS
`;

test('the list of the document', () => {
    const { title, events, fault } = readList(NIGHT, pal);
    assert.deepEqual([title, fault, events.length], ['NIGHT', null, 2]);
    assert.deepEqual(events[1], {
        line: 5, number: '001', reel: 'C0000001', channels: 'V', kind: 'D', mix: 25, source: 0, sourceFrames: 125,
        record: START, frames: 125, notes: ['* TO CLIP NAME: NEWS'],
    });
});

test('each fault at its line', () => {
    const line = (text) => readList(`TITLE: X\n\n${text}\n`, pal).fault;
    const labels = '00:00:00:00 00:00:01:00 06:00:00:00 06:00:01:00';
    assert.deepEqual(line('001 BL V C 00:00:00:00 00:00:01:00 06:00:00:00'), { line: 3, code: 22 });
    assert.deepEqual(line(`1A BL V C ${labels}`), { line: 3, code: 23 });
    assert.deepEqual(line(`10000 BL V C ${labels}`), { line: 3, code: 23 });
    assert.deepEqual(line(`001 BL V X ${labels}`), { line: 3, code: 24 });
    assert.deepEqual(line(`001 BL V D ${labels}`), { line: 3, code: 24 });
    assert.deepEqual(line('001 BL V C 00:00:00:00 00:00:01:00 06:00:00:25 06:00:01:00'),
        { line: 3, code: 25, label: 2 });
    assert.deepEqual(line('FCM: DROP FRAME'), { line: 3, code: 26 });
    assert.deepEqual(line('001 BL V C 00:00:01:00 00:00:00:01 06:00:00:00 06:00:01:00'), { line: 3, code: 27 });
});

test('as the document has lines: BOM, CR, blanks, notes, a source to the end of the day, a record over it', () => {
    const text = '\ufeffTITLE:  A B \r\n  002\tAX  B  C 23:59:59:00 00:00:00:00 23:59:59:20 00:00:00:20  \r\nM2 AX\r\n';
    const { title, events } = readList(text, pal);
    assert.equal(title, 'A B');
    assert.deepEqual([events[0].sourceFrames, events[0].frames, events[0].notes], [25, 25, ['M2 AX']]);
    assert.ok(isForPicture(events[0]));
    assert.ok(!isSpeed(events[0]));
    assert.equal(readList('001 X A C 00:00:00:00 00:00:01:00 06:00:00:00 06:00:01:00\n', pal).events.some(isForPicture),
        false);
});

test('blanks are spaces and tabs, and nothing else', () => {
    assert.equal(readList('TITLE:\t \u00a0A\u3000 \t\r\n', pal).title, '\u00a0A\u3000');
    assert.equal(readList('TITLE: A\r\r\n', pal).title, 'A\r');
    const [event] = readList('1 X V C 00:00:00:00 00:00:01:00 06:00:00:00 06:00:01:00\n\t\u00a0 \n', pal).events;
    assert.deepEqual(event.notes, ['\u00a0']);
});

test('one mark of bytes alone is left out, and a line that is no UTF-8 is told', () => {
    const bytes = (...texts) => Uint8Array.from(texts.flatMap((text) => [...new TextEncoder().encode(text)]));
    assert.equal(readList(bytes('\ufeffTITLE: A\n'), pal).title, 'A');
    assert.equal(readList(bytes('\ufeff\ufeffTITLE: A\n'), pal).title, '');
    assert.equal(readList(bytes('TITLE: \ufffd\n'), pal).title, '\ufffd');
    assert.deepEqual(readList(Uint8Array.from([65, 10, 66, 0xc3, 10, 65]), pal).fault, { line: 2, code: 21 });
});

test('the ten thousandth event with a frame is refused', () => {
    const event = '1 BL V C 00:00:00:00 00:00:00:01 06:00:00:00 06:00:00:01\n';
    const empty = '1 BL V C 00:00:00:00 00:00:00:00 06:00:00:00 06:00:00:00\n';
    assert.equal(readList(empty + event.repeat(9999) + empty, pal, false).fault, null);
    assert.deepEqual(readList(empty + event.repeat(10000), pal, false).fault, { line: 10001, code: 30 });
});

test('a speed note counts behind a line with a fault, too', () => {
    const event = '1 AX V C 00:00:00:00 00:00:02:00 06:00:00:00 06:00:01:00\n';
    assert.deepEqual(readList(`${event}FCM: DROP FRAME\nM2 AX 050.0\n`, pal, false).fault, { line: 2, code: 26 });
    assert.deepEqual(readList(`${event}FCM: DROP FRAME\n`, pal, false).fault, { line: 1, code: 28 });
});

test('what an import skips: cuts before dissolves lose nothing', () => {
    const text = `${NIGHT}002  C0000001 A     C        00:00:00:00 00:00:05:00 06:00:05:00 06:00:10:00
003  C0000001 V     C        00:00:00:00 00:00:00:00 06:00:05:00 06:00:05:00
`;
    const { events } = readList(text, pal);
    assert.deepEqual(skippedOf(events, false), { outgoing: 1, sound: 1, empty: 1 });
    assert.equal(skippedWords(events, false, counted),
        'Dropped: 1 event for the sound, 1 event without a frame. 1 cut before a dissolve or wipe lose nothing.');
    assert.equal(skippedWords(readList(NIGHT, pal).events, false, counted),
        'Nothing was dropped. 1 cut before a dissolve or wipe lose nothing.');
});

test('a list is written in the profile', () => {
    const pieces = [
        { place: 125, frames: 25, source: 'BL', from: 0, kind: 'C', mix: 0 },
        { place: 0, frames: 125, source: 'C0000001', from: 0, kind: 'D', mix: 25 },
        { place: 2159975, frames: 25, source: 'L0020001', from: 2159975, kind: 'W001', mix: 10 },
    ];
    const wanted = `TITLE: DESK
FCM: NON-DROP FRAME

001  C0000001 V     D    025 00:00:00:00 00:00:05:00 06:00:00:00 06:00:05:00
* TO CLIP NAME: NEWS
002  BL       V     C        00:00:00:00 00:00:01:00 06:00:05:00 06:00:06:00
003  L0020001 V     W001 010 23:59:59:00 00:00:00:00 05:59:59:00 06:00:00:00
`;
    assert.equal(listOf('DESK', pieces, START, pal, (piece) => (piece.place === 0 ? 'NEWS' : '')), wanted);
    assert.match(listOf('X', [], 0, drop), /^TITLE: X\nFCM: DROP FRAME\n\n$/);
});

test('a written list is read as it was meant, by thousands', () => {
    const pieces = Array.from({ length: 1500 }, (_, number) => ({ place: number * 100, frames: 100, source: 'C0000001',
        from: number * 10, kind: 'C', mix: 0 }));
    const text = listOf('LONG', pieces, 0, drop);
    const { events, fault } = readList(text, drop);
    assert.equal(fault, null);
    assert.deepEqual(events.map((event) => [event.record, event.frames, event.source]),
        pieces.map((piece) => [piece.place, piece.frames, piece.from]));
    assert.equal(text.split('\n')[3 + 999].slice(0, 6), '1000 C');
});

// A list of an editing system: tapes by barcode, AX with names in notes.
const SYSTEM = `TITLE: MORNING
FCM: NON-DROP FRAME
001  A0017    V     C        10:00:10:00 10:00:20:00 06:00:00:00 06:00:10:00
002  AX       V     C        00:00:05:00 00:00:15:00 06:00:10:00 06:00:20:00
* FROM CLIP NAME: trailer
003  BL       V     C        00:00:00:00 00:00:01:00 06:00:20:00 06:00:21:00
004  AX       V     C        00:00:00:00 00:00:00:00 06:00:21:00 06:00:21:00
* FROM CLIP NAME: TRAILER
004  AX       V     D    025 00:00:00:00 00:00:05:00 06:00:21:00 06:00:26:00
* FROM CLIP NAME: TRAILER
* TO CLIP NAME: PROMO
005  A0017    A     C        10:00:10:00 10:00:20:00 06:00:00:00 06:00:10:00
`;
const clip = (reel, title, first, frames, barcode = '') => ({ reel, title, first, frames, barcode });
const CLIPS = [
    clip('C0000001', 'NEWS', '10:00:00:00', 15000, 'A0017'), clip('C0000002', 'TRAILER', '01:00:00:00', 500, 'A0018'),
    clip('C0000003', 'PROMO', '00:00:00:00', 125), clip('C0000004', 'PROMO', '00:00:00:00', 250),
    clip('C0000005', 'LATE NEWS', '12:00:00:00', 15000, 'A0017'),
];
const events = plannedOf(readList(SYSTEM, pal).events, false);
const wanted = wantedOf(events);
const proposed = (index, kept = {}) => proposalsOf(wanted[index], CLIPS, pal, false, kept);

test('the sources of a list, each once', () => {
    assert.deepEqual(wanted.map((each) => [each.reel, each.name, each.uses]),
        [['A0017', '', 1], ['AX', 'trailer', 1], ['AX', 'PROMO', 1]]);
});

test('a tape is its clip that has the labels; a name is the clip of that title', () => {
    assert.deepEqual(proposed(0), [{ reel: 'C0000001', title: 'NEWS', how: 'barcode', shift: 0 }]);
    // The list counts from 0, the clip from 01:00:00:00.
    assert.deepEqual(proposed(1), [{ reel: 'C0000002', title: 'TRAILER', how: 'title', shift: 90000 }]);
});

test('where two fit, staff choose, and what they chose comes first the next time', () => {
    assert.deepEqual(proposed(2).map((each) => each.reel), ['C0000003', 'C0000004']);
    assert.ok(isOpenChoice(proposed(2)));
    assert.ok(isOpenChoice([]));
    assert.ok(!isOpenChoice(proposed(0)));
    const kept = proposed(2, { [wanted[2].key]: 'C0000004' });
    assert.deepEqual([kept[0].reel, kept[0].how, isOpenChoice(kept)], ['C0000004', 'kept', false]);
});

test('a clip that is too short is none', () => {
    const [, trailer] = wanted;
    assert.deepEqual(proposalsOf(trailer, [clip('C0000002', 'TRAILER', '01:00:00:00', 374)], pal, false, {}), []);
    assert.equal(proposalsOf(trailer, [clip('C0000002', 'TRAILER', '01:00:00:00', 375)], pal, false, {}).length, 1);
});

test('what is imported has the clips and their labels', () => {
    const chosen = new Map(wanted.map((each, index) => [each.key, proposed(index)[0]]));
    assert.deepEqual(relinked(events, chosen, START, pal, false), [
        { place: 0, frames: 250, source: 'C0000001', from: 900250, kind: 'C', mix: 0 },
        { place: 250, frames: 250, source: 'C0000002', from: 90125, kind: 'C', mix: 0 },
        { place: 500, frames: 25, source: 'BL', from: 0, kind: 'C', mix: 0 },
        { place: 525, frames: 125, source: 'C0000003', from: 0, kind: 'D', mix: 25 },
    ]);
});

test('keys, speeds and lengths that differ are refused as the office would', () => {
    const first = (text) => refusedEvents(plannedOf(readList(text, pal).events, false), false)[0] ?? null;
    const labels = '00:00:00:00 00:00:01:00 06:00:00:00 06:00:01:00';
    const longer = '00:00:00:00 00:00:02:00 06:00:00:00 06:00:01:00';
    assert.deepEqual(first(`001 AX V K B ${labels}\n`), { line: 1, code: 85 });
    assert.deepEqual(first(`001 AX V C ${longer}\nM2 AX 050.0\n`), { line: 1, code: 84 });
    assert.deepEqual(first(`001 AX V C ${longer}\n`), { line: 1, code: 28 });
    assert.equal(first(`001 AX V C ${labels}\n`), null);
    const [event] = readList(`001 AX V C ${longer}\n`, pal).events;
    assert.deepEqual([framesOf(event, true), framesOf(event, false)], [50, 25]);
    assert.deepEqual(refusedEvents([event], true), []);
});

test('any clip is chosen, with any first frame, and is kept so; a source is left out', () => {
    const [, trailer] = wanted;
    const late = CLIPS[4];
    const choice = choiceOf(trailer, late, pal, false);
    assert.deepEqual(choice, { reel: 'C0000005', title: 'LATE NEWS', how: 'chosen', shift: 1080000 });
    // 5 seconds in the list, which begins to use the clip there; and a clip that has none of its labels.
    assert.equal(firstLabel(trailer, choice.shift, pal), '12:00:05:00');
    const short = clip('C0000009', 'SHORT', '02:00:00:00', 300);
    assert.equal(firstLabel(trailer, choiceOf(trailer, short, pal, false).shift, pal), '02:00:00:00');
    assert.equal(missingWords(trailer, late, choice.shift, pal, false), '');
    assert.equal(missingWords(trailer, late, choice.shift - 126, pal, false),
        'The list shows 11:59:59:24 to 12:00:09:24; the clip has 12:00:00:00 to 12:10:00:00.');
    const moved = { ...choice, shift: choice.shift + 10 };
    const kept = proposalsOf(trailer, CLIPS, pal, false, { [trailer.key]: keptOf(moved) });
    assert.deepEqual([kept[0].reel, kept[0].shift, kept[0].how], ['C0000005', 1080010, 'kept']);
    // What was kept of a clip that is gone, or hasn't the frames any more, isn't proposed.
    const gone = proposalsOf(trailer, CLIPS, pal, false, { [trailer.key]: 'C0000009 5' });
    assert.deepEqual(gone, proposalsOf(trailer, CLIPS, pal, false, {}));
    const chosen = new Map([[trailer.key, moved]]);
    assert.deepEqual(relinked(events, chosen, START, pal, false).map((each) => [each.source, each.from]),
        [['C0000005', 1080135], ['BL', 0]]);
});

// Of each line the code at its end is expected, none where there is none.
const FAULTY = `TITLE: FAULTY
FCM: DROP FRAME
001  BL       V     C        00:00:00:00 00:00:10:00 06:00:00:00 06:00:10:00
002  BL       V     C        00:00:00:00 00:00:10:00 06:00:09:00 06:00:19:00
003  BL       V     C        00:00:00:00 00:00:10:00 06:00:20:00
004  C0000009 V     C        00:00:00:00 00:00:10:00 06:00:20:00 06:00:30:00
005  C0000001 V     C        00:00:00:00 00:00:10:00 06:00:30:00 06:00:40:00
006  C0000001 V     C        10:00:00:00 10:00:10:00 06:00:40:00 06:00:50:00
007  C0000001 V     D    300 10:00:00:00 10:00:10:00 06:00:50:00 06:01:00:00
008  BL       V     C        00:00:00:00 00:00:10:25 06:01:00:00 06:01:10:00
009  BL       V     C        00:00:00:00 00:00:11:00 06:01:10:00 06:01:20:00
010  BL       V     C        00:00:00:00 00:00:20:00 06:01:20:00 06:01:30:00
M2   BL       050.0          00:00:00:00
011  BL       V     K B      00:00:00:00 00:00:10:00 06:01:30:00 06:01:40:00
012  BL       A     C        00:00:00:00 00:00:10:00 06:00:00:00 06:00:10:00
013  BL       V     C        00:00:00:00 00:00:10:00 05:59:55:00 06:00:05:00
014  BL       V     C        00:00:00:00 00:00:10:00 07:00:00:00 07:00:10:00
015  \ufffd        V     C        00:00:00:00 00:00:10:00 08:00:00:00 08:00:10:00
`;

test('all faults of a list at once, each with its line', () => {
    const news = { reel: 'C0000001', state: 'active', first: '10:00:00:00', frames: 15000, tape: 1, umid: '',
        title: 'NEWS' };
    const into = { rate: pal, start: START, number: 7, ignore: false, sources: new Map([['C0000001', news]]),
        blocks: [{ number: 3, source: 'BARS', place: 90100, frames: 50 }] };
    const bytes = new TextEncoder().encode(FAULTY);
    bytes[bytes.lastIndexOf(0xbd)] = 0xff; // the last line isn't UTF-8
    const faults = faultsOf(bytes, into);
    assert.deepEqual(faults.map(({ line, code }) => [line, code]), [[2, 26], [4, 75], [5, 22], [6, 77], [7, 79],
        [9, 80], [10, 25], [11, 28], [12, 84], [14, 85], [16, 86], [17, 75], [18, 21]]);
    assert.equal(faultWords(faults[1]), '75 Overlap. It lies over line 3, from 06:00:09:00 on.');
    assert.match(faultSentence(faults[1]), /^75 Overlap\. .* It lies over line 3, from 06:00:09:00 on\.$/);
    assert.match(faultWords(faults[11]), /It lies over item 3 BARS, from 07:00:04:00 on\.$/);
    assert.match(faultSentence(faults[6]), /^25 BadLabel\. Line 10\. 2 LabelRange\./);
    assert.match(faultWords(faults[6]), /^25 BadLabel\. .* 2 LabelRange\.$/);
    assert.deepEqual(faultsOf(FAULTY, { ...into, ignore: true }).filter(({ code }) => code === 28), []);
    assert.deepEqual(readAll(bytes, pal).events.length, 12);
    assert.deepEqual(faultsOf(NIGHT, into).map(({ line, code }) => [line, code]), [[5, 79]]);
});

test('as many events as a list may have', () => {
    const line = (number) => `1 BL V C 00:00:00:00 00:00:00:01 ${number} ${number}`;
    const text = Array.from({ length: 10000 }, () => line('06:00:00:00')).join('\n');
    const into = { rate: pal, start: START, number: 7, ignore: true, sources: new Map(), blocks: [] };
    assert.equal(faultsOf(text, into).find(({ code }) => code === 30)?.line, 10000);
});
