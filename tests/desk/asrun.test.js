// As-run files of other forms, brought into the office's.

import test from 'node:test';
import assert from 'node:assert/strict';
import { asRunOf } from '../../desk/asrun-model.js';
import { rateOf } from '../../desk/timecode.js';

const [pal, drop] = [rateOf('25'), rateOf('df')];
// The rows that docs/FORMATS.md shows.
const PLAIN = '06:00:00:00,1000,BL,00:00:00:00\r\n06:00:40:00,500,C0000001,00:00:00:00\r\n';
const sent = (text, rate = pal) => {
    const read = asRunOf(text, rate);
    assert.deepEqual([read.isPlain, read.faults], [false, []]);
    return read.text;
};
const why = (text, rate = pal) => asRunOf(text, rate).faults.map(({ line, words }) => [line, words]);

test('a file in the office\'s form is sent as it is, with its faults', () => {
    for (const text of [PLAIN, '', '\ufeff"06:00:00:00",1000,"BL",00:00:00:00\r', `${PLAIN}06:00:00:00,1\n`,
        '06:00:00:00,1000,BL,00:00:00:00,x\n', '06:00:00:00,25\n', 'nothing of this kind\n']) {
        assert.equal(asRunOf(text, pal).isPlain, true, text);
    }
    assert.equal(asRunOf('06:00:00;00,1000,BL,00:00:00;00\n', drop).isPlain, true);
});

test('heads, marks, lengths as labels, small letters', () => {
    assert.equal(sent(`Record label,Frames,Reel,From\n${PLAIN}`), PLAIN);
    assert.equal(sent(PLAIN.replaceAll(',', ';')), PLAIN);
    assert.equal(sent(PLAIN.replaceAll(',', '\t')), PLAIN);
    assert.equal(sent('06:00:00:00,00:00:40:00,BL,00:00:00:00\n06:00:40:00,00000020,c0000001,00000000\n'),
        PLAIN.replace(',500,', ',20,'));
    assert.equal(sent('06:00:00:00,00:00:40:00,BL,00:00:00:00\n06:00:40:00,00:00:20:00,c0000001,00:00:00:00\n'), PLAIN);
    const { changes, lines } = asRunOf(`Start;Duration;Clip;SOM\n${PLAIN.replaceAll(',', ';')
        .replace('1000', '00:00:40:00')}`, pal);
    assert.deepEqual(changes, ['its head is left out', 'fields are parted by ;',
        'lengths are labels, and become frames']);
    assert.deepEqual(lines, [2, 3]);
});

test('columns by their names, in any order, with others between', () => {
    const text = 'Title,Clip ID,Start Time,Channel,TC in,Duration\n'
        + '"NEWS, LATE",C0000001,06:00:40:00,ONE,00:00:00:00,00:00:20:00\n';
    assert.equal(sent(text), '06:00:40:00,500,C0000001,00:00:00:00\r\n');
    assert.deepEqual(asRunOf(text, pal).changes, ['its head is left out', 'other columns are left out',
        'lengths are labels, and become frames']);
    assert.deepEqual(why('Title,Start,Duration,SOM\nA,06:00:00:00,25,00:00:00:00\n'),
        [[1, 'Its head names no column for the reel.']]);
    assert.deepEqual(why('Start,Begin,Reel,SOM\n1,2,3,4\n'),
        [[1, 'Its head names more than one column for the begin.']]);
    assert.match(why('06:00:00:00;25;BL;00:00:00:00;x\n')[0][1], /^It has 5 columns and no head/);
});

test('`;` parts the fields of drop-frame labels too', () => {
    assert.equal(sent('06:00:00;02;00:00:10;00;C0000001;00:00:00;00\n06:00:10;02;25;BL;00:00:00;00\n', drop),
        '06:00:00;02,300,C0000001,00:00:00;00\r\n06:00:10;02,25,BL,00:00:00;00\r\n');
});

test('what can\'t be brought into it is told by its line, all at once', () => {
    const text = 'Start;Duration;Reel;From\n06:00:00:25;25;BL;00:00:00:00\n06:00:00:00;x;BL;00:00:00:00\n'
        + '06:00:00:00;25;TOO LONG A REEL;00:00:00:00\n06:00:00:00;25;BL;\n06:00:00:00;0;BL;00:00:00:00\n';
    assert.deepEqual(why(text), [[2, '06:00:00:25 is no label at which it began.'],
        [3, 'x is no length: neither frames nor a label.'], [4, 'TOO LONG A REEL is no reel.'],
        [5, 'Nothing is no label of its first frame.'], [6, '0 is no length: neither frames nor a label.']]);
});
