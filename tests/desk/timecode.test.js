// Labels and lengths at the four rates.

import test from 'node:test';
import assert from 'node:assert/strict';
import {
    rates, rateOf, rateOfDay, labelOf, frameOf, placeOf, lengthLabel, lengthOf, stepOf, stepLabel, completed,
    frameOfSecond,
} from '../../desk/timecode.js';

function is(what, wanted, got) {
    test(what, () => assert.deepEqual(got, wanted));
}

// Labels of a day with their frames, counted one by one without any arithmetic: of each second the first three and the
// last, and of the first eleven minutes all.
function* labelsOf(rate) {
    const two = (number) => String(number).padStart(2, '0');
    let counted = 0;
    for (let second = 0; second < 86400; second += 1) {
        const minute = Math.floor(second / 60);
        const stem = `${two(Math.floor(minute / 60))}:${two(minute % 60)}:${two(second % 60)}`;
        for (let frame = 0; frame < rate.count; frame += 1) {
            const left = rate.drop && second % 60 === 0 && frame < 2 && minute % 10 !== 0;
            if (left) continue;
            const told = second < 660 || frame < 3 || frame === rate.count - 1;
            if (told) yield [counted, `${stem}${rate.mark}${two(frame)}`];
            counted += 1;
        }
    }
    return counted;
}

function wholeDay(rate) {
    const labels = labelsOf(rate);
    let faults = 0;
    let next = labels.next();
    for (; !next.done; next = labels.next()) {
        const [frame, label] = next.value;
        if (labelOf(frame, rate) !== label || frameOf(label, rate).frame !== frame) faults += 1;
    }
    return [faults, next.value];
}

for (const rate of rates) {
    test(`the labels of a day at ${rate.name}`, () => assert.deepEqual(wholeDay(rate), [0, rate.day]));
    is(`the rate of ${rate.day} frames`, rate.rate, rateOfDay(rate.day).rate);
    is(`the frame behind the day at ${rate.name}`, labelOf(0, rate), labelOf(rate.day, rate));
    is(`the frame before it at ${rate.name}`, labelOf(rate.day - 1, rate), labelOf(-1, rate));
}

const [pal, drop] = [rateOf('25'), rateOf('df')];
for (const text of ['', '0:00:00:00', '00:00:00:0', '00-00-00-00', '00:00:00:00 ', '０0:00:00:00', 'aa:00:00:00']) {
    is(`no label: ${text}`, { fault: 1 }, frameOf(text, pal));
}
for (const text of ['24:00:00:00', '00:60:00:00', '00:00:60:00', '00:00:00:25', '24:00:00;00']) {
    is(`out of range: ${text}`, { fault: 2 }, frameOf(text, pal));
}
for (const text of ['00:00:00;00', '00;00:00:00', '00:00;00:00']) is(`a mark: ${text}`, { fault: 3 },
    frameOf(text, pal));
for (const text of ['00:01:00;00', '00:01:00;01', '23:59:00:00']) is(`dropped: ${text}`, { fault: 4 },
    frameOf(text, drop));
is('ten minutes at drop-frame', { frame: 17982 }, frameOf('00:10:00;00', drop));
is('both marks at drop-frame', { frame: 1800 }, frameOf('00:01:00:02', drop));
is('a place behind midnight', 25, placeOf(frameOf('00:00:00:00', pal).frame, frameOf('23:59:59:00', pal).frame, pal));
is('a length of a whole day', '24:00:00:00', lengthLabel(pal.day, pal));
is('a length typed as shown', { frames: pal.day }, lengthOf('24:00:00:00', pal));
is('a length in frames', { frames: 1500 }, lengthOf('1500', pal));
is('a length as a label', { frames: 1500 }, lengthOf('00:01:00:00', pal));
is('a length that is neither', { fault: 1 }, lengthOf('1 minute', pal));
is('eight digits', '06:00:00:00', completed('06000000', pal));
is('eight digits at drop-frame', '06:00:00;00', completed('06000000', drop));
is('the mark of the rate', '06:00:00;00', completed(' 06:00:00:00 ', drop));
is('half a label', '06:0', completed('06:0', pal));
is('no such rate', null, rateOf('50'));

// A minute at drop-frame leaves two labels out, so its label is that of frame 1800 and it has 1798 frames.
is('a minute on', { frames: 1500 }, stepOf('+00:01:00', pal));
is('a minute back', { frames: -1500 }, stepOf('-00:01:00', pal));
is('a minute on, with frames', { frames: 1505 }, stepOf('00:01:00:05', pal));
is('ten minutes on at drop-frame', { frames: 17982 }, stepOf('+00:10:00', drop));
is('a minute on at drop-frame', { frames: 1798 }, stepOf('+00:01:00', drop));
is('frames back', { frames: -250 }, stepOf(' -250 ', pal));
is('eight digits on', { frames: 250 }, stepOf('+00001000', pal));
is('no step', { fault: 2 }, stepOf('+00:61:00', pal));
is('a step that is neither', { fault: 1 }, stepOf('later', pal));
is('a step as it is shown', ['+00:00:10:00', '-00:00:10:00'], [stepLabel(250, pal), stepLabel(-250, pal)]);
is('a second that begins at ;02', 1800, frameOfSecond(60, drop));
is('noon at 25', 1080000, frameOfSecond(43200, pal));
