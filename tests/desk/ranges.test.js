// Ranges of a day, gaps between them, snapping, and merging by pixels.

import test from 'node:test';
import assert from 'node:assert/strict';
import { eachPixel, firstBehind, gapFrom, gapsOf, indexAt, snapped } from '../../desk/ranges.js';

const range = (place, frames) => ({ place, frames });
const three = [range(10, 5), range(15, 5), range(30, 10)];

test('the range of each place', () => {
    const wanted = Array.from({ length: 45 }, (_, place) => three.findIndex((each) => each.place <= place
        && place < each.place + each.frames));
    assert.deepEqual(Array.from({ length: 45 }, (_, place) => indexAt(three, place)), wanted);
});

test('the first range that ends behind each place', () => {
    const wanted = Array.from({ length: 45 }, (_, place) => {
        const index = three.findIndex((each) => each.place + each.frames > place);
        return index < 0 ? three.length : index;
    });
    assert.deepEqual(Array.from({ length: 45 }, (_, place) => firstBehind(three, place)), wanted);
});

test('gaps are what no range has', () => {
    assert.deepEqual(gapsOf(three, 50), [range(0, 10), range(20, 10), range(40, 10)]);
    assert.deepEqual(gapsOf([range(0, 50)], 50), []);
    assert.deepEqual(gapsOf([], 50), [range(0, 50)]);
});

test('the gap that is worked on', () => {
    const gaps = gapsOf(three, 50);
    assert.deepEqual(gapFrom(gaps, 12), range(20, 10));
    assert.deepEqual(gapFrom(gaps, 25), range(20, 10));
    assert.deepEqual(gapFrom(gapsOf([range(20, 30)], 50), 30), range(0, 20));
    assert.equal(gapFrom([], 3), null);
});

test('a range snaps to the end before it and to the begin behind it', () => {
    assert.equal(snapped(three, 22, 4, 3, 50), 20);
    assert.equal(snapped(three, 24, 4, 3, 50), 26);
    assert.equal(snapped(three, 23, 4, 1, 50), 23);
    assert.equal(snapped(three, 22, 4, -1, 50), 22);
    assert.equal(snapped(three, 2, 4, 3, 50), 0);
    assert.equal(snapped(three, 45, 4, 3, 50), 46);
    assert.equal(snapped(three, 60, 4, 3, 50), 46);
});

function drawn(ranges, from, perPixel, width) {
    const found = [];
    eachPixel(ranges, from, perPixel, width, (x, wide, first, last) => found.push([x, wide, first, last]));
    return found;
}

test('ranges that are seen are drawn one by one', () => {
    assert.deepEqual(drawn(three, 0, 1, 50), [[10, 5, 0, 0], [15, 5, 1, 1], [30, 10, 2, 2]]);
    assert.deepEqual(drawn(three, 12, 1, 10), [[-2, 5, 0, 0], [3, 5, 1, 1]]);
});

test('those of one pixel are drawn as one, and each is covered', () => {
    const gaps = Array.from({ length: 9990 }, (_, number) => range(number * 216 + 215, 1));
    const found = drawn(gaps, 0, 2160000 / 1400, 1400);
    assert.ok(found.length <= 1401, `${found.length} are drawn`);
    const covered = found.reduce((sum, [, , first, last]) => sum + last - first + 1, 0);
    assert.equal(covered, gaps.length);
});
