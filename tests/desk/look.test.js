// Contrast over the variables of the style sheet (WCAG 2: 4.5 to 1 for text, 3 to 1 for borders and marks), light and
// dark, and sizes that go with the reader's own.

import test from 'node:test';
import assert from 'node:assert/strict';
import { readFileSync } from 'node:fs';

const css = readFileSync(new URL('../../desk/desk.css', import.meta.url), 'utf8');

function variables(selector) {
    const at = css.indexOf(`${selector} {`);
    const body = css.slice(at, css.indexOf('}', at));
    return Object.fromEntries([...body.matchAll(/--([\w-]+): ([^;]+);/g)].map((each) => [each[1], each[2].trim()]));
}

const dark = variables(':root');
const themes = { dark, light: { ...dark, ...variables(':root[data-theme="light"]') } };

function luminance(colour) {
    const parts = /^#([0-9a-f]{2})([0-9a-f]{2})([0-9a-f]{2})$/i.exec(colour);
    assert.ok(parts, `a colour as #rrggbb: ${colour}`);
    const [red, green, blue] = parts.slice(1).map((part) => parseInt(part, 16) / 255)
        .map((part) => (part <= 0.04045 ? part / 12.92 : ((part + 0.055) / 1.055) ** 2.4));
    return 0.2126 * red + 0.7152 * green + 0.0722 * blue;
}

function contrast(one, other) {
    const [light, dim] = [luminance(one), luminance(other)].sort((a, b) => b - a);
    return (light + 0.05) / (dim + 0.05);
}

test('contrast as WCAG reckons it', () => {
    assert.equal(contrast('#000000', '#ffffff'), 21);
    assert.equal(contrast('#777777', '#ffffff').toFixed(2), '4.48');
});

// What stands on what: text, and the grounds on which it may stand.
const GROUNDS = ['ground', 'panel', 'raised', 'field', 'bar', 'head', 'row-hover'];
const TEXT = [
    ...GROUNDS.flatMap((ground) => ['text', 'dim', 'bright', 'good', 'bad', 'accent'].map((ink) => [ink, ground])),
    ['bright', 'row-chosen'], ['bright', 'row-focus'], ['bad', 'bad-ground'], ['text', 'bad-ground'],
    ['on-accent', 'accent'], ['on-lost', 'lost'], ['on-main-button', 'main-button'], ['gap-text', 'gap-row'],
    ['good', 'gap-row'], ['out-text', 'out-row'], ['on-faulty', 'faulty'], ['on-sealed', 'sealed'],
    ['on-block', 'clip'], ['on-block', 'lent'], ['on-block', 'black'], ['on-block', 'bars'], ['gap-word', 'ground'],
    ['dim', 'overview'], ['on-ghost', 'ghost'], ['on-status', 'ok'], ['on-slip', 'slip'], ['on-status', 'wrong'],
    ['on-status', 'missed'], ['now', 'ground'], ['text', 'row-chosen'], ['dim', 'gap-row'],
];
const MARKS = [
    ...GROUNDS.flatMap((ground) => [['edge', ground], ['focus', ground]]),
    ['block-edge', 'ground'], ['gap', 'ground'], ['gap', 'overview'], ['window', 'overview'], ['now', 'overview'],
    ['main-edge', 'panel'], ['clip-mark', 'field'], ['lent-mark', 'field'], ['black-mark', 'field'],
    ['bars-mark', 'field'], ['recalled', 'lent'], ['ok', 'ground'], ['slip', 'ground'], ['wrong', 'ground'],
    ['missed', 'ground'], ['ghost', 'ground'],
];

for (const [name, theme] of Object.entries(themes)) {
    for (const [pairs, least] of [[TEXT, 4.5], [MARKS, 3]]) {
        for (const [ink, ground] of pairs) {
            test(`${name}: ${ink} on ${ground} has ${least} to 1`, () => {
                const has = contrast(theme[ink], theme[ground]);
                assert.ok(has >= least, `${theme[ink]} on ${theme[ground]} has ${has.toFixed(2)}`);
            });
        }
    }
    // The cursor and the frame of a chosen item are light within dark: one of both is seen on anything.
    const below = ['clip', 'lent', 'black', 'bars', 'ground', 'ok', 'slip', 'wrong', 'missed', 'gap', 'overview'];
    for (const ground of below) {
        for (const mark of ['cursor', 'chosen', 'now']) {
            test(`${name}: the ${mark} is seen on ${ground}`, () => {
                const has = Math.max(contrast(theme[mark], theme[ground]), contrast(theme.casing, theme[ground]));
                assert.ok(has >= 3, `${has.toFixed(2)}`);
            });
        }
    }
}

test('sizes are in rem: pixels are for hairlines alone', () => {
    const large = [...css.matchAll(/[\s:(](\d+(?:\.\d+)?)px/g)].map((each) => Number(each[1]))
        .filter((size) => size > 2);
    assert.deepEqual(large, []);
});
