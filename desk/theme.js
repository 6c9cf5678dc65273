// Light or dark: as the system wishes, or as it was chosen. A canvas takes its colours from the same variables.

const KEY = 'desk/theme';
const COLOURS = ['ground', 'overview', 'rule', 'text', 'dim', 'cursor', 'casing', 'clip', 'lent', 'black', 'bars',
    'gap', 'gap-hatch', 'gap-word', 'chosen', 'ghost', 'on-ghost', 'window', 'frame', 'block-edge', 'on-block',
    'recalled', 'now', 'ok', 'slip', 'wrong', 'missed', 'on-status', 'on-slip', 'hatch-slip', 'hatch-wrong'];

const light = matchMedia('(prefers-color-scheme: light)');
const forced = matchMedia('(forced-colors: active)');
/** @type {Set<() => void>} */
const hearers = new Set();
/** @type {Object<string, string> | null} */
let colours = null;

export function chosenTheme() {
    return localStorage.getItem(KEY) ?? 'system';
}

/** @param {() => void} hearer @returns {() => void} what ends it */
export function onTheme(hearer) {
    hearers.add(hearer);
    return () => hearers.delete(hearer);
}

/** @param {string} choice */
export function setTheme(choice) {
    if (choice === 'system') localStorage.removeItem(KEY);
    else localStorage.setItem(KEY, choice);
    apply();
}

function apply() {
    const choice = chosenTheme();
    document.documentElement.dataset.theme = choice === 'system' ? (light.matches ? 'light' : 'dark') : choice;
    colours = null;
    for (const hearer of hearers) hearer();
}

export function startTheme() {
    for (const wish of [light, forced]) wish.addEventListener('change', apply);
    apply();
}

/** The colours of a canvas by their names.
 * @returns {Object<string, string>} */
export function palette() {
    if (!colours) {
        const style = getComputedStyle(document.documentElement);
        colours = Object.fromEntries(COLOURS.map((name) => [name, style.getPropertyValue(`--${name}`).trim()]));
    }
    return colours;
}
