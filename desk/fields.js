// The fields of a form: how each kind is read, and the faults that stand beside them.

import { make, freshId, options } from './dom.js';
import { MOST_BYTES } from './office.js';
import { sentenceOf, wordsOf } from './refusals.js';
import { channelNamed } from './site-model.js';
import { channelName, dayDate, site } from './site.js';
import { dayNamed } from './dates.js';
import { completed, frameOf, lengthOf, stepOf } from './timecode.js';

/** @typedef {import('./timecode.js').Rate} Rate */
/** @typedef {'text' | 'number' | 'label' | 'length' | 'step' | 'select' | 'file' | 'day' | 'channel'} Kind */
/** A field of a form: `value` is what stands there at first, `fresh` makes what stands there next, `stays` keeps it,
 * and `says` is what stands beside what is typed.
 * @typedef {{ name: string, label: string, kind: Kind, hint?: string, title?: string, value?: string | number,
 *     fresh?: () => string, stays?: boolean, wide?: boolean, optional?: boolean, accept?: string,
 *     options?: (string | number)[][], beside?: HTMLElement, says?: (text: string) => string }} Field */
/** What the fields of a form have, by their names: each form knows its own.
 * @typedef {Object<string, any>} Values */
/** @typedef {HTMLInputElement | HTMLSelectElement} Input */

export class FieldFault extends Error {
    /** @param {string} words @param {string | null} field beside which it is shown, if not the one that is read */
    constructor(words, field = null) {
        super(words);
        this.field = field;
    }
}

/** @param {string} text @param {Rate} rate */
function labelFrom(text, rate) {
    const { fault } = frameOf(text, rate);
    if (fault) throw new FieldFault(sentenceOf({ code: fault }));
    return text;
}

/** @param {string} text @param {Rate} rate */
function framesFrom(text, rate) {
    const { frames, fault } = lengthOf(text, rate);
    if (fault) throw new FieldFault(`${sentenceOf({ code: fault })} Or type a number of frames.`);
    return frames;
}

/** @param {string} text @param {Rate} rate */
function stepFrom(text, rate) {
    const { frames, fault } = stepOf(text, rate);
    if (fault || frames === undefined) {
        throw new FieldFault('Type a sign and a length, as +00:01:00, -00:00:10:00 or -250.');
    }
    return frames;
}

/** @param {string} text */
function numberFrom(text) {
    if (!/^\d{1,9}$/.test(text)) throw new FieldFault('Type a whole number.');
    return Number(text);
}

/** @param {string} text */
function dayFrom(text) {
    const { day, fault } = dayNamed(text, site().day1);
    if (fault) throw new FieldFault(fault);
    return day;
}

/** @param {string} text */
function channelFrom(text) {
    const { channel, fault } = channelNamed(text, site().channels);
    if (fault) throw new FieldFault(fault);
    return channel;
}

const asTyped = (/** @type {string} */ text) => text;
/** What each kind of field makes of what was typed.
 * @type {Object<string, (text: string, rate: Rate) => string | number | undefined>} */
const READERS = {
    text: asTyped, number: numberFrom, label: labelFrom, length: framesFrom, step: stepFrom, select: asTyped,
    day: dayFrom, channel: channelFrom,
};

/** What stands beside a number as it is typed: the date of a day, and the name of a channel.
 * @type {Object<string, (text: string) => string>} */
const SAYS = {
    day: (text) => {
        const { day } = dayNamed(text, site().day1);
        if (day === undefined) return '';
        return /^\d+$/.test(text.trim()) ? dayDate(day) : `day ${day}`;
    },
    channel: (text) => {
        const { channel } = channelNamed(text, site().channels);
        return channel === undefined || !site().channels.get(channel)?.name ? '' : channelName(channel);
    },
};

const FILLED = 'filled';

/** A field is filled by the desk: what stands beside it is said anew.
 * @param {Input} input @param {string | number} value */
export function fillField(input, value) {
    input.value = String(value);
    input.dispatchEvent(new Event(FILLED));
}

/** @param {Kind} kind */
function titleOf(kind) {
    if (kind === 'channel') return 'its number or its name';
    return kind === 'day' && site().day1 ? 'its number, or its date as 2026-01-31' : null;
}

/** The line that says what a field's number means, where it has one.
 * @param {Field} field @param {Input} input */
function saysOf(field, input) {
    const words = field.says ?? SAYS[field.kind];
    if (!words) return null;
    const line = make('p', { class: 'says' });
    const say = () => { line.textContent = words(input.value); };
    for (const type of ['input', FILLED]) input.addEventListener(type, say);
    say();
    return line;
}

/** @param {Kind} kind */
export function isTimed(kind) {
    return kind === 'label' || kind === 'length';
}

/** The elements of a field.
 * @param {Field} field @param {string | null} draft @param {() => Rate | null | undefined} rate */
export function fieldOf(field, draft, rate) {
    const [id, hint, faultId] = [freshId(field.name), freshId('hint'), freshId('fault')];
    const input = field.kind === 'select' ? make('select', { id, name: field.name }, ...options(field.options ?? []))
        : make('input', {
            id, name: field.name, type: field.kind === 'file' ? 'file' : 'text', spellcheck: 'false',
            inputmode: field.kind === 'number' ? 'numeric' : null, class: field.kind,
            title: field.title ?? titleOf(field.kind),
            accept: field.accept,
        });
    input.setAttribute('aria-describedby', field.hint ? `${hint} ${faultId}` : faultId);
    if (field.kind !== 'file') input.value = draft ?? String(field.value ?? input.value);
    if (isTimed(field.kind)) {
        input.addEventListener('change', () => {
            const known = rate();
            if (known) input.value = completed(input.value, known);
        });
    }
    const fault = make('p', { id: faultId, class: 'fault' });
    const beside = field.beside ? make('div', { class: 'beside' }, input, field.beside) : input;
    const element = make('div', { class: `field ${field.wide ? 'wide' : ''}` }, make('label', { for: id }, field.label),
        beside, field.hint ? make('p', { id: hint, class: 'hint' }, field.hint) : null, saysOf(field, input), fault);
    return { element, input, fault };
}

/** What was typed into a field. A label typed just before Enter has had no change event yet.
 * @param {Field} field @param {Input | { value: string }} input @param {Rate | null | undefined} rate the channel's,
 * which a form with labels knows */
export function valueOf(field, input, rate) {
    return /** @type {any} */ (typed(field, input, /** @type {Rate} */ (rate)));
}

/** The file that was chosen, if one was.
 * @param {Input | { value: string }} input */
export function fileIn(input) {
    return 'files' in input ? input.files?.[0] : undefined;
}

/** @param {Field} field @param {Input | { value: string }} input @param {Rate} rate */
function typed(field, input, rate) {
    if (field.kind === 'file') return fileIn(input);
    if (isTimed(field.kind)) input.value = completed(input.value, rate);
    const text = field.kind === 'text' || field.kind === 'select' ? input.value : input.value.trim();
    return field.optional && text === '' ? null : READERS[field.kind](text, rate);
}

/** The bytes of a file that was chosen or dropped. One that no message can take isn't sent.
 * @param {File | null | undefined} file @param {number} most */
export async function bytesOf(file, most = MOST_BYTES) {
    if (!file) throw new FieldFault('Choose a file, or drop one on the page.', 'file');
    if (file.size > most) throw new FieldFault(sentenceOf({ code: 413 }), 'file');
    return new Uint8Array(await file.arrayBuffer());
}

/** The field of a form that a refusal is about. Of a label's fault the office doesn't say which label: it is the first
 * that has one.
 * @param {import('./requests.js').Refused} refusal @param {Object<string, Input>} inputs @param {Values} values
 * @param {Rate | null | undefined} rate the channel's, if it is known */
export function fieldRefused(refusal, inputs, values, rate) {
    const own = wordsOf(refusal).fields.filter((name) => name in inputs);
    if (refusal.at !== undefined && 'file' in inputs) return 'file';
    const bad = own.find((name) => rate && /^(at|in)$/.test(name) && frameOf(values[name] ?? '', rate).fault);
    return bad ?? own[0];
}
