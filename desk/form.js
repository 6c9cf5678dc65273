// A form is one message to the office. Its refusal stands beside the field that it is about; what was typed is kept
// until it was done, in the tab too. Where no answer came, the office is asked before it is sent again. A form is busy
// until what it changed was read again, so that a second press finds things as they are.

import { make, clear, button, freshId, say, announce, focusOn } from './dom.js';
import { mayBeDone } from './requests.js';
import { sent } from './form-messages.js';
import { Doubt } from './doubt.js';
import { FieldFault, fieldOf, fieldRefused, fillField, valueOf } from './fields.js';
import { sentenceOf } from './refusals.js';
import { Scans } from './scans.js';

/** @typedef {import('./form-messages.js').What} What */
/** @typedef {import('./fields.js').Values} Values */
/** @typedef {import('./requests.js').Refused} Refused */
/** @typedef {{ kind: 'asked' | 'not', words: string }} Settled without asking the office */

export class Form {
    /** @param {What} what */
    constructor(what) {
        this.what = what;
        /** @type {Object<string, import('./fields.js').Input>} */
        this.inputs = {};
        /** @type {Object<string, HTMLElement>} */
        this.faults = {};
        /** @type {string | null} what is asked before it is sent */
        this.question = null;
        this.doubt = new Doubt(this);
        this.scans = what.scans ? new Scans(this) : null;
        this.busy = false;
        /** @type {Set<string>} since it was sent */
        this.typedSince = new Set();
        /** @type {Set<string>} since it was filled */
        this.typed = new Set();
        this.enteredSince = false;
        this.idle = Promise.resolve();
        const [heading, message] = [freshId('form'), freshId('message')];
        this.message = make('p', { class: 'fault', id: message });
        this.result = make('p', { class: 'result' });
        this.more = make('div', { class: 'buttons' });
        this.submit = make('button', { type: 'submit', class: 'main', 'aria-describedby': message }, what.word);
        const small = what.fields.length === 1 && !what.fields[0].wide;
        this.element = make('form', {
            class: small ? 'form small' : 'form', 'aria-labelledby': heading, 'data-form': what.name,
            novalidate: true, autocomplete: 'off',
            on: {
                submit: (event) => this.pressed(event), input: (event) => this.wasTyped(event),
                keydown: (event) => this.key(event),
            },
        }, make('h3', { id: heading }, what.title), ...what.fields.map((field) => this.field(field)),
        make('div', { class: 'buttons' }, this.submit, ...(what.extra ?? [])), this.message, this.more, this.result,
        this.scans?.element);
    }

    /** @param {What['fields'][number]} field */
    field(field) {
        const made = fieldOf(field, sessionStorage.getItem(this.draftKey(field.name)), () => this.what.rate?.());
        this.inputs[field.name] = made.input;
        this.faults[field.name] = made.fault;
        return made.element;
    }

    /** A draft is kept by channel, view and form, so that a form of another day never takes it.
     * @param {string} name */
    draftKey(name) {
        return `${this.what.place}/${this.what.name}/${name}`;
    }

    /** A question is about what stood in the fields, so a changed field takes it back.
     * @param {Event} event */
    wasTyped(event) {
        const { name, type, value } = /** @type {HTMLInputElement} */ (event.target);
        if (name && type !== 'file') sessionStorage.setItem(this.draftKey(name), value);
        this.typedSince.add(name);
        this.typed.add(name);
        if (this.question) this.withdraw();
        this.what.changed?.(name);
    }

    /** @param {KeyboardEvent} event */
    key(event) {
        if (event.key !== 'Escape' || !this.question) return;
        event.preventDefault();
        event.stopPropagation();
        this.withdraw();
    }

    withdraw() {
        const had = this.more.contains(document.activeElement);
        this.question = null;
        this.clearFaults();
        if (had) this.submit.focus();
    }

    /** Fields as they are proposed: nothing that was said goes by it.
     * @param {Values} values */
    put(values) {
        for (const [name, value] of Object.entries(values)) fillField(this.inputs[name], value);
    }

    /** Fills fields from elsewhere, as from a row that was chosen.
     * @param {Values} values */
    fill(values) {
        this.put(values);
        for (const [name, value] of Object.entries(values)) {
            sessionStorage.setItem(this.draftKey(name), value);
            this.typed.delete(name);
        }
        this.clearFaults();
    }

    /** Fills fields as another row is chosen: what was done by the form is said still.
     * @param {Values} values */
    offer(values) {
        const words = this.result.textContent;
        this.fill(values);
        this.result.textContent = words;
    }

    clearFaults() {
        if (this.more.contains(document.activeElement)) this.submit.focus();
        this.question = null;
        this.message.textContent = '';
        this.result.textContent = '';
        clear(this.more);
        for (const [name, fault] of Object.entries(this.faults)) {
            fault.textContent = '';
            this.inputs[name].removeAttribute('aria-invalid');
        }
    }

    /** A file that was dropped is as if it was chosen.
     * @param {string} name @param {FileList} files */
    drop(name, files) {
        /** @type {HTMLInputElement} */ (this.inputs[name]).files = files;
        this.clearFaults();
    }

    /** @param {string | undefined} name of the field, if it is about one @param {string} words */
    fault(name, words) {
        this.scans?.became('refused', words);
        const place = this.faults[name ?? ''] ?? this.message;
        place.textContent = words;
        const input = this.inputs[name ?? ''];
        input?.setAttribute('aria-invalid', 'true');
        (input ?? this.submit).focus();
        announce(words);
    }

    /** @param {Object<string, { value: string }>} inputs @returns {Values | null} */
    values(inputs) {
        /** @type {Values} */
        const values = {};
        for (const field of this.what.fields) {
            try {
                values[field.name] = valueOf(field, inputs[field.name], this.what.rate?.());
            } catch (fault) {
                if (!(fault instanceof FieldFault)) throw fault;
                this.fault(field.name, fault.message);
                return null;
            }
        }
        return values;
    }

    /** What is typed and entered while the form is busy is done behind that.
     * @param {Event | null} event @param {import('./scans.js').Scan | null} scan one that waited */
    async pressed(event = null, scan = null) {
        event?.preventDefault();
        if (this.busy) {
            if (this.scans) this.scans.take();
            else this.enteredSince = this.typedSince.size > 0;
            return;
        }
        const inputs = this.scans ? this.scans.inputsFor(scan) : this.inputs;
        if (!this.doubt.values) this.scans?.begin(scan);
        const inDoubt = this.doubt.values && this.typedSince.size > 0;
        if (!this.doubt.values && !scan) this.typedSince.clear();
        const at = this.inputs[this.what.next ?? ''];
        if (!scan && at && at === document.activeElement) focusOn(at);
        await this.working(async () => {
            // What stands in the fields once a doubt is settled is the next thing, where it was typed since.
            if (this.doubt.values) {
                await this.doubt.ask();
                if (this.doubt.values || !inDoubt) return;
                this.typedSince.clear();
                this.scans?.begin(null);
            }
            this.clearFaults();
            if (this.what.ready && !this.what.ready()) {
                this.fault('', 'It is still being read. Try again in a moment.');
                return;
            }
            const values = this.values(inputs);
            if (!values || !await this.holds(() => this.what.prepare?.(values))) return;
            if (!await this.holds(() => this.what.check?.(values))) return;
            const question = this.what.confirm?.(values);
            if (question) this.ask(question, values);
            else await this.send(values);
        });
    }

    /** Whether a look at the values, or at the office, found nothing against them.
     * @param {() => unknown} look */
    async holds(look) {
        try {
            await look();
            return true;
        } catch (fault) {
            if (!(fault instanceof FieldFault)) throw fault;
            this.fault(fault.field ?? (('file' in this.inputs) ? 'file' : ''), fault.message);
            return false;
        }
    }

    /** What can't be undone isn't confirmed by the key that asked: the focus goes to what takes it back.
     * @param {string} question @param {Values} values */
    ask(question, values) {
        this.message.textContent = question;
        const sure = button(this.what.word, () => this.working(() => this.confirmed(values)), { class: 'sure' });
        const not = button('Not now', () => this.withdraw(), { class: 'not' });
        clear(this.more, sure, not);
        this.question = question;
        (this.what.final ? not : sure).focus();
        announce(question);
    }

    /** @param {Values} values */
    async confirmed(values) {
        this.clearFaults();
        if (!await this.holds(() => this.what.check?.(values))) return;
        await this.send(values);
    }

    /** One thing at a time: what is pressed meanwhile is left, and what must come behind it waits for `idle`.
     * @param {() => unknown} does */
    async working(does) {
        if (this.busy) return;
        this.setBusy(true);
        this.idle = (async () => {
            try {
                await does();
            } finally {
                this.setBusy(false);
            }
        })();
        await this.idle;
        const [entered, scan] = [this.enteredSince, this.scans?.next() ?? null];
        this.enteredSince = false;
        if (entered || scan) await this.pressed(null, scan);
    }

    /** @param {Values} values */
    async send(values) {
        const outcome = await this.what.run?.(values) ?? await sent(this.what, values);
        const answer = /** @type {import('./requests.js').Answer | Settled} */ (outcome);
        if (answer.kind === 'done') await this.wasDone(this.what.done(answer, values), values, answer);
        else if (answer.kind === 'lost') this.doubt.begin(answer, values);
        else if (answer.kind === 'refused') await this.wasRefused(answer, values);
        else if (answer.kind === 'asked') this.message.textContent = answer.words;
        else this.fault('', answer.words);
    }

    /** @param {boolean} busy */
    setBusy(busy) {
        this.busy = busy;
        this.element.setAttribute('aria-busy', String(busy));
        this.submit.setAttribute('aria-disabled', String(busy));
    }

    /** @param {string} words @param {Values} values @param {import('./requests.js').Answer | null} answer */
    async wasDone(words, values, answer = null) {
        this.doubt.values = null;
        for (const field of this.what.fields) {
            if (this.typedSince.has(field.name)) continue;
            this.typed.delete(field.name);
            sessionStorage.removeItem(this.draftKey(field.name));
            const next = field.fresh?.() ?? field.value ?? field.options?.[0]?.[0] ?? '';
            if (!field.stays) fillField(this.inputs[field.name], next);
        }
        this.clearFaults();
        this.result.textContent = words;
        this.scans?.became('done', words);
        say(words, 'good', String(this.what.place));
        await this.what.after?.(values, answer);
        if (this.what.next && !this.typedSince.has(this.what.next)) focusOn(this.inputs[this.what.next]);
    }

    /** @param {Refused} refusal @param {Values} values */
    async wasRefused(refusal, values) {
        const words = refusal.words ?? sentenceOf(refusal, this.what.lines);
        this.fault(fieldRefused(refusal, this.inputs, values, this.what.rate?.()), words);
        await this.what.refused?.(refusal, values);
        if (!this.what.asked || !mayBeDone(refusal, 'form')) return;
        const found = await this.what.asked(values);
        if (found.done) this.result.textContent = `The office has it as you typed it: ${found.words}`;
    }
}
