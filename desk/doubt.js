// A message that got no answer may have been done or not. The office's tables are asked, and it is sent again only
// where it wasn't done, and by staff.

import { announce, button, clear } from './dom.js';
import { inDoubt } from './requests.js';

export { foundIn } from './requests.js';

/** @typedef {import('./fields.js').Values} Values */

export class Doubt {
    /** @param {import('./form.js').Form} form */
    constructor(form) {
        this.form = form;
        /** @type {Values | null} those that were sent */
        this.values = null;
    }

    /** @param {import('./requests.js').Lost} answer @param {Values} values */
    begin(answer, values) {
        const { form } = this;
        const words = `${inDoubt(answer)} What you typed is kept.`;
        form.message.textContent = words;
        form.scans?.became('lost', '');
        announce(words);
        if (!form.what.asked) return;
        this.values = values;
        const ask = button('Ask the office', () => form.working(() => this.ask()), { class: 'sure' });
        clear(form.more, ask);
        ask.focus();
    }

    async ask() {
        const { form, values } = this;
        const found = values && await form.what.asked?.(values);
        if (!values || !found) return;
        if (found.lost) {
            form.message.textContent = 'Still no answer. Whether it was done isn\'t known yet. What you typed is kept.';
            announce(form.message.textContent);
        } else if (found.done) await form.wasDone(`It was done: ${found.words}`, values);
        else this.offer(values);
    }

    /** @param {Values} values */
    offer(values) {
        const { form } = this;
        form.message.textContent = 'It was not done. You can send it again.';
        announce(form.message.textContent);
        const settle = (/** @type {() => unknown} */ next) => () => form.working(async () => {
            this.values = null;
            form.clearFaults();
            await next();
        });
        const again = button('Send again', settle(() => form.send(values)), { class: 'sure' });
        const edit = button('Change it first', settle(() => form.submit.focus()));
        clear(form.more, again, edit);
        again.focus();
    }
}
