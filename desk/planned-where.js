// Where a clip is planned, over a range of days: their plans are read one by one.

import { counted, make } from './dom.js';
import { Form } from './form.js';
import { FieldFault } from './fields.js';
import { List } from './list.js';
import { readPlan } from './facts.js';
import { STOPPED, watched } from './progress.js';
import { plannedIn } from './find-model.js';
import { dayDate } from './site.js';
import { lengthLabel } from './timecode.js';

const MOST_DAYS = 400;

/** @typedef {ReturnType<typeof plannedIn>[number] & { long: string }} Row */

export class PlannedWhere {
    /** @param {import('./desk.js').Desk} desk @param {import('./office.js').Scope} scope */
    constructor(desk, scope) {
        this.desk = desk;
        this.scope = scope;
        this.list = new List('Where the clip is planned', /** @type {import('./list-columns.js').Column<Row>[]} */ ([
            { name: 'Day', width: '4rem', align: 'right', text: (row) => row.day, mark: () => 'number' },
            { name: 'Date', width: '8rem', text: (row) => dayDate(row.day) },
            { name: 'Begins', width: '6.6rem', text: (row) => row.at, mark: () => 'code' },
            { name: 'Length', width: '6.6rem', text: (row) => row.long, mark: () => 'code', sort: (row) => row.frames },
            { name: 'Item', width: '3rem', align: 'right', text: (row) => row.number, mark: () => 'number' },
            { name: 'State', width: '4.5rem', text: (row) => (row.sealed ? 'sealed' : 'open') },
        ]), { open: (row) => desk.goTo('day', row.day) });
        this.list.show([], 'Not looked for yet.');
        const shown = sessionStorage.getItem(`${desk.channel}/day`) ?? '1';
        this.form = new Form({
            name: 'where', title: 'Where a clip is planned', word: 'Look', place: desk.channel,
            fields: [
                { name: 'clip', label: 'Clip', kind: 'text', hint: 'its reel', stays: true, wide: true },
                { name: 'first', label: 'From day', kind: 'day', value: shown, stays: true },
                { name: 'last', label: 'To day', kind: 'day', value: String(Number(shown) + 6), stays: true },
            ],
            prepare: (values) => {
                if (!/^[CL]\d{7}$/.test(values.clip)) throw new FieldFault('Type a reel, as C0000001.', 'clip');
                if (values.last < values.first) {
                    throw new FieldFault('No days are between these.', 'last');
                }
                if (values.last - values.first >= MOST_DAYS) {
                    throw new FieldFault(`Look through at most ${MOST_DAYS} days at once.`, 'last');
                }
            },
            run: (values) => this.look(values),
            done: ({ rows }, values) => {
                const often = rows.length === 1 ? 'once' : `${rows.length} times`;
                return `${values.clip} is planned ${often} in days ${values.first} to ${values.last}.`;
            },
        });
        this.element = make('div', {}, this.form.element, make('div', { class: 'bulk-report' }, this.list.element));
    }

    /** As far as it was stopped, what was found is shown.
     * @param {import('./fields.js').Values} values @returns {Promise<import('./form-messages.js').Outcome>} */
    async look(values) {
        const control = { stopped: false };
        /** @type {Row[]} */
        const rows = [];
        const asked = this.read(values, rows, control);
        const about = String(this.desk.channel);
        const outcome = await watched(() => this.form.message.textContent ?? '', about, asked, control);
        if (outcome !== STOPPED) return outcome;
        this.list.show(rows, 'It was planned in none of these days.');
        return { kind: 'not', words: `Stopped. ${this.form.message.textContent}` };
    }

    /** @param {import('./fields.js').Values} values @param {Row[]} rows
     * @param {import('./progress.js').Control} control
     * @returns {Promise<import('./form-messages.js').Outcome>} */
    async read({ clip, first, last }, rows, control) {
        const rate = this.desk.rate();
        for (let day = first; day <= last && !control.stopped; day += 1) {
            const { plan, answer } = await readPlan(this.scope, this.desk.channel, day);
            if (answer?.kind === 'lost') return { kind: 'not', words: `${answer.words}. Look again.` };
            if (answer && answer.code !== 71) return answer;
            if (!plan) continue;
            const found = plannedIn(plan, clip);
            rows.push(...found.map((row) => ({ ...row, long: lengthLabel(row.frames, rate) })));
            this.form.message.textContent = `Day ${day} of ${last}: ${counted(rows.length, 'item')} so far.`;
        }
        this.list.show(rows, 'It is planned in none of these days.');
        return { kind: 'done', rows };
    }
}
