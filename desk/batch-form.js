// As-run files are sent as batches, each under the next number of its day.

import { asRunOf } from './asrun-model.js';
import { moreWords } from './fault-words.js';
import { counted, grouped } from './dom.js';
import { MOST_BYTES } from './office.js';
import { Form } from './form.js';
import { foundIn } from './doubt.js';
import { FieldFault, bytesOf } from './fields.js';
import { partsOf, rowsBefore, lineOfRow } from './batches.js';
import { readDays } from './facts.js';
import { sentenceOf } from './refusals.js';
import { frameOf, placeOf } from './timecode.js';

const MOST_FILE = 64 * MOST_BYTES;

export class BatchForm {
    /** @param {import('./view-aired.js').AiredView} view */
    constructor(view) {
        this.view = view;
        this.form = new Form({
            name: 'batch', title: 'Send what was aired', word: 'Send', rate: view.desk.rate,
            place: `${view.desk.channel}/${view.number}`,
            lines: 'batch',
            fields: [
                { name: 'file', label: 'As-run file', kind: 'file', hint: 'CSV, or drop it on the day', wide: true },
                { name: 'batch', label: 'Batch', kind: 'number', hint: 'the next one', stays: true },
            ],
            prepare: async (values) => {
                await this.read(values);
                values.parts = partsOf(values.bytes);
            },
            confirm: (values) => this.question(values),
            messages: (values) => this.messages(values),
            done: (answer, values) => this.words(answer, values),
            asked: (values) => this.asked(values),
            refused: (refusal, values) => this.showFault(refusal, values),
            after: async () => {
                await view.againMatch();
                await this.offer();
            },
        });
    }

    /** A file of another form is brought into the office's, or it is told why it can't be.
     * @param {import('./fields.js').Values} values */
    async read(values) {
        const { file } = values;
        values.bytes = await bytesOf(file, MOST_FILE);
        values.name = file.name;
        const text = new TextDecoder().decode(values.bytes);
        values.asRun = asRunOf(text, this.view.desk.rate());
        const { isPlain, faults } = values.asRun;
        if (faults.length > 0) {
            const words = `It can't be sent. Line ${faults[0].line}: ${faults[0].words}`
                + moreWords(faults.length - 1, counted);
            this.view.text.show(file.name, text, faults[0].line, words, faults);
            throw new FieldFault(words, 'file');
        }
        if (isPlain) return;
        values.bytes = new TextEncoder().encode(values.asRun.text);
        values.name = `${file.name} as it is sent`;
    }

    /** @param {import('./fields.js').Values} values */
    question({ asRun, name }) {
        if (asRun.isPlain) return null;
        this.view.text.show(name, asRun.text);
        return `It isn't in the office's form: ${asRun.changes.join('; ')}. ${counted(asRun.lines.length, 'row')} `
            + 'are sent as shown?';
    }

    // The number behind the day's last batch, or null where it can't be read now.
    async next() {
        const { view } = this;
        const day = (await readDays(view.scope, view.desk.channel))?.get(view.number);
        return day ? day.batches + 1 : null;
    }

    async offer() {
        const number = await this.next();
        if (number !== null) this.form.put({ batch: number });
    }

    /** A row's number in a part is told as its number in the file.
     * @param {import('./fields.js').Values} values @returns {import('./form-messages.js').Message[]} */
    messages(values) {
        const before = rowsBefore(values.parts);
        const parts = /** @type {Uint8Array[]} */ (values.parts);
        return parts.map((part, index) => ({
            path: `${this.view.path}/asrun/${values.batch + index}`,
            body: part,
            refusedAs: (/** @type {import('./requests.js').Refused} */ refusal) => ([86, 91].includes(refusal.code)
                ? { at: String(Number(refusal.at) + before[index]) } : {}),
        }));
    }

    /** @param {{ all: import('./tables.js').DayRow[] }} answer @param {import('./fields.js').Values} values */
    words(answer, values) {
        this.view.text.close();
        const last = values.batch + values.parts.length - 1;
        const numbers = last > values.batch ? `Batches ${values.batch} to ${last} are` : `Batch ${last} is`;
        const frames = answer.all.reduce((sum, value) => sum + value.frames, 0);
        return `${numbers} taken: ${values.file.name}, ${grouped(frames)} frames.`;
    }

    /** @param {import('./fields.js').Values} values */
    async asked(values) {
        const next = await this.next();
        if (next === null) return { lost: true };
        return foundIn({ kind: 'done' }, () => (next >= values.batch + values.parts.length
            ? `batch ${next - 1} is the day's last one.` : null));
    }

    /** @param {import('./requests.js').Refused} refusal @param {import('./fields.js').Values} values */
    showFault(refusal, values) {
        const { day, text, timeline } = this.view;
        if (refusal.at === undefined) return;
        const file = new TextDecoder().decode(values.bytes);
        const line = refusal.code === 92 ? null : lineOfRow(file, Number(refusal.at));
        const own = line === null ? undefined : values.asRun.lines[line - 1];
        const where = own === undefined ? '' : ` It is line ${own} of ${values.file.name}.`;
        text.show(values.name, file, line, `${sentenceOf(refusal, 'batch')}${where}`);
        if (refusal.code !== 92) return;
        const { frame } = frameOf(refusal.at, day.rate);
        timeline.bring(placeOf(frame ?? 0, day.start, day.rate), 100);
    }

    /** @param {FileList} files */
    drop(files) {
        if (this.view.work.hidden) return;
        this.form.drop('file', files);
        this.form.pressed();
    }
}
