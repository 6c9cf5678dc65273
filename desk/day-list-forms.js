// Lists that are imported into a day, and the seal.

import { Form } from './form.js';
import { bytesOf, fileIn } from './fields.js';
import { readList, skippedWords } from './edl.js';
import { shiftedList } from './list-shift.js';
import { listFaults, moreWords } from './fault-words.js';
import { sentenceOf } from './refusals.js';
import { button, counted } from './dom.js';

const PLACES = [['labels', 'At its own labels'], ['cursor', 'At the cursor, or the open place']];
const MISMATCHES = [['strict', 'Refuse events whose lengths differ'], ['ignore', 'Take the source\'s length']];

/** A list as it is sent: with its own labels, or from the cursor on, as things are pasted.
 * @param {import('./view-day.js').DayView} view @param {Uint8Array} bytes @param {string} mode @param {string} where */
export function placed(view, bytes, mode, where) {
    if (where === 'labels') return bytes;
    const { rate, start } = view.day;
    const text = new TextDecoder().decode(bytes);
    return new TextEncoder().encode(shiftedList(text, rate, start + view.choice.pastePlace(), mode === 'ignore'));
}

/** The office tells the first fault of a list: all of them are shown, an overlap with its line.
 * @param {import('./view-day.js').DayView} view @param {import('./requests.js').Refused} refusal
 * @param {import('./fields.js').Values} values */
async function showFaults(view, refusal, { file, bytes, mode, before }) {
    if (refusal.at === undefined) return;
    await view.againSources();
    const all = listFaults(bytes, { ...view.day, number: view.number, ignore: mode === 'ignore', blocks: before,
        sources: view.titles });
    const told = refusal.code === 75 ? all.find((each) => each.code === 75)?.line ?? null
        : Number(refusal.at.split(' ')[0]);
    const more = all.filter((each) => each.line !== told).length;
    const words = `${sentenceOf(refusal)}${moreWords(more, counted)}`;
    view.text.show(file.name, new TextDecoder().decode(bytes), told, words, all);
    if (refusal.code === 75) view.choice.bringLabel(refusal.at);
}

/** The form of lists, with its file.
 * @param {import('./view-day.js').DayView} view */
export function chooseList(view) {
    if (view.below.classList.contains('formless')) view.folding.click();
    const { element, inputs } = view.forms.list;
    const folded = element.closest('details');
    if (folded) folded.open = true;
    element.scrollIntoView({ block: 'nearest' });
    inputs.file.focus();
    inputs.file.click();
}

/** @param {import('./day-forms.js').DayForms} forms @returns {Form} */
export function listForm(forms) {
    const { view } = forms;
    return new Form({
        ...forms.common, name: 'import', title: 'Lists', word: 'Import',
        fields: [
            { name: 'file', label: 'List', kind: 'file', hint: 'or drop it on the day', wide: true },
            { name: 'mode', label: 'If they differ', kind: 'select', options: MISMATCHES, stays: true, wide: true },
            { name: 'where', label: 'It begins', kind: 'select', options: PLACES, stays: true, wide: true },
        ],
        extra: [button('Relink a list', () => view.relink.begin(fileIn(forms.list.inputs.file),
            forms.list.inputs.mode.value, forms.list.inputs.where.value),
        { id: 'relink', title: 'for reels that are tapes or AX' })],
        prepare: async (values) => {
            values.bytes = placed(view, await bytesOf(values.file), values.mode, values.where);
            values.list = readList(values.bytes, view.day.rate);
            values.before = await forms.blocksNow();
        },
        message: (values) => ({ path: `${view.path}/import/${values.mode}`, body: values.bytes }),
        done: (answer, values) => {
            view.text.close();
            const { items, skipped } = answer.value;
            const why = skippedWords(values.list.events, values.mode === 'ignore', counted);
            return `${counted(items, 'item')} of ${values.file.name} are in the day, `
                + `${counted(skipped, 'event')} were skipped. ${why}`;
        },
        asked: (values) => forms.asked((plan) => {
            const more = plan.items.length - values.before.length;
            return more > 0 ? `the day has ${more} items more than before.` : null;
        }),
        refused: async (refusal, values) => {
            await forms.common.refused(refusal);
            await showFaults(view, refusal, values);
        },
        after: async (values) => {
            await view.againPlan();
            view.edits.wereImported(values);
        },
    });
}

/** @param {import('./day-forms.js').DayForms} forms */
export function sealForm(forms) {
    const { view } = forms;
    return new Form({
        ...forms.common, name: 'seal', title: 'Seal the day', word: 'Seal', fields: [], lines: 'seal', final: true,
        confirm: () => `Day ${view.number} is then sealed for good: its items never change.`,
        message: () => ({ path: `${view.path}/seal` }),
        done: () => `Day ${view.number} is sealed.`,
        asked: () => forms.asked((plan) => (plan.sealed ? `day ${view.number} is sealed.` : null)),
        refused: async (refusal) => {
            await view.againPlan();
            if (refusal.code === 76) view.choice.bringLabel(refusal.at ?? '');
            if ([81, 88].includes(refusal.code)) view.choice.bringItem(Number(refusal.at));
        },
    });
}
