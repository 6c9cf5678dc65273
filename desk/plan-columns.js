// The columns of a plan, and the room that it has beside the forms.

import { endLabel, kindWords, labelAt } from './day-model.js';
import { lengthLabel } from './timecode.js';

/** @typedef {import('./day-model.js').PlanRow} PlanRow */

/** @param {{ day: import('./day-model.js').Day }} view @returns {import('./list-columns.js').Column<PlanRow>[]} */
export function planColumns(view) {
    return [
        { name: 'Item', width: '2.4rem', align: 'right', text: (row) => row.number, mark: () => 'number' },
        { name: 'Begins', field: 'at', width: '6.2rem', text: (row) => labelAt(view.day, row.place),
            mark: () => 'code', sort: (row) => row.place },
        { name: 'Length', field: 'length', width: '6.2rem', text: (row) => lengthLabel(row.frames, view.day.rate),
            mark: () => 'code', sort: (row) => row.frames },
        { name: 'Title', width: 'minmax(15.4rem, 1fr)', tail: true,
            text: (row) => `${row.recalled ? 'RECALLED ' : ''}${row.tapeOut ? 'TAPE OUT ' : ''}${row.title}` },
        { name: 'Source', field: 'source', width: '5rem', text: (row) => row.source, mark: () => 'code' },
        { name: 'Kind', field: 'kind', width: '5.8rem', text: (row) => (row.gap ? '' : kindWords(row)) },
        { name: 'From', field: 'in', width: '6.2rem', text: (row) => (row.gap ? '' : row.first),
            mark: () => 'code dim' },
        { name: 'Ends', width: '6.2rem', text: (row) => endLabel(view.day, row), mark: () => 'code' },
    ];
}

/** The forms at the side are folded away, so that the list has their room: in this browser until they are shown again.
 * @param {HTMLElement} press @param {HTMLElement} below */
export function foldsForms(press, below) {
    const show = (/** @type {boolean} */ isShown) => {
        press.setAttribute('aria-pressed', String(isShown));
        below.classList.toggle('formless', !isShown);
    };
    show(localStorage.getItem('desk/forms') !== 'folded');
    press.addEventListener('click', () => {
        const isShown = press.getAttribute('aria-pressed') !== 'true';
        localStorage.setItem('desk/forms', isShown ? 'shown' : 'folded');
        show(isShown);
    });
}
