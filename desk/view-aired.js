// What went out of a sealed day: as-run files are sent as batches, and the match stands beside the plan.

import { make, clear, panel, button, say, grouped, counted, options } from './dom.js';
import { clipsOf, lentOf, matchOf } from './tables.js';
import { List } from './list.js';
import { TimeLine, zoomButtons } from './timeline.js';
import { DayBar, dayNumber } from './daybar.js';
import { TextPanel, takesFiles } from './textpanel.js';
import { BatchForm } from './batch-form.js';
import { GoTo } from './go-to.js';
import { readPlan } from './facts.js';
import { indexAt } from './ranges.js';
import { dayOf, placeWords, labelAt, endLabel } from './day-model.js';
import {
    STATUSES, STATUS_WORDS, runsOf, dayRows, sourceRows, totalsOf, sourcesIn, plannedBeside,
} from './aired-model.js';
import { sentenceOf } from './refusals.js';
import { lengthLabel } from './timecode.js';

/** @typedef {Aired} AiredView */
/** @typedef {import('./desk.js').Desk} Desk */
/** @typedef {import('./office.js').Scope} Scope */
/** @typedef {import('./tables.js').Plan} Plan */
/** @typedef {import('./aired-model.js').AiredRow} AiredRow */

/** @param {AiredView} view @returns {import('./list-columns.js').Column<AiredRow>[]} */
function runColumns(view) {
    return [
        { name: 'Begins', width: '6.6rem', text: (run) => labelAt(view.day, run.place), mark: () => 'code',
            sort: (run) => run.place },
        { name: 'Ends', width: '6.6rem', text: (run) => endLabel(view.day, run), mark: () => 'code' },
        { name: 'Length', width: '6.6rem', text: (run) => lengthLabel(run.frames, view.day.rate), mark: () => 'code',
            sort: (run) => run.frames },
        { name: 'Frames', width: '5.2rem', align: 'right', text: (run) => grouped(run.frames), mark: () => 'number',
            sort: (run) => run.frames },
        { name: 'Status', width: '6rem', text: (run) => run.status, mark: (run) => `status ${run.status}` },
        { name: 'In words', width: '10rem', text: (run) => STATUS_WORDS[run.status] },
        { name: 'Planned', width: '5.6rem', text: (run) => run.source, mark: () => 'code' },
        { name: 'Title', width: 'minmax(8rem, 1fr)', text: (run) => run.title },
        { name: 'From', width: '6.6rem', text: (run) => run.planned, mark: () => 'code dim' },
    ];
}

/** The plan beside a run: what was to air there. What aired in its place can't be read from the office.
 * @param {AiredView} view @returns {import('./list-columns.js').Column<ReturnType<typeof plannedBeside>[number]>[]} */
function plannedColumns(view) {
    return [
        { name: 'Item', width: '3rem', align: 'right', text: (row) => row.number, mark: () => 'number' },
        { name: 'Begins', width: '6.6rem', text: (row) => labelAt(view.day, row.place), mark: () => 'code' },
        { name: 'Length', width: '6.6rem', text: (row) => lengthLabel(row.frames, view.day.rate), mark: () => 'code' },
        { name: 'Source', width: '5.6rem', text: (row) => row.source, mark: () => 'code' },
        { name: 'From', width: '6.6rem', text: (row) => row.from, mark: () => 'code dim' },
        { name: 'Title', width: 'minmax(8rem, 1fr)', text: (row) => row.title },
    ];
}

class Aired {
    /** @param {HTMLElement} main @param {Desk} desk @param {number} number @param {Scope} scope */
    constructor(main, desk, number, scope) {
        this.main = main;
        this.scope = scope;
        this.desk = desk;
        this.number = number;
        this.path = `/ch/${desk.channel}/days/${number}`;
        /** @type {import('./day-model.js').Day} once it was read */
        this.day = /** @type {any} */ (null);
        /** @type {AiredRow[]} */
        this.rows = [];
        /** @type {AiredRow[]} */
        this.shown = [];
        /** @type {import('./aired-model.js').AiredRun[] | null} */
        this.runs = null;
        this.counts = totalsOf([]);
        /** @type {HTMLElement} */
        this.state;
        /** @type {HTMLElement} */
        this.summary;
        /** @type {HTMLElement} */
        this.missing;
        /** @type {HTMLElement} */
        this.trouble;
        /** @type {HTMLElement} */
        this.work;
        /** @type {HTMLElement} */
        this.totals;
        /** @type {HTMLSelectElement} */
        this.about;
        /** @type {HTMLSelectElement} */
        this.only;
        /** @type {() => void} */
        this.leaveFiles;
        this.bar = new DayBar(desk, 'aired', number, scope);
        this.timeline = new TimeLine(`What went out of day ${number}`, {
            choose: () => this.chooseRun(), nextFault: (place) => this.nextFault(place),
            words: (place) => this.words(place),
        });
        this.list = new List('Runs of what went out', runColumns(this), {
            choose: (run) => this.choseRun(run), open: (run) => this.timeline.bring(run.place, run.frames),
        });
        this.planned = new List('What was planned in the chosen run', plannedColumns(this));
        this.planned.show([], 'Choose a run.');
        this.text = new TextPanel();
        this.goTo = new GoTo(() => this.runs && this.day, (place) => {
            this.timeline.moveTo(place);
            this.chooseRun();
        });
        this.batch = new BatchForm(this);
        this.build();
    }

    build() {
        this.state = make('span', { class: 'badge state', id: 'day-state' }, 'LOADING');
        this.summary = make('p', { class: 'summary' }, 'Loading...');
        this.missing = make('p', { class: 'missing', hidden: true });
        this.trouble = make('p', { class: 'fault', id: 'day-trouble' });
        this.about = make('select', { id: 'about', on: { change: () => this.showRows() } });
        this.only = make('select', { id: 'only', on: { change: () => this.showRows() } },
            ...options([['all', 'All runs'], ['faults', 'Not as planned'], ...STATUSES.map((each) => [each, each])]));
        this.totals = make('table', { class: 'totals' });
        const tools = make('div', { class: 'bar tools', role: 'group', 'aria-label': 'Time line' },
            zoomButtons(this.timeline),
            button('Next fault', () => this.runs && this.nextFault(this.timeline.cursor)), this.goTo.element,
            make('label', { for: 'about' }, 'About'), this.about, make('label', { for: 'only' }, 'Show'), this.only,
            button('Print', () => window.print(), { id: 'print' }));
        const side = make('div', { class: 'side' }, panel('Totals', this.totals),
            panel('As-run', this.batch.form.element));
        this.work = make('div', { class: 'day-work' }, tools, this.timeline.element,
            make('div', { class: 'below aired' },
                make('section', { class: 'plan', 'aria-label': 'Runs' }, this.list.element,
                    make('div', { class: 'panel planned' }, make('h2', {}, 'The plan beside the chosen run'),
                        this.planned.element),
                    this.text.element), side));
        const top = make('div', { class: 'bar' }, this.bar.element, this.state, this.summary);
        clear(this.main, top, this.trouble, this.missing, this.work);
        this.leaveFiles = takesFiles(this.main, (files) => this.batch.drop(files));
    }

    async again() {
        const { plan, answer } = await readPlan(this.scope, this.desk.channel, this.number);
        if (plan?.sealed) await this.showDay(plan);
        else this.notSealed(plan, answer);
        await this.bar.around();
    }

    /** @param {Plan | undefined} plan @param {import('./facts.js').NotDone | undefined} answer */
    notSealed(plan, answer) {
        if (answer?.kind === 'lost') return;
        if (answer && answer.code !== 71) {
            this.trouble.textContent = sentenceOf(answer);
            if (!this.day) this.work.hidden = true;
            return;
        }
        this.work.hidden = true;
        this.missing.hidden = false;
        this.summary.textContent = '';
        this.state.textContent = plan ? 'OPEN' : 'NOT THERE';
        this.state.className = `badge state ${plan ? 'open' : 'none'}`;
        this.missing.textContent = sentenceOf(answer ?? { code: 74, refused: 'NotSealed' });
    }

    /** @param {Plan} plan */
    async showDay(plan) {
        const root = `/ch/${this.desk.channel}`;
        const [clips, lent] = await Promise.all([this.scope.read(`${root}/clips`), this.scope.read(`${root}/lent`)]);
        if (clips.kind !== 'done' || lent.kind !== 'done') return;
        const titles = new Map([...clipsOf(clips.text), ...lentOf(lent.text)].map((each) => [each.reel, each]));
        this.day = dayOf(plan, this.desk.start(), this.desk.rate(), titles);
        this.showSources();
        this.missing.hidden = true;
        this.trouble.textContent = '';
        this.work.hidden = false;
        this.state.textContent = 'SEALED';
        this.state.className = 'badge state sealed';
        await this.againMatch();
        await this.batch.offer();
    }

    showSources() {
        const chosen = this.about.value;
        const clips = sourcesIn(this.day).map(([reel, title]) => [reel, `${reel} ${title}`]);
        const choices = [['', 'The whole day'], ...clips];
        clear(this.about, ...options(choices));
        if (choices.some(([value]) => value === chosen)) this.about.value = chosen;
    }

    async againMatch() {
        const answer = await this.scope.read(`${this.path}/match`);
        if (answer.kind === 'refused') say(sentenceOf(answer), 'bad', `${this.desk.channel}/${this.number}`);
        if (answer.kind !== 'done') return;
        const match = matchOf(answer.text);
        this.runs = runsOf(match, this.day);
        this.day.runs = this.runs;
        this.timeline.show(this.day);
        this.showRows();
    }

    showRows() {
        if (!this.runs) return;
        const about = this.about.value;
        this.rows = about ? sourceRows(this.day, this.runs, about) : dayRows(this.day, this.runs);
        const only = this.only.value;
        const shown = this.rows.filter((row) => only === 'all' || row.status === only
            || (only === 'faults' && row.status !== 'OK'));
        this.shown = shown;
        this.list.show(shown, 'No run is like this.');
        this.showPlanned(this.list.chosen());
        this.counts = totalsOf(this.rows);
        const all = STATUSES.reduce((sum, status) => sum + this.counts[status], 0);
        const heads = ['Status', 'Length', 'Frames', 'Part'].map((word) => make('th', { scope: 'col' }, word));
        const head = make('tr', {}, ...heads);
        clear(this.totals, head, ...STATUSES.map((status) => make('tr', { class: status }, make('th', { scope: 'row' },
            make('span', { class: `status ${status}` }, status), ` ${STATUS_WORDS[status]}`),
        make('td', {}, lengthLabel(this.counts[status], this.day.rate)), make('td', {}, grouped(this.counts[status])),
        make('td', {}, `${(this.counts[status] * 100 / Math.max(1, all)).toFixed(3)} %`))));
        this.summary.textContent = `${counted(this.rows.length, 'run')}, ${grouped(shown.length)} shown; `
            + STATUSES.map((status) => `${status} ${grouped(this.counts[status])}`).join(', ');
    }

    /** @param {number} place */
    words(place) {
        const run = this.runs?.[indexAt(this.runs, place)];
        const status = run ? `${run.status}, ${STATUS_WORDS[run.status]}: ` : '';
        return `${status}${placeWords(this.day, place)}`;
    }

    /** @param {AiredRow} run */
    choseRun(run) {
        this.timeline.moveTo(run.place);
        this.showPlanned(run);
    }

    /** @param {AiredRow | null} run */
    showPlanned(run) {
        this.planned.show(run ? plannedBeside(this.day, run) : [], 'Choose a run.');
    }

    chooseRun() {
        const run = this.rows[indexAt(this.rows, this.timeline.cursor)];
        if (run && this.list.chooseKey(run.key)) this.showPlanned(run);
    }

    /** @param {number} place */
    nextFault(place) {
        const faults = (this.runs ?? []).filter((run) => run.status !== 'OK');
        const run = faults.find((each) => each.place > place) ?? faults[0];
        if (!run) {
            say('All of the day went out as planned.', 'good', `${this.desk.channel}/${this.number}`);
            return;
        }
        this.timeline.bring(run.place, run.frames);
        this.chooseRun();
    }

    // The runs that the list has, and the totals of what it is about.
    sheet() {
        if (!this.runs) return null;
        const about = this.about.value ? `Clip ${this.about.selectedOptions[0].textContent}` : 'The whole day';
        const only = this.only.value === 'all' ? '' : ` Shown: ${this.only.selectedOptions[0].textContent}.`;
        const columns = runColumns(this).filter((column) => !['In words', 'Frames'].includes(column.name));
        return {
            title: 'What went out', words: `${about}.${only}`, day: this.number, columns, rows: this.shown,
            match: { day: this.day, rows: this.rows, counts: this.counts },
        };
    }

    leave() {
        this.leaveFiles();
        this.timeline.leave();
    }
}

/** @param {HTMLElement} main @param {Desk} desk @param {string[]} more @param {Scope} scope */
export function airedView(main, desk, more, scope) {
    return new Aired(main, desk, dayNumber(desk, more), scope);
}
