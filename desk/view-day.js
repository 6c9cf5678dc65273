// A broadcast day as it is planned: its time line and its items, what can be put into its gaps, lists, and the seal.

import { make, clear, panel, fold, button, say, download, counted } from './dom.js';
import { clipsOf, lentOf, vaultOf } from './tables.js';
import { isBusy } from './office.js';
import { areDone } from './requests.js';
import { List } from './list.js';
import { TimeLine, zoomButtons } from './timeline.js';
import { DayBar, dayNumber } from './daybar.js';
import { TextPanel, takesFiles } from './textpanel.js';
import { DayForms } from './day-forms.js';
import { chooseList } from './day-list-forms.js';
import { DayEdits } from './day-edits.js';
import { DayChoice } from './day-choice.js';
import { DayFind } from './day-find.js';
import { DaySources } from './day-sources.js';
import { GoTo } from './go-to.js';
import { Relink } from './relink.js';
import { reelsOut } from './pull-model.js';
import { planCells } from './plan-cells.js';
import { foldsForms, planColumns } from './plan-columns.js';
import { readPlan } from './facts.js';
import { indexAt } from './ranges.js';
import { dayOf, planRows, placeWords, dayWords } from './day-model.js';
import { sentenceOf } from './refusals.js';
import { nowAt } from './site.js';

/** @typedef {Day} DayView */
/** @typedef {import('./desk.js').Desk} Desk */
/** @typedef {import('./office.js').Scope} Scope */
/** @typedef {import('./day-model.js').PlanRow} PlanRow */

const LOOKS_EACH = 4000;
const SPARES = 100; // A look takes the office at most a hundredth of its time.

class Day {
    /** @param {HTMLElement} main @param {Desk} desk @param {number} number @param {Scope} scope */
    constructor(main, desk, number, scope) {
        this.main = main;
        this.desk = desk;
        this.number = number;
        this.scope = scope;
        this.path = `/ch/${desk.channel}/days/${number}`;
        /** @type {import('./day-model.js').Day} once it was read */
        this.day = /** @type {any} */ (null);
        /** @type {import('./tables.js').Plan | null} */
        this.plan = null;
        /** @type {import('./day-model.js').Sources} */
        this.titles = new Map();
        /** @type {Set<string>} the reels whose tape is out */
        this.out = new Set();
        /** @type {HTMLElement | null} where the focus goes once an item was added */
        this.returnTo = null;
        /** @type {HTMLElement} */
        this.summary;
        /** @type {HTMLElement} */
        this.openWords;
        /** @type {HTMLElement} */
        this.work;
        /** @type {HTMLElement} */
        this.missing;
        /** @type {HTMLElement} */
        this.trouble;
        /** @type {HTMLElement} */
        this.exportFault;
        /** @type {HTMLElement} */
        this.state;
        /** @type {HTMLElement} */
        this.side;
        /** @type {HTMLElement} */
        this.acts;
        /** @type {HTMLElement} */
        this.importing;
        /** @type {HTMLElement} */
        this.folding;
        /** @type {HTMLElement} */
        this.lost;
        /** @type {HTMLElement} */
        this.below;
        /** @type {HTMLElement} */
        this.exporting;
        /** @type {() => void} */
        this.leaveFiles;
        /** @type {(event: KeyboardEvent) => void} */
        this.keys;
        this.bar = new DayBar(desk, 'day', number, scope);
        this.shownText = '';
        /** @type {TimeLine} */
        this.timeline = new TimeLine(`Day ${number}`, {
            choose: (block, how) => this.choice.block(block, how), cursor: () => this.choice.showOpenPlace(),
            open: (place) => this.openAt(place), remove: () => this.forms.takeOut(),
            nextFault: (place) => this.choice.nextGap(place), words: (place) => placeWords(this.day, place),
            mayEdit: () => !this.day.sealed, move: (step) => this.edits.move(step),
            trim: (block, range) => this.edits.trim(block, range),
        });
        this.list = new List('Plan: items and gaps', planColumns(this), {
            choose: (row) => this.choice.row(row), open: (row) => this.timeline.bring(row.place, row.frames),
            remove: () => !this.day.sealed && this.forms.takeOut(), select: (rows) => this.choice.rows(rows),
        }, true);
        planCells(this);
        this.text = new TextPanel();
        this.choice = new DayChoice(this);
        this.finder = new DayFind(this);
        this.goTo = new GoTo(() => this.day, (place) => this.choice.goTo(place));
        this.sourcing = new DaySources(this);
        this.forms = new DayForms(this);
        this.edits = new DayEdits(this);
        this.relink = new Relink(this);
        this.build();
    }

    // The sources that can be put in.
    get sources() {
        return this.sourcing.sources;
    }

    build() {
        this.state = make('span', { class: 'badge state', id: 'day-state' }, 'LOADING');
        this.summary = make('p', { class: 'summary', id: 'day-summary' }, 'Loading...');
        this.openWords = make('p', { class: 'open-place', id: 'open-place' });
        this.missing = make('div', { class: 'missing', hidden: true });
        this.trouble = make('p', { class: 'fault', id: 'day-trouble' });
        this.lost = make('p', { class: 'fault', id: 'typed-lost' });
        this.exportFault = make('p', { class: 'fault', id: 'export-fault' });
        this.folding = button('Forms', () => null, { id: 'forms', title: 'shown beside the plan, or folded away' });
        const tools = make('div', { class: 'bar tools', role: 'group', 'aria-label': 'Time line' },
            zoomButtons(this.timeline), this.edits.tools,
            make('div', { class: 'group' },
                button('Next gap', () => this.day && this.choice.nextGap(this.timeline.cursor)), this.finder.element),
            this.goTo.element, this.folding, this.openWords);
        const { item, remove, list, seal } = this.forms;
        const { edit, move, empty, copy } = this.edits.forms;
        this.exporting = button('Export the day', () => this.exported(), { id: 'export' });
        this.whole = panel('The day', fold('copy', 'Copy a day into this one', true, copy.element),
            fold('lists', 'Lists', true, list.element));
        this.importing = button('Import a list', () => chooseList(this), { id: 'import-list' });
        this.acts = make('div', { class: 'bar acts' }, this.importing, this.exporting, seal.element, this.exportFault);
        const top = make('div', { class: 'bar' }, this.bar.element, this.state, this.acts, this.summary);
        this.side = make('div', { class: 'side' },
            panel('Put in', item.element),
            panel('Change', edit.element, move.element, remove.element,
                fold('clear', 'Make a stretch empty', false, empty.element)),
            this.whole);
        this.below = make('div', { class: 'below' }, make('section', { class: 'plan', 'aria-label': 'Plan' }, this.lost,
            this.list.element, this.text.element), this.sourcing.element, this.side);
        foldsForms(this.folding, this.below);
        this.work = make('div', { class: 'day-work' }, tools, this.timeline.element, this.below);
        clear(this.main, top, this.edits.notice.element, this.relink.element, this.trouble, this.missing, this.work);
        this.leaveFiles = takesFiles(this.main, (files) => this.forms.dropList(files));
        this.keys = (event) => this.edits.key(event);
        this.main.addEventListener('keydown', this.keys);
        this.looking = setTimeout(() => this.look(), LOOKS_EACH);
    }

    async again() {
        await Promise.all([this.againPlan(), this.againSources()]);
        await this.bar.around();
    }

    async againSources() {
        const root = `/ch/${this.desk.channel}`;
        const tables = ['clips', 'lent', 'tapes'];
        const answers = await Promise.all(tables.map((table) => this.scope.read(`${root}/${table}`)));
        if (!areDone(answers)) return;
        const [clips, lent, tapes] = answers;
        const [own, others] = [clipsOf(clips.text), lentOf(lent.text)];
        this.out = reelsOut(own, vaultOf(tapes.text).tapes);
        this.titles = new Map([...own, ...others].map((each) => [each.reel, each]));
        this.sourcing.show(own, others);
        if (this.plan) this.showPlan(this.plan);
    }

    // While the window is in view, an open day is looked at every few seconds: what a colleague does is seen.
    async look() {
        const begun = performance.now();
        const watched = document.visibilityState === 'visible' && this.day && !this.day.sealed && !isBusy();
        if (watched && !this.edits.isBusy()) await this.againPlan();
        if (this.scope.gone) return;
        const took = watched ? performance.now() - begun : 0;
        this.looking = setTimeout(() => this.look(), Math.max(LOOKS_EACH, SPARES * took));
    }

    async againPlan() {
        const { plan, text, answer } = await readPlan(this.scope, this.desk.channel, this.number);
        if (!plan) {
            this.notThere(/** @type {import('./facts.js').NotDone} */ (answer));
            return;
        }
        if (text === this.shownText && this.day) {
            this.edits.settleDoubt();
            return;
        }
        this.shownText = text;
        this.plan = plan;
        this.showPlan(plan);
    }

    /** @param {import('./tables.js').Plan} plan */
    showPlan(plan) {
        const first = this.day === null;
        this.day = dayOf(plan, this.desk.start(), this.desk.rate(), this.titles, this.out);
        this.missing.hidden = true;
        this.trouble.textContent = '';
        [this.work.hidden, this.acts.hidden] = [false, false];
        this.timeline.show(this.day);
        this.list.show(planRows(this.day), 'The day is empty.');
        this.showState();
        this.finder.shown();
        if (first) this.timeline.moveTo(this.choice.openPlace()?.place ?? 0);
        this.showNow();
        this.choice.showOpenPlace();
        this.edits.shown();
    }

    /** A day is known not to be there by 71 alone; what else the office or the gate says leaves what is shown.
     * @param {import('./facts.js').NotDone} answer */
    notThere(answer) {
        if (answer.kind === 'lost') return;
        if (answer.code !== 71) {
            this.trouble.textContent = sentenceOf(answer);
            if (!this.day) [this.work.hidden, this.acts.hidden] = [true, true];
            return;
        }
        this.day = /** @type {any} */ (null);
        [this.work.hidden, this.acts.hidden] = [true, true];
        this.missing.hidden = false;
        this.state.textContent = 'NOT THERE';
        this.state.className = 'badge state none';
        this.summary.textContent = '';
        if (this.missing.childElementCount === 0) clear(this.missing, this.forms.open.element);
    }

    // A sealed day offers no changes.
    showState() {
        const { sealed } = this.day;
        this.state.textContent = sealed ? 'SEALED' : 'OPEN';
        this.state.className = `badge state ${sealed ? 'sealed' : 'open'}`;
        this.summary.textContent = dayWords(this.day, counted);
        const parts = [this.sourcing.element, this.side, this.edits.tools, this.openWords, this.folding,
            this.importing, this.forms.seal.element];
        for (const part of parts) part.hidden = sealed;
        this.below.classList.toggle('sealed', sealed);
    }

    /** What was typed into a row that can't take it any more.
     * @param {string} words */
    tellLost(words) {
        this.lost.textContent = words;
        say(words, 'bad', this.edits.place);
    }

    showNow() {
        const now = nowAt(this.day.start, this.day.rate);
        this.timeline.setNow(now?.day === this.number ? now.place : null);
        clearTimeout(this.clock);
        if (now) this.clock = setTimeout(() => this.day && this.showNow(), 10000);
    }

    /** @param {number} place */
    openAt(place) {
        if (this.day.sealed) return;
        const gap = this.day.gaps[indexAt(this.day.gaps, place)] ?? this.choice.openPlace();
        if (gap && this.choice.blocks().length === 0) this.forms.item.fill({ at: this.timeline.label(gap.place) });
        this.sourcing.focus();
    }

    async exported() {
        this.exportFault.textContent = '';
        const answer = await this.scope.read(`${this.path}/list`);
        if (answer.kind === 'refused') this.exportFault.textContent = sentenceOf(answer);
        if (answer.kind === 'lost') this.exportFault.textContent = `${answer.words}. Try again.`;
        if (answer.kind !== 'done') return;
        const two = [String(this.desk.channel).padStart(3, '0'), String(this.number).padStart(5, '0')];
        download(`CH${two[0]}DAY${two[1]}.edl`, answer.text);
        this.text.show(`Day ${this.number} as a list`, answer.text);
        say(`Day ${this.number} is exported as a list.`, 'good', this.edits.place);
    }

    sheet() {
        return this.day && {
            title: `Plan of day ${this.number}`, words: `${this.state.textContent}. ${this.summary.textContent}.`,
            day: this.number, columns: planColumns(this), rows: planRows(this.day),
        };
    }

    leave() {
        clearTimeout(this.looking);
        clearTimeout(this.clock);
        this.leaveFiles();
        this.timeline.leave();
        this.sourcing.leave();
        this.main.removeEventListener('keydown', this.keys);
    }
}

/** @param {HTMLElement} main @param {Desk} desk @param {string[]} more @param {Scope} scope */
export function dayView(main, desk, more, scope) {
    return new Day(main, desk, dayNumber(desk, more), scope);
}
