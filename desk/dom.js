// Elements are made here, and texts are only ever set as text.

/** @typedef {{ [K in keyof HTMLElementEventMap]?: (event: HTMLElementEventMap[K]) => unknown }} Listeners */
/** @typedef {string | number | boolean | null | undefined} Attribute one that is true is there without a value */
/** @typedef {{ on?: Listeners, [name: string]: Attribute | Listeners }} Attributes */
/** @typedef {Node | string | null | undefined} Child */
/** @typedef {'plain' | 'good' | 'bad'} Tone how a thing is said */

let numbers = 0;

/** @param {string} stem */
export function freshId(stem) {
    numbers += 1;
    return `${stem}-${numbers}`;
}

/** @param {Child[]} children */
function there(children) {
    return children.filter(/** @returns {child is Node | string} */ (child) => child !== null && child !== undefined);
}

/** An element with its attributes (`on` holds listeners, `class` and `for` are as in HTML) and its children.
 * @template {keyof HTMLElementTagNameMap} T @param {T} tag @param {Attributes} attributes @param {Child[]} children
 * @returns {HTMLElementTagNameMap[T]} */
export function make(tag, attributes = {}, ...children) {
    const element = document.createElement(tag);
    const { on, ...others } = attributes;
    for (const [event, listener] of Object.entries(on ?? {})) {
        element.addEventListener(event, /** @type {EventListener} */ (listener));
    }
    for (const [name, value] of Object.entries(others)) {
        if (value === true) element.setAttribute(name, '');
        else if (value !== false && value !== null && value !== undefined) element.setAttribute(name, String(value));
    }
    element.append(...there(children));
    return element;
}

/** @param {Element} element @param {Child[]} children */
export function clear(element, ...children) {
    element.replaceChildren(...there(children));
}

/** An element of the page.
 * @param {string} id @returns {HTMLElement} */
export function byId(id) {
    const element = document.getElementById(id);
    if (!element) throw new Error(`the page has no ${id}`);
    return element;
}

/** A select of the page.
 * @param {string} id @returns {HTMLSelectElement} */
export function selectById(id) {
    return /** @type {HTMLSelectElement} */ (byId(id));
}

/** Where an event happened, as an element of the page.
 * @param {Event} event @returns {HTMLElement} */
export function targetOf(event) {
    return /** @type {HTMLElement} */ (event.target);
}

let told = { text: '', at: 0 };

/** What a screen reader is told. The page has this one live region, so that a thing is told once.
 * @param {string} text */
export function announce(text) {
    const now = performance.now();
    if (text === told.text && now - told.at < 1000) return;
    told = { text, at: now };
    byId('live').textContent = text;
}

/** What is said to everybody: seen in the status bar, and read out by a screen reader. `about` is what it is about, a
 * day say, with which it goes.
 * @param {string} text @param {Tone} kind @param {string} about */
export function say(text, kind = 'plain', about = '') {
    show(text, kind, about);
    announce(text);
}

/** What is under way is seen alone; what became of it is told.
 * @param {string} text @param {Tone} kind @param {string} about */
export function show(text, kind = 'plain', about = '') {
    const line = byId('said');
    line.className = kind;
    line.dataset.about = about;
    line.textContent = text;
    line.title = text;
}

/** Takes back what was said of anything but this.
 * @param {string | null} about */
export function unsay(about = null) {
    const line = byId('said');
    if (about !== null && line.dataset.about === about) return;
    line.textContent = '';
    line.title = '';
}

/** @param {number | string} number */
export function grouped(number) {
    return String(number).replace(/\B(?=(\d{3})+$)/g, ',');
}

/** A number with its noun.
 * @param {number} number @param {string} noun */
export function counted(number, noun) {
    return `${grouped(number)} ${noun}${number === 1 ? '' : 's'}`;
}

/** Draws in the next frame, however often it is asked to.
 * @param {() => void} draw */
export function oncePerFrame(draw) {
    let waits = false;
    return () => {
        if (waits) return;
        waits = true;
        requestAnimationFrame(() => {
            waits = false;
            draw();
        });
    };
}

/** A text offered as a file to keep.
 * @param {string} name @param {string} text */
export function download(name, text) {
    const address = URL.createObjectURL(new Blob([text], { type: 'text/plain' }));
    const link = make('a', { href: address, download: name });
    document.body.append(link);
    link.click();
    link.remove();
    setTimeout(() => URL.revokeObjectURL(address), 10000);
}

/** A button with a word, and what it does.
 * @param {string} word @param {() => unknown} does @param {Attributes} attributes */
export function button(word, does, attributes = {}) {
    return make('button', { type: 'button', ...attributes, on: { click: () => does() } }, word);
}

/** The choices of a select, as pairs of value and word.
 * @param {(string | number)[][]} pairs */
export function options(pairs) {
    return pairs.map(([value, word]) => make('option', { value }, String(word)));
}

/** A panel with a heading, which names it for a screen reader.
 * @param {string} title @param {Child[]} children */
export function panel(title, ...children) {
    const id = freshId('panel');
    return make('section', { class: 'panel', 'aria-labelledby': id }, make('h2', { id }, title), ...children);
}

/** Part of a panel that is opened where it is wanted, and stays as it was left.
 * @param {string} name @param {string} title @param {boolean} open @param {Child[]} children */
export function fold(name, title, open, ...children) {
    const key = `fold/${name}`;
    const kept = sessionStorage.getItem(key);
    const element = make('details', { class: 'fold', open: kept === null ? open : kept === 'open' },
        make('summary', {}, title), ...children);
    element.addEventListener('toggle', () => sessionStorage.setItem(key, element.open ? 'open' : 'shut'));
    return element;
}

/** What was typed into a field is chosen, so that the next thing that is typed takes its place.
 * @param {HTMLElement} input */
export function focusOn(input) {
    input.focus();
    if (input instanceof HTMLInputElement) input.select();
}

/** Something on the page always has the focus: where what had it went away, the view has it.
 * @param {HTMLElement} main */
export function keepFocus(main) {
    const look = () => {
        if (document.hasFocus() && (!document.activeElement || document.activeElement === document.body)) {
            main.focus({ preventScroll: true });
        }
    };
    const options = { childList: true, subtree: true, attributes: true, attributeFilter: ['hidden', 'disabled'] };
    new MutationObserver(look).observe(document.body, options);
}
