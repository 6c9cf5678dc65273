// What is kept of files whose lines are entered one by one: in the browser, so that a file is gone on with after a
// reload and by another tab, and so that the UMIDs that were made for it are offered again where it comes again. Rows
// are kept in parts, since each one is kept as soon as it is done.

const PART = 64;
const MOST_FILES = 5;
// A tab that is at it says so by each row, so one that hasn't for this long isn't any more.
const QUIET = 90000;

/** @typedef {{ line: number, words: string, values?: any, fault?: string, state?: string, result?: string,
 *     doubt?: boolean }} Row */
/** @typedef {{ file: string, sum: string, lines: number, by: string, at: number, isOver: boolean }} Head */

/** A sum of a text that tells files apart (FNV-1a, 2 times 32 bits).
 * @param {string} text */
export function sumOf(text) {
    let [one, other] = [0x811c9dc5, 0x01000193];
    for (let index = 0; index < text.length; index += 1) {
        one = Math.imul(one ^ text.charCodeAt(index), 0x01000193);
        other = Math.imul(other ^ text.charCodeAt(text.length - 1 - index), 0x01000193);
    }
    return `${(one >>> 0).toString(16)}-${(other >>> 0).toString(16)}-${text.length}`;
}

export class BulkStore {
    /** @param {string} key the channel and the form @param {Storage} storage */
    constructor(key, storage = localStorage) {
        this.key = `desk/bulk/${key}`;
        this.storage = storage;
    }

    /** @param {string} key @returns {any} */
    read(key) {
        const text = this.storage.getItem(key);
        return text === null ? null : JSON.parse(text);
    }

    /** @param {string} key @param {unknown} value @returns {boolean} */
    write(key, value) {
        try {
            this.storage.setItem(key, JSON.stringify(value));
            return true;
        } catch {
            return false;
        }
    }

    /** The sums of the files, the latest first.
     * @returns {string[]} */
    files() {
        return this.read(this.key) ?? [];
    }

    /** @param {string} sum @returns {Head | null} */
    head(sum) {
        return this.read(`${this.key}/${sum}`);
    }

    /** @param {string} sum @returns {Row[]} */
    rows(sum) {
        const lines = this.head(sum)?.lines ?? 0;
        const parts = Array.from({ length: Math.ceil(lines / PART) }, (_, part) => part);
        return parts.flatMap((part) => this.read(`${this.key}/${sum}/${part}`) ?? []);
    }

    /** The latest file, where it isn't through.
     * @returns {Head | null} */
    unfinished() {
        const latest = this.files()[0];
        const head = latest === undefined ? null : this.head(latest);
        return head && !head.isOver ? head : null;
    }

    /** Keeps a file and all its rows.
     * @param {string} file @param {string} sum @param {Row[]} rows @param {string} by @param {number} at
     * @returns {boolean} whether there was room for it */
    begin(file, sum, rows, by, at) {
        const files = [sum, ...this.files().filter((each) => each !== sum)];
        for (const old of files.splice(MOST_FILES)) this.forget(old);
        this.forget(sum);
        let isKept = this.write(`${this.key}/${sum}`, { file, sum, lines: rows.length, by, at, isOver: false });
        for (let index = 0; isKept && index < rows.length; index += PART) isKept = this.keep(sum, rows, index);
        if (!isKept) this.forget(sum);
        this.write(this.key, isKept ? files : files.slice(1));
        return isKept;
    }

    /** Keeps what became of a row.
     * @param {string} sum @param {Row[]} rows @param {number} index */
    keep(sum, rows, index) {
        const part = Math.floor(index / PART);
        return this.write(`${this.key}/${sum}/${part}`, rows.slice(part * PART, (part + 1) * PART));
    }

    /** A tab is at it still, or has ended it.
     * @param {string} sum @param {string} by @param {number} at @param {boolean} isOver */
    isAt(sum, by, at, isOver = false) {
        const head = this.head(sum);
        if (head) this.write(`${this.key}/${sum}`, { ...head, by, at, isOver });
    }

    /** Whether another tab is at it now.
     * @param {Head} head @param {string} by @param {number} now */
    isElsewhere(head, by, now) {
        return head.by !== by && now - head.at < QUIET;
    }

    /** The rows of a file that comes again, with the UMIDs that were made for it before.
     * @param {string} sum @param {Row[]} rows @returns {Row[]} */
    asBefore(sum, rows) {
        const before = new Map(this.rows(sum).map((row) => [row.line, row.values?.umid]));
        return rows.map((row) => (row.values?.umid && before.get(row.line)
            ? { ...row, values: { ...row.values, umid: before.get(row.line) } } : row));
    }

    /** @param {string} sum */
    forget(sum) {
        const lines = this.head(sum)?.lines ?? 0;
        for (let part = 0; part * PART < lines; part += 1) this.storage.removeItem(`${this.key}/${sum}/${part}`);
        this.storage.removeItem(`${this.key}/${sum}`);
    }
}
