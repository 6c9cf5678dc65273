// What a tab keeps over a reload, or the browser for all its windows, as JSON. Where a tab's storage is full what staff
// did before gives way: histories, the longest first. A change never stops for want of it.

/** @param {string} key @param {unknown} value @param {Storage} storage @returns {boolean} whether it is kept */
export function put(key, value, storage = sessionStorage) {
    const text = JSON.stringify(value);
    for (;;) {
        try {
            storage.setItem(key, text);
            return true;
        } catch {
            const longest = storage === sessionStorage ? histories().filter((each) => each !== key)
                .sort((one, other) => lengthOf(other) - lengthOf(one))[0] : undefined;
            if (longest === undefined) {
                storage.removeItem(key);
                return false;
            }
            sessionStorage.removeItem(longest);
        }
    }
}

/** @param {string} key */
function lengthOf(key) {
    return sessionStorage.getItem(key)?.length ?? 0;
}

/** @returns {string[]} */
function histories() {
    return Array.from({ length: sessionStorage.length }, (_, index) => sessionStorage.key(index) ?? '')
        .filter((key) => key.endsWith('/history'));
}

/** What is kept, or null.
 * @param {string} key @param {Storage} storage @returns {any} */
export function kept(key, storage = sessionStorage) {
    const text = storage.getItem(key);
    return text === null ? null : JSON.parse(text);
}

/** Nothing that was typed or copied stays for whoever logs in next. */
export function forgetAll() {
    sessionStorage.clear();
    const keys = Array.from({ length: localStorage.length }, (_, index) => localStorage.key(index) ?? '');
    for (const key of keys) if (/^desk\/(clipboard|bulk)\//.test(key)) localStorage.removeItem(key);
}

/** What was kept, and isn't any more.
 * @param {string} key @returns {any} */
export function taken(key) {
    const value = kept(key);
    sessionStorage.removeItem(key);
    return value;
}
