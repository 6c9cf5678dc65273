// CSV (RFC 4180) as records of fields, with the lines on which they begin, and as a text.

/** @typedef {{ line: number, fields: string[] }} Record */

/** The records of a text. Empty lines are none; a byte order mark is passed over. A sheet's `;` is taken for a comma
 * where its first line has no comma.
 * @param {string} text @returns {Record[]} */
export function recordsOf(text) {
    const plain = text.replace(/^\ufeff/, '');
    const comma = /^[^\r\n]*,/.test(plain) || !/^[^\r\n]*;/.test(plain) ? ',' : ';';
    /** @type {Record[]} */
    const records = [];
    let [at, line] = [0, 1];
    while (at < plain.length) {
        const { fields, end, lines } = recordAt(plain, at, comma);
        if (fields.length > 1 || fields[0].trim() !== '') records.push({ line, fields });
        [at, line] = [end, line + lines];
    }
    return records;
}

/** @param {string} text @param {number} begun @param {string} comma */
function recordAt(text, begun, comma) {
    const fields = [];
    let [at, lines] = [begun, 0];
    for (;;) {
        const field = fieldAt(text, at, comma);
        fields.push(field.value);
        lines += field.lines;
        at = field.end;
        if (text[at] !== comma) break;
        at += 1;
    }
    if (text.startsWith('\r\n', at)) return { fields, end: at + 2, lines: lines + 1 };
    return { fields, end: at + 1, lines: lines + 1 };
}

/** A field in quotes may hold commas, ends of lines, and quotes as "".
 * @param {string} text @param {number} at @param {string} comma */
function fieldAt(text, at, comma) {
    const quoted = /"((?:[^"]|"")*)"/y;
    quoted.lastIndex = at;
    const found = quoted.exec(text);
    const until = (/** @type {number} */ from) => {
        let end = from;
        while (end < text.length && text[end] !== comma && text[end] !== '\n' && text[end] !== '\r') end += 1;
        return end;
    };
    if (!found) {
        const end = until(at);
        return { value: text.slice(at, end).trim(), end, lines: 0 };
    }
    const value = found[1].replaceAll('""', '"');
    return { value, end: until(quoted.lastIndex), lines: value.split('\n').length - 1 };
}

/** Fields with a comma, a quote or an end of line stand in quotes.
 * @param {string[][]} records @returns {string} */
export function csvOf(records) {
    const field = (/** @type {string} */ text) => (/[",\r\n]/.test(text) ? `"${text.replaceAll('"', '""')}"` : text);
    return records.map((fields) => `${fields.map(field).join(',')}\r\n`).join('');
}
