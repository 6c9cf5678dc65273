// As-run files and the batches that they are sent as.

import { MOST_BYTES } from './office.js';

/** @param {number} byte */
function isEnd(byte) {
    return byte === 10 || byte === 13;
}

/** A file as one batch or, where it is too large for a message, as several, each of whole rows.
 * @param {Uint8Array} bytes */
export function partsOf(bytes) {
    const parts = [];
    let begun = 0;
    while (bytes.length - begun > MOST_BYTES) {
        let end = begun + MOST_BYTES;
        while (end > begun && !isEnd(bytes[end - 1])) end -= 1;
        if (end === begun) end = begun + MOST_BYTES;
        parts.push(bytes.subarray(begun, end));
        begun = end;
    }
    parts.push(bytes.subarray(begun));
    return parts;
}

/** How many rows a text has: an empty line is none.
 * @param {string} text */
export function rowsIn(text) {
    return text.replace(/^\ufeff/, '').split(/\r\n|\n|\r/).filter((line) => line !== '').length;
}

/** The rows in front of each part: a row's number in a part is told as its number in the file.
 * @param {Uint8Array[]} parts */
export function rowsBefore(parts) {
    let rows = 0;
    return parts.map((part) => {
        const before = rows;
        rows += parts.length > 1 ? rowsIn(new TextDecoder().decode(part)) : 0;
        return before;
    });
}

/** The line of a text that has its row of this number.
 * @param {string} text @param {number} row */
export function lineOfRow(text, row) {
    let seen = 0;
    const lines = text.replace(/^\ufeff/, '').split(/\r\n|\n|\r/);
    const index = lines.findIndex((line) => line !== '' && (seen += 1) === row);
    return index + 1;
}
