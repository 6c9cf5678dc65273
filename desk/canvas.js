// What drawings on a canvas are made of: parts that are filled or hatched, marks, and words within a part.

/** @typedef {[number, number, number, number]} Part x, y, width, height */

export const FONT = '11px "DejaVu Sans Mono", "Liberation Mono", Menlo, Consolas, monospace';
export const WORDS = '11px "DejaVu Sans", "Liberation Sans", "Segoe UI", Arial, sans-serif';

/** @param {CanvasRenderingContext2D} context @param {string} colour @param {number} x @param {number} y
 * @param {number} width @param {number} height */
export function fill(context, colour, x, y, width, height) {
    context.fillStyle = colour;
    context.fillRect(x, y, width, height);
}

/** Diagonal lines over a part: one direction for gaps and SLIP, both for WRONG and what was recalled.
 * @param {CanvasRenderingContext2D} context @param {string} colour @param {Part} part @param {boolean} both */
export function hatch(context, colour, [x, y, width, height], both = false) {
    if (width < 2) return;
    context.save();
    context.beginPath();
    context.rect(x, y, width, height);
    context.clip();
    context.strokeStyle = colour;
    context.lineWidth = 1;
    context.beginPath();
    for (let left = x - height - (x % 8); left < x + width; left += 8) {
        context.moveTo(left, y + height);
        context.lineTo(left + height, y);
        if (both) {
            context.moveTo(left, y);
            context.lineTo(left + height, y + height);
        }
    }
    context.stroke();
    context.restore();
}

/** Words inside a part, cut off at its end; none where there is no room for three letters. On a hatched part they have
 * a ground of their own.
 * @param {CanvasRenderingContext2D} context @param {string} text @param {Part} part @param {string} colour
 * @param {string} font @param {string} ground */
export function words(context, text, [x, y, width, height], colour, font = WORDS, ground = '') {
    const left = Math.max(x, 0) + 5;
    const room = x + width - left - 4;
    if (room < 24) return;
    context.save();
    context.beginPath();
    context.rect(left - 2, y, room + 2, height);
    context.clip();
    context.font = font;
    const middle = y + height / 2;
    if (ground) fill(context, ground, left - 2, middle - 8, context.measureText(text).width + 4, 16);
    context.fillStyle = colour;
    context.textBaseline = 'middle';
    context.fillText(text, left, middle);
    context.restore();
}

/** Light within dark, so that it is seen on whatever is below it.
 * @param {CanvasRenderingContext2D} context @param {string} colour @param {string} casing @param {number} x
 * @param {number} top @param {number} bottom */
export function mark(context, colour, casing, x, top, bottom) {
    fill(context, casing, Math.round(x) - 1, top, 4, bottom - top);
    fill(context, colour, Math.round(x), top, 2, bottom - top);
}
