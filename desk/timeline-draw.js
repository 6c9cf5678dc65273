// How a time line is drawn. Whatever is shown by a colour is shown by a pattern and, where it has room, by a word too.
// Items, gaps and runs that share a pixel are drawn as one, so that a day of any number of them is drawn as fast.

import { placeOf, frameOfSecond } from './timecode.js';
import { eachPixel, endOf } from './ranges.js';
import { palette } from './theme.js';
import { FONT, WORDS, fill, hatch, mark, words } from './canvas.js';

/** @typedef {import('./timeline.js').TimeLine} TimeLine */
/** @typedef {import('./day-model.js').Day} Day */
/** @typedef {import('./day-model.js').Block} Block */
/** @typedef {import('./canvas.js').Part} Part */

export const OVERVIEW = 22;
export const RULER = 24;
export const PLAN = 54;
const AIRED = 40;
const APART = 104;

/** @param {Day} day */
export function heightOf(day) {
    return OVERVIEW + RULER + PLAN + (day.runs ? AIRED : 0) + 4;
}

/** @param {CanvasRenderingContext2D} context @param {TimeLine} line */
export function drawOverview(context, line) {
    const { day } = line;
    const colours = palette();
    const width = line.width();
    const scale = width / day.frames;
    fill(context, colours.overview, 0, 0, width, OVERVIEW);
    eachPixel(day.blocks, 0, 1 / scale, width, (x, wide, first) => fill(context,
        colours[day.blocks[first].look] ?? colours.clip, x, 6, Math.max(1, wide), OVERVIEW - 10));
    const faults = (day.runs ?? []).filter((run) => run.status !== 'OK');
    eachPixel(faults, 0, 1 / scale, width, (x, wide, first) => fill(context,
        colours[faults[first].status.toLowerCase()], x, OVERVIEW - 9, Math.max(2, wide), 5));
    eachPixel(day.gaps, 0, 1 / scale, width, (x, wide) => fill(context, colours.gap, x, 2, Math.max(2, wide), 3));
    if (line.now !== null) mark(context, colours.now, colours.casing, line.now * scale, 0, OVERVIEW);
    context.strokeStyle = colours.window;
    context.lineWidth = 1;
    const seen = Math.max(3, width * line.perPixel * scale);
    context.strokeRect(line.from * scale + 0.5, 1.5, Math.min(seen, width - line.from * scale) - 1, OVERVIEW - 4);
    mark(context, colours.cursor, colours.casing, line.cursor * scale, 0, OVERVIEW);
}

/** @param {CanvasRenderingContext2D} context @param {TimeLine} line */
export function drawTrack(context, line) {
    const width = line.width();
    const colours = palette();
    const height = heightOf(line.day);
    fill(context, colours.ground, 0, OVERVIEW, width, height - OVERVIEW);
    drawRuler(context, line, width);
    const plan = OVERVIEW + RULER;
    drawGaps(context, line, plan, width);
    drawBlocks(context, line, plan, width);
    if (line.day.runs) drawRuns(context, line, plan + PLAN, width);
    drawGhosts(context, line, plan);
    if (line.now !== null && line.x(line.now) >= 0 && line.x(line.now) <= width) {
        mark(context, colours.now, colours.casing, line.x(line.now), OVERVIEW, height);
        words(context, 'NOW', [nowLeft(line), OVERVIEW + 2, NOW_WIDE, RULER - 4], colours.now, FONT, colours.ground);
    }
    drawCursor(context, line, height);
}

/** The word NOW stands in the ruler, beside its line: no label is written there.
 * @param {import('./timeline.js').TimeLine} line */
function nowLeft(line) {
    return Math.min(line.x(line.now ?? 0), line.width() - NOW_WIDE);
}

/** @param {string} label */
function secondsOf(label) {
    const [hours, minutes, seconds] = label.split(/[:;]/).map(Number);
    return hours * 3600 + minutes * 60 + seconds;
}

const NOW_WIDE = 40;
const LABEL_WIDE = 90;
const SECONDS = [1, 2, 5, 10, 30, 60, 120, 300, 600, 1800, 3600, 7200, 10800, 21600];

/** @param {CanvasRenderingContext2D} context @param {TimeLine} line @param {number} width */
function drawRuler(context, line, width) {
    context.font = FONT;
    context.textBaseline = 'middle';
    const { rate } = line.day;
    const step = SECONDS.find((seconds) => seconds * rate.count / line.perPixel >= APART) ?? 21600;
    if (rate.count / line.perPixel > APART * 2) drawFrames(context, line, width);
    else {
        const first = secondsOf(line.label(line.from));
        const count = Math.ceil(width * line.perPixel / (step * rate.count)) + 2;
        for (let tick = 0; tick < count; tick += 1) {
            const second = (Math.floor(first / step) + tick) * step % 86400;
            drawTick(context, line, placeOf(frameOfSecond(second, rate), line.day.start, rate));
        }
    }
    fill(context, palette().rule, 0, OVERVIEW + RULER - 1, width, 1);
}

/** @param {CanvasRenderingContext2D} context @param {TimeLine} line @param {number} place */
function drawTick(context, line, place) {
    const x = Math.round(line.x(place));
    if (x < -90 || x > line.width()) return;
    fill(context, palette().rule, x, OVERVIEW + 4, 1, RULER - 4);
    if (line.now !== null && x < nowLeft(line) + NOW_WIDE && nowLeft(line) < x + LABEL_WIDE) return;
    context.fillStyle = palette().dim;
    context.fillText(line.label(place), x + 4, OVERVIEW + RULER / 2);
}

/** Near enough, each frame has its own stroke, and every so many their labels.
 * @param {CanvasRenderingContext2D} context @param {TimeLine} line @param {number} width */
function drawFrames(context, line, width) {
    const last = Math.min(line.day.frames, Math.ceil(line.from + width * line.perPixel));
    const apart = Math.max(1, Math.ceil(APART * line.perPixel));
    for (let place = Math.floor(line.from); place <= last; place += 1) {
        const x = Math.round(line.x(place));
        if (1 / line.perPixel >= 5) fill(context, palette().frame, x, OVERVIEW + RULER, 1, PLAN);
        if (place % apart === 0 && place < line.day.frames) drawTick(context, line, place);
    }
}

/** @param {TimeLine} line @param {import('./ranges.js').Range} range @param {number} top @param {number} height
 * @returns {Part} */
function partOf(line, range, top, height) {
    const left = Math.max(-20, line.x(range.place));
    const right = Math.min(line.width() + 20, line.x(endOf(range)));
    return [left, top, Math.max(1, right - left), height];
}

/** @param {CanvasRenderingContext2D} context @param {TimeLine} line @param {number} top @param {number} width */
function drawGaps(context, line, top, width) {
    const { gaps } = line.day;
    const colours = palette();
    eachPixel(gaps, line.from, line.perPixel, width, (x, wide, first, last) => {
        if (wide < 3) fill(context, colours.gap, x, top + 4, Math.max(2, wide), PLAN - 8);
        else if (first === last) drawGap(context, colours, partOf(line, gaps[first], top + 4, PLAN - 8));
    });
}

/** @param {CanvasRenderingContext2D} context @param {Object<string, string>} colours @param {Part} part */
function drawGap(context, colours, part) {
    const [x, y, width, height] = part;
    hatch(context, colours['gap-hatch'], part);
    context.strokeStyle = colours.gap;
    context.setLineDash([4, 3]);
    context.strokeRect(x + 0.5, y + 0.5, width - 1, height - 1);
    context.setLineDash([]);
    words(context, 'GAP', part, colours['gap-word'], WORDS, colours.ground);
}

/** @param {CanvasRenderingContext2D} context @param {TimeLine} line @param {number} top @param {number} width */
function drawBlocks(context, line, top, width) {
    const { blocks } = line.day;
    eachPixel(blocks, line.from, line.perPixel, width, (x, wide, first, last) => {
        if (first === last && wide >= 1) drawBlock(context, line, blocks[first], top);
        else {
            fill(context, palette()[blocks[first].look] ?? palette().clip, x, top + 4, Math.max(1, wide), PLAN - 8);
        }
    });
    // Chosen items are seen whatever is merged with them.
    for (const block of line.marked()) {
        if (endOf(block) < line.from || block.place > line.from + width * line.perPixel) continue;
        drawChosen(context, line, block, top);
    }
}

/** @param {CanvasRenderingContext2D} context @param {TimeLine} line @param {Block} block @param {number} top */
function drawBlock(context, line, block, top) {
    const colours = palette();
    const part = partOf(line, block, top + 4, PLAN - 8);
    const [x, y, width, height] = part;
    fill(context, colours[block.look] ?? colours.clip, x, y, Math.max(1, width - (width > 4 ? 1 : 0)), height);
    if (width > 6) {
        context.strokeStyle = colours['block-edge'];
        context.strokeRect(x + 0.5, y + 0.5, width - 2, height - 1);
    }
    if (block.look === 'bars' && width > 10) drawBars(context, part);
    if (block.recalled) hatch(context, colours.recalled, part, true);
    if (block.mix > 0) drawMix(context, line, block, part);
    if (width < 28) return;
    const title = block.recalled ? `RECALLED ${block.title}` : block.title;
    const ground = block.recalled ? colours.lent : '';
    words(context, title, [x, y, width, height / 2], colours['on-block'], WORDS, ground);
    words(context, `${block.source} ${line.label(block.place)}`, [x, y + height / 2, width, height / 2],
        colours['on-block'], FONT, ground);
}

/** @param {CanvasRenderingContext2D} context @param {TimeLine} line @param {Block} block @param {number} top */
function drawChosen(context, line, block, top) {
    const [x, y, width, height] = partOf(line, block, top + 4, PLAN - 8);
    context.strokeStyle = palette().casing;
    context.lineWidth = 4;
    context.strokeRect(x + 1, y + 1, Math.max(1, width - 3), height - 2);
    context.strokeStyle = palette().chosen;
    context.lineWidth = 2;
    context.strokeRect(x + 1, y + 1, Math.max(1, width - 3), height - 2);
    context.lineWidth = 1;
}

/** @param {CanvasRenderingContext2D} context @param {Part} part */
function drawBars(context, [x, y, width, height]) {
    const colours = ['#b4b4b4', '#b4b41e', '#1eb4b4', '#1eb41e', '#b41eb4', '#b41e1e', '#1e1eb4'];
    const size = width / colours.length;
    colours.forEach((colour, index) => fill(context, colour, x + index * size, y + height - 5, size, 4));
}

/** A dissolve is a wedge over its frames.
 * @param {CanvasRenderingContext2D} context @param {TimeLine} line @param {Block} block @param {Part} part */
function drawMix(context, line, block, [x, y, , height]) {
    const width = block.mix / line.perPixel;
    if (width < 2) return;
    const left = line.x(block.place);
    context.fillStyle = 'rgba(255, 255, 255, 0.28)';
    context.beginPath();
    context.moveTo(Math.max(left, x), y);
    context.lineTo(left + width, y);
    context.lineTo(left, y + height);
    context.fill();
}

/** @param {CanvasRenderingContext2D} context @param {TimeLine} line @param {number} top @param {number} width */
function drawRuns(context, line, top, width) {
    const runs = line.day.runs ?? [];
    const colours = palette();
    eachPixel(runs, line.from, line.perPixel, width, (x, wide, first, last) => {
        const { status } = runs[first];
        const colour = colours[status.toLowerCase()];
        if (first !== last || wide < 2) {
            const worst = runs.slice(first, last + 1).find((run) => run.status !== 'OK') ?? runs[first];
            fill(context, colours[worst.status.toLowerCase()], x, top, Math.max(1, wide), AIRED - 6);
            return;
        }
        const part = partOf(line, runs[first], top, AIRED - 6);
        fill(context, colour, ...part);
        if (status === 'SLIP') hatch(context, colours['hatch-slip'], part);
        if (status === 'WRONG') hatch(context, colours['hatch-wrong'], part, true);
        if (status === 'MISSED' && part[2] > 4) fill(context, colours.ground, part[0] + 2, part[1] + 4, part[2] - 4,
            part[3] - 8);
        const word = status === 'SLIP' ? colours['on-slip'] : status === 'MISSED' ? colours.text : colours['on-status'];
        words(context, status, part, word, WORDS, status === 'MISSED' ? '' : colour);
    });
}

/** Where something would come to lie: what is dragged, or what the form has.
 * @param {CanvasRenderingContext2D} context @param {TimeLine} line @param {number} top */
function drawGhosts(context, line, top) {
    const colours = palette();
    for (const ghost of line.ghosts()) {
        const part = partOf(line, ghost, top + 2, PLAN - 4);
        context.globalAlpha = 0.55;
        fill(context, ghost.fits ? colours.ghost : colours.gap, ...part);
        context.globalAlpha = 1;
        words(context, line.label(ghost.place), part, colours['on-ghost'], FONT);
    }
}

/** @param {CanvasRenderingContext2D} context @param {TimeLine} line @param {number} height */
function drawCursor(context, line, height) {
    const { cursor, casing } = palette();
    const x = line.x(line.cursor);
    const wide = 1 / line.perPixel;
    if (wide >= 4) {
        context.globalAlpha = 0.25;
        fill(context, cursor, x, OVERVIEW + RULER, wide, height - OVERVIEW - RULER);
        context.globalAlpha = 1;
    }
    mark(context, cursor, casing, x, OVERVIEW, height);
}
