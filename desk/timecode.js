// Labels of frames (SMPTE ST 12-1) at the four rates of a channel, and lengths. All arithmetic of timecode is here.

/** @typedef {{ rate: string, name: string, count: number, drop: boolean, mark: string, day: number }} Rate */

/** @type {Object<string, Rate>} */
const RATES = {
    24: { rate: '24', name: '24', count: 24, drop: false, mark: ':', day: 2073600 },
    25: { rate: '25', name: '25', count: 25, drop: false, mark: ':', day: 2160000 },
    30: { rate: '30', name: '30', count: 30, drop: false, mark: ':', day: 2592000 },
    df: { rate: 'df', name: '29.97 DF', count: 30, drop: true, mark: ';', day: 2589408 },
};

// Drop-frame leaves out two labels in nine of ten minutes: so many frames have a minute with them and ten minutes.
const DROP_MINUTE = 1798;
const DROP_TEN_MINUTES = 17982;

export const rates = Object.values(RATES);

/** @param {string} name @returns {Rate | null} */
export function rateOf(name) {
    return RATES[name] ?? null;
}

/** The rate of a day of so many frames: the office's plan table ends with them.
 * @param {number} frames @returns {Rate | null} */
export function rateOfDay(frames) {
    return rates.find((rate) => rate.day === frames) ?? null;
}

/** @param {number} number */
export function two(number) {
    return number < 10 ? `0${number}` : String(number);
}

/** The number that the label would have if none were left out.
 * @param {number} frame */
function countedWithDropped(frame) {
    const tens = Math.floor(frame / DROP_TEN_MINUTES);
    const rest = frame % DROP_TEN_MINUTES;
    const minutes = rest < 2 ? 0 : Math.floor((rest - 2) / DROP_MINUTE);
    return frame + 18 * tens + 2 * minutes;
}

/** How many labels were left out before a minute of the day.
 * @param {number} minute @param {Rate} rate */
function leftOut(minute, rate) {
    return rate.drop ? 2 * (minute - Math.floor(minute / 10)) : 0;
}

/** The label of a frame counted from 00:00:00:00, of any day.
 * @param {number} frame @param {Rate} rate */
export function labelOf(frame, rate) {
    const within = ((frame % rate.day) + rate.day) % rate.day;
    const counted = rate.drop ? countedWithDropped(within) : within;
    const seconds = Math.floor(counted / rate.count);
    const hours = two(Math.floor(seconds / 3600));
    const minutes = two(Math.floor(seconds / 60) % 60);
    return `${hours}:${minutes}:${two(seconds % 60)}${rate.mark}${two(counted % rate.count)}`;
}

/** The frame of a label, or the number of its fault, tested in the office's order: 1 form, 2 range, 3 mark, 4 dropped.
 * @param {string} label @param {Rate} rate @returns {{ frame?: number, fault?: number }} */
export function frameOf(label, rate) {
    const parts = /^(\d\d)([:;])(\d\d)([:;])(\d\d)([:;])(\d\d)$/.exec(label);
    if (!parts) return { fault: 1 };
    const [hours, minutes, seconds, frames] = [parts[1], parts[3], parts[5], parts[7]].map(Number);
    if (hours > 23 || minutes > 59 || seconds > 59 || frames >= rate.count) return { fault: 2 };
    if (!rate.drop && label.includes(';')) return { fault: 3 };
    if (rate.drop && seconds === 0 && frames < 2 && minutes % 10 !== 0) return { fault: 4 };
    const minute = hours * 60 + minutes;
    return { frame: (minute * 60 + seconds) * rate.count + frames - leftOut(minute, rate) };
}

/** The frame of a label that is known to have no fault.
 * @param {string} label @param {Rate} rate */
export function frameAt(label, rate) {
    return frameOf(label, rate).frame ?? 0;
}

/** The place of a frame in a broadcast day that starts at another one.
 * @param {number} frame @param {number} start @param {Rate} rate */
export function placeOf(frame, start, rate) {
    return (frame - start + rate.day) % rate.day;
}

/** A length is shown as a label, but a whole day has none.
 * @param {number} frames @param {Rate} rate */
export function lengthLabel(frames, rate) {
    return frames >= rate.day ? `24:00:00${rate.mark}00` : labelOf(frames, rate);
}

/** A length that was typed: frames in digits, or a label. A whole day is typed as it is shown.
 * @param {string} text @param {Rate} rate @returns {{ frames?: number, fault?: number }} */
export function lengthOf(text, rate) {
    if (/^\d{1,7}$/.test(text)) return { frames: Number(text) };
    if (text === `24:00:00${rate.mark}00`) return { frames: rate.day };
    const { frame, fault } = frameOf(text, rate);
    return fault ? { fault } : { frames: frame };
}

/** A step forward or back that was typed: a sign or none, and HH:MM:SS, a label or a number of frames.
 * @param {string} text @param {Rate} rate @returns {{ frames?: number, fault?: number }} */
export function stepOf(text, rate) {
    const [, sign, size] = /^\s*([+-]?)\s*(.*?)\s*$/.exec(text) ?? ['', '', ''];
    const time = /^(\d\d):(\d\d):(\d\d)$/.exec(size);
    const long = time ? timeFrames(time.slice(1).map(Number), rate) : lengthOf(completed(size, rate), rate);
    if (long.frames === undefined) return long;
    return { frames: sign === '-' ? 0 - long.frames : long.frames };
}

/** As many frames as a time of hours, minutes and seconds has, at drop-frame the nearest that labels count.
 * @param {number[]} time @param {Rate} rate @returns {{ frames?: number, fault?: number }} */
function timeFrames([hours, minutes, seconds], rate) {
    if (hours > 23 || minutes > 59 || seconds > 59) return { fault: 2 };
    const minute = hours * 60 + minutes;
    return { frames: (minute * 60 + seconds) * rate.count - leftOut(minute, rate) };
}

/** @param {number} frames @param {Rate} rate */
export function stepLabel(frames, rate) {
    return `${frames < 0 ? '-' : '+'}${lengthLabel(Math.abs(frames), rate)}`;
}

/** Eight digits get their marks, and `:` before the frames the one of the rate, so that a label is quick to type.
 * @param {string} text @param {Rate} rate */
export function completed(text, rate) {
    const typed = text.trim();
    const digits = /^(\d\d):?(\d\d):?(\d\d)[:;]?(\d\d)$/.exec(typed);
    return digits ? `${digits[1]}:${digits[2]}:${digits[3]}${rate.mark}${digits[4]}` : typed;
}

/** The first frame of a second of the clock: at drop-frame some seconds begin at frame 02.
 * @param {number} second @param {Rate} rate */
export function frameOfSecond(second, rate) {
    const [hours, minutes] = [Math.floor(second / 3600), Math.floor(second / 60) % 60];
    const stem = `${two(hours)}:${two(minutes)}:${two(second % 60)}${rate.mark}`;
    return frameOf(`${stem}00`, rate).frame ?? frameAt(`${stem}02`, rate);
}
