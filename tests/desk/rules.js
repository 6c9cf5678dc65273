// What the desk's copies of proved rules say, for tests/desk/desk_rules.py, which asks the program the same.
//
//     node tests/desk/rules.js labels RATE FOLDER   writes FOLDER/asked, a label or a frame a line, and FOLDER/said
//     node tests/desk/rules.js lists FOLDER         prints a line of JSON for each list there, NUMBER-RATE.edl

import { closeSync, openSync, readFileSync, readdirSync, writeSync } from 'node:fs';
import { frameOf, labelOf, rateOf, two } from '../../desk/timecode.js';
import { isForPicture, isSpeed, readList } from '../../desk/edl.js';

const NAMES = { 1: 'LabelForm', 2: 'LabelRange', 3: 'DropMark', 4: 'DroppedLabel' };
const CHARACTERS = [...'0123456789:;., -a٠０', '\u00a0', '\t'];
const ODD_LABELS = 200000;

/** Every frame of a day. */
function* frames(rate) {
    for (let frame = 0; frame < rate.day; frame += 1) yield String(frame);
}

/** Every label of two digits each, with either mark, and of each number one more than there is. */
function* labels(rate) {
    for (let minute = 0; minute < 25 * 61; minute += 1) {
        for (let second = 0; second <= 60; second += 1) {
            const stem = `${two(Math.floor(minute / 61))}:${two(minute % 61)}:${two(second)}`;
            for (let frame = 0; frame <= rate.count; frame += 1) {
                yield `${stem}:${two(frame)}`;
                yield `${stem};${two(frame)}`;
            }
        }
    }
}

/** Labels that were spoilt, always the same: by one to three characters, changed, left out, or more. */
function* oddLabels(rate) {
    let state = 7;
    const below = (/** @type {number} */ most) => {
        state = (Math.imul(state, 1103515245) + 12345) >>> 0;
        return (state >>> 8) % most;
    };
    for (let count = 0; count < ODD_LABELS; count += 1) {
        let text = labelOf(below(rate.day), rate);
        for (let changes = 1 + below(3); changes > 0; changes -= 1) {
            const at = below(text.length + 1);
            text = text.slice(0, at) + [CHARACTERS[below(CHARACTERS.length)], ''][below(2)] + text.slice(at + below(2));
        }
        if (!/^\d{1,10}$/.test(text)) yield text; // a frame's number
    }
}

/** As the program answers a line. */
function said(asked, rate) {
    if (/^\d+$/.test(asked)) return labelOf(Number(asked), rate);
    const { frame, fault } = frameOf(asked, rate);
    return fault ? `${fault} ${NAMES[fault]}` : String(frame);
}

function writeLabels(rate, folder) {
    const files = ['asked', 'said'].map((name) => openSync(`${folder}/${name}`, 'w'));
    let [askedLines, saidLines] = [[], []];
    const write = () => {
        [askedLines, saidLines].forEach((lines, index) => writeSync(files[index], `${lines.join('\n')}\n`));
        [askedLines, saidLines] = [[], []];
    };
    for (const some of [frames, labels, oddLabels]) {
        for (const asked of some(rate)) {
            askedLines.push(asked);
            saidLines.push(said(asked, rate));
            if (askedLines.length === 50000) write();
        }
    }
    write();
    files.forEach((file) => closeSync(file));
}

function eventSaid(event) {
    return {
        line: event.line, number: Number(event.number), reel: event.reel, channels: event.channels, kind: event.kind,
        mix: event.mix, source_first: event.source, source_end: event.source + event.sourceFrames,
        record_first: event.record, length: event.frames, speed: isSpeed(event), notes: event.notes,
    };
}

function writeLists(folder) {
    for (const name of readdirSync(folder).filter((each) => each.endsWith('.edl')).sort()) {
        const rate = rateOf(name.split('-')[1].split('.')[0]);
        const { title, events, fault } = readList(readFileSync(`${folder}/${name}`), rate, false);
        const told = fault ? [fault.line, fault.code, ...('label' in fault ? [fault.label] : [])] : null;
        const picture = events.filter(isForPicture).length;
        console.log(JSON.stringify({ name, fault: told, title, picture, events: fault ? [] : events.map(eventSaid) }));
    }
}

const [what, ...words] = process.argv.slice(2);
if (what === 'labels') writeLabels(rateOf(words[0]), words[1]);
else writeLists(words[0]);
