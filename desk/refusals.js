// Each refusal of the office in words: what it means, what to do, and which fields of a form it may be about (the first
// of them that the form has is where it is shown).

/** @typedef {{ code: number, refused?: string, at?: string }} Refusal */

/** @type {Object<number, [string, string, string, string[]]>} */
const KNOWN = {
    1: ['LabelForm', 'This is no label.', 'Type eight digits, as 06:00:00:00.', ['at', 'in', 'first']],
    2: ['LabelRange', 'The label has an hour, minute, second or frame that there isn\'t.',
        'Hours go to 23, minutes and seconds to 59, frames to the rate\'s count less one.', ['at', 'in', 'first']],
    3: ['DropMark', 'The mark ; is for drop-frame alone.', 'Write : before the frames.', ['at', 'in', 'first']],
    4: ['DroppedLabel', 'Drop-frame leaves this label out.', 'Frames 00 and 01 begin at ;02 in this minute.',
        ['at', 'in', 'first']],
    5: ['FrameRange', 'The frame isn\'t of the day.', 'Choose a frame of the day.', ['at']],
    11: ['Length', 'A UMID has 64 hexadecimal digits.', 'Paste all of it, or make a new one.', ['umid']],
    12: ['Extended', 'This is an extended UMID.', 'Give the basic one, its first 64 digits as basic.', ['umid']],
    13: ['NotUmid', 'This is no basic UMID.', 'It begins 060a2b34010101, and its 13th byte is 13.', ['umid']],
    14: ['HexText', 'A character isn\'t hexadecimal.', 'Use digits and a to f alone, in pairs.', ['umid']],
    41: ['BadSlot', 'The shelf has no such slot.', 'Choose a slot that the shelf has.', ['slot']],
    42: ['SlotTaken', 'A tape stands in this slot.', 'Choose a free slot, or pull that tape first.', ['slot']],
    43: ['BarcodeKnown', 'A tape with this barcode is there.', 'Search the vault for it; each barcode comes once.',
        ['barcode']],
    44: ['BarcodeForm', 'This is no barcode.',
        'Use 1 to 8 letters A to Z and digits; not BL, BLACK, BARS, AX, nor C or L with 7 digits.', ['barcode']],
    45: ['NoTape', 'There is no tape of this number.', 'Choose one from the vault.', ['tape']],
    46: ['TapeOut', 'This tape is out already.', 'Nothing is to be done, or choose another.', ['tape']],
    47: ['TapeShelved', 'This tape has a slot already.', 'Pull it first to move it.', ['tape']],
    48: ['VaultFull', 'The vault has 9,999 tapes, which is the most.', 'No tape can be added to this channel.',
        ['barcode']],
    51: ['UmidKnown', 'A clip has this UMID, active or retired.', 'Make a new UMID, or look for that clip.', ['umid']],
    52: ['TitleForm', 'This is no title.', 'Use 1 to 60 printable ASCII characters, with no blank at either end.',
        ['title']],
    53: ['ClipRange', 'The clip has no frame, or runs behind the last label of a day.',
        'Give a length of 1 or more that ends by 24:00:00:00.', ['length']],
    54: ['NoClip', 'There is no clip of this reel.', 'Choose one from the list of clips.', ['clip']],
    55: ['ClipRetired', 'This clip is retired.', 'Choose an active one.', ['clip', 'source']],
    56: ['RegisterFull', 'The channel has 20,000 clips, which is the most.', 'No clip can be added.', ['title']],
    61: ['LentClip', 'This clip is lent to the channel, so it isn\'t the channel\'s to lend.', 'Ask its owner.',
        ['clip']],
    62: ['ToSelf', 'This is the channel itself.', 'Choose another channel.', ['to']],
    63: ['BadChannel', 'There is no channel of this number.', 'Channels are 1 to 999.', ['to']],
    64: ['AlreadyOffered', 'This clip is lent to that channel already, for whatever days.',
        'Nothing is to be done, or recall it first to lend it for other days.', ['to']],
    65: ['NoOffer', 'There is no offer of this number.', 'Choose one from the list of offers.', ['offer']],
    66: ['Withdrawn', 'The offer is withdrawn.', 'Choose another clip, or ask the owner to lend it again.',
        ['offer', 'source']],
    67: ['OffersFull', 'The channel has made 9,999 offers, which is the most.', 'No clip can be lent any more.',
        ['clip']],
    71: ['NoDay', 'This day isn\'t there.', 'Open it first.', ['day']],
    72: ['DayKnown', 'This day is there already.', 'Go to it.', ['day']],
    73: ['DaySealed', 'The day is sealed: its items never change.', 'Plan another day.', ['day']],
    74: ['NotSealed', 'The day is still open, so nothing of it can have been aired.', 'Seal it first.',
        ['day', 'file']],
    75: ['Overlap', 'A frame of the day is taken.', 'Choose a gap, or a shorter length.', ['at']],
    76: ['Gap', 'A frame of the day is empty.', 'Fill the gap that is shown.', ['seal']],
    77: ['NoSource', 'This is no source of the channel.',
        'Use BL, BARS, a clip of the channel or one that is lent to it.', ['source']],
    78: ['RateDiffers', 'The lent clip is of another rate.', 'Ask its owner for one at this channel\'s rate.',
        ['source']],
    79: ['SourceRange', 'The clip hasn\'t all these frames.', 'Begin within the clip, and end by its last frame.',
        ['in']],
    80: ['MixLong', 'The mix is longer than its item.', 'Give a mix of at most the item\'s length.', ['mix']],
    81: ['Recalled', 'An item has a lent clip that was recalled by its owner.', 'Take out the item that is shown.',
        ['seal']],
    82: ['NoItem', 'The day has no item of this number.', 'Choose one from the list.', ['item']],
    83: ['DayFull', 'The day has 9,999 items, which is the most.', 'Take one out first.', ['at']],
    84: ['SpeedEvent', 'The source of this event runs at another speed.', 'Render it at its own speed first.',
        ['file']],
    85: ['KeyEvent', 'This event is a key.', 'Keys can\'t be planned: take it out of the list.', ['file']],
    86: ['PastDayEnd', 'It goes on behind the day\'s last frame.', 'Give a shorter length.', ['length', 'file']],
    87: ['EmptyItem', 'An item has at least one frame.', 'Give a length.', ['length']],
    88: ['OutsideWindow', 'The clip is lent for other days than this one.',
        'Choose another clip, or ask its owner to lend it for this day.', ['source']],
    89: ['WholeDay', 'An item of the whole day can\'t be said in a list.', 'Split the item to export the day.',
        ['export']],
    91: ['RowForm', 'This row isn\'t four fields: label, frames, reel, label.', 'Correct this row of the file.',
        ['file']],
    92: ['AiredTwice', 'A frame that was aired before is aired again.', 'Correct the file: no frame airs twice.',
        ['file']],
    93: ['BatchDiffers', 'The office has other rows under this batch number.', 'Send it as the next batch.', ['batch']],
    94: ['BatchOrder', 'This isn\'t the number behind the last batch.', 'Send it as the next batch.', ['batch']],
    95: ['BatchesFull', 'A day has at most 64 batches.', 'Nothing more can be told of this day.', ['batch']],
    100: ['Unavailable', 'The office is short of memory or disk. Nothing was changed.', 'Try again in a while.', []],
    400: ['BadMessage', 'The office doesn\'t take this form.', 'Numbers are whole and in their limits.', []],
    404: ['NotFound', 'The office has no such channel or place.', 'Check the number.',
        ['tape', 'clip', 'offer', 'item', 'batch', 'day']],
    413: ['TooLarge', 'The text is over 1,000,000 bytes.', 'Split the file.', ['file']],
    401: ['Unauthorized', 'The gate doesn\'t know you, or not this password.', 'Load the page anew to log in.', []],
    403: ['Forbidden', 'The gate doesn\'t let you speak for this channel.', 'Choose one of your channels.', []],
    405: ['MethodNotAllowed', 'The gate doesn\'t take this kind of request.', 'Tell who runs the gate.', []],
    408: ['TooSlow', 'The message took too long on its way to the gate. Nothing was changed.', 'Send it again.', []],
    501: ['NotImplemented', 'The office doesn\'t know this kind of request.', 'Tell who runs the proxy.', []],
};

/** @type {Object<number, [string, string, string]>} */
const LIST_FAULTS = {
    21: ['NotText', 'The line isn\'t UTF-8.', 'Save the list as UTF-8.'],
    22: ['FieldCount', 'The event has fewer than 8 fields, or more than 10.', 'Correct this line.'],
    23: ['EventNumber', 'The event\'s number isn\'t 0 to 9,999.', 'Correct this line.'],
    24: ['EditKind', 'The event\'s kind is none that lists have.', 'Use C, D and frames, or W with digits and frames.'],
    25: ['BadLabel', 'A label of the event has a fault.', 'Correct this line.'],
    26: ['FrameMode', 'The frame mode isn\'t the channel\'s.', 'Make the list at the channel\'s rate.'],
    27: ['SourceBackwards', 'The source ends before it begins.', 'Correct this line.'],
    28: ['DurationMismatch', 'Source and record differ in length.', 'Correct it, or take the source\'s length.'],
    30: ['TooManyEvents', 'The list has more than 9,999 events.', 'Split the list.'],
};
for (const [code, [name, words, advice]] of Object.entries(LIST_FAULTS)) {
    KNOWN[Number(code)] = [name, words, advice, ['file']];
}

/** What a refusal says: its number and name, its words, what to do, and the fields that it may be about.
 * @param {Refusal} refusal @returns {{ title: string, words: string, advice: string, fields: string[] }} */
export function wordsOf(refusal) {
    const known = KNOWN[refusal.code];
    if (!known) {
        return { title: `${refusal.code} ${refusal.refused}`, words: 'Refused.', advice: '', fields: [] };
    }
    const [name, words, advice, fields] = known;
    return { title: `${refusal.code} ${refusal.refused ?? name}`, words, advice, fields };
}

/** Where it is, as the office tells it: a line, a label, an item's or a row's number.
 * @param {Refusal} refusal @param {string} kind */
function whereOf(refusal, kind) {
    if (refusal.at === undefined) return '';
    if (refusal.code === 81 || (refusal.code === 88 && kind === 'seal')) return ` Item ${refusal.at}.`;
    if ([75, 76, 92].includes(refusal.code)) return ` At ${refusal.at}.`;
    const [line, fault] = refusal.at.split(' ');
    const more = fault ? ` ${wordsOf({ code: Number(fault) }).title}.` : '';
    return ` ${kind === 'batch' ? 'Row' : 'Line'} ${line}.${more}`;
}

/** @param {Refusal} refusal @param {string} kind 'list', 'batch' or 'seal' */
export function sentenceOf(refusal, kind = 'list') {
    const { title, words, advice } = wordsOf(refusal);
    return `${title}.${whereOf(refusal, kind)} ${words} ${advice}`.trim();
}
