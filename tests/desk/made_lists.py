"""Edit lists made by chance, always the same of one seed: lists as editing systems write them, and such as were spoilt,
by one to four changes each."""

import random

RATES = {'24': (24, ':'), '25': (25, ':'), '30': (30, ':'), 'df': (30, ';')}
BLANKS = [' ', '\t', '  ', ' \t ', '\u00a0', '\u3000', '\u2003', '\u2028', '\u200b', '\ufeff', '\u0085', '\x0b', '\x0c',
          '\r', '\x00', '']
NUMBERS = ['0', '9999', '10000', '009999', '0009999', '1000000', '-1', '+1', '1A', '\uff11', '1.', '']
KINDS = ['C', 'C 010', 'c', 'D', 'D 25', 'D 025', 'D 1000', 'D -1', 'DX 025', 'W 025', 'W1 025', 'W01 5', 'W001 999',
         'W1234 010', 'W1', 'K', 'K B', 'K B 010', 'KB 010', 'KO', 'K B O 010', 'k B', 'X', '', 'C C', '\uff37001 010',
         'W\u0661 010']
NOTES = ['M2', 'M2 AX 050.0 00:00:00:00', 'M2\tAX', 'M2AX', '* M2 AX', '  M2 AX  ', 'm2 AX', '\u00a0M2',
         '* FROM CLIP NAME: NEWS', '* TO CLIP NAME:\u00a0NEWS\u00a0', '>>> SOURCE', 'SPLIT:    AUDIO DELAY=  00:00:00:05',
         'FCM: DROP FRAME X', 'FCM: drop frame', 'FCM:  NON DROP  FRAME', 'title: low', ' TITLE', '\ufffd',
         '\U0001f4fc TAPE', '\u0085', '\u00a0']
MODES = ['FCM: DROP FRAME', 'FCM: NON-DROP FRAME', 'FCM:NON DROP FRAME', 'FCM:\tDROP FRAME', 'FCM:\u00a0DROP FRAME',
         'FCM: NON-DROP FRAME X']
TITLES = ['TITLE: NIGHT', 'TITLE:NIGHT', 'TITLE:\t \u00a0NIGHT\u3000 ', 'TITLE:', 'TITLE: \ufeff', 'TITLE : NIGHT',
          ' TITLE: A  B ',
          'TITLE: \u2003NIGHT', 'TITLE: NIGHT\x0c', 'TITLE: N\rT\r', 'TITLE: \u200bN']
CHANNELS = ['V', 'B', 'A', 'A2', 'AA', 'AA/V', 'A3V', 'v', 'NONE', 'V2', '\uff36']
REELS = ['BL', 'BLACK', 'BARS', 'C0000001', 'L0020001', 'AX', 'A0017', 'TAPE\u00a01', '\u00dcBER', 'x' * 40, '"A\\B"']
NOT_UTF8 = [b'\xff', b'\xc3', b'\xc0\x80', b'\xed\xa0\x80', b'\xf4\x90\x80\x80', b'\xe2\x82']


class Maker:
    def __init__(self, rng, rate):
        self.rng = rng
        self.rate = rate
        self.count, self.mark = RATES[rate]

    def label_at(self, second, frame):
        # What drop-frame leaves out isn't asked for here: a mutation asks for it.
        if self.rate == 'df' and second % 60 == 0 and second // 60 % 10 and frame < 2:
            frame = 2
        return f'{second // 3600:02}:{second // 60 % 60:02}:{second % 60:02}{self.mark}{frame:02}'

    def labels(self):
        """Four labels, where source and record have the same length but now and then: whole seconds within a minute."""
        rng = self.rng
        long = rng.choice([0, 1, 1, 2, 5, 20, 29])
        source, record = (rng.randrange(1440) * 60 + rng.randrange(1, 30) for _ in range(2))
        frame = rng.randrange(self.count)
        out = long + rng.choice([0] * 15 + [1])
        given = [self.label_at(source, frame), self.label_at(source + long, frame), self.label_at(record, frame),
                 self.label_at(record + out, frame)]
        if rng.random() < 0.05:  # the source goes to the day's end, the record over it
            given = [self.label_at(86400 - 5, 0), self.label_at(0, 0), self.label_at(86400 - 2, 0), self.label_at(3, 0)]
        return given

    def event(self, number):
        rng = self.rng
        kind = rng.choice(['C'] * 8 + ['D 025', 'D 5', 'W001 010', 'W1 999', 'K', 'K B 010', 'KB 5'])
        lines = [' '.join([f'{number:03}', rng.choice(REELS), rng.choice(['V'] * 6 + CHANNELS), kind, *self.labels()])]
        lines += rng.choices(NOTES, k=rng.choice([0, 0, 0, 1, 1, 2, 4]))
        return lines

    def lines(self):
        rng = self.rng
        mode = 'FCM: DROP FRAME' if self.rate == 'df' else rng.choice(['FCM: NON-DROP FRAME', 'FCM: NON DROP FRAME'])
        mode = rng.choice([mode] * 24 + MODES)
        lines = [rng.choice(TITLES), mode, ''] if rng.random() < 0.9 else []
        for number in range(1, rng.choice([1, 2, 3, 3, 5, 8, 13]) + 1):
            lines += self.event(number)
            if rng.random() < 0.05:
                lines.append(rng.choice(TITLES + [mode, '', '   ']))
        return lines

    def spoilt_label(self):
        rng = self.rng
        parts = [rng.choice(each) for each in ([0, 1, 23, 24, 99], [0, 1, 10, 11, 59, 60], [0, 1, 59, 60],
                                               [0, 1, 2, self.count - 1, self.count, 99])]
        marks = [rng.choice(':::;.'), rng.choice(':::;'), rng.choice([':', ';', self.mark, self.mark, '.'])]
        text = f'{parts[0]:02}{marks[0]}{parts[1]:02}{marks[1]}{parts[2]:02}{marks[2]}{parts[3]:02}'
        return rng.choice([text] * 6 + [text[1:], text + '0', text.replace('0', '\uff10', 1)])

    def spoil_fields(self, line):
        """An event's line with one of its fields changed, or one more or less of them."""
        rng = self.rng
        fields = line.split(' ')
        at = rng.randrange(len(fields))
        way = rng.randrange(8)
        if way == 0:
            del fields[at]
        elif way == 1:
            fields.insert(at, rng.choice(['C', '010', 'X', fields[at]]))
        elif way == 2:
            fields[0] = rng.choice(NUMBERS)
        elif way == 3:
            fields[3:-4] = [rng.choice(KINDS)]
        elif way in (4, 5):
            fields[-rng.randrange(1, min(5, len(fields) + 1))] = self.spoilt_label()
        elif way == 6 and len(fields) > 3:
            fields[-4], fields[-3] = fields[-3], fields[-4]
        else:
            fields[2 if len(fields) > 2 else 0] = rng.choice(CHANNELS)
        return ' '.join(fields)

    def spoil_text(self, line):
        """A line with a character changed, or blanks of some kind where there is one, or at an end."""
        rng = self.rng
        if rng.random() < 0.5:
            blank = rng.choice(BLANKS)
            parts = line.split(' ')
            at = rng.randrange(len(parts) + 1)
            return blank + line if at == 0 else ' '.join(parts[:at]) + blank + ' '.join(parts[at:])
        at = rng.randrange(len(line) + 1)
        return line[:at] + rng.choice(['', '0', ':', ';', 'K', 'V', '*', '\u00e9', '1']) + line[at + rng.randrange(2):]

    def spoil(self, lines):
        """Lines of which one or two were changed, or stand elsewhere."""
        rng = self.rng
        lines = list(lines) or ['']
        at, other = rng.randrange(len(lines)), rng.randrange(len(lines))
        way = rng.randrange(10)
        if way < 3:
            lines[at] = self.spoil_text(lines[at])
        elif way < 7:
            events = [index for index, line in enumerate(lines) if line[:1].isdigit()] or [at]
            at = rng.choice(events)
            lines[at] = self.spoil_fields(lines[at])
        elif way == 7:
            lines[at], lines[other] = lines[other], lines[at]
        elif way == 8:
            lines.insert(at, rng.choice(MODES + TITLES + NOTES))
        else:
            del lines[at]
        return lines

    def list(self):
        rng = self.rng
        lines = self.lines()
        for _ in range(rng.choice([0, 0, 0, 1, 1, 2, 4])):
            lines = self.spoil(lines)
        end = rng.choice(['\n', '\n', '\n', '\r\n', '\r\r\n'])
        blank = rng.choice([' '] * 8 + ['  ', '\t', ' \t '])
        text = end.join(line.replace(' ', blank) for line in lines) + rng.choice([end, end, '', '\r', '\n\n'])
        made = rng.choice([b''] * 8 + [b'\xef\xbb\xbf', b'\xef\xbb\xbf' * 2]) + text.encode()
        if rng.random() < 0.03:
            at = rng.randrange(len(made) + 1)
            made = made[:at] + rng.choice(NOT_UTF8) + made[at:]
        return made


def long_list(rate, events, empty):
    """A list of so many events of one frame, with as many without a frame between."""
    mark = RATES[rate][1]
    labels = [f'00:00:00{mark}{frame:02}' for frame in (0, 1, 0, 1)]
    nothing = ' '.join(['1 BL V C', *[labels[0]] * 4, '']) if empty else ''
    return '\n'.join([' '.join(['1 BL V C', *labels]), nothing] * events).encode()


def made_lists(seed, count):
    """Pairs of a rate and a list."""
    rng = random.Random(seed)
    for rate in RATES:
        yield from [(rate, long_list(rate, *made)) for made in [(9999, False), (10000, False), (7000, True)]]
    for number in range(count - 3 * len(RATES)):
        rate = list(RATES)[number % len(RATES)]
        yield rate, Maker(rng, rate).list()


def title_of(made):
    """The title of a list as docs/LISTS.md has it: the program prints none."""
    title = b''
    text = made[3:] if made.startswith(b'\xef\xbb\xbf') else made
    for line in text.split(b'\n'):
        line = (line[:-1] if line.endswith(b'\r') else line).strip(b' \t')
        if line.startswith(b'TITLE:'):
            title = line[6:].lstrip(b' \t')
    return title.decode()
