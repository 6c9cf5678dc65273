"""Refusals beside their fields, texts that are only texts, and requests that got no answer."""

import re

from desk_day_checks import shown
from desk_suite import UMID, asks
from stand_in import TOP

# What each form can meet, by the order of tests in docs/FORMATS.md, and beside which field it is shown. '' is the form.
MEETS = {
    'vault': {
        'add-tape': {'barcode': [44, 43, 48], 'slot': [41, 42]},
        'pull-tape': {'tape': [45, 46]},
        'shelve-tape': {'tape': [45, 47], 'slot': [41, 42]},
    },
    'clips': {
        'add-clip': {'in': [1, 2, 3, 4], 'umid': [14, 12, 11, 13, 51], 'title': [52, 56], 'tape': [45], 'length': [53]},
        'retire-clip': {'clip': [54, 55]},
        'lend': {'clip': [61, 54, 55, 67], 'to': [63, 62, 64]},
        'recall': {'offer': [65, 66]},
    },
    'day': {
        'open-day': {'day': [72]},
        'add-item': {'at': [1, 2, 3, 4, 75, 83], 'length': [87, 86], 'source': [77, 55, 66, 88, 78], 'in': [79],
                     'mix': [80], '': [71, 73]},
        'remove-item': {'item': [82], '': [71, 73]},
        'import': {'file': [21, 22, 23, 24, 25, 26, 27, 28, 30, 84, 85, 77, 55, 66, 88, 78, 79, 80, 83, 86, 75, 413],
                   '': [71, 73]},
        'seal': {'': [71, 73, 76, 81, 88]},
    },
    'aired': {'batch': {'file': [74, 91, 86, 92], 'batch': [93, 94, 95], '': [71]}},
}
EVERYWHERE = [(503, 100), (400, 400), (501, 501)]
VALUES = {
    'add-tape': {'barcode': 'T9', 'slot': '9'}, 'pull-tape': {'tape': '1'}, 'shelve-tape': {'tape': '1', 'slot': '2'},
    'add-clip': {'title': 'A', 'tape': '1', 'length': '25'}, 'retire-clip': {'clip': 'C0000001'},
    'lend': {'clip': 'C0000001', 'to': '2'}, 'recall': {'offer': '1'}, 'open-day': {},
    'add-item': {'at': '06:00:00:00', 'length': '25', 'source': 'BL'}, 'remove-item': {'item': '1'}, 'seal': {},
}
SURE = ['retire-clip', 'recall', 'remove-item', 'seal']


def names_of_docs():
    """Each refusal's number and name, as docs/FORMATS.md and docs/LISTS.md have them."""
    rows = {}
    for file in ['FORMATS.md', 'LISTS.md']:
        for line in (TOP / 'docs' / file).read_text().splitlines():
            row = re.match(r'- (\d+) ([A-Z]\w+): ', line)
            if row and int(row[1]) <= 100:
                rows[int(row[1])] = row[2]
    return rows


def refusals_have_words(suite):
    """The desk has words for each refusal that a message can meet."""
    page = suite.office()
    page.go('channel', 1)
    words = page.driver.execute_async_script('''
        const [numbers, done] = arguments;
        import('/refusals.js').then((module) => done(numbers.map((code) => module.wordsOf({ code }))));''',
                                             sorted(names_of_docs()))
    outside = {96, 97, 98}  # these are faults of the program's start
    for (code, name), said in zip(sorted(names_of_docs().items()), words):
        if code not in outside:
            suite.equals(f'the name of {code}', f'{code} {name}', said['title'])
            suite.holds(f'words and advice of {code}', said['words'] != 'Refused.' and said['advice'])


def prepared(suite):
    """Channel 1 with a tape that has a clip, an open day and a sealed one."""
    page = suite.office()
    asks(page, '1/tapes', '{"barcode":"A0001","slot":1}')
    asks(page, '1/clips', f'{{"frames":2000,"in":"00:00:00:00","tape":1,"title":"ONE","umid":"{UMID}01"}}')
    for day in [1, 2]:
        asks(page, '1/days', f'{{"day":{day}}}')
    asks(page, '1/days/1/items', '{"at":"12:00:00:00","frames":25,"in":"00:00:00:00","mix":0,"source":"BL"}')
    asks(page, '1/days/2/items', '{"at":"06:00:00:00","frames":2160000,"in":"00:00:00:00","mix":0,"source":"BL"}')
    asks(page, '1/days/2/seal', '')
    return page


def goes(page, view, form):
    day = {'open-day': [3], 'batch': [2]}.get(form, [1])
    page.go(view, 1, *(day if view in ('day', 'aired') else []))


def at_of(code, form):
    if code == 81 or (code == 88 and form == 'seal'):
        return '1'
    if code in (75, 76, 92):
        return '06:00:00:00'
    return '1' if form in ('import', 'batch') and code not in (71, 73, 74, 93, 94, 95, 100, 400, 413, 501) else None


def is_shown(suite, page, form, field, status, code):
    """A refusal that the stand-in answers in the office's place stands beside its field, by number and name."""
    name = names_of_docs().get(code) or {400: 'BadMessage', 501: 'NotImplemented', 413: 'TooLarge',
        404: 'NotFound'}[code]
    at = at_of(code, form)
    refusal = {'code': code, 'refused': name, **({'at': at} if at else {})}
    page.front.forged.append((status, refusal))
    page.submit(form, form in SURE)
    page.refused(form, field, f'{code} {name}.')
    if field:
        suite.equals(f'{form}.{field} is marked for {code}', 'true', page.field(form,
            field).get_attribute('aria-invalid'))
    else:
        suite.passes()


def each_refusal(suite):
    page = prepared(suite)
    files = {'import': suite_file(suite, 'list.edl', 'TITLE: X\n'), 'batch': suite_file(suite, 'aired.csv', 'a,b\n')}
    for view, forms in MEETS.items():
        for form, fields in forms.items():
            goes(page, view, form)
            if form in files:
                page.field(form, 'file').send_keys(files[form])
            page.type(form, **VALUES.get(form, {}))
            for field, codes in fields.items():
                for code in codes:
                    is_shown(suite, page, form, field, 413 if code == 413 else 409, code)
            for status, code in EVERYWHERE if form == next(iter(forms)) else EVERYWHERE[:1]:
                is_shown(suite, page, form, '', status, code)
            for name, value in VALUES.get(form, {}).items():
                suite.equals(f'{form}.{name} is kept', value, kept(page, form, name))
    suite.console(page)


def kept(page, form, name):
    text = page.field(form, name).get_attribute('value')
    return '25' if text == '00:00:01:00' else text


def suite_file(suite, name, text):
    path = f'{suite.directory}/{name}'
    with open(path, 'w', encoding='latin-1', newline='') as file:
        file.write(text)
    return path


def real_refusals(suite):
    """Refusals by the office itself, one of each kind of place where they are shown."""
    page = prepared(suite)
    page.go('vault', 1)
    tried = [
        ('add-tape', {'barcode': 'bl', 'slot': '3'}, 'barcode', '44 BarcodeForm'),
        ('add-tape', {'barcode': 'A0002', 'slot': '41'}, 'slot', '41 BadSlot'),
        ('add-tape', {'barcode': 'A0001', 'slot': '3'}, 'barcode', '43 BarcodeKnown'),
        ('add-tape', {'barcode': 'A0002', 'slot': '1'}, 'slot', '42 SlotTaken'),
        ('add-tape', {'barcode': 'A0002', 'slot': 'one'}, 'slot', 'Type a whole number'),
        ('pull-tape', {'tape': '7'}, 'tape', '45 NoTape'), ('pull-tape', {'tape': '0'}, 'tape', '404 NotFound'),
        ('shelve-tape', {'tape': '1', 'slot': '2'}, 'tape', '47 TapeShelved'),
    ]
    tries(suite, page, tried)
    page.go('clips', 1)
    good = {'title': 'TWO', 'tape': '1', 'in': '00:00:00:00', 'length': '25', 'umid': UMID + '02'}
    tries(suite, page, [('add-clip', {**good, **wrong}, field, words) for wrong, field, words in [
        ({'in': '00:00:00:25'}, 'in', '2 LabelRange'), ({'in': '0'}, 'in', '1 LabelForm'),
        ({'length': 'x'}, 'length', '1 LabelForm'), ({'umid': 'x'}, 'umid', '14 HexText'),
        ({'umid': '00'}, 'umid', '11 Length'), ({'umid': '00' * 32}, 'umid', '13 NotUmid'),
        ({'title': ' A'}, 'title', '52 TitleForm'), ({'tape': '9'}, 'tape', '45 NoTape'),
        ({'length': '0'}, 'length', '53 ClipRange'), ({'umid': UMID + '01'}, 'umid', '51 UmidKnown')]])
    tries(suite, page, [
        ('lend', {'clip': 'L0020001', 'to': '2'}, 'clip', '61 LentClip'),
        ('lend', {'clip': 'C0000001', 'to': '0'}, 'to', '63 BadChannel'),
        ('lend', {'clip': 'C0000001', 'to': '1'}, 'to', '62 ToSelf'),
        ('lend', {'clip': 'C0000009', 'to': '2'}, 'clip', '54 NoClip'),
        ('lend', {'clip': 'C0000001', 'to': '2', 'first': '1'}, 'last', 'Type both days'),
        ('lend', {'first': '', 'last': '7'}, 'first', 'Type both days'),
        ('lend', {'first': '0', 'last': '7'}, 'first', 'Days are 1 to 99,999'),
        ('lend', {'first': '1', 'last': '100000'}, 'last', 'Days are 1 to 99,999'),
        ('lend', {'first': '8', 'last': '7'}, 'last', 'in front of the first'),
        ('lend', {'first': 'one', 'last': '7'}, 'first', 'one is no day: type its number')])
    real_refusals_of_days(suite, page)


def real_refusals_of_days(suite, page):
    page.go('day', 1, 1)
    good = {'at': '06:00:00:00', 'length': '25', 'source': 'C0000001', 'in': '00:00:00:00'}
    tries(suite, page, [('add-item', {**good, **wrong}, field, words) for wrong, field, words in [
        ({'at': '24:00:00:00'}, 'at', '2 LabelRange'), ({'length': '0'}, 'length', '87 EmptyItem'),
        ({'at': '05:59:59:24'}, 'length', '86 PastDayEnd'), ({'source': 'X'}, 'source', '77 NoSource'),
        ({'length': '2001'}, 'in', '79 SourceRange'), ({'kind': 'D', 'mix': '26'}, 'mix', '80 MixLong')]])
    lines = 'TITLE: X\n\n001  BL       V     C        00:00:00:00 00:00:01:00 06:00:00:00\n'
    page.field('import', 'file').send_keys(suite_file(suite, 'short.edl', lines))
    page.submit('import')
    page.refused('import', 'file', '22 FieldCount. Line 3.')
    suite.equals('the line of the fault in the text', ['3', lines.splitlines()[2]], page.script('''
        const line = document.querySelector('.panel.text .list-row.faulty');
        return [...line.children].map((cell) => cell.textContent);'''))
    label = '001  BL       V     C        00:00:00:00 00:00:01:00 06:00:00:25 06:00:01:00\n'
    page.field('import', 'file').send_keys(suite_file(suite, 'label.edl', label))
    page.submit('import')
    page.refused('import', 'file', '25 BadLabel. Line 1. 2 LabelRange.')
    page.go('day', 1, 2)
    page.one('#export').click()
    page.until(lambda: '89 WholeDay' in page.text('#export-fault'), '89 beside the export')
    page.go('aired', 1, 2)
    page.field('batch', 'file').send_keys(suite_file(suite, 'rows.csv', '06:00:00:00,1,BL,00:00:00:00\n\n06:00\n'))
    page.submit('batch')
    page.refused('batch', 'file', '91 RowForm. Row 2.')
    suite.equals('the row of the fault in the text', '06:00', page.script('''
        return document.querySelector('.panel.text .list-row.faulty').children[1].textContent;'''))
    page.go('aired', 1, 1)
    suite.holds('an open day has no match', '74 NotSealed' in page.text('main > .missing'))
    suite.console(page)


def tries(suite, page, tried):
    for form, values, field, words in tried:
        page.type(form, **values)
        page.submit(form)
        page.refused(form, field, words)
        suite.passes()


def texts_are_texts(suite):
    """Titles of every printable byte, of markup and of quotes, and a barcode of markup."""
    page = prepared(suite)
    every = ''.join(map(chr, range(0x21, 0x7f)))
    titles = [every[:60], every[60:], '<script>window.hit = 1</script>', '<img src=x onerror="window.hit=1">',
        '"\'&amp;`${1}',
              'a  b   c']
    page.go('clips', 1)
    for number, title in enumerate(titles, 2):
        page.type('add-clip', **{'title': title, 'tape': 1, 'length': 25, 'umid': f'{UMID}{number + 16:02x}'})
        page.submit('add-clip')
        page.done('add-clip', 'is entered')
    page.until(lambda: len(shown(page, 'Clips')) == 7, 'seven clips')
    suite.equals('the titles as they are', ['ONE', *titles], [row[1] for row in shown(page, 'Clips')])
    page.go('vault', 1)
    page.type('add-tape', barcode='<b>"', slot=3)
    page.submit('add-tape')
    page.refused('add-tape', 'barcode', '44 BarcodeForm')
    suite.equals('the barcode is kept', '<b>"', page.field('add-tape', 'barcode').get_attribute('value'))
    page.go('day', 1, 1)
    page.script('document.querySelector("#source-search").focus()')
    page.keys('<script>')
    page.until(lambda: page.one('[aria-label="What can be put into the day"]').get_attribute('data-rows') == '1',
        'found')
    made = page.script('''
        return [window.hit ?? null, document.querySelectorAll('main script, main img, main b b').length];''')
    suite.equals('no element was made of a text', [None, 0], made)
    suite.console(page)


def no_connection(suite):
    page = prepared(suite)
    page.go('vault', 1)
    page.front.cut = True
    page.type('add-tape', barcode='LOST1', slot=5)
    page.submit('add-tape')
    page.refused('add-tape', None, 'It may have been done, or not')
    page.until(lambda: page.text('#connection') == 'NO ANSWER' and 'What you typed is kept' in page.text('#lost'),
        'said')
    suite.equals('what was typed is kept', 'LOST1', page.field('add-tape', 'barcode').get_attribute('value'))
    sent = len([each for each in page.front.asked if each[0] == 'POST'])
    page.submit('add-tape')
    page.refused('add-tape', None, 'Whether it was done isn\'t known')
    suite.equals('nothing is sent twice unasked', sent, len([each for each in page.front.asked if each[0] == 'POST']))
    page.front.cut = False
    page.until(lambda: page.text('#connection') == 'CONNECTED', 'it is found again by itself')
    page.submit('add-tape')
    page.refused('add-tape', None, 'It was not done')
    page.one('form[data-form="add-tape"] button.sure').click()
    page.done('add-tape', 'LOST1, stands in slot 5')
    lost_answers(suite, page)
    sent_again_by_the_browser(suite, page)
    kept_over_reload(suite, page)
    suite.console(page)


def lost_answers(suite, page):
    """Requests that were done, and whose answer was lost: the tables are asked, and nothing is sent again."""
    for view, day, form, values, path, words in [
            ('vault', 1, 'add-tape', {'barcode': 'LOST2', 'slot': 6}, '/tapes', 'It was done: tape 3, LOST2'),
            ('vault', 1, 'pull-tape', {'tape': 3}, '/pull', 'It was done: tape 3'),
            ('clips', 1, 'lend', {'clip': 'C0000001', 'to': 2}, '/offers',
                'It was done: C0000001 is lent to channel 2'),
            ('clips', 1, 'recall', {'offer': 1}, '/withdraw', 'It was done: offer 1 is withdrawn'),
            ('clips', 1, 'lend', {'clip': 'C0000001', 'to': 2, 'first': 1, 'last': 7}, '/offers',
                'It was done: C0000001 is lent to channel 2 for days 1 to 7 by offer 2'),
            ('day', 4, 'open-day', {}, '/days', 'It was done: day 4'),
            ('day', 4, 'add-item', {'at': '06:00:00:00', 'length': 100, 'source': 'BL'}, '/items',
                'It was done: item 1 begins'),
            ('day', 4, 'remove-item', {'item': 1}, '/1/remove', 'It was done: item 1 is taken out'),
            ('aired', 2, 'batch', {'file': suite_file(suite, 'a.csv', '06:00:00:00,5,BL,00:00:00:00\n')},
                '/asrun/1', 'It was done: batch 1')]:
        page.go(view, 1, *([day] if view in ('day', 'aired') else []))
        page.type(form, **values)
        page.front.lose_at = path
        page.submit(form, form in SURE)
        page.refused(form, None, 'It may have been done, or not')
        if form == 'open-day':
            # The desk finds the office again by itself, and then that the day is there.
            page.until(lambda: page.text('#day-state') == 'OPEN', 'the day is there')
        else:
            page.submit(form)
            page.done(form, words)
        suite.passes()


def sent_again_by_the_browser(suite, page):
    """On a kept connection the browser itself sends a request again: the refusal stands, and that it was done too."""
    page.front.keeps = True
    page.go('vault', 1)
    page.type('add-tape', barcode='TWICE', slot=20)
    page.front.lose_answers = 1
    page.submit('add-tape')
    page.until(lambda: 'It was done' in page.result('add-tape') or 'The office has it' in page.result('add-tape')
               or 'It may have been done' in page.message('add-tape'), 'what became of it')
    if 'The office has it' in page.result('add-tape'):
        suite.holds('the refusal stands too', '43 BarcodeKnown' in page.fault('add-tape', 'barcode'))
    page.front.keeps = False


def kept_over_reload(suite, page):
    page.go('vault', 1)
    page.type('add-tape', barcode='KEPT')
    page.driver.refresh()
    page.ready('vault', 1)
    suite.equals('what was typed is kept over a reload', 'KEPT', page.field('add-tape',
        'barcode').get_attribute('value'))
