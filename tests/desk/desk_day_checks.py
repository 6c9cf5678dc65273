"""The broadcast day of docs/broadcast-day, done in the desk: by mouse alone, and by keyboard alone."""

from selenium.webdriver.common.action_chains import ActionChains
from selenium.webdriver.common.keys import Keys

from desk_suite import UMID, asks, day_file, said_tables

PATHS = ['1/tapes', '1/clips', '1/lent', '1/days/1', '1/days/1/list', '1/days/1/match']


def same_as_said(suite, page):
    said = said_tables()
    for path in PATHS:
        suite.equals(f'the office\'s {path}', said[path], asks(page, path))


def shown(page, label):
    """The cells of all rows of a list, as a screen reader has them."""
    return page.script('''
        return [...document.querySelectorAll(`[role="grid"][aria-label="${arguments[0]}"] [role="row"].list-row`)]
            .sort((one, other) => one.ariaRowIndex - other.ariaRowIndex)
            .map((row) => [...row.children].map((cell) => cell.textContent));''', label)


def shows_match(suite, page):
    page.until(lambda: len(shown(page, 'Runs of what went out')) == 6, 'six runs')
    rows = [[row[0], row[3].replace(',', ''), row[4]] for row in shown(page, 'Runs of what went out')]
    office = [line.split(' ') for line in asks(page, '1/days/1/match').splitlines()[:-1]]
    suite.equals('the runs as shown', office, rows)
    words = {row[4]: row[5] for row in shown(page, 'Runs of what went out')}
    suite.equals('the four in words', {'OK': 'as planned', 'SLIP': 'from another frame', 'WRONG': 'something else',
                                       'MISSED': 'nothing aired'}, words)


class Mouse:
    """Clicks and drags. A text is put into a field as a bar-code reader or a paste would put it."""

    def __init__(self, page):
        self.page = page

    def chain(self):
        return ActionChains(self.page.driver, duration=40)

    def click(self, selector):
        element = self.page.until(lambda: self.page.reach(selector), selector)
        self.chain().move_to_element(element).click().perform()

    def put(self, form, **values):
        self.page.type(form, **values)

    def send(self, form, words, sure=False):
        self.click(f'form[data-form="{form}"] button[type="submit"]')
        if sure:
            self.click(f'form[data-form="{form}"] button.sure')
        self.page.done(form, words)

    def view(self, name, channel=1):
        self.click(f'#views a[data-view="{name}"]')
        self.page.ready(name, channel)

    def channel(self, number, view):
        self.page.script('''
            const field = document.getElementById('channel');
            field.value = arguments[0];
            field.dispatchEvent(new Event('change'));''', str(number))
        self.page.ready(view, number)

    def x_of(self, place):
        return self.page.script('''
            const line = document.querySelector('.timeline');
            const { from, perPixel } = line.dataset;
            return (arguments[0] - from) / perPixel - line.clientWidth / 2;''', place)

    def drag(self, reel, place):
        row = self.page.one(f'[aria-label="What can be put into the day"] [data-key="{reel}"]')
        line = self.page.one('.timeline')
        low = line.size['height'] / 2 - 12
        chain = self.chain().move_to_element(row).click_and_hold().move_by_offset(-30, -10)
        chain.move_to_element_with_offset(line, int(self.x_of(place)), int(low)).perform()
        ghost = self.page.all('.dragged')
        self.chain().release().perform()
        return len(ghost) == 1


def day_by_mouse(suite):
    page = suite.office()
    mouse = Mouse(page)
    page.go('vault', 1)
    for barcode, slot in [('A0017', 5), ('A0018', 6)]:
        mouse.put('add-tape', barcode=barcode, slot=slot)
        mouse.send('add-tape', f'stands in slot {slot}')
    mouse.view('clips')
    clips = [('MORNING NEWS', 1, '00:00:00:00', '00:30:00:00', '01'), ('FEATURE FILM', 2, '10:00:00:00', '135000',
        '02')]
    for title, tape, first, length, end in clips:
        mouse.put('add-clip', **{'title': title, 'tape': tape, 'in': first, 'length': length, 'umid': UMID + end})
        mouse.send('add-clip', f'{title} is entered')
    lend_from_two(suite, page, mouse)
    mouse.channel(1, 'clips')
    suite.equals('what is lent to channel 1',
                 [['L0020001', 'CUP FINAL', 'lent', 'each', 'CH 2', '25', '01:00:00:00', '90000']],
                 shown(page, 'Lent to this channel'))
    plan_by_mouse(suite, page, mouse)
    aired_by_mouse(suite, page, mouse)
    same_as_said(suite, page)
    suite.console(page)


def lend_from_two(suite, page, mouse):
    mouse.channel(2, 'clips')
    mouse.view('vault', 2)
    mouse.put('add-tape', barcode='A0017', slot=1)
    mouse.send('add-tape', 'stands in slot 1')
    mouse.view('clips', 2)
    mouse.put('add-clip', **{'title': 'CUP FINAL', 'tape': 1, 'in': '01:00:00:00', 'length': '01:00:00:00',
                             'umid': UMID + '03'})
    mouse.send('add-clip', 'CUP FINAL is entered')
    row = page.until(lambda: page.one('[aria-label="Clips"] [data-key="C0000001"]'), 'the clip')
    mouse.chain().double_click(row).perform()
    suite.equals('a double click puts the clip into the form', 'C0000001',
                 page.field('lend', 'clip').get_attribute('value'))
    mouse.put('lend', to=1)
    mouse.send('lend', 'by offer 1')


def plan_by_mouse(suite, page, mouse):
    mouse.view('day')
    mouse.send('open-day', 'Day 1 is open')
    page.until(lambda: 'OPEN PLACE' in page.text('#open-place'), 'the open place')
    suite.holds('the open place at once', '06:00:00:00 to 06:00:00:00' in page.text('#open-place'))
    page.field('import', 'file').send_keys(day_file('morning.edl'))
    mouse.send('import', '3 items')
    suite.holds('a lent clip is dragged', mouse.drag('L0020001', 1000000))
    page.done('add-item', 'Item 4, L0020001, begins at 08:00:01:00')
    mouse.put('add-item', at='09:00:02:00', length='1889950', source='BARS')
    mouse.send('add-item', 'Item 5')
    mouse.click('form[data-form="seal"] button[type="submit"]')
    mouse.click('form[data-form="seal"] button.sure')
    page.refused('seal', None, '76 Gap. At 09:00:01:00')
    # The plan is read again before.
    page.until(lambda: mouse.x_of(270025) > -800 and float(
        page.one('.timeline').get_attribute('data-per-pixel')) < 1, 'the gap is brought into view')
    suite.passes()
    suite.holds('black is dragged into the gap', mouse.drag('BL', 270030))
    page.done('add-item', 'Item 6, BL, begins at 09:00:01:00')
    mouse.click('[aria-label="Plan: items and gaps"] [data-key="item-6"]')
    mouse.send('remove-item', 'Item 6 is taken out', sure=True)
    suite.holds('black is dragged again', mouse.drag('BL', 270030))
    page.done('add-item', 'Item 6, BL, begins at 09:00:01:00')
    mouse.send('seal', 'Day 1 is sealed', sure=True)
    page.until(lambda: page.text('#day-state') == 'SEALED', 'sealed')
    plan = [[row[0], row[1], row[4]] for row in shown(page, 'Plan: items and gaps')]
    office = [line.split() for line in asks(page, '1/days/1').splitlines()[1:-1]]
    suite.equals('the plan as shown', [[row[0], row[1], row[5]] for row in office], plan)


def aired_by_mouse(suite, page, mouse):
    mouse.view('aired')
    page.until(lambda: page.field('batch', 'batch').get_attribute('value') == '1', 'the next batch is 1')
    page.field('batch', 'file').send_keys(day_file('morning.csv'))
    mouse.send('batch', 'Batch 1 is taken: morning.csv, 180,025 frames')
    page.until(lambda: page.field('batch', 'batch').get_attribute('value') == '2', 'the next batch is 2')
    page.field('batch', 'file').send_keys(day_file('morning.csv'))
    mouse.click('form[data-form="batch"] button[type="submit"]')
    page.refused('batch', 'file', '92 AiredTwice. At 06:00:00:00')
    page.field('batch', 'file').send_keys(day_file('rest.csv'))
    mouse.send('batch', 'Batch 2 is taken: rest.csv')
    shows_match(suite, page)


def lent_for_days(suite):
    """A clip that is lent for days 1 and 2: it is a source of these alone, and the office refuses it in day 3."""
    page = suite.office()
    asks(page, '2/tapes', '{"barcode":"A0001","slot":1}')
    asks(page, '2/clips', f'{{"frames":2000,"in":"00:00:00:00","tape":1,"title":"GOAL","umid":"{UMID}01"}}')
    for day in [1, 2, 3]:
        asks(page, '1/days', f'{{"day":{day}}}')
    page.go('clips', 2)
    page.type('lend', clip='C0000001', to=1, first=1, last=2)
    page.submit('lend')
    page.done('lend', 'C0000001 is lent to channel 1 for days 1 to 2 by offer 1')
    suite.equals('its offer', '0001 C0000001 001 open 00001-00002\nOFFERS 1\n', asks(page, '2/offers'))
    page.until(lambda: [row[5] for row in shown(page, 'Lent by this channel')] == ['1 to 2'], 'its days')
    page.type('lend', clip='C0000001', to=1)
    page.submit('lend')
    page.refused('lend', 'to', '64 AlreadyOffered')
    suite.equals('it isn\'t said to be done for other days', '', page.result('lend'))
    page.go('clips', 1)
    suite.equals('what is lent to channel 1',
                 [['L0020001', 'GOAL', 'lent', '1 to 2', 'CH 2', '25', '00:00:00:00', '2000']],
                 shown(page, 'Lent to this channel'))
    for day, sources in [(1, ['BL', 'BARS', 'L0020001']), (2, ['BL', 'BARS', 'L0020001']), (3, ['BL', 'BARS'])]:
        page.go('day', 1, day)
        suite.equals(f'the sources of day {day}', sources,
                     page.until(lambda: [row[0] for row in shown(page, 'What can be put into the day')], 'sources'))
    refused_outside(suite, page)
    page.go('day', 1, 2)
    suite.holds('it is dragged into a day that it is for', Mouse(page).drag('L0020001', 1000))
    page.done('add-item', 'Item 1, L0020001, begins at 06:00:00:00')
    suite.console(page)


def refused_outside(suite, page):
    page.type('add-item', **{'at': '06:00:00:00', 'length': '25', 'source': 'L0020001', 'in': '00:00:00:00'})
    page.submit('add-item')
    page.refused('add-item', 'source', '88 OutsideWindow. The clip')
    lines = 'TITLE: X\n\n001  L0020001 V     C        00:00:00:00 00:00:01:00 06:00:00:00 06:00:01:00\n'
    path = f'{suite.directory}/lent.edl'
    with open(path, 'w', encoding='latin-1', newline='') as file:
        file.write(lines)
    page.field('import', 'file').send_keys(path)
    page.submit('import')
    page.refused('import', 'file', '88 OutsideWindow. Line 3.')
    suite.equals('day 3 is empty', 'DAY 3 OPEN\nITEMS 0 FRAMES 0 OF 2160000\n', asks(page, '1/days/3'))


class Keyboard:
    """Keys alone. A field is reached by the tab key, so each of these proves that it can be."""

    def __init__(self, page):
        self.page = page

    def is_at(self, selector):
        return self.page.script('return document.activeElement?.matches(arguments[0]) ?? false', selector)

    def tab_to(self, selector, back=False):
        for _ in range(120):
            if self.is_at(selector):
                return
            chain = ActionChains(self.page.driver, duration=10)
            if back:
                chain.key_down(Keys.SHIFT).send_keys(Keys.TAB).key_up(Keys.SHIFT).perform()
            else:
                chain.send_keys(Keys.TAB).perform()
        raise AssertionError(f'{selector} can\'t be reached by the tab key')

    def write(self, form, **values):
        for name, value in values.items():
            self.tab_to(f'form[data-form="{form}"] [name="{name}"]')
            ActionChains(self.page.driver, duration=10).key_down(Keys.CONTROL).send_keys('a').key_up(
                Keys.CONTROL).send_keys(str(value)).perform()

    def sure(self):
        """What can't be undone is confirmed by a step back to it, and Enter."""
        self.page.until(lambda: self.is_at('button.not'), 'what takes the question back has the focus')
        ActionChains(self.page.driver, duration=10).key_down(Keys.SHIFT).send_keys(Keys.TAB).key_up(
            Keys.SHIFT).perform()
        self.page.until(lambda: self.is_at('button.sure'), 'what confirms it is beside it')
        self.page.keys(Keys.ENTER)

    def send(self, form, words, sure=False):
        self.page.keys(Keys.ENTER)
        if sure:
            self.sure()
        self.page.done(form, words)

    def view(self, letter, name, channel=1):
        self.page.alt(letter)
        self.page.ready(name, channel)

    def channel(self, key, number, view):
        self.tab_to('#channel')
        self.page.keys(key)
        self.page.ready(view, number)


def day_by_keys(suite):
    page = suite.office()
    keys = Keyboard(page)
    page.go('channel', 1)
    keys.view('v', 'vault')
    for barcode, slot in [('A0017', 5), ('A0018', 6)]:
        keys.write('add-tape', barcode=barcode, slot=slot)
        keys.send('add-tape', f'stands in slot {slot}')
    keys.view('k', 'clips')
    clips = [('MORNING NEWS', 1, '00000000', '00300000', '01'), ('FEATURE FILM', 2, '10000000', '135000', '02')]
    for title, tape, first, length, end in clips:
        keys.write('add-clip', **{'title': title, 'tape': tape, 'in': first, 'length': length, 'umid': UMID + end})
        keys.send('add-clip', f'{title} is entered')
    keys.channel(Keys.ARROW_DOWN, 2, 'clips')
    keys.view('v', 'vault', 2)
    keys.write('add-tape', barcode='A0017', slot=1)
    keys.send('add-tape', 'stands in slot 1')
    keys.view('k', 'clips', 2)
    keys.write('add-clip', **{'title': 'CUP FINAL', 'tape': 1, 'in': '01000000', 'length': '01000000', 'umid': UMID
        + '03'})
    keys.send('add-clip', 'CUP FINAL is entered')
    keys.tab_to('[aria-label="Clips"][role="grid"]')
    page.keys(Keys.ARROW_DOWN, Keys.ENTER)
    keys.write('lend', to=1)
    keys.send('lend', 'by offer 1')
    keys.channel(Keys.ARROW_UP, 1, 'clips')
    plan_by_keys(suite, page, keys)
    aired_by_keys(suite, page, keys)
    same_as_said(suite, page)
    suite.console(page)


def plan_by_keys(suite, page, keys):
    keys.view('y', 'day')
    keys.tab_to('form[data-form="open-day"] button')
    keys.send('open-day', 'Day 1 is open')
    keys.tab_to('form[data-form="import"] [name="file"]')
    page.field('import', 'file').send_keys(day_file('morning.edl'))
    keys.tab_to('form[data-form="import"] button[type="submit"]')
    keys.send('import', '3 items')
    keys.tab_to('.timeline', back=True)
    page.keys('g', Keys.ENTER)
    page.until(lambda: keys.is_at('[aria-label="What can be put into the day"]'), 'Enter leads to the sources')
    page.keys(Keys.ARROW_DOWN, Keys.ARROW_DOWN, Keys.ENTER)
    page.until(lambda: keys.is_at('form[data-form="add-item"] button[type="submit"]'), 'Enter leads to the form')
    keys.send('add-item', 'Item 4, L0020001, begins at 08:00:01:00')
    keys.tab_to('form[data-form="add-item"] [name="source"]', back=True)
    keys.write('add-item', source='BARS', at='09000200', length='1889950')
    keys.send('add-item', 'Item 5')
    keys.tab_to('form[data-form="seal"] button')
    page.keys(Keys.ENTER)
    keys.sure()
    page.refused('seal', None, '76 Gap. At 09:00:01:00')
    suite.holds('the gap is said', 'GAP from 09:00:01:00' in page.text('.readout'))
    keys.tab_to('.timeline', back=True)
    page.keys(Keys.ENTER)
    page.keys(Keys.HOME, Keys.ENTER)
    keys.send('add-item', 'Item 6, BL, begins at 09:00:01:00')
    keys.tab_to('[aria-label="Plan: items and gaps"]', back=True)
    page.keys(Keys.END, Keys.ARROW_UP, Keys.DELETE)
    page.until(lambda: keys.is_at('button.sure'), 'Delete asks')
    suite.holds('what is taken out is said', 'item 6' in page.message('remove-item'))
    page.keys(Keys.TAB, Keys.ENTER)
    suite.equals('not now', '', page.message('remove-item'))
    keys.tab_to('form[data-form="seal"] button')
    keys.send('seal', 'Day 1 is sealed', sure=True)


def aired_by_keys(suite, page, keys):
    keys.view('w', 'aired')
    for number, name in [(1, 'morning.csv'), (2, 'rest.csv')]:
        page.until(lambda: page.field('batch', 'batch').get_attribute('value') == str(number),
            f'the next batch is {number}')
        keys.tab_to('form[data-form="batch"] [name="file"]')
        page.field('batch', 'file').send_keys(day_file(name))
        keys.tab_to('form[data-form="batch"] button[type="submit"]')
        keys.send('batch', f'Batch {number} is taken')
    shows_match(suite, page)
    keys.tab_to('.timeline', back=True)
    page.keys(Keys.HOME, 'g')
    page.until(lambda: 'SLIP, from another frame' in page.text('.readout'), 'the first fault is said')
    page.keys('0', '+', '+', '-')
    suite.holds('the cursor is where the fault begins', page.text('.readout').startswith('07:36:41:00'))
