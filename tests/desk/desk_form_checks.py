"""Forms that follow each other, files of many tapes and clips, days by date, lists as staff like them; and how many
keys and clicks the daily tasks take."""

import json
import re

from selenium.webdriver.common.action_chains import ActionChains
from selenium.webdriver.common.keys import Keys

from desk_browser import sized
from desk_day_checks import Keyboard, shown
from desk_defect_checks import PLAN, item, planned, row, still, with_clips
from desk_suite import UMID, asks
from stand_in import TOP


class Counted:
    """Keys that are typed, and clicks, counted."""

    def __init__(self, page):
        self.page = page
        self.keys = 0
        self.clicks = 0

    def type(self, *words):
        """Each character is a key; a chord, as a tuple, is one."""
        for word in words:
            chain = ActionChains(self.page.driver, duration=2)
            if isinstance(word, tuple):
                chain.key_down(word[0]).send_keys(word[1]).key_up(word[0]).perform()
                self.keys += 1
            else:
                chain.send_keys(word).perform()
                self.keys += len(word)

    def click(self, selector, times=1):
        element = self.page.until(lambda: self.page.reach(selector), selector)
        chain = ActionChains(self.page.driver, duration=10)
        (chain.double_click(element) if times == 2 else chain.click(element)).perform()
        self.clicks += times


def told(suite, what, count):
    """What was counted is what the table of docs/DESK.md has."""
    print(f'desk: {what}: {count.keys} keys, {count.clicks} clicks', flush=True)
    line = next(each for each in (TOP / 'docs' / 'DESK.md').read_text().splitlines() if each.startswith(f'| {what} |'))
    said = line.split('|')[3]
    number = lambda word: int(re.search(rf'(\d+) {word}', said).group(1)) if word in said else 0
    suite.equals(f'{what}: the keys and clicks of the document', (number('key'), number('click')),
                 (count.keys, count.clicks))


def ten_clips(suite):
    """Ten clips of one tape in a row: a title, a length, Enter."""
    page = suite.office()
    asks(page, '1/tapes', '{"barcode":"A0017","slot":1}')
    page.go('clips', 1)
    count = Counted(page)
    count.click('form[data-form="add-clip"] [name="title"]')
    for number in range(10):
        count.type(f'PART {number}', Keys.TAB)
        if number == 0:
            count.type('a0017', Keys.TAB, '10000000', Keys.TAB)
        else:
            count.type(Keys.TAB, Keys.TAB)
        count.type('250', Keys.ENTER)
        page.done('add-clip', f'PART {number} is entered')
        page.until(lambda: page.focus() == 'title', 'the title has the focus')
    told(suite, 'ten clips of one tape', count)
    rows = [line.split()[:6] for line in asks(page, '1/clips').splitlines()[:-1]]
    suite.equals('each begins where the last one ends', [f'10:00:{number * 10:02}:00' if number < 6 else
                 f'10:01:{number * 10 - 60:02}:00' for number in range(10)], [each[2] for each in rows])
    suite.equals('the new row is in view and chosen', 'C0000010', page.script('''
        const list = document.querySelector('[aria-label="Clips"]');
        const row = list.querySelector('[aria-selected="true"]');
        const [box, outer] = [row.getBoundingClientRect(), list.getBoundingClientRect()];
        return box.top >= outer.top && box.bottom <= outer.bottom ? row.dataset.key : 'out of view';'''))
    suite.console(page)


def scanned(suite):
    """A scanner types a barcode and Enter, wherever a tape is asked for."""
    page = suite.office()
    page.go('vault', 1)
    keys = Keyboard(page)
    keys.tab_to('form[data-form="add-tape"] [name="barcode"]')
    for number in [1, 2, 3]:
        page.keys(f'a000{number}' if number == 2 else f'A000{number}', Keys.ENTER)
        page.done('add-tape', f'A000{number}, stands in slot {number}')
        page.until(lambda: page.focus() == 'barcode', 'the next one is typed at once')
    keys.tab_to('form[data-form="pull-tape"] [name="tape"]')
    # One right after the other, faster than the office answers.
    page.front.delay = 0.2
    page.keys('a0001', Keys.ENTER, 'a0002', Keys.ENTER)
    page.done('pull-tape', 'Tape 2 is out')
    page.front.delay = 0
    page.keys('X0009', Keys.ENTER)
    page.refused('pull-tape', 'tape', 'No tape of this channel has the barcode X0009')
    keys.tab_to('form[data-form="shelve-tape"] [name="tape"]')
    page.keys('A0002', Keys.ENTER)
    page.done('shelve-tape', 'Tape 2 stands in slot 4')
    suite.equals('the shelf', ['1 A0001 out', '2 A0002 4', '3 A0003 3'],
                 [' '.join(line.split()) for line in asks(page, '1/tapes').splitlines()[:-1]])
    many_scanned(suite, page, keys)
    suite.console(page)


def many_scanned(suite, page, keys):
    """Six barcodes, faster than the office answers: each has its line, none is dropped, none is joined to another."""
    codes = [f'B000{number}' for number in range(1, 7)]
    for number, code in enumerate(codes, 11):
        asks(page, '1/tapes', json.dumps({'barcode': code, 'slot': number}))
    page.script('window.dispatchEvent(new Event("focus"))')
    page.until(lambda: all(code in page.text('main') for code in codes), 'the tapes are seen')
    for delay in (0.2, 1, 2):
        keys.tab_to('form[data-form="pull-tape"] [name="tape"]')
        page.front.delay = delay
        wanted, told = codes[:2] if delay > 0.2 else codes, []
        for code in [*wanted[:1], 'X0009', *wanted[1:]]:
            page.keys(code, Keys.ENTER)
        told = page.until(lambda: lines_of(page, len(wanted) + 1), f'each has its line, at {delay} s')
        suite.equals('in their order, each by itself', [*wanted[:1], 'X0009', *wanted[1:]], [each[0] for each in told])
        suite.equals('each with what became of it', ['done', 'refused', *['done'] * (len(wanted) - 1)],
                     [each[1] for each in told])
        page.front.delay = 0
        out = [line.split()[1] for line in asks(page, '1/tapes').splitlines()[:-1] if line.split()[2] == 'out']
        suite.equals('all are out', wanted, [code for code in out if code in wanted])
        for number, code in enumerate(wanted, 11):
            asks(page, f'1/tapes/{number - 7}/shelve', json.dumps({'slot': number}))


def lines_of(page, many):
    """The last lines of what was scanned, once none of them waits."""
    told = page.script('''
        return [...document.querySelectorAll('form[data-form="pull-tape"] .scans li')].map((each) =>
            [each.querySelector('b').textContent, each.className]);''')[-many:]
    return told if len(told) == many and all(each[1] in ('done', 'refused') for each in told) else None


def own_length(suite):
    """A source that is typed alone takes its own length, at the open place."""
    page = with_clips(suite)
    item(page, 1, '06:00:00:00', 100)
    page.go('day', 1, 1)
    keys = Keyboard(page)
    keys.tab_to('form[data-form="add-item"] [name="source"]')
    page.keys('C0000001', Keys.ENTER)
    page.done('add-item', 'C0000001, begins at 06:00:04:00')
    suite.equals('as long as it is', ('06:00:04:00', 2000, 'C0000001'), planned(page)[1][1:4])
    suite.console(page)


def bulk(suite):
    """Tapes and clips of a file, with a report line by line, gone on with after a refusal and a lost connection."""
    page = suite.office()
    asks(page, '1/tapes', '{"barcode":"A0002","slot":2}')
    page.go('vault', 1)
    file = f'{suite.directory}/tapes.csv'
    with open(file, 'w', encoding='ascii') as out:
        out.write('barcode,slot\nA0001,1\nA0002,3\nA0003,\nBARS,4\nA0005,x\nA0006\n')
    page.type('bulk-tapes', file=file)
    page.front.lose_at = '/tapes'
    page.submit('bulk-tapes')
    page.refused('bulk-tapes', None, 'Stopped at line 2')
    page.until(lambda: page.text('#connection') == 'CONNECTED', 'the office is there again')
    page.until(lambda: page.reach('button.go-on'), 'it can be gone on').click()
    page.until(lambda: '6 lines: 3 lines done, 3 refused' in page.result('bulk-tapes'), 'all lines')
    report = {each[0]: each[2] for each in shown(page, 'Report: Tapes from a file')}
    suite.equals('what was done is told', ['It was done: tape 2, A0001, stands in slot 1.', 'tape 3 stands in slot 3.',
                 'tape 4 stands in slot 4.'], [report[line] for line in ['2', '4', '7']])
    suite.equals('and what was refused', ['43', '44', 'The slot isn\'t a number.'],
                 [report['3'][:2], report['5'][:2], report['6']])
    suite.equals('the vault', ['A0001', 'A0002', 'A0003', 'A0006'],
                 sorted(line.split()[1] for line in asks(page, '1/tapes').splitlines()[:-1]))
    page.leads('clips', 1)
    file = f'{suite.directory}/clips.csv'
    with open(file, 'w', encoding='ascii') as out:
        out.write(f'title,tape,first,length,umid\nNEWS,A0001,00:00:00:00,00:01:00:00\n"A, B",1,10000000,250,{UMID}01\n'
                  f'C,A0009,0,1\nNEWS 2,A0003,00:00:00:00,100,{UMID}01\nLAST,A0006,23:59:59:00,25\n')
    page.type('bulk-clips', file=file)
    page.submit('bulk-clips')
    page.until(lambda: '5 lines: 3 lines done, 2 refused' in page.result('bulk-clips'), 'all clips')
    clips = [line.split(maxsplit=6) for line in asks(page, '1/clips').splitlines()[:-1]]
    suite.equals('the clips', [('00:00:00:00', '1500', '2', 'NEWS'), ('10:00:00:00', '250', '1', 'A, B'),
                 ('23:59:59:00', '25', '4', 'LAST')], [(each[2], each[3], each[4], each[6]) for each in clips])
    # The same file again: the UMIDs that were made for it are offered again, so no clip is there twice.
    page.until(lambda: page.idle('bulk-clips'), 'it is read again')
    page.type('bulk-clips', file=file)
    page.submit('bulk-clips')
    page.until(lambda: '5 lines: 0 lines done, 5 refused' in page.result('bulk-clips'), 'sent again')
    suite.equals('each clip once', 3, len(asks(page, '1/clips').splitlines()) - 1)
    gone_on(suite, page)
    suite.console(page)


# Whether a page that is left asks first. A driven browser shows no such question.
LEAVES = '''
    const leaving = new Event('beforeunload', { cancelable: true });
    dispatchEvent(leaving);
    return leaving.defaultPrevented;'''


def gone_on(suite, page):
    """A file goes on while its view is left; a tab that is closed asks, and the file is gone on with after a reload."""
    file = f'{suite.directory}/more.csv'
    with open(file, 'w', encoding='ascii') as out:
        out.write(''.join(f'MORE {number},A0001,00:00:00:00,25\n' for number in range(30)))
    page.front.delay = 0.1
    page.type('bulk-clips', file=file)
    page.submit('bulk-clips')
    page.until(lambda: asks(page, '1/clips').count('MORE') > 3, 'it is under way')
    page.script('location.hash = "#/1/vault"')
    page.ready('vault')
    page.until(lambda: '30 lines done' in page.text('#said'), 'it goes on, and says so where staff are')
    suite.equals('all are entered', 30, asks(page, '1/clips').count('MORE'))
    page.front.delay = 0
    page.leads('clips', 1)
    with open(file, 'w', encoding='ascii') as out:
        out.write(''.join(f'LESS {number},A0001,00:00:00:00,25\n' for number in range(30)))
    page.front.delay = 0.2
    page.type('bulk-clips', file=file)
    page.submit('bulk-clips')
    page.until(lambda: asks(page, '1/clips').count('LESS') > 3, 'it is under way')
    suite.equals('it is asked before the tab is left', True, page.script(LEAVES))
    page.driver.refresh()
    page.front.delay = 0
    page.ready('clips')
    suite.equals('nothing is under way in the new page', False, page.script(LEAVES))
    suite.holds('some are entered, some aren\'t', 3 < asks(page, '1/clips').count('LESS') < 30)
    page.until(lambda: 'more.csv: so far' in page.message('bulk-clips'), 'it is offered')
    page.script("""
        for (const key of Object.keys(localStorage)) {
            if (!/^desk.bulk.*more|^desk.bulk.1.bulk-clips.[0-9a-f-]+$/.test(key)) continue;
            const head = JSON.parse(localStorage.getItem(key));
            if (head.file) localStorage.setItem(key, JSON.stringify({ ...head, at: 0 }));
        }""")
    page.driver.refresh()
    page.ready('clips')
    page.until(lambda: page.reach('button.go-on'), 'it can be gone on with').click()
    page.until(lambda: asks(page, '1/clips').count('LESS') == 30, 'all are entered')
    page.until(lambda: page.idle('bulk-clips'), 'it is read again')
    less = [line.split()[-1] for line in asks(page, '1/clips').splitlines() if 'LESS' in line]
    suite.equals('each once', 30, len(set(less)))


SITE = {'day1': '2026-01-01', 'zone': 'Europe/Berlin', 'channels': {
    '1': {'name': 'ONE NEWS', 'rate': '25', 'start': '06:00:00:00'}, '2': {'name': 'TWO'}}}


def dates(suite):
    """With site.json: names, dates, a calendar, now; and no sham messages, here as elsewhere."""
    page = with_clips(suite, (1,))
    page.front.site = SITE
    page.front.asked.clear()
    page.go('day', 1, 1)
    sham = [each for each in page.front.asked if each[0] == 'POST']
    suite.equals('nothing sham is sent', [], sham)
    suite.equals('the channel has its name', 'CH 001 ONE NEWS', page.script(
        'return document.getElementById("channel").selectedOptions[0].textContent'))
    suite.equals('the date of the day', 'Thu 1 Jan 2026', page.text('#day-date'))
    suite.holds('and of those around it', 'Sat 3 Jan 2026' in page.text('.days'))
    now = page.script('''
        const parts = Object.fromEntries(new Intl.DateTimeFormat('en-GB', { timeZone: 'Europe/Berlin', year: 'numeric',
            month: 'numeric', day: 'numeric', hour: 'numeric', minute: 'numeric', second: 'numeric', hourCycle: 'h23' })
            .formatToParts(new Date()).map(({ type, value }) => [type, Number(value)]));
        const since = Date.UTC(parts.year, parts.month - 1, parts.day) - Date.UTC(2026, 0, 1);
        const days = Math.round(since / 86400000) + 1;
        const second = parts.hour * 3600 + parts.minute * 60 + parts.second;
        return second < 21600 ? [days - 1, (second + 64800) * 25] : [days, (second - 21600) * 25];''')
    asks(page, '1/days', f'{{"day":{now[0]}}}')
    page.leads('day', 1, now[0])
    at = float(page.until(lambda: page.one('.timeline').get_attribute('data-now'), 'a line at now'))
    suite.holds(f'where the clock is: {at}, not {now[1]}', -250 <= at - now[1] <= 1500)
    page.one('.calendar-box summary').click()
    suite.equals('today is marked, and says what it is', f'day {now[0]}, open, gaps', page.text(
        '.calendar a[aria-current="date"] small'))
    page.one('.calendar a.shown').click()
    page.leads('day', 1, 1)
    suite.equals('no line at now in another day', '', page.one('.timeline').get_attribute('data-now'))
    page.one('.calendar-box summary').click()
    page.one('.calendar a[href="#/1/day/15"]').click()
    page.until(lambda: page.text('#day-date') == 'Thu 15 Jan 2026', 'a date of the calendar leads to its day')
    page.one('.calendar-box summary').click()
    page.until(lambda: page.text('.calendar a[href="#/1/day/1"] small') == 'day 1, open, gaps', 'it says what a day is')
    page.one('.calendar a[href="#/1/day/1"]').send_keys(Keys.ESCAPE)
    suite.equals('Escape closes it', None, page.one('.calendar-box').get_attribute('open'))
    suite.passes()
    suite.console(page)


def columns(suite):
    """Columns are widened and sorted, by the mouse and by keys; a title that is cut off is told by a tooltip."""
    page = with_clips(suite)
    long = 'A TITLE OF SIXTY LETTERS THAT NO COLUMN OF SUCH A LIST SHOWS'
    asks(page, '1/clips', json.dumps({'frames': 10, 'in': '00:00:00:00', 'tape': 1, 'title': long,
                                      'umid': UMID + '77'}))
    page.go('day', 1, 1)
    sources = '[aria-label="What can be put into the day"]'
    cell = page.until(lambda: page.one(f'{sources} [data-key="C0000004"]'), 'the long title').find_elements(
        'css selector', '[role="gridcell"]')[1]
    ActionChains(page.driver, duration=20).move_to_element(cell).perform()
    suite.equals('a tooltip has all of it', long, cell.get_attribute('title'))
    wide = cell.size['width']
    grip = page.one(f'{sources} .head-cell:nth-child(2) .grip')
    ActionChains(page.driver, duration=40).click_and_hold(grip).move_by_offset(120, 0).release().perform()
    cell = page.one(f'{sources} [data-key="C0000004"] [role="gridcell"]:nth-child(2)')
    suite.holds(f'it is wider: {wide} and {cell.size["width"]}', cell.size['width'] >= wide + 90)
    page.driver.refresh()
    page.ready('day')
    cell = page.until(lambda: page.one(f'{sources} [data-key="C0000004"] [role="gridcell"]:nth-child(2)'), 'again')
    suite.holds('and stays so over a reload', cell.size['width'] >= wide + 90)
    titles = lambda: [each[1] for each in shown(page, 'What can be put into the day')]
    page.one(f'{sources} .head-cell:nth-child(2)').click()
    suite.equals('sorted by titles', sorted(['BLACK', 'BARS', 'NEWS', 'TRAILER', 'FILM', long]), titles())
    page.script('document.querySelector(arguments[0]).focus()', sources)
    page.keys(Keys.ARROW_RIGHT, Keys.ARROW_RIGHT, Keys.ARROW_RIGHT, 's', 's')
    suite.equals('and by keys by lengths, the longest first', ['FILM', 'NEWS', 'TRAILER', long], titles()[:4])
    suite.equals('which is told', 'descending',
                 page.one(f'{sources} .head-cell:nth-child(3)').get_attribute('aria-sort'))
    page.keys('+', '+')
    suite.holds('a column is widened by keys', '"Length"' in page.script(
        'return localStorage.getItem("desk/columns/What can be put into the day")'))
    page.keys('0')
    wide_screen(suite, page)
    suite.console(page)


def wide_screen(suite, page):
    """Lists use the room that a wide screen has."""
    width = lambda: page.script('return document.querySelector(arguments[0]).clientWidth', f'[aria-label="{PLAN}"]')
    normal = width()
    sized(page.driver, 2560, 1300)
    page.until(lambda: width() > normal * 1.5, 'the plan is wider on a wide screen')
    page.leads('channel', 1)
    suite.holds('the channel uses its width too', page.script(
        'return document.querySelector(".columns").clientWidth') > 2400)
    sized(page.driver, 1440, 900)


def counts(suite):
    """How many keys and clicks the daily tasks take."""
    page = with_clips(suite, (1, 2, 3))
    for at in ['06:00:00:00', '07:00:00:00', '08:00:00:00']:
        item(page, 1, at, 500, 'C0000001')
    page.go('day', 1, 1)
    still(page)
    moved = Counted(page)
    row(page, 'item-1')
    moved.click(f'[aria-label="{PLAN}"] [data-key="item-1"] [aria-colindex="2"]')
    moved.type('06010000', Keys.ENTER)
    page.until(lambda: planned(page)[0][1] == '06:01:00:00', 'moved')
    page.until(lambda: ' changed.' in page.text('#said'), 'it is told')
    told(suite, 'an item a minute later', moved)
    replaced = Counted(page)
    replaced.click(f'[aria-label="{PLAN}"] [data-key="item-2"]')
    replaced.click('[aria-label="What can be put into the day"] [data-key="C0000003"]', 2)
    page.until(lambda: 'C0000003' in [each[3] for each in planned(page)], 'replaced')
    told(suite, 'another clip in its place', replaced)
    page.until(lambda: ' replaced by ' in page.text('#said') and '...' not in page.text('#said'), 'it is told')
    shifted = Counted(page)
    shifted.click(f'[aria-label="{PLAN}"] [data-key="item-3"]')
    shifted.click('form[data-form="move"] [name="step"]')
    shifted.type((Keys.CONTROL, 'a'), '+00:01:00')
    shifted.click('#shift')
    page.until(lambda: [each[1] for each in planned(page)][-1:] == ['08:01:00:00'], 'shifted')
    told(suite, 'all that follows later', shifted)
    page.until(lambda: page.idle('move'), 'it is read again')
    between = Counted(page)
    between.click(f'[aria-label="{PLAN}"] [data-key="item-3"]')
    between.click('[aria-label="What can be put into the day"] [data-key="C0000002"]')
    between.click('#insert')
    page.until(lambda: ('08:01:00:00', 25, 'C0000002') in [each[1:4] for each in planned(page)], 'inserted')
    told(suite, 'a clip between two items', between)
    yesterday = Counted(page)
    page.leads('day', 1, 4)
    asks(page, '1/days/3/import/strict', '001  BL V C 00:00:00:00 00:00:01:00 06:00:00:00 06:00:01:00\n')
    yesterday.click('#open-as-before')
    page.until(lambda: len(planned(page, 4)) == 1, 'as yesterday')
    told(suite, 'yesterday as today', yesterday)
    suite.equals('clicks for yesterday as today', 1, yesterday.clicks)
    suite.holds('clicks for a replaced clip', replaced.clicks <= 3 and replaced.keys == 0)
    suite.console(page)


def forty(suite):
    """A day of 40 items from the keyboard: at most ten keys an item."""
    page = suite.office()
    asks(page, '1/tapes', '{"barcode":"A0001","slot":1}')
    for number in range(1, 41):
        asks(page, '1/clips', f'{{"frames":{1000 + number},"in":"00:00:00:00","tape":1,"title":"ITEM {number:02}",'
                              f'"umid":"{UMID}{number:02x}"}}')
    asks(page, '1/days', '{"day":1}')
    page.go('day', 1, 1)
    count = Counted(page)
    Keyboard(page).tab_to('#source-search')
    for number in range(1, 41):
        # Two digits find the title, Enter takes it, Enter adds it, and the search has the focus again.
        count.type(f'm {number:02}', Keys.ENTER)
        page.until(lambda: page.focus() == 'main', 'the form has it')
        count.type(Keys.ENTER)
        page.done('add-item', f'Item {number}, C{number:07}')
        page.until(lambda: page.focus() == 'source-search', 'the search has the focus')
    told(suite, 'a day of 40 items', count)
    suite.holds(f'{count.keys / 40} keys an item', count.keys <= 400)
    ends = [int(each[2]) for each in planned(page)]
    suite.equals('all forty, in their order', [1000 + number for number in range(1, 41)], ends)
    suite.console(page)


def split_batches(suite):
    """A file that goes as two batches: the row of a fault in the second is told as its row of the file."""
    page = suite.office()
    asks(page, '1/days', '{"day":1}')
    asks(page, '1/days/1/items', '{"at":"06:00:00:00","frames":2160000,"in":"00:00:00:00","mix":0,"source":"BL"}')
    asks(page, '1/days/1/seal', '')
    file = f'{suite.directory}/split.csv'
    labels = [f'{6 + number // 90000:02}:{number // 1500 % 60:02}:{number // 25 % 60:02}:{number % 25:02}'
              for number in range(30000)]
    rows = [f'{label},0000001,BARS,00:00:00:00\n' for label in labels]
    with open(file, 'w', encoding='ascii') as out:
        # A message takes 27,027 of these rows of 37 bytes.
        out.write(''.join(rows[:29000]) + '\n' + rows[29000][:20] + '\n' + ''.join(rows[29001:]))
    page.go('aired', 1, 1)
    page.until(lambda: page.field('batch', 'batch').get_attribute('value') == '1', 'the next batch')
    page.type('batch', file=file)
    page.submit('batch')
    page.refused('batch', 'file', '91 RowForm. Row 29001.')
    suite.equals('its line in the text', ['29002', rows[29000][:20]], page.script('''
        const line = document.querySelector('.panel.text .list-row.faulty');
        return [...line.children].map((cell) => cell.textContent);'''))
    suite.holds('the first part is taken, and told apart', asks(page, '1/days/1/match').splitlines()[-1].startswith(
        'OK 0 SLIP 0 WRONG 27027 '))
    # a file without a fault: each part under its own number
    asks(page, '1/days', '{"day":2}')
    asks(page, '1/days/2/items', '{"at":"06:00:00:00","frames":2160000,"in":"00:00:00:00","mix":0,"source":"BL"}')
    asks(page, '1/days/2/seal', '')
    with open(file, 'w', encoding='ascii') as out:
        out.write(''.join(rows))
    page.go('aired', 1, 2)
    page.until(lambda: page.field('batch', 'batch').get_attribute('value') == '1', 'the next batch of the other day')
    page.type('batch', file=file)
    page.submit('batch')
    page.until(lambda: page.field('batch', 'batch').get_attribute('value') == '3', 'two batches are taken')
    suite.holds('all rows are taken', asks(page, '1/days/2/match').splitlines()[-1].startswith('OK 0 SLIP 0 WRONG 30000 '))
    suite.console(page)
