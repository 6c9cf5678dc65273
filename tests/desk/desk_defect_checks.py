"""What staff and a colleague do at the same time, early and twice: stale plans, touch, questions, focus, slowness."""

import time

from selenium.webdriver.common.keys import Keys

from desk_day_checks import Keyboard, Mouse, shown
from desk_suite import UMID, Busy, asks, day_file

PLAN = 'Plan: items and gaps'


def item(page, day, at, frames, source='BL', first='00:00:00:00'):
    return asks(page, f'1/days/{day}/items', f'{{"at":"{at}","frames":{frames},"in":"{first}","mix":0,'
                                             f'"source":"{source}"}}')


def planned(page, day=1):
    """The rows of the office's plan: number, label, frames, source, first source frame."""
    rows = [line.split() for line in asks(page, f'1/days/{day}').splitlines()[1:-1]]
    return [(int(row[0]), row[1], int(row[2]), row[5], row[6]) for row in rows]


def with_clips(suite, days=(1,)):
    """A channel with a tape and three clips, and open days."""
    page = suite.office()
    asks(page, '1/tapes', '{"barcode":"A0001","slot":1}')
    for number, (title, frames) in enumerate([('NEWS', 2000), ('TRAILER', 25), ('FILM', 50000)], 1):
        asks(page, '1/clips', f'{{"frames":{frames},"in":"00:00:00:00","tape":1,"title":"{title}",'
                              f'"umid":"{UMID}{number:02x}"}}')
    for day in days:
        asks(page, '1/days', f'{{"day":{day}}}')
    return page


def still(page):
    """No look at the plan by itself, so that the window is as old as it is."""
    page.script('Object.defineProperty(document, "visibilityState", { value: "hidden", configurable: true })')


def row(page, key):
    return page.until(lambda: page.one(f'[aria-label="{PLAN}"] [data-key="{key}"]'), f'the row {key}')


def stale(suite):
    """Item numbers are given again: a window that shows the item of before doesn't take out another's."""
    page = with_clips(suite)
    item(page, 1, '06:00:00:00', 100)
    item(page, 1, '07:00:00:00', 100)
    page.go('day', 1, 1)
    still(page)
    asks(page, '1/days/1/items/1/remove', '')
    item(page, 1, '09:00:00:00', 2000, 'C0000001')
    row(page, 'item-1').click()
    page.submit('remove-item')
    page.refused('remove-item', 'item', 'Item 1 isn\'t what was shown any more')
    suite.holds('what it is now is said', 'C0000001 NEWS, 09:00:00:00' in page.fault('remove-item', 'item'))
    suite.equals('it is there still', [(2, '07:00:00:00'), (1, '09:00:00:00')], [each[:2] for each in planned(page)])
    suite.equals('no question was asked', 0, len(page.all('form[data-form="remove-item"] button.sure')))
    between(suite, page)
    after_refusals(suite, page)
    suite.console(page)


def between(suite, page):
    """Between the question and the answer, too."""
    page.until(lambda: [each[1] for each in shown(page, PLAN) if each[0]] == ['07:00:00:00', '09:00:00:00'],
               'the plan is read again')
    row(page, 'item-2').click()
    page.submit('remove-item')
    page.until(lambda: 'Take out item 2' in page.message('remove-item'), 'the question')
    asks(page, '1/days/1/items/2/remove', '')
    item(page, 1, '07:00:00:00', 99)
    page.one('form[data-form="remove-item"] button.sure').click()
    page.refused('remove-item', 'item', 'Item 2 isn\'t what was shown any more')
    suite.equals('another length is another item', [(2, 99), (1, 2000)], [(each[0], each[2]) for each in planned(page)])


def after_refusals(suite, page):
    """After a refusal of the day's own the plan is read again: 71, 75, 82, 73. No day of the office vanishes, so 71 is
    put into the answer here."""
    page.script('''
        const asks = window.fetch;
        window.asked = [];
        window.fetch = async (path, how) => {
            window.asked.push(`${how?.method ?? 'GET'} ${path}`);
            if (!String(path).endsWith('/days/1/items')) return asks(path, how);
            window.fetch = async (next, wanted) => {
                window.asked.push(`${wanted?.method ?? 'GET'} ${next}`);
                return asks(next, wanted);
            };
            return new Response('{"code":71,"refused":"NoDay"}',
                { status: 409, headers: { 'Content-Type': 'application/json' } });
        };''')
    page.type('add-item', at='08:00:00:00', length='10', source='BL')
    page.submit('add-item')
    page.refused('add-item', None, '71 NoDay')
    behind = page.script('return window.asked.slice(window.asked.findIndex((it) => it.startsWith("POST")))')
    suite.holds(f'the plan is asked for behind 71: {behind}', 'GET /ch/1/days/1' in behind)
    suite.equals('nothing was put in', [(2, '07:00:00:00'), (1, '09:00:00:00')], [each[:2] for each in planned(page)])
    item(page, 1, '10:00:00:00', 500)
    page.type('add-item', at='10:00:00:10', length='10', source='BL')
    page.submit('add-item')
    page.refused('add-item', 'at', '75 Overlap')
    page.until(lambda: '10:00:00:00' in [each[1] for each in shown(page, PLAN)], 'the colleague\'s item is seen')
    suite.passes()
    asks(page, '1/days/1/items/1/remove', '')
    page.type('remove-item', item=1)
    page.submit('remove-item')
    page.refused('remove-item', 'item', '82 NoItem')
    page.until(lambda: '09:00:00:00' not in [each[1] for each in shown(page, PLAN) if each[0]], 'it is gone here too')
    asks(page, '1/days', '{"day":2}')
    asks(page, '1/days/2/items', '{"at":"06:00:00:00","frames":2159999,"in":"00:00:00:00","mix":0,"source":"BL"}')
    page.leads('day', 1, 2)
    still(page)
    item(page, 2, '05:59:59:24', 1)
    asks(page, '1/days/2/seal', '')
    page.type('add-item', at='05:59:59:24', length='1', source='BL')
    page.submit('add-item')
    page.until(lambda: page.text('#day-state') == 'SEALED', 'that it is sealed is seen')
    suite.holds('a sealed day offers no changes', not any(page.seen(f'form[data-form="{form}"]') for form in [
        'add-item', 'remove-item', 'import', 'seal', 'edit-item', 'move', 'clear', 'copy-day']))


def watched(suite):
    """What a colleague does in an open day is seen without a click, and what is chosen stays chosen."""
    page = with_clips(suite)
    item(page, 1, '06:00:00:00', 100)
    page.go('day', 1, 1)
    row(page, 'item-1').click()
    item(page, 1, '08:00:00:00', 2000, 'C0000001')
    page.until(lambda: 'NEWS' in [each[3] for each in shown(page, PLAN)], 'the colleague\'s item is seen')
    suite.equals('what was chosen is chosen', 'item-1',
                 page.one(f'[aria-label="{PLAN}"] [aria-selected="true"]').get_attribute('data-key'))
    looks = len([each for each in page.front.asked if each[:2] == ('GET', '/ch/1/days/1')])
    page.script('''
        window.looks = 0;
        const sets = window.setTimeout;
        window.setTimeout = (does, time, ...more) => {
            window.looks += time >= 4000 && time < 60000 ? 1 : 0;
            return sets(does, time, ...more);
        };''')
    still(page)
    page.until(lambda: page.script('return window.looks') >= 2, 'two times to look are over')
    suite.holds('a window that isn\'t in view doesn\'t look', len(
        [each for each in page.front.asked if each[:2] == ('GET', '/ch/1/days/1')]) <= looks + 1)
    suite.console(page)


def finger(page, kind, *points):
    page.driver.execute_cdp_cmd('Input.dispatchTouchEvent', {
        'type': kind, 'touchPoints': [{'x': x, 'y': y} for x, y in points]})


def middle(element):
    box = element.rect
    return box['x'] + box['width'] / 2, box['y'] + box['height'] / 2


def touch(suite):
    """A finger that scrolls the sources has nothing in hand afterwards; one that pans the time line puts nothing."""
    page = with_clips(suite)
    page.driver.execute_cdp_cmd('Emulation.setTouchEmulationEnabled', {'enabled': True, 'maxTouchPoints': 1})
    try:
        page.go('day', 1, 1)
        source = page.until(lambda: page.one('[aria-label="What can be put into the day"] [data-key="C0000001"]'), 'it')
        x, y = middle(source)
        page.script('window.lifted = 0; addEventListener("touchend", () => { window.lifted += 1; }, true)')
        finger(page, 'touchStart', (x, y))
        for step in range(1, 9):
            finger(page, 'touchMove', (x, y - step * 8))
        finger(page, 'touchEnd')
        line = middle(page.one('.timeline'))
        for kind, points in [('touchStart', [line]), ('touchMove', [(line[0] + 3, line[1])]), ('touchEnd', [])]:
            finger(page, kind, *points)
        page.until(lambda: page.script('return window.lifted') >= 2, 'both fingers are lifted')
        suite.equals('nothing is in hand', 0, len(page.all('.dragged')))
        suite.equals('nothing was added', [], planned(page))
        finger(page, 'touchStart', (x, y))
        finger(page, 'touchEnd')
        page.until(lambda: page.one('[aria-label="What can be put into the day"] [data-key="C0000001"]').get_attribute(
            'aria-selected') == 'true', 'a touch chooses')
        page.one('#put-in').click()
        page.until(lambda: page.field('add-item', 'source').get_attribute('value') == 'C0000001', 'a button puts in')
        suite.passes()
    finally:
        page.driver.execute_cdp_cmd('Emulation.setTouchEmulationEnabled', {'enabled': False})
    suite.console(page)


def twice(suite):
    """Two things that are put in right after another lie behind one another, whatever time the office takes."""
    page = with_clips(suite)
    page.go('day', 1, 1)
    page.front.delay = 0.25
    page.script('''
        const list = document.querySelector('[aria-label="What can be put into the day"]');
        const line = document.querySelector('.timeline').getBoundingClientRect();
        const row = list.querySelector('[data-key="C0000002"]');
        const from = row.getBoundingClientRect();
        for (let time = 0; time < 2; time += 1) {
            const at = { bubbles: true, button: 0, pointerType: 'mouse', pointerId: 1 };
            const begins = { ...at, clientX: from.left + 5, clientY: from.top + 5 };
            row.dispatchEvent(new PointerEvent('pointerdown', begins));
            for (const [type, x, y] of [['pointermove', 40, 60], ['pointermove', 60, 70], ['pointerup', 60, 70]]) {
                window.dispatchEvent(new PointerEvent(type, { ...at, clientX: line.left + x, clientY: line.top + y }));
            }
        }''')
    page.until(lambda: len(planned(page)) == 2, 'both are added')
    suite.equals('one behind the other', [('06:00:00:00', 25), ('06:00:01:00', 25)],
                 [each[1:3] for each in planned(page)])
    page.front.delay = 0
    suite.console(page)


def replaces(suite):
    """Enter on a source over a chosen item puts it where the item stands."""
    page = with_clips(suite)
    item(page, 1, '06:00:00:00', 100)
    item(page, 1, '07:00:00:00', 1000)
    item(page, 1, '08:00:00:00', 100)
    page.go('day', 1, 1)
    row(page, 'item-2').click()
    suite.holds('it says what is replaced', 'REPLACES item 2' in page.text('#open-place'))
    page.script('document.querySelector(\'[aria-label="What can be put into the day"]\').focus()')
    page.keys(Keys.HOME, Keys.ARROW_DOWN, Keys.ARROW_DOWN, Keys.ENTER)
    page.until(lambda: 'C0000001' in [each[3] for each in planned(page)], 'it is replaced')
    suite.equals('where it stood, as long as it was', [('06:00:00:00', 100, 'BL'), ('07:00:00:00', 1000, 'C0000001'),
                 ('08:00:00:00', 100, 'BL')], [each[1:4] for each in planned(page)])
    page.until(lambda: 'REPLACES' in page.text('#open-place') and 'NEWS' in page.text('#open-place'), 'it is chosen')
    page.keys(Keys.ARROW_DOWN, Keys.ENTER)
    page.until(lambda: 'C0000002' in [each[3] for each in planned(page)], 'it is replaced again')
    suite.equals('a shorter one is as long as it is', ('07:00:00:00', 25, 'C0000002'), planned(page)[1][1:4])
    suite.holds('the focus stays at the sources', page.focus() == 'What can be put into the day')
    # An item that was only just moved is chosen still: one Enter says so, and replaces nothing.
    page.type('move', step='+00:01:00')
    page.submit('move')
    page.done('move', 'moved by +00:01:00:00')
    page.until(lambda: 'REPLACES' in page.text('#open-place'), 'it is chosen still')
    before = planned(page)
    page.script('document.querySelector(\'[aria-label="What can be put into the day"]\').focus()')
    page.keys(Keys.HOME, Keys.ENTER)
    page.until(lambda: 'is chosen still. Once more' in page.text('#said'), 'it is said')
    suite.equals('nothing is replaced', before, planned(page))
    page.keys(Keys.ENTER)
    page.until(lambda: planned(page) != before, 'once more, and it is')
    suite.console(page)


def questions(suite):
    """A question that can't be undone isn't confirmed by the key that asked it."""
    page = with_clips(suite)
    keys = Keyboard(page)
    page.go('clips', 1)
    keys.write('retire-clip', clip='C0000001')
    page.keys(Keys.ENTER)
    page.until(lambda: 'retired for good' in page.message('retire-clip'), 'the question')
    page.keys(Keys.ENTER)
    page.until(lambda: page.message('retire-clip') == '', 'Enter again takes it back')
    suite.equals('the focus is in the form', 'Retire', page.script('return document.activeElement.textContent'))
    keys.tab_to('form[data-form="retire-clip"] [name="clip"]', back=True)
    page.keys(Keys.ENTER)
    page.until(lambda: 'retired for good' in page.message('retire-clip'), 'the question again')
    page.keys(Keys.ESCAPE)
    suite.equals('Escape takes it back', '', page.message('retire-clip'))
    keys.tab_to('form[data-form="retire-clip"] [name="clip"]', back=True)
    page.keys(Keys.ENTER)
    page.until(lambda: page.all('form[data-form="retire-clip"] button.sure'), 'the question once more')
    page.script('''
        const field = document.querySelector('form[data-form="retire-clip"] [name="clip"]');
        field.value = 'C0000002';
        field.dispatchEvent(new Event('input', { bubbles: true }));''')
    suite.equals('a changed field takes it back', ['', 0], [page.message('retire-clip'), len(page.all(
        'form[data-form="retire-clip"] button.sure'))])
    suite.equals('no clip is retired', 0, asks(page, '1/clips').count('retired'))
    keys.tab_to('form[data-form="retire-clip"] [name="clip"]')
    keys.send('retire-clip', 'C0000002 is retired', sure=True)
    suite.equals('the focus isn\'t lost by it', True, page.script('return document.activeElement !== document.body'))
    page.go('day', 1, 1)
    page.submit('seal')
    page.until(lambda: page.message('seal') != '', 'a word on sealing')
    suite.holds(f'sealing asks first: {page.message("seal")}', 'sealed for good' in page.message('seal'))
    page.keys(Keys.ENTER)
    page.until(lambda: page.message('seal') == '', 'Enter takes it back')
    suite.equals('nothing was sealed', 'DAY 1 OPEN', asks(page, '1/days/1').splitlines()[0])
    suite.console(page)


def slow(suite):
    """An office of two seconds an answer: a frame at once, no plans for the strip, and what was left is given up."""
    page = with_clips(suite, (1, 2, 3))
    page.front.delay = 2
    page.driver.get(f'{page.url}/#/1/day/2')
    busy, begun = Busy(), time.monotonic()
    page.until(lambda: 'oading' in page.text('main'), 'it says that it loads')
    suite.figure('seconds until it says that it loads', time.monotonic() - begun, 1, busy)
    # The rate is the channel's row; the frame of the day comes before any of the day's own.
    page.until(lambda: page.seen('.timeline') and page.text('#day-state') == 'LOADING', 'the frame of the day')
    early_clicks(page)
    page.until(lambda: page.text('#day-state') == 'OPEN', 'the day')
    took = time.monotonic() - begun
    # The row, and then the plan with its tables: two answers, and what the page itself takes.
    suite.figure('seconds until a plan shows, three answers of two each', took, 7.5, busy)
    page.front.asked.clear()
    page.script('location.hash = "#/1/vault"')
    page.until(lambda: page.script('return document.body.dataset.frame') == '1/vault', 'another view')
    page.ready('vault')
    paths = [each[1] for each in page.front.asked]
    suite.equals('the view that was left asks for nothing more', [], [path for path in paths if '/days/' in path][1:])
    page.front.delay = 0
    page.front.asked.clear()
    page.leads('day', 1, 2)
    plans = [each[1] for each in page.front.asked if each[0] == 'GET' and '/days/' in each[1]]
    suite.equals('one plan is read, its own', ['/ch/1/days/2'], plans)
    strip = page.script('return [...document.querySelectorAll(".days a")].map((each) => each.textContent)')
    suite.equals('the strip tells the days around it',
                 ['1 open', '2 open', '3 open', '4 not there', '5 not there', '6 not there', '7 not there'], strip)
    suite.console(page)


def early_clicks(page):
    page.script('''
        for (const button of document.querySelectorAll('.tools button, .side button, .sources button')) button.click();
        const line = document.querySelector('.timeline');
        for (const key of ['+', '-', '0', 'n', 'p', 'g', 'Enter', 'Delete', 'Home', 'ArrowRight']) {
            line.dispatchEvent(new KeyboardEvent('keydown', { key, bubbles: true, cancelable: true }));
        }
        line.dispatchEvent(new WheelEvent('wheel', { deltaY: 60, bubbles: true, cancelable: true }));
        line.dispatchEvent(new MouseEvent('dblclick', { bubbles: true }));''')


def words_go(suite):
    """Words go with what they were about, and an import says what of a list was dropped and what lost nothing."""
    page = suite.office()
    subprocess_day(page)
    page.go('day', 1, 1)
    page.field('import', 'file').send_keys(day_file('morning.edl'))
    page.submit('import')
    page.done('import', '3 items of morning.edl')
    suite.holds('sound was dropped, a cut before a dissolve lost nothing', page.result('import').endswith(
        '2 events were skipped. Dropped: 1 event for the sound. 1 cut before a dissolve or wipe lose nothing.'))
    page.reach('#export').click()
    page.until(lambda: 'Day 1 is exported' in page.text('#said'), 'it is exported')
    page.leads('day', 1, 2)
    suite.equals('another day says nothing of it', '', page.text('#said'))
    page.leads('channel', 1)
    suite.holds('the channel has a tape', '2, 0 of them out' in page.text('#channel-has'))
    asks(page, '1/tapes/1/pull', '')
    page.script('window.dispatchEvent(new Event("focus"))')
    page.until(lambda: '2, 1 of them out' in page.text('#channel-has'), 'the channel reads again too')
    suite.console(page)


def subprocess_day(page):
    for number, (frames, first) in enumerate([(45000, '00:00:00:00'), (135000, '10:00:00:00')], 1):
        asks(page, '1/tapes', f'{{"barcode":"A000{number}","slot":{number}}}')
        asks(page, '1/clips', f'{{"frames":{frames},"in":"{first}","tape":{number},"title":"CLIP {number}",'
                              f'"umid":"{UMID}{number:02x}"}}')
    asks(page, '1/days', '{"day":1}')
    asks(page, '1/days', '{"day":2}')


def focus(suite):
    """The focus is always somewhere on the page, and one live region tells a thing once."""
    page = with_clips(suite, (1, 2))
    item(page, 1, '06:00:00:00', 100)
    keys = Keyboard(page)
    page.go('channel', 1)
    somewhere = lambda: page.script('return document.activeElement !== document.body')
    for letter, view in [('v', 'vault'), ('k', 'clips'), ('w', 'aired'), ('c', 'channel'), ('y', 'day')]:
        keys.view(letter, view)
        suite.holds(f'the focus after Alt+{letter}: {page.focus()}', somewhere())
    keys.tab_to('.days a[href="#/1/day/2"]')
    page.keys(Keys.ENTER)
    page.until(lambda: page.text('#day-state') == 'OPEN'
               and page.one('#day-number').get_attribute('value') == '2', 'day 2')
    suite.holds(f'the focus after Enter on a day: {page.focus()}', somewhere())
    page.leads('day', 1, 1)
    keys.tab_to(f'[aria-label="{PLAN}"]')
    page.keys(Keys.HOME, Keys.DELETE)
    page.until(lambda: keys.is_at('form[data-form="remove-item"] button.sure'), 'the question')
    page.keys(Keys.ENTER)
    page.done('remove-item', 'is taken out')
    page.until(lambda: page.focus() == PLAN, 'the focus at the plan after a confirmed question')
    live = 'return document.querySelectorAll("[aria-live], [role=status], [role=alert], [role=log]").length'
    for view, more in [('vault', []), ('clips', []), ('day', [1]), ('channel', []), ('aired', [1])]:
        page.leads(view, 1, *more)
        suite.equals(f'live regions in {view}', 1, page.script(live))
    page.leads('vault', 1)
    page.script('''
        window.told = [];
        new MutationObserver(() => window.told.push(document.getElementById('live').textContent))
            .observe(document.getElementById('live'), { childList: true, characterData: true, subtree: true });''')
    page.type('add-tape', barcode='B0001', slot=9)
    page.submit('add-tape')
    page.done('add-tape', 'stands in slot 9')
    suite.equals('it is told once', ['Tape 2, B0001, stands in slot 9.'], page.script('return window.told'))
    suite.console(page)


def drops(page, reel, place, shift):
    """A source dragged to a place of the time line, with Shift or without."""
    mouse = Mouse(page)
    chain = mouse.chain()
    line = page.one('.timeline')
    low = 50 - line.size['height'] / 2
    source = page.one(f'[aria-label="What can be put into the day"] [data-key="{reel}"]')
    if shift:
        chain.key_down(Keys.SHIFT)
    chain.move_to_element(source).click_and_hold().move_by_offset(-20, -5).move_to_element_with_offset(
        line, int(mouse.x_of(place)), int(low)).release()
    if shift:
        chain.key_up(Keys.SHIFT)
    chain.perform()


def shift_drop(suite):
    """A source begins where its neighbour ends, or with Shift where it is dropped."""
    page = with_clips(suite)
    item(page, 1, '06:00:00:00', 100)
    page.go('day', 1, 1)
    drops(page, 'C0000002', 1000000, False)
    page.done('add-item', 'begins at 06:00:04:00')
    drops(page, 'C0000002', 1000000, True)
    page.until(lambda: len(planned(page)) == 3, 'the second')
    label = planned(page)[2][1]
    hours, minutes = int(label[:2]), int(label[3:5])
    # 1,000,000 frames behind 06:00 is 17:06:40; a pixel is about a minute.
    suite.holds(f'it lies where it was dropped: {label}', abs(hours * 60 + minutes - (17 * 60 + 6)) <= 3)
    suite.console(page)


def by_keys_of_a_line(suite):
    """N and P go from item to item, one at a time."""
    page = with_clips(suite)
    for hour in range(6, 11):
        item(page, 1, f'{hour:02}:00:00:00', 100)
    page.go('day', 1, 1)
    page.script('document.querySelector(".timeline").focus()')
    page.keys(Keys.HOME)
    seen = []
    for key in ['n', 'n', 'n', 'p', 'n', 'n']:
        page.keys(key)
        seen.append(page.text('.readout')[:11])
    suite.equals('from item to item', [f'{hour:02}:00:00:00' for hour in [7, 8, 9, 8, 9, 10]], seen)
    suite.console(page)
