"""What a planner does besides: things are inserted and the rest pushed on, a label is gone to, days and channels are
named."""

from selenium.webdriver.common.action_chains import ActionChains
from selenium.webdriver.common.keys import Keys

from desk_defect_checks import PLAN, item, planned, row, still, with_clips
from desk_form_checks import SITE
from desk_suite import asks
from desk_work_checks import ctrl, lent_clips, places, settled, three


def inserts(suite):
    """A source is put in before an item, and what follows is pushed on, as far as the next gaps don't take it."""
    page = with_clips(suite)
    for at, frames, source in [('06:00:00:00', 2000, 'C0000001'), ('06:01:20:00', 100, 'BL'),
                               ('06:01:25:00', 100, 'BARS'), ('07:00:00:00', 50, 'BL')]:
        item(page, 1, at, frames, source)
    page.go('day', 1, 1)
    still(page)
    before = planned(page)
    row(page, 'item-2').click()
    page.front.asked.clear()
    page.reach('#source-search').send_keys('trail')
    page.script('document.querySelector("#source-search").focus()')
    ActionChains(page.driver).key_down(Keys.SHIFT).send_keys(Keys.ENTER).key_up(Keys.SHIFT).perform()
    settled(page, lambda: True, 'inserted', 5)
    # The black is pushed on by 25 frames, which the gap in front of the bars takes up.
    suite.equals('it is before the black, which is pushed on to the bars', [
        ('06:00:00:00', 2000, 'C0000001'), ('06:01:20:00', 25, 'C0000002'), ('06:01:21:00', 100, 'BL'),
        ('06:01:25:00', 100, 'BARS'), ('07:00:00:00', 50, 'BL')], places(page))
    suite.equals('by one message', ['/ch/1/days/1/revise'], [each[1] for each in page.front.asked if each[0] == 'POST'])
    page.until(lambda: '1 item pushed on' in page.text('#said'), 'it is told')
    page.script('document.querySelector(".timeline").focus()')
    ctrl(page, 'z')
    settled(page, lambda: [each[1:] for each in planned(page)] == [each[1:] for each in before], 'taken back', 4)
    page.until(lambda: '...' not in page.text('#said'), 'told')
    by_the_form(suite, page)
    suite.console(page)


def by_the_form(suite, page):
    """Black has no length of its own, so the form asks for it; what the gaps don't take is refused."""
    page.one('#source-search').send_keys(Keys.BACKSPACE * 5)
    row(page, 'item-1').click()
    page.script('''document.querySelector('[aria-label="What can be put into the day"] [data-key="BL"]').click()''')
    page.one('#insert').click()
    page.until(lambda: page.focus() == 'length', 'the length is asked for')
    page.keys('00:00:02:00')
    page.reach('#insert-push').click()
    settled(page, lambda: places(page)[:3] == [('06:00:00:00', 50, 'BL'), ('06:00:02:00', 2000, 'C0000001'),
                                               ('06:01:22:00', 100, 'BL')], 'all are pushed on', 5)
    suite.equals('but what is behind the gap', ('07:00:00:00', 50, 'BL'), places(page)[-1])
    page.until(lambda: page.idle('add-item'), 'it is read again')
    page.type('add-item', source='BL', at='06:00:00:00', length='23:59:00:00')
    page.reach('#insert-push').click()
    page.until(lambda: 'don\'t take so much' in page.message('add-item'), 'the day hasn\'t so much room')
    suite.equals('nothing was changed', 5, len(planned(page)))


def goes(suite):
    """A label is typed, by a key, and the cursor and the plan go there; one that is none is said."""
    page = three(suite)
    page.script('document.getElementById("go-to").focus()')
    suite.equals('by a key', 'g', page.one('#go-to').get_attribute('accesskey'))
    page.keys('07000510', Keys.ENTER)
    page.until(lambda: page.one('.timeline').get_attribute('data-cursor') == '90135', 'the cursor is there')
    suite.equals('the item there is chosen', ['item-2', '2'], [
        page.one(f'[aria-label="{PLAN}"] .active').get_attribute('data-key'),
        page.one('.timeline').get_attribute('data-chosen')])
    page.one('#go-to').clear()
    page.one('#go-to').send_keys('07300000', Keys.ENTER)
    page.until(lambda: page.one('.timeline').get_attribute('data-cursor') == '135000', 'in a gap')
    suite.equals('nothing is chosen but the gap', ['gap-91000', ''], [
        page.one(f'[aria-label="{PLAN}"] .active').get_attribute('data-key'),
        page.one('.timeline').get_attribute('data-chosen')])
    page.one('#go-to').clear()
    page.one('#go-to').send_keys('25000000', Keys.ENTER)
    page.until(lambda: '2 LabelRange' in page.script(
        'return document.getElementById("go-to").nextElementSibling.textContent'), 'a label that is none')
    suite.equals('the cursor stays', '135000', page.one('.timeline').get_attribute('data-cursor'))
    suite.console(page)


def says(page, form, name):
    return page.script('return arguments[0].closest(".field").querySelector(".says").textContent',
                       page.field(form, name))


def named(suite):
    """Wherever a day or a channel is asked, its date or its name is taken, and said beside its number."""
    page = with_clips(suite, (1, 3))
    lent_clips(page)
    page.front.site = SITE
    page.go('clips', 1)
    page.type('lend', clip='C0000001', to='2', first='3', last='2026-01-07')
    suite.equals('what the numbers and dates are', ['CH 002 TWO', 'Sat 3 Jan 2026', 'day 7'],
                 [says(page, 'lend', name) for name in ['to', 'first', 'last']])
    page.type('lend', to='tw')
    page.submit('lend')
    page.done('lend', 'C0000001 is lent to channel 2 TWO for days 3 to 7 by offer 1')
    page.until(lambda: page.idle('lend'), 'it is read again')
    page.type('lend', clip='C0000002', to='THREE')
    page.submit('lend')
    page.refused('lend', 'to', 'No channel is called THREE')
    page.type('lend', to='2', first='31 Dec 2025', last='2')
    page.submit('lend')
    page.refused('lend', 'first', 'No day has the date')
    page.type('recall', offer='1')
    suite.equals('what an offer is', 'C0000001 NEWS to CH 2 TWO for days 3 to 7', says(page, 'recall', 'offer'))
    page.submit('recall')
    page.until(lambda: 'C0000001 NEWS to CH 2 TWO' in page.message('recall'), 'it is asked by its names')
    page.type('where', clip='C0000003', first='1 Jan 2026', last='2026-01-03')
    page.submit('where')
    page.done('where', 'days 1 to 3')
    item(page, 3, '06:00:00:00', 25, 'C0000002')
    page.leads('day', 1, 1)
    page.type('copy-day', **{'from': '2026-01-03'})
    suite.equals('a day by its date', 'day 3', says(page, 'copy-day', 'from'))
    page.submit('copy-day')
    settled(page, lambda: places(page) == [('06:00:00:00', 25, 'C0000002')], 'copied', 1)
    suite.equals('the offer is there still', 1, asks(page, '1/offers').count('open'))
    suite.console(page)


def filled(page, day):
    asks(page, '1/days', f'{{"day":{day}}}')
    asks(page, f'1/days/{day}/items', '{"at":"06:00:00:00","frames":2160000,"in":"00:00:00:00","mix":0,"source":"BL"}')


def period(suite):
    """A month and a week of days: what each is; by keys and by the mouse; and a day opens from there."""
    page = with_clips(suite, (1,))
    item(page, 1, '06:00:00:00', 90000)
    for day in [2, 3]:
        filled(page, day)
    asks(page, '1/days/2/seal', '')
    page.front.site = SITE
    page.go('days', 1, 1)
    word = lambda day: page.script('return document.querySelector(`.period a[data-day="${arguments[0]}"]`)'
                                   '?.getAttribute("aria-label")', day)
    page.until(lambda: word(1) == 'day 1, Thu 1 Jan 2026, open, gaps, 1 item, 23:00:00:00 empty', 'gaps')
    suite.equals('what each day is', [
        'day 2, Fri 2 Jan 2026, sealed, 1 item', 'day 3, Sat 3 Jan 2026, open, full, 1 item',
        'day 4, Sun 4 Jan 2026, not there'], [word(day) for day in (2, 3, 4)])
    suite.equals('the month, counted', '1 day sealed, 1 open and full, 1 with gaps, 28 not there',
                 page.text('#period-summary'))
    suite.equals('dates before day 1 are no days', None, word(0))
    page.script('document.querySelector(".period a[tabindex=\\"0\\"]").focus()')
    page.keys(Keys.ARROW_DOWN, Keys.ARROW_LEFT)
    suite.equals('arrows go from day to day', '7', page.script('return document.activeElement.dataset.day'))
    page.keys(Keys.PAGE_DOWN)
    suite.equals('Page Down is the next month', 'February 2026', page.text('#period-title'))
    page.keys(Keys.PAGE_UP, Keys.PAGE_UP)
    page.one('#period option[value="week"]').click()
    page.until(lambda: page.text('#period-title').startswith('Week of '), 'a week')
    suite.equals('seven days', 7, len(page.all('.period td')))
    page.leads('days', 1, 3)
    page.one('.period a[data-day="3"]').click()
    page.ready('day')
    suite.equals('a click opens the day', '3', page.one('#day-number').get_attribute('value'))
    page.front.site = None
    page.leads('days', 1, 3)
    page.driver.refresh()
    page.ready('days')
    page.until(lambda: word(2) == 'day 2, sealed, 1 item', 'by numbers, without dates')
    suite.equals('seven in a row', 'Days 1 to 7', page.text('#period-title'))
    at_the_cursor(suite, page)
    suite.console(page)


def at_the_cursor(suite, page):
    """A list begins where the cursor is, not at its own labels."""
    file = f'{suite.directory}/short.edl'
    with open(file, 'w', encoding='ascii') as out:
        out.write('001  BARS     V     C        00:00:00:00 00:00:01:00 01:00:00:00 01:00:01:00\n'
                  '002  BL       V     C        00:00:00:00 00:00:01:00 01:00:02:00 01:00:03:00\n')
    page.leads('day', 1, 1)
    still(page)
    page.one('#go-to').send_keys('08000000', Keys.ENTER)
    page.until(lambda: page.one('.timeline').get_attribute('data-cursor') == '180000', 'the cursor is there')
    page.type('import', file=file, where='cursor')
    page.submit('import')
    page.done('import', '2 items of short.edl')
    suite.equals('from the cursor on, as far apart as they were',
                 [('08:00:00:00', 25, 'BARS'), ('08:00:02:00', 25, 'BL')], places(page)[1:])
    page.until(lambda: page.idle('import'), 'it is read again')
    page.script('document.querySelector(".timeline").focus()')
    ctrl(page, 'z')
    settled(page, lambda: True, 'taken back at once', 1)
    suite.passes()
