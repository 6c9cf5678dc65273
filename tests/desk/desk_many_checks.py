"""Several rows at once: lent, retired, recalled and pulled by one question, each with its result."""

import json

from selenium.webdriver.common.action_chains import ActionChains
from selenium.webdriver.common.keys import Keys

from desk_day_checks import shown
from desk_suite import UMID, asks

MANY = 12


def with_many(suite):
    page = suite.office()
    for number in range(1, MANY + 1):
        asks(page, '1/tapes', f'{{"barcode":"A{number:04}","slot":{number}}}')
        asks(page, '1/clips', json.dumps({'frames': 25, 'in': '00:00:00:00', 'tape': number, 'title': f'PART {number}',
                                          'umid': f'{UMID}{number:02x}'}))
    return page


def chooses(page, label, first, last):
    """All rows from a first to a last one, by Shift."""
    row = lambda key: page.until(lambda: page.one(f'[aria-label="{label}"] [data-key="{key}"]'), f'the row {key}')
    row(first).click()
    ActionChains(page.driver, duration=10).key_down(Keys.SHIFT).click(row(last)).key_up(Keys.SHIFT).perform()


def results(page, title):
    return [each[2] for each in shown(page, f'Report: {title}')]


def many(suite):
    """Clips are lent and retired, offers recalled, tapes pulled: several by one question, and each is told."""
    page = with_many(suite)
    page.go('clips', 1)
    asks(page, '1/offers', '{"clip":"C0000002","to":2}')
    chooses(page, 'Clips', 'C0000001', 'C0000003')
    suite.equals('the forms have them', 'C0000001 C0000002 C0000003',
                 page.field('lend', 'clip').get_attribute('value'))
    page.type('lend', to='2', first='1', last='7')
    page.submit('lend')
    page.until(lambda: 'Lend 3 clips, C0000001 PART 1 to C0000003 PART 3, to channel 2 for days 1 to 7?'
               in page.message('lend'), 'one question')
    page.one('form[data-form="lend"] button.sure').click()
    page.done('lend', '3 lines: 2 lines done, 1 refused')
    suite.equals('each has its result', [True, True, True], [word in each for word, each in zip(
        ['C0000001 is lent to channel 2', '64 AlreadyOffered', 'C0000003 is lent to channel 2'],
        results(page, 'Lend a clip'))])
    suite.equals('the office has them', 3, asks(page, '1/offers').count(' open'))
    page.until(lambda: page.idle('lend'), 'it is read again')
    chooses(page, 'Lent by this channel', '1', '3')
    page.submit('recall')
    page.until(lambda: '3 offers, 1 to 3, are then withdrawn' in page.message('recall'), 'one question')
    page.one('form[data-form="recall"] button.sure').click()
    page.done('recall', '3 lines: 3 lines done, 0 refused')
    suite.equals('none is lent any more', 0, asks(page, '1/offers').count(' open'))
    retired_over_a_reload(suite, page)
    pulled(suite, page)
    suite.console(page)


def retired_over_a_reload(suite, page):
    """A tab that is loaded anew in the middle goes on from there, and nothing is done twice."""
    page.until(lambda: page.idle('recall'), 'it is read again')
    chooses(page, 'Clips', 'C0000004', f'C{MANY:07}')
    page.front.delay = 0.15
    page.front.asked.clear()
    page.submit('retire-clip')
    page.until(lambda: page.one('form[data-form="retire-clip"] button.sure'), 'the question').click()
    page.until(lambda: asks(page, '1/clips').count('retired') >= 3, 'it is under way')
    page.script('addEventListener("beforeunload", (event) => event.stopImmediatePropagation(), true)')
    page.driver.refresh()
    page.front.delay = 0
    page.ready('clips')
    page.until(lambda: 'It was stopped' in page.message('retire-clip') or 'Another tab' in page.message('retire-clip'),
               'it is there again')
    page.script('''
        for (const key of Object.keys(localStorage)) {
            if (!/^desk.bulk.1.many-retire.[0-9a-f-]+$/.test(key)) continue;
            const head = JSON.parse(localStorage.getItem(key));
            if (head.file) localStorage.setItem(key, JSON.stringify({ ...head, at: 0 }));
        }''')
    page.driver.refresh()
    page.ready('clips')
    page.until(lambda: page.reach('button.go-on'), 'it can be gone on with').click()
    page.done('retire-clip', f'{MANY - 3} lines: {MANY - 3} lines done, 0 refused')
    suite.equals('all are retired, the first three not', MANY - 3, asks(page, '1/clips').count('retired'))
    sent = [path for kind, path, _ in page.front.asked if kind == 'POST']
    suite.equals('none was sent twice', len(set(sent)), len(sent))


def pulled(suite, page):
    page.leads('vault', 1)
    chooses(page, 'Shelf by slots', 'tape-2', 'tape-5')
    suite.equals('the form has their barcodes', 'A0002 A0003 A0004 A0005',
                 page.field('pull-tape', 'tape').get_attribute('value'))
    asks(page, '1/tapes/3/pull', '')
    page.submit('pull-tape')
    page.until(lambda: 'Pull 4 tapes, A0002 to A0005?' in page.message('pull-tape'), 'one question')
    page.one('form[data-form="pull-tape"] button.sure').click()
    page.done('pull-tape', '4 lines: 3 lines done, 1 refused')
    suite.holds('the one that a colleague pulled is told', '46 TapeOut' in results(page, 'Pull a tape')[1])
    suite.equals('they are out', 4, asks(page, '1/tapes').count(' out'))
    page.type('pull-tape', tape='a0009')
    page.submit('pull-tape')
    page.done('pull-tape', 'Tape 9 is out')
    suite.passes()
