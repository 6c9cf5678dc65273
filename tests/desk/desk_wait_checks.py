"""What takes longer than a second: it says so, for how long, and is stopped."""

import re

from desk_defect_checks import item, planned, row, still, with_clips
from desk_list_checks import written
from desk_suite import asks
from desk_work_checks import places


def under_way(page, words):
    """What is under way is said with its seconds, and there is a stop."""
    page.until(lambda: re.search(words + r'.* \d+ s$', page.text('#said')) and page.seen('#stop'), words)


def progress(suite):
    """An import, a change of many items, a message of a form, and days that are read one by one."""
    page = with_clips(suite, (1, 2))
    for hour in ['06', '07', '08']:
        item(page, 1, f'{hour}:00:00:00', 100)
    page.go('day', 1, 1)
    still(page)
    page.front.delay = 2.2
    line = '001  BL       V     C        00:00:00:00 00:00:01:00 12:00:00:00 12:00:01:00\n'
    page.field('import', 'file').send_keys(written(suite, 'slow.edl', line))
    page.submit('import')
    under_way(page, 'Lists: sent for')
    page.done('import', '1 item of slow.edl')
    page.until(lambda: page.idle('import'), 'it is read again')
    suite.holds('there is nothing to stop any more', not page.seen('#stop'))
    before = places(page)
    row(page, 'item-1').click()
    page.type('move', step='+00:10:00')
    page.reach('#shift').click()
    under_way(page, '4 items from 06:00:00:00 on')
    page.one('#stop').click()
    page.until(lambda: 'Stopped waiting' in page.text('#said'), 'it is stopped')
    page.until(lambda: 'stopped before it was sent' in page.text('#said'), 'and what became of it is told')
    suite.equals('nothing was sent', before, places(page))
    page.until(lambda: page.idle('move'), 'the form is idle')
    of_a_form(suite, page)
    of_days(suite, page)
    suite.console(page)


def of_a_form(suite, page):
    """Where staff stop waiting for an answer, it isn't known; the office is asked."""
    page.type('add-item', source='BL', at='15:00:00:00', length='25')
    page.submit('add-item')
    under_way(page, 'Add an item: sent for')
    page.one('#stop').click()
    page.until(lambda: 'You stopped waiting for the answer. It may have been done' in page.message('add-item'), 'told')
    page.front.delay = 0
    page.until(lambda: page.one('form[data-form="add-item"] button.sure'), 'Ask the office').click()
    page.done('add-item', 'It was done: item 5 begins at 15:00:00:00')
    suite.equals('once', 1, asks(page, '1/days/1').count('15:00:00:00'))


def of_days(suite, page):
    """Days that are read one by one are stopped, and show what was found so far."""
    item(page, 1, '16:00:00:00', 25, 'C0000002')
    page.leads('clips', 1)
    page.front.delay = 0.2
    page.type('where', clip='C0000002', first='1', last='400')
    page.submit('where')
    under_way(page, 'of 400: 1 item so far')
    page.one('#stop').click()
    page.refused('where', None, 'Stopped. Day ')
    page.front.delay = 0
    suite.equals('what was found is shown', 1, len(page.all('[aria-label="Where the clip is planned"] .list-row')))
    page.until(lambda: page.idle('where'), 'the form is idle')
    suite.equals('the day is as it was', 1, len([each for each in planned(page) if each[3] == 'C0000002']))
