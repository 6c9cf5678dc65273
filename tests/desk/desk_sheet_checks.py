"""The plan as it is edited in its list: cells, refusals in their place, and what colleagues do meanwhile."""

from selenium.webdriver.common.action_chains import ActionChains
from selenium.webdriver.common.keys import Keys

from desk_day_checks import shown
from desk_defect_checks import PLAN, item, planned, row, still
from desk_suite import asks
from desk_work_checks import ctrl, settled, three

COLUMNS = {'at': 2, 'length': 3, 'source': 5, 'kind': 6, 'in': 7}


def cell(page, key, field):
    return row(page, key).find_element('css selector', f'[aria-colindex="{COLUMNS[field]}"]')


def opened(page):
    """The name and the text of the cell that is open, and what is said beside it."""
    return page.script('''
        const input = document.querySelector('.cell-edit:not([hidden]) > input');
        return input && [input.getAttribute('aria-label'), input.value,
            document.getElementById(input.getAttribute('aria-describedby')).textContent,
            document.activeElement === input];''')


def revisions(page):
    return [each[2] for each in page.front.asked if each[0] == 'POST']


def sheet(suite):
    """Typed, tabbed through and entered: the cells of a row are one change. Escape gives them back."""
    page = three(suite)
    cell(page, 'item-2', 'at').click()
    page.front.asked.clear()
    page.keys('07010000', Keys.TAB)
    suite.equals('Tab is the next cell, with what it has', ['Length of item 2', '00:00:40:00', '', True], opened(page))
    suite.equals('what was typed stands in its cell', '07010000', cell(page, 'item-2', 'at').text)
    ActionChains(page.driver).key_down(Keys.SHIFT).send_keys(Keys.TAB).key_up(Keys.SHIFT).perform()
    suite.equals('Shift+Tab is the one before', ['Begins of item 2', '07010000', '', True], opened(page))
    suite.equals('nothing was sent', [], revisions(page))
    page.keys(Keys.TAB)
    page.keys(Keys.BACKSPACE * 11, '500', Keys.TAB, Keys.TAB, Keys.BACKSPACE * 3, 'd 25', Keys.TAB)
    suite.equals('to the last one', 'From of item 2', opened(page)[0])
    page.keys(Keys.ENTER)
    settled(page, lambda: planned(page)[1][1:] == ('07:01:00:00', 500, 'C0000003', '00:00:10:00'), 'one change')
    suite.equals('by one message', 1, len(revisions(page)))
    suite.holds('a dissolve too', 'D    025 C0000003' in asks(page, '1/days/1'))
    page.until(lambda: cell(page, 'item-2', 'at').text == '07:01:00:00', 'the row is as the office has it')
    suite.equals('the list has the focus', PLAN, page.focus())
    page.keys(Keys.F2)
    suite.equals('F2 opens the cell', ['From of item 2', '00:00:10:00', '', True], opened(page))
    page.keys(Keys.BACKSPACE, '5', Keys.ESCAPE)
    suite.equals('Escape gives back', [None, '00:00:10:00'], [opened(page), cell(page, 'item-2', 'in').text])
    suite.equals('and sends nothing', 1, len(revisions(page)))
    ActionChains(page.driver, duration=20).double_click(cell(page, 'item-3', 'length')).perform()
    suite.equals('a double click opens a cell', 'Length of item 3', opened(page)[0])
    page.keys(Keys.BACKSPACE * 11, '75')
    page.one('.timeline').click()
    settled(page, lambda: planned(page)[2][2] == 75, 'a click elsewhere sends what was typed')
    page.until(lambda: '...' not in page.text('#said'), 'told')
    ctrl(page, 'z')
    settled(page, lambda: planned(page)[2][2] == 100, 'it is taken back as any change')
    refused_in_its_place(suite, page)
    sources_by_title(suite, page)
    meanwhile(suite, page)
    folded(suite, page)
    suite.console(page)


def refused_in_its_place(suite, page):
    """What can't be stands beside its cell, with what was typed; what is typed then goes on from there."""
    before = asks(page, '1/days/1')
    cell(page, 'item-3', 'at').click()
    page.keys('9', Keys.ENTER)
    page.until(lambda: '1 LabelForm' in opened(page)[2], 'a label that is none')
    suite.equals('beside the cell, which keeps it', ['Begins of item 3', '9', True],
                 [opened(page)[index] for index in (0, 1, 3)])
    page.keys(Keys.BACKSPACE, '06000010', Keys.ENTER)
    page.until(lambda: opened(page) and 'is taken' in opened(page)[2], 'a place that is taken')
    suite.equals('it is open again', ['Begins of item 3', '06000010', True],
                 [opened(page)[index] for index in (0, 1, 3)])
    suite.equals('nothing was changed', before, asks(page, '1/days/1'))
    page.keys(Keys.TAB)
    page.keys(Keys.BACKSPACE * 11, '0', Keys.ENTER)
    page.until(lambda: '87 EmptyItem' in opened(page)[2], 'no length')
    page.keys(Keys.ESCAPE)
    cell(page, 'item-2', 'length').click()
    page.keys('60000', Keys.ENTER)
    page.until(lambda: opened(page) and 'hasn\'t all these frames' in opened(page)[2], 'the clip is shorter')
    suite.equals('beside the length, which was typed', 'Length of item 2', opened(page)[0])
    page.front.forged_at = ('/revise', 409, {'code': 80, 'item': 1, 'refused': 'MixLong'})
    page.keys(Keys.BACKSPACE * 5, '499', Keys.TAB, Keys.TAB, Keys.BACKSPACE * 12, 'd 30', Keys.ENTER)
    page.until(lambda: opened(page) and '80 MixLong' in opened(page)[2], 'what the office refuses')
    suite.equals('beside the cell that it is about', ['Kind of item 2', 'd 30'], opened(page)[:2])
    page.keys(Keys.ESCAPE)
    suite.equals('nothing was changed still', before, asks(page, '1/days/1'))


def sources_by_title(suite, page):
    """A source is typed by its reel or its title; another takes the item's place, and one is put into a gap."""
    cell(page, 'item-3', 'source').click()
    page.keys('e', Keys.ENTER)
    page.until(lambda: opened(page) and '2 sources are like this' in opened(page)[2], 'two titles have it')
    page.keys(Keys.BACKSPACE, 'trail', Keys.ENTER)
    settled(page, lambda: planned(page)[2][1:] == ('08:00:00:00', 25, 'C0000002', '00:00:00:00'),
            'as long as it is, from its first frame')
    page.until(lambda: '...' not in page.text('#said'), 'told')
    gap = page.script('return document.querySelector(`[aria-label="${arguments[0]}"] .list-row.gap`).dataset.key',
                      PLAN)
    cell(page, gap, 'source').click()
    page.keys('news', Keys.ENTER)
    settled(page, lambda: (planned(page)[1][1:4]) == ('06:01:20:00', 2000, 'C0000001'), 'put into the gap', 4)
    page.until(lambda: '...' not in page.text('#said'), 'told')
    ctrl(page, 'z')
    settled(page, lambda: True, 'taken back')
    page.until(lambda: len([each for each in shown(page, PLAN) if each[0]]) == 3, 'three rows')


def meanwhile(suite, page):
    """A colleague's change leaves what is typed; the second Enter changes the item as it is then. A row that goes
    away says what was typed into it."""
    cell(page, 'item-3', 'length').click()
    page.keys('20')
    asks(page, '1/days/1/revise', '{"add":[{"at":"09:00:00:00","frames":25,"in":"00:00:00:00","mix":0,'
                                  '"source":"C0000002"}],"remove":[3]}')
    page.script('window.dispatchEvent(new Event("focus"))')
    page.until(lambda: opened(page) and '09:00:00:00' in opened(page)[2], 'the colleague\'s change is told')
    suite.equals('what is typed stays', ['Length of item 3', '20', True], [opened(page)[index] for index in (0, 1, 3)])
    before = asks(page, '1/days/1')
    page.keys(Keys.ENTER)
    page.until(lambda: 'Enter changes it as it is now' in opened(page)[2], 'the first Enter asks')
    suite.equals('and sends nothing', before, asks(page, '1/days/1'))
    page.keys(Keys.ENTER)
    settled(page, lambda: planned(page)[2][1:3] == ('09:00:00:00', 20), 'the second changes it')
    page.until(lambda: '...' not in page.text('#said'), 'told')
    cell(page, 'item-3', 'length').click()
    page.keys('15')
    page.driver.refresh()
    page.ready('day')
    still(page)
    page.until(lambda: cell(page, 'item-3', 'length').text == '15', 'it stands there over a reload')
    suite.equals('nothing was sent', 20, planned(page)[2][2])
    cell(page, 'item-3', 'length').click()
    page.keys(Keys.F2)
    suite.equals('and is gone on with', ['Length of item 3', '15'], opened(page)[:2])
    asks(page, '1/days/1/items/3/remove', '')
    page.script('window.dispatchEvent(new Event("focus"))')
    page.until(lambda: 'You had typed: Length 15' in page.text('#typed-lost'), 'what was typed is said')
    item(page, 1, '09:00:00:00', 100, 'BARS')
    page.script('window.dispatchEvent(new Event("focus"))')
    page.until(lambda: len([each for each in shown(page, PLAN) if each[0]]) == 3, 'three rows again')


def folded(suite, page):
    """The forms are folded away, and the plan has their room; so it stays."""
    width = lambda: page.script('return document.querySelector(arguments[0]).clientWidth', f'[aria-label="{PLAN}"]')
    before = width()
    page.one('#forms').click()
    page.until(lambda: width() > before + 300, 'the plan has the room of the forms')
    suite.holds('they are away', not page.seen('form[data-form="add-item"]'))
    page.driver.refresh()
    page.ready('day')
    suite.holds('and stay so', width() > before + 300 and not page.seen('form[data-form="add-item"]'))
    page.one('#forms').click()
    page.until(lambda: page.seen('form[data-form="add-item"]'), 'they are there again')
    suite.passes()
