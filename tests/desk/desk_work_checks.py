"""What staff do all day with a plan: days are copied, items moved, trimmed, replaced, shifted and taken back."""

import json
import pathlib

from selenium.webdriver.common.action_chains import ActionChains
from selenium.webdriver.common.keys import Keys

from desk_day_checks import Keyboard, Mouse, shown
from desk_defect_checks import PLAN, item, planned, row, still, with_clips
from desk_suite import asks

NOTICE = 'section[aria-label="To decide"]'


def places(page, day=1):
    return [each[1:4] for each in planned(page, day)]


def settled(page, look, what, count=3):
    """A change is done and the page knows it."""
    page.until(lambda: len(planned(page)) == count and look(), what)
    page.until(lambda: page.script('return sessionStorage.getItem("1/1/doubt")') is None, f'{what}: through')


def ctrl(page, letter, shift=False):
    chain = ActionChains(page.driver, duration=10).key_down(Keys.CONTROL)
    if shift:
        chain.key_down(Keys.SHIFT)
    chain.send_keys(letter)
    if shift:
        chain.key_up(Keys.SHIFT)
    chain.key_up(Keys.CONTROL).perform()


def lent_clips(page):
    """Two clips that channel 2 lends to channel 1: one for each day, one for day 1 alone."""
    asks(page, '2/tapes', '{"barcode":"B0001","slot":1}')
    for number, title in [(1, 'CUP FINAL'), (2, 'HIGHLIGHTS')]:
        asks(page, '2/clips', json.dumps({'frames': 500, 'in': '01:00:00:00', 'tape': 1, 'title': title,
                                          'umid': f'060a2b340101010501010d2013000000{number:032x}'}))
    asks(page, '2/offers', '{"clip":"C0000001","to":1}')
    asks(page, '2/offers', '{"clip":"C0000002","first":1,"last":1,"to":1}')


def copies(suite):
    """Yesterday as today: one step. What can't come is listed beforehand, and the rest goes on choice."""
    page = with_clips(suite, (1,))
    lent_clips(page)
    for at, frames, source, first in [('06:00:00:00', 100, 'BL', '00:00:00:00'),
                                      ('07:00:00:00', 2000, 'C0000001', '00:00:00:00'),
                                      ('08:00:00:00', 25, 'C0000002', '00:00:00:00'),
                                      ('09:00:00:00', 500, 'L0020001', '01:00:00:00'),
                                      ('10:00:00:00', 500, 'L0020002', '01:00:00:00')]:
        item(page, 1, at, frames, source, first)
    asks(page, '1/days/1/import/strict',
         '001  C0000003 V     W001 012 00:00:01:00 00:00:02:00 11:00:00:00 11:00:01:00\n')
    page.go('day', 1, 2)
    asks(page, '1/clips/2/retire', '')
    asks(page, '2/offers/1/withdraw', '')
    page.submit('open-day')
    page.until(lambda: page.text('#day-state') == 'OPEN', 'day 2 is open')
    suite.equals('yesterday is proposed', '1', page.field('copy-day', 'from').get_attribute('value'))
    page.submit('copy-day')
    page.until(lambda: page.seen(NOTICE), 'what can\'t come is listed')
    suite.equals('each with why', [
        ['08:00:00:00', 'C0000002', 'TRAILER', 'the clip is retired'],
        ['09:00:00:00', 'L0020001', 'CUP FINAL', 'its owner recalled the clip'],
        ['10:00:00:00', 'L0020002', 'HIGHLIGHTS', 'the clip is lent for days 1 to 1']], shown(page, 'What can\'t come'))
    suite.equals('nothing came yet', [], planned(page, 2))
    page.one(f'{NOTICE} button').click()
    page.until(lambda: len(planned(page, 2)) == 3, 'the rest comes')
    wanted = [line[5:] for line in asks(page, '1/days/1').splitlines()[1:-1]
              if not any(reel in line for reel in ['C0000002', 'L00'])]
    suite.equals('as it was, wipes too', wanted, [line[5:] for line in asks(page, '1/days/2').splitlines()[1:-1]])
    again_and_back(suite, page)
    one_step(suite, page)
    suite.console(page)


def again_and_back(suite, page):
    """What is there already is named too, and a copy is taken back at once."""
    page.until(lambda: page.one('#undo').get_attribute('aria-disabled') == 'false', 'the copy can be taken back')
    page.submit('copy-day')
    page.until(lambda: page.seen(NOTICE) and len(shown(page, 'What can\'t come')) == 6, 'all are taken')
    suite.equals('none is copied twice', 3, len(planned(page, 2)))
    page.all(f'{NOTICE} button')[-1].click()
    page.reach('#undo').click()
    page.until(lambda: planned(page, 2) == [], 'taken back')
    page.reach('#redo').click()
    page.until(lambda: len(planned(page, 2)) == 3, 'done again')
    suite.passes()


def one_step(suite, page):
    """A day that isn't there is opened as the day before was, by one click, and nothing is asked where all can come."""
    page.leads('day', 1, 3)
    page.front.asked.clear()
    page.one('#open-as-before').click()
    page.until(lambda: len(planned(page, 3)) == 3, 'day 3 is as day 2')
    suite.equals('the same items', places(page, 2), places(page, 3))
    done = [each[1] for each in page.front.asked if each[0] == 'POST']
    suite.equals('by one message for the day, and one for its items', ['/ch/1/days', '/ch/1/days/3/revise'],
                 done)
    page.until(lambda: 'of day 2 copied' in page.text('#said'), 'it is said')


def three(suite):
    page = with_clips(suite)
    item(page, 1, '06:00:00:00', 2000, 'C0000001')
    item(page, 1, '07:00:00:00', 1000, 'C0000003', '00:00:10:00')
    item(page, 1, '08:00:00:00', 100, 'BARS')
    page.go('day', 1, 1)
    still(page)
    page.until(lambda: len(shown(page, PLAN)) >= 5, 'the plan')
    return page


def moves(suite):
    """Moved, trimmed and shifted by a number, taken back and done again."""
    page = three(suite)
    before = planned(page)
    row(page, 'item-2').click()
    page.type('move', step='+00:01:00')
    page.submit('move')
    page.done('move', 'moved by +00:01:00:00')
    suite.equals('a minute later', ('07:01:00:00', 1000, 'C0000003', '00:00:10:00'), planned(page)[1][1:])
    page.until(lambda: page.field('edit-item', 'at').get_attribute('value') == '07:01:00:00', 'it is chosen still')
    page.type('edit-item', length='00:00:20:00', **{'in': '00:00:05:00'})
    page.submit('edit-item')
    settled(page, lambda: planned(page)[1][2] == 500, 'trimmed by a number')
    suite.equals('from another frame', '00:00:05:00', planned(page)[1][4])
    row(page, 'item-1').click()
    page.type('move', step='00100000')
    page.reach('#shift').click()
    settled(page, lambda: [each[0] for each in places(page)] == ['06:10:00:00', '07:11:00:00', '08:10:00:00'],
            'all shifted')
    suite.equals('nothing is in doubt', None, page.script('return sessionStorage.getItem("1/1/doubt")'))
    page.script('document.querySelector(".timeline").focus()')
    for wanted in [['06:00:00:00', '07:01:00:00', '08:00:00:00'], None, [each[1] for each in before]]:
        ctrl(page, 'z')
        if wanted:
            settled(page, lambda: [each[0] for each in places(page)] == wanted, f'taken back to {wanted}')
        else:
            settled(page, lambda: planned(page)[1][2] == 1000, 'the trim is taken back')
    suite.equals('as before', [each[1:] for each in before], [each[1:] for each in planned(page)])
    ctrl(page, 'z', shift=True)
    settled(page, lambda: places(page)[1][0] == '07:01:00:00', 'done again')
    page.reach('#redo').click()
    settled(page, lambda: planned(page)[1][2] == 500, 'and the trim')
    not_over_others(suite, page)
    suite.console(page)


def not_over_others(suite, page):
    """What doesn't fit is refused in words, before anything is taken out."""
    before = asks(page, '1/days/1')
    row(page, 'item-1').click()
    page.type('move', step='+01:00:00')
    page.submit('move')
    page.refused('move', None, 'can\'t be put in')
    suite.holds('where it is taken', '07:01:00:00 is taken' in page.message('move'))
    page.type('move', step='-00:00:01')
    page.reach('#shift').click()
    page.refused('move', None, 'is outside the day')
    suite.equals('nothing was changed', before, asks(page, '1/days/1'))
    # A retired clip couldn't be put in again, so its item isn't taken out.
    asks(page, '1/clips/1/retire', '')
    page.type('move', step='+00:00:01')
    page.submit('move')
    page.refused('move', None, 'the clip is retired')
    suite.equals('the item is where it was', before, asks(page, '1/days/1'))


def nearer(page, times):
    page.script('''
        const line = document.querySelector('.timeline');
        line.focus();
        for (let turn = 0; turn < arguments[0]; turn += 1) {
            line.dispatchEvent(new KeyboardEvent('keydown', { key: '+', bubbles: true }));
        }''', times)


def pull(page, place, pixels, shift=False, escapes=False):
    """What is at a place of the time line, pulled by so many pixels."""
    mouse, line = Mouse(page), page.one('.timeline')
    low = int(60 - line.size['height'] / 2)
    page.until(lambda: 0 <= mouse.x_of(place) + line.size['width'] / 2 < line.size['width'], f'{place} is in view')
    chain = mouse.chain()
    chain.move_to_element_with_offset(line, int(mouse.x_of(place)), low).click_and_hold()
    if shift:
        chain.key_down(Keys.SHIFT)
    chain.move_by_offset(pixels // 2, 0).move_by_offset(pixels - pixels // 2, 0)
    if escapes:
        chain.send_keys(Keys.ESCAPE)
    chain.release()
    if shift:
        chain.key_up(Keys.SHIFT)
    chain.perform()


def drags(suite):
    """A chosen item is moved by the mouse and snaps to its neighbour; an edge trims it; Escape gives up."""
    page = three(suite)
    page.script('document.querySelector(".timeline").focus()')
    page.keys(Keys.HOME)
    row(page, 'item-2').click()
    line = page.one('.timeline')

    def pulled(place, pixels, shift=False, escapes=False):
        pull(page, place, pixels, shift, escapes)

    nearer(page, 7)
    page.until(lambda: float(line.get_attribute('data-per-pixel')) < 200, 'near enough')
    scale = float(line.get_attribute('data-per-pixel'))
    # The item begins at 90,000; the end of the one before it is at 2,000. Five pixels short of that it snaps.
    page.script('arguments[0].dispatchEvent(new WheelEvent("wheel", { deltaX: -1000000, deltaY: 0, shiftKey: true, '
                'bubbles: true, cancelable: true }))', line)
    page.until(lambda: float(line.get_attribute('data-from')) == 0, 'from the begin')
    pulled(90400, round((2000 - 90000) / scale) + 4)
    settled(page, lambda: places(page)[1][0] == '06:01:20:00', 'it snaps to the end of its neighbour')
    suite.passes()
    before = asks(page, '1/days/1')
    page.until(lambda: line.get_attribute('data-chosen') != '', 'it is chosen still')
    pulled(2400, round(30000 / scale), escapes=True)
    suite.equals('Escape gives up', before, asks(page, '1/days/1'))
    pulled(2400, round(30000 / scale), shift=True)
    settled(page, lambda: places(page)[1][0] != '06:01:20:00', 'with Shift it lies where it was left')
    hours, minutes, seconds = (int(part) for part in places(page)[1][0].split(':')[:3])
    moved = ((hours - 6) * 3600 + minutes * 60 + seconds) * 25 - 2000
    suite.holds(f'about 30,000 frames on: {moved}', abs(moved - 30000) <= 2 * scale + 25)
    trims(suite, page, pulled)
    suite.console(page)


def trims(suite, page, pulled):
    row(page, 'item-1').click()
    nearer(page, 9)
    line = page.one('.timeline')
    page.until(lambda: float(line.get_attribute('data-per-pixel')) < 6, 'an item wide enough')
    scale = float(line.get_attribute('data-per-pixel'))
    pulled(1999, round(-500 / scale), shift=True)
    settled(page, lambda: planned(page)[0][2] < 2000, 'its end is trimmed')
    suite.holds(f'by about 500 frames: {planned(page)[0][2]}', abs(planned(page)[0][2] - 1500) <= 2 * scale + 1)
    suite.equals('it begins where it did', ('06:00:00:00', '00:00:00:00'), (planned(page)[0][1], planned(page)[0][4]))
    pulled(1, round(400 / scale), shift=True)
    settled(page, lambda: planned(page)[0][1] != '06:00:00:00', 'its begin is trimmed')
    at, first = planned(page)[0][1], planned(page)[0][4]
    suite.equals('its source moves along', at[3:], first[3:])


def several(suite):
    """Several at once: chosen, copied, cut, pasted, taken out; and a stretch made empty."""
    page = three(suite)
    item(page, 1, '09:00:00:00', 50, 'BL')
    page.script('window.dispatchEvent(new Event("focus"))')
    row(page, 'item-4')
    row(page, 'item-1').click()
    chain = ActionChains(page.driver, duration=10)
    chain.key_down(Keys.CONTROL).click(row(page, 'item-3')).key_up(Keys.CONTROL).perform()
    suite.equals('two are chosen', ['item-1', 'item-3'], page.script('''
        return [...document.querySelectorAll('[aria-selected="true"]')].map((each) => each.dataset.key).sort();'''))
    page.until(lambda: page.one('.timeline').get_attribute('data-chosen') == '1 3', 'on the time line too')
    ctrl(page, 'c')
    page.until(lambda: '2 items copied' in page.text('#said'), 'copied')
    page.type('add-item', at='')
    page.script('document.querySelector(".timeline").focus()')
    page.keys(Keys.END)
    chain = ActionChains(page.driver, duration=5).key_down(Keys.CONTROL)
    for _ in range(300):
        chain.send_keys(Keys.ARROW_LEFT)
    chain.key_up(Keys.CONTROL).perform()
    place = page.text('.readout')[:11]
    ctrl(page, 'v')
    page.until(lambda: len(planned(page)) == 6, 'pasted')
    hours, rest = int(place[:2]), place[2:]
    suite.equals('at the cursor, as far apart as they were',
                 [(place, 2000, 'C0000001'), (f'{(hours + 2) % 24:02}{rest}', 100, 'BARS')], places(page)[4:])
    page.until(lambda: len(page.one('.timeline').get_attribute('data-chosen').split()) == 2
               and 'pasted' in page.text('#said') and '...' not in page.text('#said'), 'they are chosen')
    ctrl(page, 'x')
    page.until(lambda: len(planned(page)) == 4, 'cut')
    page.until(lambda: ' cut.' in page.text('#said'), 'it is told')
    ctrl(page, 'z')
    page.until(lambda: len(planned(page)) == 6 and 'Taken back' in page.text('#said')
               and '...' not in page.text('#said'), 'and back')
    taken_out(suite, page)
    suite.console(page)


def undoes(suite):
    """What was added, taken out and imported is taken back and done again, over a reload too."""
    page = three(suite)
    before = places(page)
    page.type('add-item', source='C0000002', at='10:00:00:00')
    page.submit('add-item')
    page.done('add-item', 'begins at 10:00:00:00')
    page.until(lambda: page.idle('add-item'), 'it is read again')
    row(page, 'item-2').click()
    page.submit('remove-item', sure=True)
    page.done('remove-item', 'Item 2 is taken out')
    page.until(lambda: page.idle('remove-item'), 'it is read again')
    file = f'{suite.directory}/two.edl'
    with open(file, 'w', encoding='ascii') as out:
        out.write('001  BL       V     C        00:00:00:00 00:00:01:00 12:00:00:00 12:00:01:00\n'
                  '002  BARS     V     C        00:00:00:00 00:00:01:00 13:00:00:00 13:00:01:00\n')
    page.field('import', 'file').send_keys(file)
    page.submit('import')
    page.done('import', '2 items of two.edl')
    page.until(lambda: page.idle('import'), 'it is read again')
    page.driver.refresh()
    page.ready('day')
    still(page)
    all_of_it = places(page)
    for wanted in [all_of_it[:3], sorted([*all_of_it[:3], before[1]]), before]:
        page.until(lambda: page.one('#undo').get_attribute('aria-disabled') == 'false', 'there is more to take back')
        page.reach('#undo').click()
        page.until(lambda: places(page) == wanted, f'taken back to {wanted}')
        suite.passes()
    for _ in range(3):
        page.until(lambda: page.one('#redo').get_attribute('aria-disabled') == 'false', 'there is more to do again')
        page.until(lambda: '...' not in page.text('#said'), 'nothing is under way')
        page.reach('#redo').click()
    page.until(lambda: places(page) == all_of_it, 'all is done again')
    # What a colleague changed meanwhile isn't taken back.
    asks(page, f'1/days/1/items/{[each[0] for each in planned(page) if each[1] == "12:00:00:00"][0]}/remove', '')
    page.until(lambda: '...' not in page.text('#said'), 'nothing is under way')
    left = places(page)
    page.reach('#undo').click()
    page.until(lambda: 'isn\'t as it was shown' in page.text('#said'), 'the import can\'t be taken back as it was')
    suite.equals('nothing was changed', left, places(page))
    # It is passed over, so that what was done before it can be taken back.
    page.until(lambda: 'Passed over' in page.text('#said'), 'it is passed over')
    page.reach('#undo').click()
    page.until(lambda: len(places(page)) == len(left) + 1 and before[1] in places(page), 'the one before is taken back')
    suite.console(page)


def taken_out(suite, page):
    keys = Keyboard(page)
    keys.tab_to(f'[aria-label="{PLAN}"]')
    page.keys(Keys.HOME)
    chain = ActionChains(page.driver, duration=10).key_down(Keys.SHIFT)
    chain.send_keys(Keys.ARROW_DOWN, Keys.ARROW_DOWN, Keys.ARROW_DOWN, Keys.ARROW_DOWN).key_up(Keys.SHIFT).perform()
    page.keys(Keys.DELETE)
    page.until(lambda: 'Take out 3 items' in page.message('remove-item'), 'three are asked for')
    page.keys(Keys.ENTER)
    page.done('remove-item', '3 items are taken out')
    suite.equals('three are left', 3, len(planned(page)))
    left = places(page)
    page.type('clear', first='08:59:00:00', end='09:00:01:00')
    page.submit('clear', sure=True)
    page.done('clear', 'made empty')
    suite.equals('what lies over the end is cut off', ('09:00:01:00', 25, 'BL'), places(page)[0])
    suite.equals('the rest stays', left[1:], places(page)[1:])
    page.script('document.querySelector(".timeline").focus()')
    ctrl(page, 'z')
    page.until(lambda: places(page) == left, 'taken back')


def revised(page):
    return [each for each in page.front.asked if each[0] == 'POST']


def wholes(suite):
    """A change of many items is one message: done whole or not at all, and looked up where no answer came."""
    page = with_clips(suite)
    for number in range(200):
        item(page, 1, f'{6 + number // 60:02}:{number % 60:02}:00:00', 250, 'BARS')
    page.go('day', 1, 1)
    still(page)
    row(page, 'item-1').click()
    before = places(page)
    page.front.asked.clear()
    page.type('move', step='+00:00:10')
    page.reach('#shift').click()
    page.done('move', '200 items from 06:00:00:00 on moved by +00:00:10:00')
    suite.equals('one message', ['/ch/1/days/1/revise'], [each[1] for each in revised(page)])
    later = places(page)
    suite.equals('all are later', ('06:00:10:00', '09:19:10:00', 200), (later[0][0], later[-1][0], len(later)))
    # The tab is closed while the office is at it: nothing is half done.
    page.front.delay = 1
    page.type('move', step='-00:00:10')
    page.reach('#shift').click()
    page.until(lambda: any(each[1].endswith('/revise') for each in revised(page)[1:]), 'it is under way')
    page.driver.get('about:blank')
    page.front.delay = 0
    page.until(lambda: places(page) in (before, later), 'whole, or not at all')
    suite.passes()
    never_there(suite)
    answer_lost(suite)
    refused_whole(suite)


def never_there(suite):
    """A message that never reached the office: it says that it was not done, and can be done again."""
    page = three(suite)
    before = places(page)
    row(page, 'item-1').click()
    page.type('move', step='+00:30:00')
    page.front.cut_at = '/revise'
    page.reach('#shift').click()
    page.until(lambda: 'It may have been done, or not' in page.message('move')
               or 'It was not done' in page.text('#said'), 'it isn\'t known')
    page.front.cut_at = ''
    page.script('window.dispatchEvent(new Event("focus"))')
    page.until(lambda: 'It was not done: 3 items' in page.text('#said'), 'it was not done')
    suite.equals('nothing was changed', before, places(page))
    suite.equals('nothing is to be taken back', 'true', page.one('#undo').get_attribute('aria-disabled'))
    suite.equals('it is asked once', None, page.script('return sessionStorage.getItem("1/1/doubt")'))


def answer_lost(suite):
    """An answer that was lost: it says that it was done, and it can be taken back."""
    page = three(suite)
    before = [each[1:] for each in planned(page)]
    row(page, 'item-1').click()
    page.type('move', step='+00:30:00')
    page.front.lose_at = '/revise'
    page.reach('#shift').click()
    page.until(lambda: 'It was done: 3 items' in page.text('#said'), 'it was done')
    suite.equals('all are later', ['06:30:00:00', '07:30:00:00', '08:30:00:00'], [each[0] for each in places(page)])
    page.until(lambda: page.one('#undo').get_attribute('aria-disabled') == 'false', 'it can be taken back')
    page.reach('#undo').click()
    page.until(lambda: [each[1:] for each in planned(page)] == before, 'taken back')
    suite.passes()


def refused_whole(suite):
    """A revision that is refused names the item, and nothing is changed."""
    page = three(suite)
    before = places(page)
    row(page, 'item-1').click()
    page.type('move', step='+00:30:00')
    page.front.forged_at = ('/revise', 409, {'code': 66, 'item': 2, 'refused': 'Withdrawn'})
    page.reach('#shift').click()
    page.refused('move', None, 'C0000003 at 07:30:00:00')
    suite.holds('and says so', 'Nothing was changed' in page.message('move'))
    suite.equals('the plan is as it was', before, places(page))


def kinds(suite):
    """An item's kind and mix are changed; a colleague's change of them isn't undone by a move; wipes stay wipes."""
    page = three(suite)
    row(page, 'item-2').click()
    page.until(lambda: page.field('edit-item', 'kind').get_attribute('value') == 'C', 'a cut')
    page.type('edit-item', kind='D')
    page.submit('edit-item')
    page.refused('edit-item', 'mix', 'a mix of 1 frame or more')
    page.type('edit-item', mix='25')
    page.submit('edit-item')
    page.until(lambda: 'D    025' in asks(page, '1/days/1').splitlines()[2], 'a dissolve of 25 frames')
    page.until(lambda: page.idle('edit-item'), 'it is read again')
    page.type('edit-item', kind='W')
    page.type('edit-item', wipe='7')
    page.submit('edit-item')
    page.until(lambda: 'W007 025' in asks(page, '1/days/1').splitlines()[2], 'a wipe')
    page.until(lambda: page.idle('edit-item'), 'it is read again')
    page.type('move', step='+00:01:00')
    page.submit('move')
    page.done('move', 'moved by +00:01:00:00')
    suite.holds('moved, it is a wipe still', '07:01:00:00    1000 W007 025' in asks(page, '1/days/1'))
    number = next(each[0] for each in planned(page) if each[1] == '07:01:00:00')
    before = asks(page, '1/days/1')
    asks(page, '1/days/1/revise', json.dumps({'add': [{'at': '07:01:00:00', 'frames': 1000, 'in': '00:00:10:00',
                                                        'mix': 10, 'source': 'C0000003'}], 'remove': [number]}))
    page.type('move', step='+00:01:00')
    page.submit('move')
    page.until(lambda: 'isn\'t as it was shown' in page.message('move') or 'moved by' in page.result('move'), 'a word')
    after = asks(page, '1/days/1')
    suite.holds('the colleague\'s dissolve stays', 'D    010' in after and 'W007' not in after and before != after)
    suite.console(page)


def typed(suite):
    """What is typed into an item's fields is left alone by a colleague's change, and it is told."""
    page = three(suite)
    row(page, 'item-2').click()
    page.until(lambda: page.field('edit-item', 'at').get_attribute('value') == '07:00:00:00', 'it is chosen')
    page.type('edit-item', length='00:00:20:00')
    item(page, 1, '12:00:00:00', 100, 'BL')
    page.script('window.dispatchEvent(new Event("focus"))')
    page.until(lambda: len(shown(page, PLAN)) >= 8, 'a colleague\'s item is seen')
    suite.equals('what was typed is there', '00:00:20:00', page.field('edit-item', 'length').get_attribute('value'))
    asks(page, '1/days/1/revise', json.dumps({'add': [{'at': '07:30:00:00', 'frames': 1000, 'in': '00:00:10:00',
                                                        'mix': 0, 'source': 'C0000003'}], 'remove': [2]}))
    page.script('window.dispatchEvent(new Event("focus"))')
    page.until(lambda: 'was changed meanwhile' in page.message('edit-item'), 'it is told')
    suite.equals('it is there still', '00:00:20:00', page.field('edit-item', 'length').get_attribute('value'))
    page.submit('edit-item')
    page.refused('edit-item', None, 'Choose it again')
    suite.equals('the colleague\'s item is as it was', ('07:30:00:00', 1000, 'C0000003'), places(page)[1])
    row(page, 'item-2').click()
    page.until(lambda: page.field('edit-item', 'at').get_attribute('value') == '07:30:00:00', 'chosen again')
    suite.equals('all its fields', '00:00:40:00', page.field('edit-item', 'length').get_attribute('value'))
    suite.console(page)


def swallowed(suite):
    """The item that is typed behind one that got no answer is put in, too."""
    page = with_clips(suite)
    page.go('day', 1, 1)
    still(page)
    page.type('add-item', source='C0000001', at='06:00:00:00')
    page.front.lose_at = '/items'
    page.submit('add-item')
    page.until(lambda: 'It may have been done' in page.message('add-item'), 'no answer')
    page.until(lambda: page.text('#connection') == 'CONNECTED' or True, 'the office answers')
    page.type('add-item', source='BARS', at='09:00:00:00', length='00:00:04:00')
    page.submit('add-item')
    page.until(lambda: len(planned(page)) == 2, 'both are in the plan')
    suite.equals('each once', [('06:00:00:00', 'C0000001'), ('09:00:00:00', 'BARS')],
                 [(each[0], each[2]) for each in places(page)])
    suite.console(page)


def pulls(suite):
    """The pull list of a day: its tapes by slot, and behind them what is out, which the plan marks too; and CSV."""
    page = with_clips(suite, (1, 2))
    for number, (barcode, slot) in enumerate([('B0002', 7), ('B0003', 3), ('B0004', 4)], 2):
        asks(page, '1/tapes', json.dumps({'barcode': barcode, 'slot': slot}))
        asks(page, '1/clips', json.dumps({'frames': 100, 'in': '00:00:00:00', 'tape': number, 'title': f'ON {number}',
                                          'umid': f'060a2b340101010501010d2013000000{number + 70:032x}'}))
    for at, frames, source in [('06:00:00:00', 100, 'C0000001'), ('07:00:00:00', 100, 'C0000005'),
                               ('08:00:00:00', 100, 'C0000004'), ('09:00:00:00', 25, 'C0000002'),
                               ('10:00:00:00', 25, 'BARS')]:
        item(page, 1, at, frames, source)
    asks(page, '1/tapes/2/pull', '')
    page.go('pull', 1, 1)
    page.until(lambda: page.text('#pull-summary') == '3 tapes, 1 of them out', 'three tapes')
    suite.equals('by slot, and what is out behind', [
        ['1', 'A0001', '1', '06:00:00:00', '2', 'C0000001 NEWS / C0000002 TRAILER'],
        ['3', 'B0003', '3', '07:00:00:00', '1', 'C0000005 ON 3'],
        ['OUT', 'B0002', '2', '08:00:00:00', '1', 'C0000004 ON 2']], shown(page, 'Tapes of the day, by slot'))
    page.one('#save-csv').click()
    file = pathlib.Path(suite.directory) / 'CH-001-day-1-Pull.csv'
    page.until(file.exists, 'it is saved')
    suite.equals('as CSV', 'Slot,Barcode,Tape,First at,Items,Clips\r\n1,A0001,1,06:00:00:00,2,C0000001 NEWS / C0000002 '
                 'TRAILER\r\n3,B0003,3,07:00:00:00,1,C0000005 ON 3\r\nOUT,B0002,2,08:00:00:00,1,C0000004 ON 2\r\n',
                 file.read_bytes().decode())
    page.leads('day', 1, 1)
    page.until(lambda: any('TAPE OUT ON 2' in each[3] for each in shown(page, PLAN)), 'the plan marks it')
    page.leads('clips', 1)
    rows = {each[0]: each[6:9] for each in shown(page, 'Clips')}
    suite.equals('clips show barcode and slot', [['4', 'B0004', '4'], ['2', 'B0002', 'OUT']],
                 [rows['C0000006'], rows['C0000004']])
    page.leads('pull', 1, 2)
    suite.equals('a day without tapes', [], shown(page, 'Tapes of the day, by slot'))
    page.leads('pull', 1, 3)
    page.until(lambda: '71 NoDay' in page.text('#pull-summary'), 'a day that isn\'t there')
    suite.console(page)


def finds(suite):
    """In a plan, by its titles and reels; what was recalled; and where a clip is planned over days."""
    page = with_clips(suite, (1, 2, 3))
    lent_clips(page)
    for day, at, source in [(1, '07:00:00:00', 'C0000002'), (1, '09:00:00:00', 'C0000002'),
                            (2, '10:00:00:00', 'C0000002'), (1, '08:00:00:00', 'BL')]:
        item(page, day, at, 25, source)
    for at, source in [('11:00:00:00', 'L0020001'), ('12:00:00:00', 'L0020002')]:
        item(page, 1, at, 500, source, '01:00:00:00')
    asks(page, '2/offers/1/withdraw', '')
    page.go('day', 1, 1)
    page.one('#plan-search').send_keys('trailer')
    page.until(lambda: page.text('#plan-found') == '2 found', 'two are found')
    page.one('#plan-search').send_keys(Keys.ENTER)
    first = page.text('.readout')[:11]
    page.one('#plan-search').send_keys(Keys.ENTER)
    suite.equals('one behind the other', {'07:00:00:00', '09:00:00:00'}, {first, page.text('.readout')[:11]})
    suite.equals('counted', '2 of 2 found' if first == '07:00:00:00' else '1 of 2 found', page.text('#plan-found'))
    suite.equals('one is recalled', 'Next recalled (1)', page.text('#next-recalled'))
    suite.equals('one is shown for the last time', '1 item in the last day of its loan', page.text('#last-day'))
    page.one('#next-recalled').click()
    page.until(lambda: page.text('.readout').startswith('11:00:00:00'), 'it is brought into view')
    page.leads('clips', 1)
    suite.equals('of what is lent', '1 lent, 1 recalled; on day 1: 1 in the last day of the loan, 0 behind it',
                 page.text('#lent-summary'))
    page.type('where', clip='C0000002', first=1, last=4)
    page.submit('where')
    page.done('where', 'planned 3 times in days 1 to 4')
    suite.equals('where it is', [['1', '07:00:00:00'], ['1', '09:00:00:00'], ['2', '10:00:00:00']],
                 [[each[0], each[2]] for each in shown(page, 'Where the clip is planned')])
    page.type('where', last=2)
    page.submit('where')
    page.done('where', 'planned 3 times in days 1 to 2')
    suite.console(page)


def relinks(suite):
    """A list of an editing system: by barcode, by title, by choice; the mapping is kept for the next one."""
    page = with_clips(suite, (1, 2))
    asks(page, '1/clips', json.dumps({'frames': 60000, 'in': '10:00:00:00', 'tape': 1, 'title': 'TRAILER',
                                      'umid': f'060a2b340101010501010d2013000000{99:032x}'}))
    lines = '''TITLE: MORNING
FCM: NON-DROP FRAME
001  A0001    V     C        10:00:10:00 10:00:20:00 06:00:00:00 06:00:10:00
002  AX       V     C        00:00:00:00 00:00:01:00 06:00:10:00 06:00:11:00
* FROM CLIP NAME: TRAILER
003  AX       V     D    025 00:00:02:00 00:00:12:00 06:00:11:00 06:00:21:00
* TO CLIP NAME: News
004  AX       A     C        00:00:00:00 00:00:01:00 06:00:10:00 06:00:11:00
'''
    file = f'{suite.directory}/system.edl'
    with open(file, 'w', encoding='ascii') as out:
        out.write(lines)
    for day in [1, 2]:
        page.go('day', 1, day)
        page.field('import', 'file').send_keys(file)
        if day == 1:
            page.submit('import')
            page.refused('import', 'file', '77 NoSource. Line 3.')
        page.reach('#relink').click()
        page.until(lambda: page.seen('#relink-send'), 'the sources of the list')
        chosen = page.script('return [...document.querySelectorAll(".relink select")].map((each) => each.value)')
        suite.equals(f'what is proposed for day {day}', ['C0000004', '' if day == 1 else 'C0000002', 'C0000001'],
                     chosen)
        if day == 1:
            page.one('#relink-send').click()
            page.until(lambda: 'Choose the clip of AX TRAILER' in page.text('[aria-label="Relink a list"]'), 'a choice')
            page.one('.relink select[data-name="TRAILER"] option[value="C0000002"]').click()
        page.one('#relink-send').click()
        page.until(lambda: len(planned(page, day)) == 3, 'it is imported')
        suite.equals(f'the items of day {day}', [('06:00:00:00', 250, 'C0000004', '10:00:10:00'),
                     ('06:00:10:00', 25, 'C0000002', '00:00:00:00'), ('06:00:11:00', 250, 'C0000001', '00:00:02:00')],
                     [each[1:] for each in planned(page, day)])
    suite.console(page)
