"""What must not get lost: kinds over undo and redo, rows on paper, drafts, and what lists say of a state."""

import json
import pathlib

from desk_day_checks import shown
from desk_defect_checks import PLAN, item, planned, row, still, with_clips
from desk_suite import asks
from desk_work_checks import ctrl, nearer, places, pull, settled, three


def line_of(page, number):
    """The office's row of an item, by its place in the plan."""
    return ' '.join(asks(page, '1/days/1').splitlines()[number].split()[1:])


def may(page, button):
    return page.one(f'#{button}').get_attribute('aria-disabled') == 'false'


def redone(suite):
    """A dissolve is a dissolve again once it is done again; behind a new change nothing is; each day has its own."""
    page = three(suite)
    asks(page, '1/days', '{"day":2}')
    cut = line_of(page, 2)
    row(page, 'item-2').click()
    page.until(lambda: page.field('edit-item', 'kind').get_attribute('value') == 'C', 'a cut')
    page.type('edit-item', kind='D', mix='25')
    page.submit('edit-item')
    settled(page, lambda: 'D 025' in line_of(page, 2), 'a dissolve')
    page.until(lambda: page.idle('edit-item') and may(page, 'undo'), 'it can be taken back')
    dissolve = line_of(page, 2)
    page.script('document.querySelector(".timeline").focus()')
    ctrl(page, 'z')
    settled(page, lambda: line_of(page, 2) == cut, 'taken back')
    page.until(lambda: may(page, 'redo'), 'it can be done again')
    ctrl(page, 'y')
    page.until(lambda: 'Done again' in page.text('#said') and '...' not in page.text('#said'), 'it is said')
    suite.equals('done again, it is the dissolve', dissolve, line_of(page, 2))
    ctrl(page, 'z')
    settled(page, lambda: line_of(page, 2) == cut, 'taken back again')
    row(page, 'item-1').click()
    page.type('move', step='+00:01:00')
    page.submit('move')
    page.done('move', 'moved by +00:01:00:00')
    page.until(lambda: page.idle('move') and may(page, 'undo'), 'it can be taken back')
    suite.holds('nothing can be done again behind a new change', not may(page, 'redo'))
    before = places(page)
    page.script('document.querySelector(".timeline").focus()')
    ctrl(page, 'y')
    page.until(lambda: 'Nothing to do again' in page.text('#said') or places(page) != before, 'a word')
    suite.equals('nor is it', before, places(page))
    page.leads('day', 1, 2)
    suite.holds('another day has nothing to take back', not may(page, 'undo'))
    suite.console(page)


def imports(suite):
    """What an import put in is taken back, also where a colleague took the like of it out just before."""
    page = with_clips(suite)
    item(page, 1, '10:00:00:00', 25, 'BARS')
    item(page, 1, '08:00:00:00', 25, 'BL')
    page.go('day', 1, 1)
    still(page)
    row(page, 'item-1')
    asks(page, '1/days/1/items/1/remove', '')
    file = f'{suite.directory}/again.edl'
    with open(file, 'w', encoding='ascii') as out:
        out.write('001  BARS     V     C        00:00:00:00 00:00:01:00 10:00:00:00 10:00:01:00\n'
                  '002  BL       V     C        00:00:00:00 00:00:01:00 12:00:00:00 12:00:01:00\n')
    page.field('import', 'file').send_keys(file)
    page.submit('import')
    page.done('import', '2 items of again.edl')
    page.until(lambda: page.idle('import') and may(page, 'undo'), 'it can be taken back')
    page.reach('#undo').click()
    page.until(lambda: 'Taken back' in page.text('#said') and '...' not in page.text('#said'), 'it is taken back')
    suite.equals('all of it', ['08:00:00:00'], [each[1] for each in planned(page)])
    suite.console(page)


def trimmed_to(page, line, frames):
    """The page has an item of so many frames, and it is chosen still."""
    label = f'00:00:{frames // 25:02}:{frames % 25:02}'
    page.until(lambda: label in [each[2] for each in shown(page, PLAN)], 'it is read')
    page.until(lambda: line.get_attribute('data-chosen') == str(planned(page)[0][0]), 'it is chosen still')


def trims_freely(suite):
    """An edge that is pulled near a neighbour snaps to it, and with Shift it doesn't."""
    page = with_clips(suite)
    item(page, 1, '06:00:00:00', 1000, 'BARS')
    item(page, 1, '06:00:48:00', 1000, 'BARS')
    page.go('day', 1, 1)
    still(page)
    row(page, 'item-1').click()
    page.script('document.querySelector(".timeline").focus()')
    nearer(page, 20)
    line = page.one('.timeline')
    page.until(lambda: float(line.get_attribute('data-per-pixel')) < 3, 'near enough')
    for _ in range(20):
        if float(line.get_attribute('data-per-pixel')) >= 1.5:
            break
        page.keys('-')
    scale = float(line.get_attribute('data-per-pixel'))
    meant = round((1200 - 1000) / scale) - 4
    pull(page, 998, meant, shift=True)
    settled(page, lambda: planned(page)[0][2] != 1000, 'its end is trimmed', 2)
    frames = planned(page)[0][2]
    wanted = 1000 + meant * scale
    suite.holds(f'with Shift where it was left, at {scale} frames a pixel: {frames}, not {wanted}',
                frames != 1200 and abs(frames - wanted) <= 3 * scale + 1)
    trimmed_to(page, line, frames)
    pull(page, frames - 2, -40, shift=True)
    settled(page, lambda: planned(page)[0][2] < frames, 'shorter again', 2)
    shorter = planned(page)[0][2]
    trimmed_to(page, line, shorter)
    pull(page, shorter - 2, round((1200 - shorter) / scale) - 4)
    settled(page, lambda: planned(page)[0][2] > shorter, 'longer again', 2)
    suite.equals('without it, it ends at its neighbour', 1200, planned(page)[0][2])
    suite.console(page)


def recalled(suite):
    """To whom a clip is lent stands in its row, and goes as it is recalled."""
    page = with_clips(suite)
    asks(page, '1/offers', '{"clip":"C0000002","to":2}')
    page.go('clips', 1)
    lent = lambda: {each[0]: each[9] for each in shown(page, 'Clips')}
    suite.equals('one is lent to channel 2', {'C0000001': '', 'C0000002': '2', 'C0000003': ''}, lent())
    page.type('recall', offer=1)
    page.submit('recall', sure=True)
    page.done('recall', 'Offer 1 is withdrawn')
    page.until(lambda: page.idle('recall'), 'it is read again')
    suite.equals('none is lent', {'C0000001': '', 'C0000002': '', 'C0000003': ''}, lent())
    suite.console(page)


def rows_on_paper(suite):
    """All rows of a view go to paper and into a file, however many there are."""
    page = suite.office(['1,25,06:00:00:00,1200'])
    asks(page, '1/tapes', '{"barcode":"A0001","slot":1200}')
    page.go('vault', 1)
    page.script('window.dispatchEvent(new Event("beforeprint"))')
    paper = page.script('''
        const rows = [...document.querySelectorAll('.sheet-rows tbody tr')].map((each) => each.textContent);
        return [rows.length, rows[0], rows[rows.length - 1]];''')
    page.script('window.dispatchEvent(new Event("afterprint"))')
    suite.equals('on paper', [1200, '1free', '1200A00011'], paper)
    page.one('#save-csv').click()
    file = pathlib.Path(suite.directory) / 'CH-001-Vault.csv'
    page.until(file.exists, 'it is saved')
    page.until(lambda: file.read_bytes().count(b'\r\n') == 1201, 'each row has a line')
    suite.equals('the last one', b'1200,A0001,1,,', file.read_bytes().split(b'\r\n')[-2])
    suite.console(page)


def out_of_shelf(suite):
    """What is shown of the shelf: all, what stands there, what is out, or what is free."""
    page = suite.office(['1,25,06:00:00:00,5'])
    for slot in (1, 2, 3):
        asks(page, '1/tapes', json.dumps({'barcode': f'A000{slot}', 'slot': slot}))
    asks(page, '1/tapes/2/pull', '')
    page.go('vault', 1)
    for choice, wanted in [('all', [['1', 'A0001'], ['2', 'free'], ['3', 'A0003'], ['4', 'free'], ['5', 'free'],
                                    ['OUT', 'A0002']]),
                           ('shelved', [['1', 'A0001'], ['3', 'A0003']]), ('out', [['OUT', 'A0002']]),
                           ('free', [['2', 'free'], ['4', 'free'], ['5', 'free']])]:
        page.script('''
            const field = document.querySelector('#vault-shown');
            field.value = arguments[0];
            for (const type of ['input', 'change']) field.dispatchEvent(new Event(type, { bubbles: true }));''', choice)
        suite.equals(f'shown: {choice}', wanted, [each[:2] for each in shown(page, 'Shelf by slots')])
    suite.console(page)


def drafts(suite):
    """What was typed stays with its day, over a reload too, and in no other day's form."""
    page = with_clips(suite, (1, 2))
    value = lambda: page.field('add-item', 'source').get_attribute('value')
    page.go('day', 1, 1)
    page.type('add-item', source='C0000003')
    page.leads('day', 1, 2)
    suite.equals('another day has its own', '', value())
    page.leads('day', 1, 1)
    suite.equals('it is there again', 'C0000003', value())
    page.driver.refresh()
    page.ready('day')
    suite.equals('over a reload too', 'C0000003', value())
    suite.console(page)
