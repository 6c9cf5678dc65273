"""Lists: all their faults at once, and sources that are relinked as staff like."""

from selenium.webdriver.common.keys import Keys

from desk_day_checks import shown
from desk_defect_checks import item, planned, with_clips
from desk_suite import asks


def written(suite, name, text):
    file = f'{suite.directory}/{name}'
    with open(file, 'w', encoding='ascii') as out:
        out.write(text)
    return file


FAULTY = '''TITLE: FAULTY
FCM: NON-DROP FRAME
001  C0000001 V     C        00:00:00:00 00:00:10:00 06:00:00:00 06:00:10:00
002  AX       V     C        00:00:00:00 00:00:10:00 06:00:10:00 06:00:20:00
003  C0000001 V     C        00:00:00:00 00:00:10:00 06:00:05:00 06:00:15:00
004  C0000002 V     C        00:00:00:00 00:00:10:00 06:00:30:00 06:00:40:00
005  BL       V     C        00:00:00:00 00:00:10:00 07:00:00:00 07:00:10:00
'''


def faults(suite):
    """The office tells the first fault of a list; the desk shows all of them, an overlap with its line."""
    page = with_clips(suite)
    item(page, 1, '07:00:05:00', 100, 'BARS')
    page.go('day', 1, 1)
    page.field('import', 'file').send_keys(written(suite, 'faulty.edl', FAULTY))
    page.submit('import')
    page.refused('import', 'file', '77 NoSource. Line 4.')
    wanted = [('4', '77 NoSource'), ('5', 'It lies over line 3, from 06:00:05:00 on'), ('6', '79 SourceRange'),
              ('7', 'It lies over item 1 BARS, from 07:00:05:00 on')]
    page.until(lambda: len(shown(page, 'Faults of the text')) == 4, 'all are listed')
    found = shown(page, 'Faults of the text')
    suite.equals('by their lines', [line for line, _ in wanted], [row[0] for row in found])
    for (line, words), row in zip(wanted, found):
        suite.holds(f'line {line}: {row[1]}', words in row[1])
    suite.equals('each of these lines is marked', ['4', '5', '6', '7'], page.script('''
        return [...document.querySelectorAll('[aria-label="Lines of the text"] .list-row.faulty')]
            .map((row) => row.firstElementChild.textContent).sort();'''))
    page.one('[aria-label="Faults of the text"] [data-key="3"]').click()
    suite.equals('a fault leads to its line', '7', page.script(
        'return document.querySelector(\'[aria-label="Lines of the text"] .active\').firstElementChild.textContent'))
    suite.holds('how many there are is said', 'And 3 more faults' in page.text('[aria-label="Text"] > p.fault'))
    suite.equals('nothing was put in', 1, len(planned(page)))
    page.field('import', 'file').send_keys(written(suite, 'keys.edl', FAULTY.replace(' C    ', ' K B  ')))
    page.reach('#relink').click()
    page.refused('import', 'file', '85 KeyEvent. Line 3.')
    page.until(lambda: len(shown(page, 'Faults of the text')) == 5, 'all of a list that is relinked')
    suite.passes()
    suite.console(page)


SYSTEM = '''TITLE: MORNING
001  AX       V     C        00:00:00:00 00:00:10:00 06:00:00:00 06:00:10:00
* FROM CLIP NAME: OPENER
002  B0099    V     C        00:00:00:00 00:00:10:00 06:00:10:00 06:00:20:00
003  AX       V     C        00:00:02:00 00:00:12:00 06:00:20:00 06:00:30:00
* FROM CLIP NAME: NEWS
'''


def choices(suite):
    """Any clip may be the target, with another first frame; a source is left out; so it is kept for the next list."""
    page = with_clips(suite, (1, 2))
    file = written(suite, 'system.edl', SYSTEM)
    page.go('day', 1, 1)
    page.field('import', 'file').send_keys(file)
    page.reach('#relink').click()
    page.until(lambda: page.seen('#relink-send'), 'the sources of the list')
    page.one('.relink select[data-name="OPENER"] option[value="?"]').click()
    page.until(lambda: 'relink-any' in page.script('return document.activeElement.className'), 'any clip is typed')
    page.keys('e', Keys.ENTER)
    rows = lambda: page.all('.relink tr')[1:]
    page.until(lambda: '3 sources are like this' not in rows()[0].text and 'are like this' in rows()[0].text,
               'several have it')
    page.keys(Keys.BACKSPACE, 'film', Keys.ENTER)
    page.until(lambda: rows()[0].find_element('css selector', 'select').get_attribute('value') == 'C0000003',
               'it is chosen')
    first = lambda index: rows()[index].find_element('css selector', '.relink-first')
    suite.equals('from where the list begins', '00:00:00:00', first(0).get_attribute('value'))
    first(0).clear()
    first(0).send_keys('00333000')
    page.one('.relink select[data-reel="B0099"] option[value="-"]').click()
    page.one('#relink-send').click()
    page.until(lambda: 'the clip has 00:00:00:00 to 00:33:20:00' in rows()[0].text, 'frames that it hasn\'t')
    suite.equals('nothing was put in', [], planned(page))
    first(0).clear()
    first(0).send_keys('00010000')
    page.one('#relink-send').click()
    page.until(lambda: len(planned(page)) == 2, 'imported without the source that is left out')
    wanted = [('06:00:00:00', 250, 'C0000003', '00:01:00:00'), ('06:00:20:00', 250, 'C0000001', '00:00:02:00')]
    suite.equals('the chosen clip, from its frame', wanted, [each[1:] for each in planned(page)])
    page.leads('day', 1, 2)
    page.field('import', 'file').send_keys(file)
    page.reach('#relink').click()
    page.until(lambda: page.seen('#relink-send'), 'the sources of the list again')
    suite.equals('as the last time', ['C0000003', '-', 'C0000001'],
                 page.script('return [...document.querySelectorAll(".relink select")].map((each) => each.value)'))
    page.one('#relink-send').click()
    page.until(lambda: len(planned(page, 2)) == 2, 'imported')
    suite.equals('and from where', wanted, [each[1:] for each in planned(page, 2)])
    suite.holds('the office knows', asks(page, '1/days/2').count('C0000003') == 1)
    suite.console(page)


SHEET = '''Start;Duration;Clip;SOM
06:00:00:00;00:00:40:00;bl;00:00:00:00
06:00:40:00;500;C0000001;00:00:00:00
'''


def mapped(suite):
    """An as-run file with a head, `;` and lengths as labels is brought into the office's form, and shown before."""
    page = with_clips(suite)
    item(page, 1, '06:00:00:00', 2160000, 'BL')
    asks(page, '1/days/1/seal', '')
    page.go('aired', 1, 1)
    page.until(lambda: page.field('batch', 'batch').get_attribute('value') == '1', 'the next batch')
    page.type('batch', file=written(suite, 'sheet.csv', SHEET))
    page.front.asked.clear()
    page.submit('batch')
    page.until(lambda: 'its head is left out; fields are parted by ;; lengths are labels, and become frames; reels are '
               'put into capitals. 2 rows are sent as shown?' in page.message('batch'), 'what is done is asked')
    suite.equals('and shown', ['06:00:00:00,1000,BL,00:00:00:00', '06:00:40:00,500,C0000001,00:00:00:00', ''],
                 [row[1] for row in shown(page, 'Lines of the text')])
    page.one('form[data-form="batch"] button.sure').click()
    page.done('batch', 'Batch 1 is taken: sheet.csv, 1,500 frames')
    suite.equals('so it is sent', [b'06:00:00:00,1000,BL,00:00:00:00\r\n06:00:40:00,500,C0000001,00:00:00:00\r\n'],
                 [body for kind, _, body in page.front.asked if kind == 'POST'])
    page.until(lambda: page.idle('batch'), 'it is read again')
    page.type('batch', file=written(suite, 'wrong.csv', SHEET.replace('500', 'x').replace('00:00:40:00', '40 s')))
    page.submit('batch')
    page.refused('batch', 'file', 'It can\'t be sent. Line 2: 40 s is no length')
    suite.equals('each line is told', [['2', '40 s is no length: neither frames nor a label.'],
                                       ['3', 'x is no length: neither frames nor a label.']],
                 shown(page, 'Faults of the text'))
    suite.equals('nothing was sent', 1, len([each for each in page.front.asked if each[0] == 'POST']))
    suite.console(page)
