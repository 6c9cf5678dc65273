"""Large days and vaults, two windows, paper, the policy of the page, and pictures."""

import json
import pathlib
import re
import struct
import subprocess
import urllib.request
import zlib
from base64 import b64decode

from selenium.webdriver.common.keys import Keys

from desk_browser import served
from desk_day_checks import Mouse, shown
from desk_suite import ROWS, UMID, Busy, asks, day_file
from stand_in import DESK, POLICY, TOP

# Goes through frames while something is moved in each, and tells how long frames and the drawing in them took.
FRAMES = '''
    const [kind, count, done] = arguments;
    const line = document.querySelector('.timeline');
    const scroll = document.querySelector('.work > .list .list-scroll, .plan > .list .list-scroll');
    const frames = [], drawn = [];
    let before = null, step = 0;
    const next = (now) => {
        if (before !== null) frames.push(now - before);
        before = now;
        const owner = kind === 'list' ? scroll.parentElement : line;
        if (step > 0) drawn.push(Number(owner.dataset.took));
        if (step === count) {
            const middle = (values) => [...values].sort((one, other) => one - other)[Math.floor(values.length / 2)];
            const late = (values) => [...values].sort((one, other) => one - other)[Math.floor(values.length * 0.95)];
            done([middle(frames), late(frames), middle(drawn), late(drawn), document.querySelectorAll('*').length]);
            return;
        }
        step += 1;
        if (kind === 'list') scroll.scrollTop = (scroll.scrollHeight - scroll.clientHeight) * step / count;
        else {
            const box = line.getBoundingClientRect();
            const turn = step <= count / 2 ? -1 : 1;
            line.dispatchEvent(new WheelEvent('wheel', { deltaY: 60 * turn, shiftKey: step % 3 === 0, bubbles: true,
                clientX: box.left + box.width * ((step * 7) % 100) / 100, clientY: box.top + 60, cancelable: true }));
        }
        requestAnimationFrame(next);
    };
    requestAnimationFrame(next);'''
MOST_DRAWING = 8  # milliseconds of script in the middle frame, which has 16.7
ROUNDS = 5  # What runs beside the browser takes time too, so the first round that is fast enough counts.


def fluid(suite, page, what, kind, count=120):
    busy = Busy()
    for _ in range(ROUNDS):
        middle, late, drawn, most, elements = page.driver.execute_async_script(FRAMES, kind, count)
        print(f'desk: {what}: a frame each {middle:.1f} ms (95 of 100 within {late:.1f}), drawn in {drawn:.2f} ms '
              f'(95 of 100 within {most:.2f}), {elements} elements', flush=True)
        if drawn <= MOST_DRAWING:
            break
    suite.figure(f'{what}: milliseconds of drawing', drawn, MOST_DRAWING, busy)
    suite.holds(f'{what}: {elements} elements', elements < 2500)


def label_of(frame):
    seconds, frames = divmod(frame % 2160000, 25)
    return f'{seconds // 3600:02}:{seconds // 60 % 60:02}:{seconds % 60:02}:{frames:02}'


def list_of(count, each, skip=()):
    """An edit list of so many clips and blacks, from 06:00:00:00 on."""
    lines = ['TITLE: LARGE', 'FCM: NON-DROP FRAME', '']
    for number in range(count):
        if number in skip:
            continue
        begin = 540000 + number * each
        reel, kind = [('C0000001', 'C   '), ('BL      ', 'C   '), ('C0000001', 'D    025'),
            ('BARS    ', 'C   ')][number % 4]
        reel = reel.ljust(8)
        lines.append(f'{number + 1:03}'.ljust(5) + f'{reel} V     {kind.ljust(8)} {label_of(0)} {label_of(each)} '
                     f'{label_of(begin)} {label_of(begin + each)}')
    return '\n'.join(lines) + '\n'


def large_day(suite):
    page = suite.office()
    asks(page, '1/tapes', '{"barcode":"A0001","slot":1}')
    asks(page, '1/clips', f'{{"frames":5000,"in":"00:00:00:00","tape":1,"title":"TRAILER","umid":"{UMID}01"}}')
    asks(page, '1/days', '{"day":1}')
    suite.equals('9,999 items', '{"items":9999,"skipped":0}', asks(page, '1/days/1/import/strict', list_of(9999, 216)))
    page.go('day', 1, 1)
    page.until(lambda: page.one('[aria-label="Plan: items and gaps"]').get_attribute('data-rows') == '10000',
        '10,000 rows')
    fluid(suite, page, '9,999 items as a list', 'list')
    fluid(suite, page, '9,999 items as a time line', 'line')
    page.type('add-item', **{'at': label_of(540000 + 9999 * 216), 'length': 25, 'source': 'BL'})
    page.submit('add-item')
    page.refused('add-item', 'at', '83 DayFull')
    large_match(suite, page)
    suite.console(page)


def large_match(suite, page):
    """A match of 1,998 runs: each item aired from its second frame on."""
    asks(page, '1/days', '{"day":2}')
    asks(page, '1/days/2/items', '{"at":"06:00:00:00","frames":2160000,"in":"00:00:00:00","mix":0,"source":"BL"}')
    suite.equals('sealed', '{"day":2}', asks(page, '1/days/2/seal', ''))
    rows = ''.join(f'{label_of(540000 + number * 2160 + 60)},2100,BL,00:00:00:00\n' for number in range(999))
    suite.equals('its batch', '{"batch":1,"frames":2097900}', asks(page, '1/days/2/asrun/1', rows))
    page.go('aired', 1, 2)
    page.until(lambda: page.one('[aria-label="Runs of what went out"]').get_attribute('data-rows') == '1999',
        '1,999 runs')
    fluid(suite, page, '1,999 runs as a list', 'list')
    fluid(suite, page, '1,999 runs as a time line', 'line')


def large_vault(suite):
    """20,000 clips on 9,999 tapes."""
    file = f'{suite.directory}/large.db'
    parts = [message('tapes', {'barcode': f'T{number:05}', 'slot': number}) for number in range(1, 10000)]
    parts += [message('clips', {'frames': 1500, 'in': '00:00:00:00', 'tape': number % 9999 + 1,
                                'title': f'PROGRAMME {number:05}', 'umid': f'{UMID[:-8]}{number:010x}'})
              for number in range(20000)]
    done = subprocess.run([suite.program, 'answer', '--db', file, '1,df,06:00:00;00,9999'], input=b''.join(parts),
                          stdout=subprocess.PIPE, check=True, timeout=100)
    suite.equals('29,999 answers', 29999, done.stdout.count(b'HTTP/1.1 200 OK'))
    process, port = served(suite.program, file)
    suite.offices.append(process)
    page = suite.page_of(port)
    page.front.me['channels'] = [1]
    page.go('vault', 1)
    suite.equals('its rate and its mark', '29.97 DF', page.text('#rate'))
    fluid(suite, page, '9,999 slots', 'list')
    page.one('#vault-search').send_keys('programme 12345')
    page.until(lambda: len(shown(page, 'Shelf by slots')) == 1, 'one tape is found by a title')
    suite.holds('found by a title', 'PROGRAMME 12345' in shown(page, 'Shelf by slots')[0][4])
    page.go('clips', 1)
    fluid(suite, page, '20,000 clips', 'list')
    page.one('#clip-search').send_keys('C0012346')
    page.until(lambda: len(shown(page, 'Clips')) == 1, 'one clip is found by its reel')
    suite.equals('found by its reel', 'PROGRAMME 12345', shown(page, 'Clips')[0][1])
    suite.console(page)


def message(path, body):
    text = json.dumps(body).encode()
    return b'POST /ch/1/%s HTTP/1.1\r\nContent-Length: %d\r\n\r\n%s' % (path.encode(), len(text), text)


def two_windows(suite):
    """Two channels in two windows: a clip is lent, planned, recalled, and the seal names its item."""
    page = suite.office()
    asks(page, '2/tapes', '{"barcode":"A0001","slot":1}')
    asks(page, '2/clips', f'{{"frames":2000,"in":"00:00:00:00","tape":1,"title":"GOAL","umid":"{UMID}01"}}')
    asks(page, '1/days', '{"day":1}')
    driver = page.driver
    page.go('clips', 1)
    first = driver.current_window_handle
    driver.switch_to.new_window('window')
    second = driver.current_window_handle
    page.go('clips', 2)
    page.type('lend', clip='C0000001', to=1)
    page.submit('lend')
    page.done('lend', 'by offer 1')
    driver.switch_to.window(first)
    page.script('window.dispatchEvent(new Event("focus"))')
    page.until(lambda: [row[:3] for row in shown(page, 'Lent to this channel')] == [['L0020001', 'GOAL', 'lent']],
        'lent')
    page.go('day', 1, 1)
    suite.holds('it is dragged into the day', Mouse(page).drag('L0020001', 1000))
    page.done('add-item', 'Item 1, L0020001, begins at 06:00:00:00')
    driver.switch_to.window(second)
    page.type('recall', offer=1)
    page.submit('recall', sure=True)
    page.done('recall', 'Offer 1 is withdrawn')
    page.until(lambda: shown(page, 'Lent by this channel')[0][4] == 'recalled', 'the owner sees it')
    driver.close()
    driver.switch_to.window(first)
    page.submit('seal', sure=True)
    page.refused('seal', None, '81 Recalled. Item 1.')
    page.script('window.dispatchEvent(new Event("focus"))')
    page.until(lambda: shown(page, 'Plan: items and gaps')[0][3] == 'RECALLED GOAL', 'the item is marked')
    suite.equals('it is chosen', 'item-1', page.one('[aria-label="Plan: items and gaps"] [aria-selected="true"]')
                 .get_attribute('data-key'))
    page.go('clips', 1)
    suite.equals('it is no source any more', 'RECALLED', shown(page, 'Lent to this channel')[0][2])
    suite.console(page)


def sheets(page):
    """How many pages the printer would get."""
    return len(re.findall(rb'/Type\s*/Page\b(?!s)', paper(page)))


def paper(page):
    """What the printer would get, as PDF."""
    words = {'preferCSSPageSize': True, 'printBackground': True}
    return b64decode(page.driver.execute_cdp_cmd('Page.printToPDF', words)['data'])


def policy(suite):
    page = suite.office()
    page.go('channel', 1)
    for path in ['', 'desk.js', 'desk.css']:
        with urllib.request.urlopen(f'{page.url}/{path}', timeout=5) as answer:
            suite.equals(f'the policy of /{path}', POLICY, answer.headers['Content-Security-Policy'])
    text = (DESK / 'index.html').read_text()
    suite.equals('nothing inline in the page', [], re.findall(r'<style|\sstyle=|\son\w+=|<script(?![^>]*\ssrc=)', text))
    for file in DESK.glob('*.js'):
        used = re.findall(r'innerHTML|outerHTML|insertAdjacentHTML|document\.write|\beval\(|new Function|https?://',
            file.read_text())
        suite.equals(f'nothing but text is set by {file.name}', [], used)
    page.script('''
        const script = document.createElement('script');
        script.textContent = 'window.hit = 1';
        document.body.append(script);''')
    suite.equals('an inline script doesn\'t run', None, page.script('return window.hit ?? null'))
    told = [line['message'] for line in page.driver.get_log('browser') if 'inline script' in line['message']]
    suite.equals('the browser says so', 1, len(told))


def timecode(suite):
    page = suite.office()
    page.go('channel', 1)
    for rate, label in [('24', '23:59:59:23'), ('25', '10:00:00:00'), ('30', '12:34:56:29'), ('df', '00:10:00;00'),
                        ('df', '23:59:59;29'), ('df', '12:01:00;02'), ('df', '00:00:59;29')]:
        said = subprocess.run([suite.program, 'tc', rate, label], stdout=subprocess.PIPE, check=True).stdout.decode()
        ours = page.driver.execute_async_script('''
            const [rate, label, done] = arguments;
            import('/timecode.js').then((module) => done(module.frameOf(label,
                module.rateOf(rate)).frame));''', rate, label)
        suite.equals(f'{label} at {rate} as the program has it', int(said), ours)
    rates_are_learned(suite)
    suite.console(page)


def rates_are_learned(suite):
    """Each rate, and the start of a day, are read in the channel's row, by one message."""
    for rate, start, name in [('24', '01:02:03:04', '24'), ('30', '00:00:00:00', '30'),
        ('df', '23:59:59;29', '29.97 DF')]:
        page = suite.office([f'1,{rate},{start},9'])
        page.front.me['channels'] = [1]
        asks(page, '1/days', '{"day":1}')
        before = [asks(page, path) for path in ['1/tapes', '1/clips', '1/days/1']]
        page.go('day', 1, 1)
        page.until(lambda: page.text('.readout').startswith(start), f'the start {start}')
        suite.equals(f'the rate {rate}', name, page.text('#rate'))
        suite.equals('the row is read once', 1, [each[1] for each in page.front.asked].count('/ch/1'))
        suite.equals('nothing was changed', before, [asks(page, path) for path in ['1/tapes', '1/clips', '1/days/1']])


def dropped_files(suite):
    """A list and an as-run file dropped on the day."""
    page = suite.office()
    asks(page, '1/days', '{"day":1}')
    page.go('day', 1, 1)
    drop(page, 'all.edl', '001  BL       V     C        00:00:00:00 12:00:00:00 06:00:00:00 18:00:00:00\n'
         '002  BARS     V     C        00:00:00:00 12:00:00:00 18:00:00:00 06:00:00:00\n')
    page.done('import', '2 items of all.edl')
    page.one('#export').click()
    file = pathlib.Path(suite.directory) / 'CH001DAY00001.edl'
    page.until(file.exists, 'the list is saved')
    suite.equals('the saved list', asks(page, '1/days/1/list'), file.read_text())
    page.submit('seal', sure=True)
    page.done('seal', 'Day 1 is sealed')
    page.go('aired', 1, 1)
    page.until(lambda: page.field('batch', 'batch').get_attribute('value') == '1', 'the next batch')
    drop(page, 'all.csv', '06:00:00:00,1080000,BL,00:00:00:00\n')
    page.done('batch', 'Batch 1 is taken')
    suite.equals('the match', 'OK 1080000 SLIP 0 WRONG 0 MISSED 1080000', asks(page, '1/days/1/match').splitlines()[-1])
    large_file(suite, page)
    suite.console(page)


def large_file(suite, page):
    """A file that is too large for a message goes as several batches."""
    page.until(lambda: page.field('batch', 'batch').get_attribute('value') == '2', 'the next batch')
    rows = ''.join(f'{label_of(540000 + 1080000 + number)},0000001,BARS,00:00:00:00\n' for number in range(36_000))
    drop(page, 'large.csv', rows)
    page.done('batch', 'Batches 2 to 3 are taken: large.csv')
    suite.equals('the match behind it', 'OK 1116000 SLIP 0 WRONG 0 MISSED 1044000',
                 asks(page, '1/days/1/match').splitlines()[-1])


def drop(page, name, text):
    page.script('''
        const data = new DataTransfer();
        data.items.add(new File([arguments[1]], arguments[0]));
        for (const type of ['dragover', 'drop']) {
            document.querySelector('.timeline').dispatchEvent(new DragEvent(type, { dataTransfer: data, bubbles: true,
                cancelable: true }));
        }''', name, text)


def names_for_readers(suite):
    """What a screen reader is told: each field has a label, each list a name, and the focus can be seen."""
    page = suite.office()
    asks(page, '1/days', '{"day":1}')
    for view, more in [('channel', []), ('vault', []), ('clips', []), ('day', [1]), ('day', [2]), ('aired', [1])]:
        page.go(view, 1, *more)
        nameless = page.script('''
            const named = (field) => field.labels?.length || field.ariaLabel || field.getAttribute('aria-labelledby')
                || field.textContent.trim();
            return [...document.querySelectorAll('input, select, button, [role="grid"], [role="application"]')]
                .filter((field) => !named(field)).map((field) => field.outerHTML.slice(0, 80));''')
        suite.equals(f'fields without a name in {view}', [], nameless)
        twice = page.script('''
            const ids = [...document.querySelectorAll('[id]')].map((each) => each.id);
            return ids.filter((id, index) => ids.indexOf(id) !== index);''')
        suite.equals(f'ids that come twice in {view}', [], twice)
    suite.console(page)


def pictures(suite):
    """The views of docs/DESK.md, of the broadcast day and of a day that is being planned; and one sheet of paper."""
    page = suite.office()
    subprocess.run([str(TOP / 'docs' / 'broadcast-day' / 'run'), page.office], stdout=subprocess.DEVNULL, check=True)
    for number, title in enumerate(['EVENING NEWS', 'WEATHER', 'TRAILER: THE LAST TRAIN', 'DOCUMENTARY', 'LATE FILM'],
        3):
        asks(page, '1/tapes', json.dumps({'barcode': f'B{number:04}', 'slot': number * 2 + 1}))
        asks(page, '1/clips', json.dumps({'frames': 4500 * number, 'in': '10:00:00:00', 'tape': number, 'title': title,
                                          'umid': f'{UMID}{number + 32:02x}'}))
    asks(page, '1/tapes/4/pull', '')
    asks(page, '1/offers', '{"clip":"C0000003","first":1,"last":7,"to":2}')
    asks(page, '1/days', '{"day":2}')
    at = 540000
    for reel, frames, first, mix in [('C0000001', 45000, '00:00:00:00', 0), ('BL', 250, '00:00:00:00', 0),
                                     ('C0000003', 13500, '10:00:00:00', 12), ('L0020001', 90000, '01:00:00:00', 0),
                                     ('', 27500, '', 0), ('C0000002', 135000, '10:00:00:00', 25), ('', 700000, '', 0),
                                     ('C0000007', 31500, '10:00:00:00', 0), ('BARS', 400000, '00:00:00:00', 0)]:
        if reel:
            asks(page, '1/days/2/items', json.dumps({'at': label_of(at), 'frames': frames, 'in': first, 'mix': mix,
                                                     'source': reel}))
        at += frames
    asks(page, '1/days', '{"day":3}')
    page.front.site = {'day1': '2026-03-02', 'channels': {'1': {'name': 'MORNING TV'}, '2': {'name': 'SPORT'}}}
    (TOP / 'docs' / 'desk').mkdir(exist_ok=True)
    page.driver.execute_cdp_cmd('Emulation.setEmulatedMedia', {
        'features': [{'name': 'prefers-color-scheme', 'value': 'dark'}]})
    takes_pictures(suite, page)
    more_pictures(suite, page)
    paper_pictures(suite, page)


def more_pictures(suite, page):
    """A day that is copied, of which something can't come; a list that is relinked; and the day in light colours."""
    asks(page, '1/clips/3/retire', '')
    asks(page, '2/offers/1/withdraw', '')
    page.go('day', 1, 3)
    page.type('copy-day', **{'from': 2})
    page.submit('copy-day')
    page.until(lambda: len(shown(page, 'What can\'t come')) == 2, 'what can\'t come')
    picture(suite, page, 'copy')
    page.go('day', 1, 2)
    page.one('#theme option[value="light"]').click()
    page.script('document.querySelector(".timeline").focus()')
    page.keys('n', 'n', 'n')
    picture(suite, page, 'light')
    page.one('#theme option[value="system"]').click()
    file = f'{suite.directory}/system.edl'
    with open(file, 'w', encoding='ascii') as out:
        out.write('TITLE: EVENING\nFCM: NON-DROP FRAME\n'
                  '001  B0004    V     C        10:00:00:00 10:10:00:00 06:00:00:00 06:10:00:00\n'
                  '002  AX       V     C        00:00:00:00 00:01:00:00 06:10:00:00 06:11:00:00\n'
                  '* FROM CLIP NAME: TRAILER: THE LAST TRAIN\n'
                  '003  AX       V     D    025 00:00:00:00 00:05:00:00 06:11:00:00 06:16:00:00\n'
                  '* TO CLIP NAME: LATE\n')
    page.go('day', 1, 3)
    page.field('import', 'file').send_keys(file)
    page.reach('#relink').click()
    page.until(lambda: page.seen('#relink-send'), 'its sources')
    picture(suite, page, 'relink')


def takes_pictures(suite, page):
    size = {'width': 1440, 'height': 900, 'deviceScaleFactor': 1, 'mobile': False}
    page.driver.execute_cdp_cmd('Emulation.setDeviceMetricsOverride', size)
    page.go('channel', 1)
    picture(suite, page, 'channel')
    page.go('vault', 1)
    page.type('add-tape', barcode='A0018', slot=7)
    page.submit('add-tape')
    page.refused('add-tape', 'barcode', '43 BarcodeKnown')
    picture(suite, page, 'vault')
    page.go('clips', 1)
    page.one('[aria-label="Clips"] [data-key="C0000003"]').click()
    picture(suite, page, 'clips')
    page.go('days', 1, 2)
    page.until(lambda: page.all('.period a.sealed'), 'what the days are')
    picture(suite, page, 'days')
    page.go('day', 1, 2)
    page.script('document.querySelector(".timeline").focus()')
    page.keys('n', 'n')
    picture(suite, page, 'day')
    cell_picture(suite, page)
    page.one('.timeline').send_keys(Keys.END, 'p', 'p')
    page.one('.tools button:nth-of-type(4)').click()
    page.field('import', 'file').send_keys(day_file('morning.csv'))
    page.submit('import')
    page.refused('import', 'file', '22 FieldCount')
    picture(suite, page, 'list')
    page.go('aired', 1, 1)
    page.one('[aria-label="Runs of what went out"] [data-key="07:36:41:00"]').click()
    picture(suite, page, 'aired')


def cell_picture(suite, page):
    """A cell of the plan whose text is refused, in the room of the forms."""
    page.one('#forms').click()
    page.one('[aria-label="Plan: items and gaps"] [data-key="item-3"] [aria-colindex="2"]').click()
    page.keys('06200000', Keys.ENTER)
    page.until(lambda: 'is taken' in page.text('.cell-fault'), 'it is refused')
    picture(suite, page, 'cells')
    page.keys(Keys.ESCAPE)
    page.one('#forms').click()


def paper_pictures(suite, page):
    size = {'width': 1440, 'height': 900, 'deviceScaleFactor': 1, 'mobile': False}
    page.go('aired', 1, 1)
    suite.equals('sheets of paper for a day', 1, sheets(page))
    page.script('const about = document.getElementById("about"); about.value = "C0000002";'
                'about.dispatchEvent(new Event("change"))')
    page.until(lambda: len(shown(page, 'Runs of what went out')) == 2, 'the runs of one clip')
    suite.equals('sheets of paper for a clip', 1, sheets(page))
    page.driver.execute_cdp_cmd('Emulation.setEmulatedMedia', {'media': 'print'})
    page.driver.execute_cdp_cmd('Emulation.setDeviceMetricsOverride', {**size, 'width': 760, 'height': 250})
    page.script('window.dispatchEvent(new Event("beforeprint"))')
    suite.holds('the sheet names the clip', 'Clip C0000002 FEATURE FILM' in page.text('.sheet'))
    picture(suite, page, 'sheet')
    page.driver.execute_cdp_cmd('Emulation.setEmulatedMedia', {'media': ''})
    page.driver.execute_cdp_cmd('Emulation.setDeviceMetricsOverride', size)
    suite.console(page)


# A screenshot as at most 256 colours: its palette, and the number of a colour for each pixel.
COLOURS = '''
    const [png, done] = arguments;
    (async () => {
        const bytes = Uint8Array.from(atob(png), (letter) => letter.charCodeAt(0));
        const image = await createImageBitmap(new Blob([bytes], { type: 'image/png' }));
        const context = new OffscreenCanvas(image.width, image.height).getContext('2d');
        context.drawImage(image, 0, 0);
        const { data } = context.getImageData(0, 0, image.width, image.height);
        const colours = new Uint32Array(data.buffer);
        const counts = new Map();
        for (const colour of colours) counts.set(colour, (counts.get(colour) ?? 0) + 1);
        const palette = [...counts].sort((one, other) => other[1] - one[1]).slice(0, 256).map(([colour]) => colour);
        const nearest = new Map(palette.map((colour, place) => [colour, place]));
        const apart = (one, other, shift) => Math.abs((one >> shift & 255) - (other >> shift & 255));
        const far = (one, other) => apart(one, other, 0) + apart(one, other, 8) + apart(one, other, 16);
        for (const colour of counts.keys()) {
            if (nearest.has(colour)) continue;
            let best = 0;
            palette.forEach((each, place) => { if (far(each, colour) < far(palette[best], colour)) best = place; });
            nearest.set(colour, best);
        }
        const numbers = [];
        for (let at = 0; at < colours.length; at += 8192) {
            numbers.push(String.fromCharCode(...Array.from(colours.subarray(at, at + 8192),
                (colour) => nearest.get(colour))));
        }
        const parts = palette.map((colour) => [colour & 255, colour >> 8 & 255, colour >> 16 & 255]);
        done([image.width, parts, btoa(numbers.join(''))]);
    })();'''


def picture(suite, page, name):
    """A screenshot in a window of its own for its packing, since the page's policy lets no script make images. Each
    run's differ a little, so those that are kept change only when they are asked for."""
    file = TOP / 'docs' / 'desk' / f'{name}.png'
    if file.exists() and not suite.makes_pictures:
        suite.holds(f'{file.name} has {file.stat().st_size} bytes', file.stat().st_size < 100000)
        return
    shot = page.driver.get_screenshot_as_base64()
    here = page.driver.current_window_handle
    page.driver.switch_to.new_window('tab')
    width, palette, pixels = page.driver.execute_async_script(COLOURS, shot)
    page.driver.close()
    page.driver.switch_to.window(here)
    picture_of_colours = packed(width, palette, b64decode(pixels))
    file.write_bytes(picture_of_colours)
    suite.holds(f'{file.name} has {len(picture_of_colours)} bytes', len(picture_of_colours) < 100000)


def packed(width, palette, pixels):
    """A PNG of colours by number."""
    height = len(pixels) // width
    lines = b''.join(b'\0' + pixels[line * width:line * width + width] for line in range(height))
    parts = [(b'IHDR', struct.pack('>IIBBBBB', width, height, 8, 3, 0, 0, 0)),
             (b'PLTE', bytes(part for colour in palette for part in colour)), (b'IDAT', zlib.compress(lines, 9)),
             (b'IEND', b'')]
    return b'\x89PNG\r\n\x1a\n' + b''.join(struct.pack('>I', len(body)) + kind + body
                                         + struct.pack('>I', zlib.crc32(kind + body)) for kind, body in parts)
