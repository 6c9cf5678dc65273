"""How the desk looks: sizes of windows, light and dark, paper, what a time line draws, and how fast."""

import json
import pathlib
import re
import subprocess

from selenium.webdriver.common.keys import Keys

from desk_browser import sized
from desk_day_checks import shown
from desk_defect_checks import PLAN, item, row, with_clips
from desk_large_checks import label_of, paper
from desk_suite import UMID, Busy, asks
from desk_work_checks import lent_clips
from stand_in import TOP

SIZES = [(390, 844), (768, 1024), (1100, 800), (1300, 900), (1920, 1080), (2560, 1440)]

# What lies over something else, what is cut off, and what stands out of its parent. Lists scroll in themselves, and
# tell what is cut off by a tooltip.
FAULTS_OF_LAYOUT = r'''
    const faults = [];
    const seen = (each) => each.checkVisibility() && each.getBoundingClientRect().width > 0
        && getComputedStyle(each).clipPath === 'none';
    const name = (each) => `${each.tagName.toLowerCase()}${each.id ? `#${each.id}` : ''}.${each.className}`
        + ` "${(each.textContent || each.value || '').trim().slice(0, 24)}"`;
    const main = document.getElementById('main');
    const parts = [...document.querySelectorAll('.top a, .top select, .top .badge, .top .connection, .top .user, '
        + '.panel, .list, .timeline, .readout, .bar > *, .daybar > *, button, input, select, h2, h3, label, summary, '
        + '#said, #keys, .form > *, .field > *')].filter((each) => seen(each) && !each.closest('.list-row'));
    const boxes = parts.map((each) => each.getBoundingClientRect());
    // What scrolls shows a part of what is in it, so only what is within its box can lie over something.
    const clipped = parts.map((each, index) => {
        let { left, top, right, bottom } = boxes[index];
        for (let above = each.parentElement; above; above = above.parentElement) {
            const { overflowX, overflowY } = getComputedStyle(above);
            if (overflowX === 'visible' && overflowY === 'visible') continue;
            const box = above.getBoundingClientRect();
            [left, top, right, bottom] = [Math.max(left, box.left), Math.max(top, box.top), Math.min(right, box.right),
                Math.min(bottom, box.bottom)];
        }
        return { left, top, right, bottom };
    });
    for (let one = 0; one < parts.length; one += 1) {
        for (let other = one + 1; other < parts.length; other += 1) {
            if (parts[one].contains(parts[other]) || parts[other].contains(parts[one])) continue;
            const wide = Math.min(clipped[one].right, clipped[other].right) - Math.max(clipped[one].left,
                clipped[other].left);
            const high = Math.min(clipped[one].bottom, clipped[other].bottom) - Math.max(clipped[one].top,
                clipped[other].top);
            if (wide > 1.5 && high > 1.5) faults.push(`${name(parts[one])} lies over ${name(parts[other])}`);
        }
    }
    parts.forEach((each, index) => {
        const box = boxes[index];
        if (box.right > innerWidth + 1 || box.left < -1) faults.push(`${name(each)} is beside the window`);
        if (each.matches('button, label, h2, h3, .badge, a, summary') && each.scrollWidth > each.clientWidth + 1
            && getComputedStyle(each).display !== 'inline') faults.push(`${name(each)} is cut off`);
        if (each.matches('.list') && box.height < 90) faults.push(`${name(each)} is ${box.height} px high`);
    });
    if (document.documentElement.scrollWidth > innerWidth + 1) faults.push('the page scrolls sideways');
    return faults.slice(0, 6);'''

# What a view needs, in reach: seen once it is scrolled to.
NEEDED = {
    'channel': ['#reckon-label'],
    'vault': ['form[data-form="add-tape"] button.main', 'form[data-form="pull-tape"] button.main',
              'form[data-form="shelve-tape"] button.main', '#vault-search', '[aria-label="Shelf by slots"]'],
    'clips': ['form[data-form="add-clip"] button.main', 'form[data-form="retire-clip"] button.main',
              'form[data-form="lend"] button.main', 'form[data-form="recall"] button.main',
              '[role="grid"][aria-label="Clips"]'],
    'day': ['form[data-form="add-item"] button.main', 'form[data-form="remove-item"] button.main',
            'form[data-form="import"] button.main', 'form[data-form="seal"] button.main',
            'form[data-form="edit-item"] button.main', 'form[data-form="move"] button.main', '#export', '#undo',
            'form[data-form="copy-day"] button.main', '#source-search', f'[aria-label="{PLAN}"]', '.timeline',
            '#plan-search'],
    'days': ['#period', '.period a[data-day="1"]', '.period a[data-day="31"]'],
    'aired': ['form[data-form="batch"] button.main', '#print', '.totals', '[aria-label="Runs of what went out"]'],
}
REACHED = '''
    return arguments[0].filter((selector) => {
        const element = document.querySelector(selector);
        if (!element || !element.checkVisibility()) return true;
        element.scrollIntoView({ block: 'center', inline: 'nearest' });
        const box = element.getBoundingClientRect();
        const [x, y] = [box.left + box.width / 2, box.top + Math.min(box.height / 2, 60)];
        const at = document.elementFromPoint(x, y);
        return !at || !(element.contains(at) || at.contains(element));
    });'''


def busy_channel(suite):
    """A channel with long titles, something lent and recalled, an open day with gaps, and a sealed one."""
    page = with_clips(suite, (1, 2))
    lent_clips(page)
    asks(page, '1/clips', json.dumps({'frames': 9000, 'in': '10:00:00:00', 'tape': 1, 'umid': UMID + '55',
                                      'title': 'THE LONG WAY ROUND: A JOURNEY IN TWELVE PARTS, PART ELEVEN'}))
    asks(page, '1/offers', '{"clip":"C0000003","first":1,"last":7,"to":2}')
    for at, frames, source, first in [('06:00:00:00', 9000, 'C0000004', '10:00:00:00'),
                                      ('07:00:00:00', 500, 'L0020001', '01:00:00:00'),
                                      ('08:00:00:00', 50000, 'C0000003', '00:00:00:00'), ('20:00:00:00', 99, 'BL',
                                                                                         '00:00:00:00')]:
        item(page, 1, at, frames, source, first)
    asks(page, '2/offers/1/withdraw', '')
    item(page, 2, '06:00:00:00', 2159990, 'BARS')
    item(page, 2, '05:59:59:15', 10, 'BL')
    asks(page, '1/days/2/seal', '')
    asks(page, '1/days/2/asrun/1', '06:00:00:00,1000000,BARS,00:00:00:00\n17:06:40:00,500,C0000001,00:00:00:00\n')
    return page


VIEWS = [('channel', []), ('vault', []), ('clips', []), ('days', [1]), ('day', [1]), ('day', [2]), ('day', [3]),
         ('aired', [2])]


def sizes(suite):
    """From 390 to 2,560 px, at 100 and 200 %: nothing lies over anything, and all that is needed is in reach."""
    page = busy_channel(suite)
    page.front.site = {'day1': '2026-01-01', 'channels': {'1': {'name': 'ONE'}}}
    try:
        for width, height in SIZES:
            for zoom in [1, 2]:
                sized(page.driver, width // zoom, height // zoom, zoom)
                for view, more in VIEWS:
                    page.go(view, 1, *more)
                    where = f'{view} {more} at {width} px, {zoom * 100} %'
                    page.until(lambda: page.script('return !document.querySelector("main [aria-busy=true]:not(form)")')
                               or more == [3], 'read')
                    if view == 'day' and more == [1]:
                        row(page, 'item-3')
                        page.script('document.querySelector(".timeline").focus()')
                        page.keys('n')
                    suite.equals(where, [], page.script(FAULTS_OF_LAYOUT))
                    if more not in ([3], [2]) or view == 'aired':
                        suite.equals(f'in reach: {where}', [], page.script(REACHED, NEEDED[view]))
    finally:
        sized(page.driver, 1440, 900)
    suite.console(page)


# Text and its ground, as the browser has them: the least contrast, and where.
CONTRAST = r'''
    const parts = (colour) => colour.match(/[\d.]+/g).map(Number);
    const linear = (part) => (part / 255 <= 0.04045 ? part / 255 / 12.92 : ((part / 255 + 0.055) / 1.055) ** 2.4);
    const light = ([r, g, b]) => 0.2126 * linear(r) + 0.7152 * linear(g) + 0.0722 * linear(b);
    const groundOf = (element) => {
        for (let at = element; at; at = at.parentElement) {
            const ground = parts(getComputedStyle(at).backgroundColor);
            if (ground.length < 4 || ground[3] === 1) return ground;
        }
        return [255, 255, 255];
    };
    const found = [];
    for (const element of document.querySelectorAll('body *')) {
        const own = [...element.childNodes].some((node) => node.nodeType === 3 && node.textContent.trim());
        const field = element.matches('input, select, button');
        if ((!own && !field) || !element.checkVisibility() || element.closest('.unseen, .skip, option')) continue;
        const [ink, ground] = [light(parts(getComputedStyle(element).color)), light(groundOf(element))];
        const has = (Math.max(ink, ground) + 0.05) / (Math.min(ink, ground) + 0.05);
        if (has < 4.5) found.push(`${has.toFixed(2)} ${element.tagName} ${element.className} `
            + element.textContent.slice(0, 20));
        if (!field || element.matches('.sure, .main')) continue;
        const edge = light(parts(getComputedStyle(element).borderTopColor));
        const around = light(groundOf(element.parentElement));
        const seen = (Math.max(edge, around) + 0.05) / (Math.min(edge, around) + 0.05);
        if (seen < 3) found.push(`edge ${seen.toFixed(2)} ${element.tagName} ${element.className}`);
    }
    return [...new Set(found)].slice(0, 8);'''


def themes(suite):
    """Light and dark, by the system's wish and by choice; each text has 4.5 to 1 on its ground in both."""
    page = busy_channel(suite)
    wish = lambda theme: page.driver.execute_cdp_cmd('Emulation.setEmulatedMedia', {
        'features': [{'name': 'prefers-color-scheme', 'value': theme}]})
    theme = lambda: page.script('return document.documentElement.dataset.theme')
    ground = lambda: page.script('return getComputedStyle(document.body).backgroundColor')
    try:
        wish('dark')
        page.go('day', 1, 1)
        suite.equals('dark as the system wishes', ['dark', 'rgb(11, 14, 18)'], [theme(), ground()])
        dark = pixel(page, 0.5, 60)
        wish('light')
        page.until(lambda: theme() == 'light', 'light as the system wishes')
        page.until(lambda: pixel(page, 0.5, 60) != dark, 'the time line too')
        suite.passes()
        page.one('#theme option[value="dark"]').click()
        suite.equals('by choice', 'dark', theme())
        page.driver.refresh()
        page.ready('day')
        suite.equals('which stays over a reload', ['dark', 'dark'],
                     [theme(), page.one('#theme').get_attribute('value')])
        for name in ['light', 'dark']:
            page.one(f'#theme option[value="{name}"]').click()
            for view, more in VIEWS:
                page.go(view, 1, *more)
                if view == 'day' and more == [1]:
                    row(page, 'item-2').click()
                    page.until(lambda: page.text('#lost') == '', 'nothing is lost')
                suite.equals(f'{view} {more}, {name}', [], page.script(CONTRAST))
    finally:
        wish('')
    suite.console(page)


def pixel(page, x, y):
    """The colour at a part of the time line's width and a height in pixels."""
    return page.script('''
        const canvas = document.querySelector('.timeline canvas');
        const context = canvas.getContext('2d');
        const sharp = canvas.width / canvas.clientWidth;
        const data = context.getImageData(Math.round(canvas.width * arguments[0]), arguments[1] * sharp, 1, 1).data;
        return [data[0], data[1], data[2]];''', x, y)


def colours(page, left, right, top, bottom):
    """The colours of a part of the time line, as hexadecimal digits with how many pixels have them."""
    return page.script('''
        const [left, right, top, bottom] = arguments;
        const canvas = document.querySelector('.timeline canvas');
        const { data } = canvas.getContext('2d').getImageData(left, top, right - left, bottom - top);
        const counts = {};
        for (let at = 0; at < data.length; at += 4) {
            const colour = '#' + [0, 1, 2].map((part) => data[at + part].toString(16).padStart(2, '0')).join('');
            counts[colour] = (counts[colour] ?? 0) + 1;
        }
        return counts;''', left, right, top, bottom)


def variable(page, name):
    return page.script('return getComputedStyle(document.documentElement).getPropertyValue(arguments[0]).trim()',
                       f'--{name}')


def drawn(suite):
    """What the time line draws: gaps in the overview, stripes over what was recalled, and the cursor."""
    page = busy_channel(suite)
    page.script('localStorage.clear()') if page.driver.current_url.startswith(page.url) else None
    page.go('day', 1, 1)
    width = page.script('return document.querySelector(".timeline").clientWidth')
    gap = variable(page, 'gap')
    # From 06:00 to 07:00 there is an item of 6 minutes, and then a gap; the day is 24 hours wide.
    found = colours(page, round(width * 0.25 / 24), round(width * 0.9 / 24), 2, 5)
    suite.holds(f'the gap is in the overview: {found}', found.get(gap, 0) > 0.8 * sum(found.values()))
    page.script('document.querySelector(".timeline").focus()')
    page.keys(Keys.HOME, 'n', '+')
    page.one('#next-recalled').click()
    page.until(lambda: page.text('.readout').startswith('07:00:00:00'), 'the recalled item')
    wide = page.script('''
        const line = document.querySelector('.timeline');
        const { from, perPixel } = line.dataset;
        return [Math.round((25 * 3600 - from) / perPixel), Math.round((25 * 3600 + 500 - from) / perPixel)];''')
    found = colours(page, wide[0] + 6, wide[1] - 6, 50, 96)
    striped = found.get(variable(page, 'recalled'), 0) + sum(count for colour, count in found.items() if near(
        colour, variable(page, 'recalled')))
    suite.holds(f'it has stripes: {striped} of {sum(found.values())} pixels', striped > 0.05 * sum(found.values()))
    cursor = page.script('return Math.round((line.dataset.cursor - line.dataset.from) / line.dataset.perPixel)'
                         .replace('line', 'document.querySelector(".timeline")'))
    found = colours(page, max(0, cursor - 1), cursor + 4, 60, 80)
    suite.holds(f'the cursor is light within dark: {found}',
                {variable(page, 'cursor'), variable(page, 'casing')} <= set(found))
    counted_rightly(suite, page)
    suite.console(page)


def near(one, other):
    parts = [[int(colour[at:at + 2], 16) for at in (1, 3, 5)] for colour in (one, other)]
    return one != other and all(abs(mine - yours) < 40 for mine, yours in zip(*parts))


def counted_rightly(suite, page):
    """What is counted in words: items, their length and gaps, to the frame; tapes, those that are out; loans."""
    suite.equals('of a day', '4 items, 00:39:43:24 planned, 4 gaps, 23:20:16:01 empty', page.text('#day-summary'))
    asks(page, '1/tapes', '{"barcode":"A0002","slot":2}')
    asks(page, '1/tapes', '{"barcode":"A0003","slot":3}')
    asks(page, '1/tapes/3/pull', '')
    page.leads('channel', 1)
    suite.equals('of a channel', {'Slots': '40', 'Tapes': '3, 1 of them out', 'Clips': '4, 4 of them active',
                                  'Lent by this channel': '1 open, 0 recalled',
                                  'Lent to this channel': '1 open, 1 recalled'}, page.script('''
        const list = document.querySelectorAll('#channel-has dt');
        const told = [...list].map((each) => [each.textContent, each.nextElementSibling.textContent]);
        return Object.fromEntries(told);'''))
    page.leads('vault', 1)
    suite.holds('of a vault', page.text('.summary').startswith('3 tapes, 1 out, 40 slots'))
    page.leads('aired', 1, 2)
    page.until(lambda: len(shown(page, 'Runs of what went out')) == 3, 'the runs')
    totals = page.script('''
        return [...document.querySelectorAll('.totals tr')].slice(1).map((row) => [...row.children].slice(1)
            .map((cell) => cell.textContent));''')
    suite.equals('of what went out', [['11:06:40:00', '1,000,000', '46.296 %'], ['00:00:00:00', '0', '0.000 %'],
                 ['00:00:20:00', '500', '0.023 %'], ['12:53:00:00', '1,159,500', '53.681 %']], totals)
    row_of(page, '17:06:40:00').click()
    suite.equals('the plan beside what went wrong', [['1', '17:06:40:00', '00:00:20:00', 'BARS']],
                 [each[:4] for each in shown(page, 'What was planned in the chosen run')])


def row_of(page, key):
    return page.one(f'[aria-label="Runs of what went out"] [data-key="{key}"]')


def text_of(suite, page):
    """The paper's text and how many pages it has, and one page as a picture."""
    file = pathlib.Path(suite.directory) / 'paper.pdf'
    file.write_bytes(paper(page))
    text = subprocess.run(['pdftotext', '-layout', str(file), '-'], stdout=subprocess.PIPE, check=True).stdout.decode()
    gray = subprocess.run(['pdftoppm', '-r', '80', '-gray', '-f', '1', '-l', '1', str(file)], stdout=subprocess.PIPE,
                          check=True).stdout
    head = re.match(rb'P5\s+(\d+)\s+(\d+)\s+255\s', gray)
    return text, text.count('\f'), gray[head.end():]


def printed(suite):
    """Ctrl+P prints each view: black on white, with channel, day and page numbers, all rows."""
    page = busy_channel(suite)
    lines = ''.join(f'{number:03}  BL       V     C        00:00:00:00 00:00:00:10 {label_of(1080000 + number * 10)} '
                    f'{label_of(1080000 + number * 10 + 10)}\n' for number in range(1, 121))
    asks(page, '1/days/1/import/strict', lines)
    wanted = {
        ('day', 1): ['CH 001', 'day 1', 'Plan of day 1', 'THE LONG WAY ROUND', 'RECALLED CUP FINAL', 'GAP',
                     '12:00:00:10'],
        ('vault', None): ['CH 001', 'Vault', 'A0001', 'free'],
        ('clips', None): ['CH 001', 'Clips', 'TRAILER', 'C0000004'],
        ('aired', 2): ['CH 001', 'day 2', 'What went out', 'OK: as planned', 'WRONG', '1,000,000', '17:06:40:00'],
    }
    for theme in ['dark', 'light']:
        for (view, day), words in wanted.items():
            page.go(view, 1, *([day] if day else []))
            page.script('localStorage.setItem("desk/theme", arguments[0])', theme)
            page.driver.refresh()
            page.ready(view)
            text, pages, gray = text_of(suite, page)
            suite.equals(f'{view} on paper, from {theme}', [], [word for word in words if word not in text])
            suite.equals(f'page numbers of {view}', [f'Page {number} of {pages}' for number in range(1, pages + 1)],
                         re.findall(r'Page \d+ of \d+', text))
            white = sorted(gray)[len(gray) // 2] > 250 and sum(gray) / len(gray) > 230
            suite.holds(f'{view} is black on white', white and min(gray) < 140)
            suite.equals(f'the head of {view} on each page', pages, text.count('CH 001, 25'))
    suite.holds('a long plan has several pages', text_pages(suite, page) > 2)
    small = printed_sizes(page)
    suite.holds(f'no letter is smaller than 8 pt: {small}', small >= 8 * 4 / 3 - 0.1)
    suite.console(page)


def text_pages(suite, page):
    page.go('day', 1, 1)
    return text_of(suite, page)[1]


def printed_sizes(page):
    page.go('aired', 1, 2)
    page.driver.execute_cdp_cmd('Emulation.setEmulatedMedia', {'media': 'print'})
    page.script('window.dispatchEvent(new Event("beforeprint"))')
    least = page.script('''
        return Math.min(...[...document.querySelectorAll('.sheet *')].filter((each) => each.textContent.trim())
            .map((each) => parseFloat(getComputedStyle(each).fontSize)));''')
    page.driver.execute_cdp_cmd('Emulation.setEmulatedMedia', {'media': ''})
    return least


# Pans by the pointer, frame by frame, and tells how long the drawing took in the middle frame and the 95th of 100.
PANS = '''
    const [count, done] = arguments;
    const line = document.querySelector('.timeline');
    const box = line.getBoundingClientRect();
    const event = (type, x) => new PointerEvent(type, { bubbles: true, button: 0, pointerId: 1, pointerType: 'mouse',
        clientX: box.left + x, clientY: box.top + 70 });
    const took = [];
    let step = 0;
    line.dispatchEvent(event('pointerdown', 700));
    const next = () => {
        if (step > 1) took.push(Number(line.dataset.took));
        if (step === count) {
            dispatchEvent(event('pointerup', 700));
            took.sort((one, other) => one - other);
            done([took[Math.floor(took.length / 2)], took[Math.floor(took.length * 0.95)]]);
            return;
        }
        step += 1;
        dispatchEvent(event('pointermove', 700 + 300 * Math.sin(step / 5)));
        requestAnimationFrame(next);
    };
    requestAnimationFrame(next);'''
MOST = 16  # milliseconds a frame
ROUNDS = 5  # What runs beside the browser takes time too, so the first round that is fast enough counts.


def gaps(suite):
    """9,990 items with a gap behind each: at most 16 ms a frame while dragging, near and far."""
    page = suite.office()
    asks(page, '1/days', '{"day":1}')
    lines = ''.join(f'{number + 1:03}'.ljust(5) + f'BL       V     C        00:00:00:00 00:00:08:15 '
                    f'{label_of(540000 + number * 216)} {label_of(540000 + number * 216 + 215)}\n'
                    for number in range(9990))
    suite.equals('9,990 items', '{"items":9990,"skipped":0}', asks(page, '1/days/1/import/strict', lines))
    page.go('day', 1, 1)
    page.until(lambda: page.one(f'[aria-label="{PLAN}"]').get_attribute('data-rows') == str(2 * 9990), 'items and gaps')
    for zooms in [0, 1, 3, 8]:
        page.script('''
            const line = document.querySelector('.timeline');
            line.dispatchEvent(new KeyboardEvent('keydown', { key: '0', bubbles: true }));
            for (let time = 0; time < arguments[0]; time += 1) {
                line.dispatchEvent(new KeyboardEvent('keydown', { key: '+', bubbles: true }));
            }''', zooms)
        busy = Busy()
        for _ in range(ROUNDS):
            middle, late = page.driver.execute_async_script(PANS, 60)
            if late <= MOST:
                break
        print(f'desk: 9,990 gaps, zoomed {zooms} times: drawn in {middle:.2f} ms (95 of 100 within {late:.2f})',
              flush=True)
        suite.figure(f'milliseconds a frame, zoomed {zooms} times', late, MOST, busy)
    suite.console(page)
