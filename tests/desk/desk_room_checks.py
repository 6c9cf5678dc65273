"""What has its room: at 1366 by 768, at 200 %, over the day, and in colours of the system's own."""

import json

from selenium.webdriver.common.keys import Keys

from desk_browser import sized
from desk_defect_checks import PLAN, item, row, still
from desk_look_checks import busy_channel
from desk_suite import UMID, asks

SERIES = [f'THE LONG WAY ROUND: A JOURNEY IN TWELVE PARTS, PART {part}' for part in ['ONE', 'TWO']] + [
    f'EVENING NEWS WITH WEATHER AND SPORT, {part} EDITION' for part in ['FIRST', 'SECOND']]

# The titles of a list as they are seen: as far as their begin has room, and their end.
SEEN_TITLES = r'''
    const seen = (stem) => {
        const range = document.createRange();
        const text = stem.firstChild;
        const right = stem.getBoundingClientRect().right - 10; // of the three dots
        if (!text || stem.scrollWidth <= stem.clientWidth) return stem.textContent;
        for (let end = text.length; end > 0; end -= 1) {
            range.setStart(text, 0);
            range.setEnd(text, end);
            if (range.getBoundingClientRect().right <= right) return `${text.data.slice(0, end)}..`;
        }
        return '..';
    };
    const list = document.querySelector(`[role="grid"][aria-label="${arguments[0]}"]`);
    const at = [...list.querySelectorAll('.head-cell')].findIndex((each) => each.textContent === 'Title');
    const cells = [...list.querySelectorAll('.list-row')].map((each) => each.children[at]);
    return cells.map((cell) => [cell.textContent, (cell.children.length > 0 ? [...cell.children] : [cell])
        .map((each) => (each.matches('.tail') ? each.textContent : seen(each))).join('')]);'''
# Of what these selectors are, what isn't in the window as it stands, without scrolling.
OUT_OF_SIGHT = r'''
    return arguments[0].filter((selector) => {
        const element = document.querySelector(selector);
        if (!element?.checkVisibility()) return true;
        const box = element.getBoundingClientRect();
        const at = document.elementFromPoint(box.left + box.width / 2, box.top + box.height / 2);
        return !at || !(element.contains(at) || at.contains(element)) || box.right > innerWidth;
    });'''


def told_apart(suite, page, label):
    titles = page.until(lambda: page.script(SEEN_TITLES, label), f'titles of {label}')
    whole, seen = {each[0] for each in titles}, {each[1] for each in titles}
    suite.equals(f'titles of {label} are told apart: {sorted(seen)}', len(whole), len(seen))


def fits(suite):
    """At 1366 by 768: titles are told apart, and what ends a day and the days of lent clips are in sight."""
    page = busy_channel(suite)
    for number, title in enumerate(SERIES, 5):
        asks(page, '1/clips', json.dumps({'frames': 900, 'in': '10:00:00:00', 'tape': 1, 'title': title,
                                          'umid': f'{UMID}{number + 64:02x}'}))
        item(page, 1, f'{number + 6:02}:00:00:00', 900, f'C{number:07}', '10:00:00:00')
    page.front.site = {'day1': '2026-01-01', 'channels': {'1': {'name': 'ONE'}, '2': {'name': 'SPORT'}}}
    try:
        sized(page.driver, 1366, 768)
        page.go('day', 1, 1)
        row(page, 'item-1')
        for label in [PLAN, 'What can be put into the day']:
            told_apart(suite, page, label)
        suite.equals('Seal, Import and Export are in sight', [], page.script(OUT_OF_SIGHT, [
            'form[data-form="seal"] button.main', '#import-list', '#export', '#undo', f'[aria-label="{PLAN}"]']))
        over_the_day(suite, page)
        page.leads('clips', 1)
        told_apart(suite, page, 'Clips')
        page.until(lambda: page.all('[aria-label="Lent to this channel"] .list-row'), 'what is lent')
        for label in ['Lent by this channel', 'Lent to this channel']:
            days = page.script('''
                const list = document.querySelector(`[role="grid"][aria-label="${arguments[0]}"]`);
                const head = [...list.querySelectorAll('.head-cell')].find((each) => each.textContent === 'Days');
                return [head.getBoundingClientRect().right, list.getBoundingClientRect().right];''', label)
            suite.holds(f'the days of {label} are in sight: {days}', days[0] <= days[1] + 1)
        twice_as_large(suite, page)
    finally:
        sized(page.driver, 1440, 900)
    suite.console(page)


def over_the_day(suite, page):
    """The calendar lies over the day, which stays where it is."""
    top = lambda: page.script('return document.querySelector(".timeline").getBoundingClientRect().top')
    before = top()
    page.one('.calendar-box summary').click()
    page.until(lambda: page.seen('.calendar'), 'the calendar')
    suite.equals('the day stays where it is', before, top())
    suite.equals('the calendar is on top', [], page.script(OUT_OF_SIGHT, ['.calendar a[href="#/1/day/15"]',
                                                                          '.calendar a[href="#/1/day/29"]']))
    page.one('.calendar a[href="#/1/day/1"]').send_keys(Keys.ESCAPE)


def twice_as_large(suite, page):
    """At 200 % the plan is on the first screen, with some of its rows."""
    for width, height in [(1366, 768), (1920, 1080)]:
        sized(page.driver, width // 2, height // 2, 2)
        page.go('day', 1, 1)
        row(page, 'item-1')
        seen = page.script('''
            const foot = document.querySelector('.bottom').getBoundingClientRect().top;
            return [...document.querySelectorAll(`[aria-label="${arguments[0]}"] .list-row`)]
                .filter((each) => each.getBoundingClientRect().bottom <= foot).length;''', PLAN)
        suite.holds(f'rows of the plan at {width} px and 200 %: {seen}', seen >= 4)


# Of the time line, how many points in the ruler from a place on are of the colour of NOW, and how many of its labels'.
# Both are blended with the ground, so it counts which of the two is nearer.
RULER = r'''
    const canvas = document.querySelector('.timeline canvas');
    const sharp = devicePixelRatio;
    const [left, wide] = [Math.max(0, arguments[0]) * sharp, 32 * sharp];
    const { data } = canvas.getContext('2d').getImageData(left, 26 * sharp, wide, 16 * sharp);
    let [now, label] = [0, 0];
    for (let at = 0; at < data.length; at += 4) {
        const warm = data[at] - data[at + 2]; // red above blue
        if (warm > 40) now += 1;
        else if (warm < -12) label += 1;
    }
    return [now, label];'''
# A clock that stands, at some milliseconds since 1970.
CLOCK = '''
    const Real = Date;
    window.Date = class extends Real {
        constructor(...words) { super(...(words.length > 0 ? words : [AT])); }
        static now() { return AT; }
    };'''


def now(suite):
    """NOW stands in the ruler beside its line, and no label is written there."""
    page = busy_channel(suite)
    page.front.site = {'day1': '2026-01-01', 'zone': 'UTC'}
    page.go('channel', 1)
    for hours in [0.2, 4, 23.9]:
        # The day begins at 06:00:00:00 on the 1st of January.
        at = 1767225600000 + int((6 + hours) * 3600000)
        script = page.driver.execute_cdp_cmd('Page.addScriptToEvaluateOnNewDocument',
                                             {'source': CLOCK.replace('AT', str(at))})['identifier']
        page.leads('day', 1, 1)
        page.driver.refresh()
        page.ready('day')
        still(page)
        x = page.until(lambda: page.script('''
            const { now, perPixel } = document.querySelector('.timeline').dataset;
            return now === '' ? null : now / perPixel;'''), 'a line at now')
        suite.holds(f'where the clock is: {x}', abs(x - hours / 24 * page.script(
            'return document.querySelector(".timeline").clientWidth')) < 3)
        width = page.script('return document.querySelector(".timeline").clientWidth')
        page.script('document.querySelector(".timeline").focus()')
        page.keys(Keys.END if hours < 12 else Keys.HOME)  # the cursor is elsewhere
        word, labels = page.script(RULER, min(x, width - 40) + 4)
        suite.holds(f'NOW is written at {hours} h: {word}', word > 30)
        suite.equals(f'and no label over it at {hours} h', 0, labels)
        page.driver.execute_cdp_cmd('Page.removeScriptToEvaluateOnNewDocument', {'identifier': script})
    suite.console(page)


FORCED = r'''
    const ground = (selector) => getComputedStyle(document.querySelector(selector)).backgroundColor;
    const [at, other] = arguments;
    return [ground(at), ground(other)];'''


def forced(suite):
    """In colours of the system's own it is seen where one is, what is chosen and what has the focus."""
    page = busy_channel(suite)
    media = lambda value: page.driver.execute_cdp_cmd('Emulation.setEmulatedMedia', {
        'features': [{'name': 'forced-colors', 'value': value}]})
    media('active')
    try:
        page.go('day', 1, 1)
        row(page, 'item-3').click()
        plan = f'[aria-label="{PLAN}"]'
        pairs = {'the view': ('#views a[aria-current]', '#views a:not([aria-current])'),
                 'the chosen row': (f'{plan} [aria-selected="true"]', f'{plan} [aria-selected="false"]'),
                 'the day': ('.days a[aria-current]', '.days a:not([aria-current])'),
                 'a button that is pressed': ('#forms', '#undo')}
        for what, (one, other) in pairs.items():
            mine, others = page.script(FORCED, one, other)
            suite.holds(f'{what} differs: {mine} and {others}', mine != others)
        suite.holds('the focus has a line', page.script('''
            const style = getComputedStyle(document.querySelector(arguments[0]));
            return style.outlineStyle !== 'none' && parseFloat(style.outlineWidth) >= 1;''', f'{plan} .active'))
        suite.holds('states have lines of their own', page.script('''
            return getComputedStyle(document.querySelector('#day-state')).borderTopStyle;''') == 'dashed')
        colours = page.script('''
            const context = document.querySelector('.timeline canvas').getContext('2d');
            const { data } = context.getImageData(0, 0, context.canvas.width, context.canvas.height);
            const found = new Set();
            for (let at = 0; at < data.length; at += 4) found.add(data[at] * 65536 + data[at + 1] * 256 + data[at + 2]);
            return found.size;''')
        suite.holds(f'the time line is drawn: {colours} colours', colours > 4)
    finally:
        media('none')
    suite.console(page)
