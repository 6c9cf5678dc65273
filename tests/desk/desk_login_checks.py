"""The desk behind the gateway's login: in, back to the view that was asked for, out, and what was typed meanwhile."""

from desk_browser import Page, office_of, sized
from desk_look_checks import FAULTS_OF_LAYOUT, SIZES
from desk_suite import ROWS
from gateway import PASSWORD, USER, Gateway

SECOND = 'another long password'


def where(page):
    """The path and the place behind the # of the page that is shown."""
    return page.script('return location.pathname + location.hash')


def at_login(page, place):
    page.until(lambda: where(page) == f'/login{place}' and page.seen('#password'), f'the login, for {place}')
    page.until(lambda: page.script('return document.getElementById("place").value') == place, 'it keeps the view')


def logs_in(page, password):
    page.one('#name').clear()
    page.one('#name').send_keys(USER)
    page.one('#password').send_keys(password, '\n')


def asked_again(page):
    """The page reads again, as it does where its window gets the focus. The gateway keeps what it knows for seconds."""
    page.script('window.dispatchEvent(new Event("focus"))')
    return True


def login(suite):
    process, port = office_of(suite.program, suite.directory, 'login.db', ROWS)
    suite.offices.append(process)
    gateway = Gateway(suite.directory, port, login=True)
    suite.gateways.append(gateway)
    page = Page(suite.driver, gateway.url)
    page.opens('vault', 1)
    at_login(page, '#/1/vault')
    looks(suite, page)
    logs_in(page, 'a wrong password')
    page.until(lambda: 'There is no such name' in page.text('form .fault'), 'a wrong password is told')
    suite.equals('the name is kept, and the view', [USER, '#/1/vault'], page.script(
        'return [document.getElementById("name").value, document.getElementById("place").value]'))
    logs_in(page, PASSWORD)
    page.ready('vault', 1)
    suite.equals('back at the view', '/#/1/vault', where(page))
    suite.equals('who it is', USER, page.text('#user'))
    suite.holds('there is a way out', page.seen('#logout'))
    page.type('add-tape', barcode='KEPT1', slot=5)
    page.script('localStorage.setItem("desk/clipboard/1", "[]")')
    gateway.users('password', USER, given=f'{SECOND}\n')
    page.until(lambda: asked_again(page) and where(page) == '/login#/1/vault', 'the old password is known no more')
    at_login(page, '#/1/vault')
    logs_in(page, SECOND)
    page.ready('vault', 1)
    suite.equals('what was typed is kept', 'KEPT1', page.field('add-tape', 'barcode').get_attribute('value'))
    page.submit('add-tape')
    page.done('add-tape', 'KEPT1')
    page.one('#logout').click()
    page.until(lambda: where(page).startswith('/login'), 'out')
    suite.equals('nothing that was typed or copied stays', [], page.script('''
        return [...Object.keys(sessionStorage), ...Object.keys(localStorage)]
            .filter((key) => key !== 'desk/theme');'''))
    page.until(lambda: page.opens('vault', 1) or where(page) == '/login#/1/vault', 'what was ended is known no more')
    at_login(page, '#/1/vault')
    suite.console(page)


def looks(suite, page):
    """In each size, light and dark: nothing lies over anything."""
    try:
        for theme in ('light', 'dark'):
            page.script('localStorage.setItem("desk/theme", arguments[0])', theme)
            page.driver.refresh()
            page.until(lambda: page.script('return document.documentElement.dataset.theme') == theme, f'it is {theme}')
            for width, height in SIZES:
                for zoom in (1, 2):
                    sized(page.driver, width // zoom, height // zoom, zoom)
                    suite.equals(f'the login, {theme}, at {width} px, {zoom * 100} %', [], page.script(FAULTS_OF_LAYOUT))
        page.script('localStorage.removeItem("desk/theme")')
    finally:
        page.driver.execute_cdp_cmd('Emulation.clearDeviceMetricsOverride', {})
