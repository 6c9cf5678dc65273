"""The desk through deploy/nginx.conf: an office that is killed, halted and begun again, and channels of others."""

import base64
import os
import signal

from desk_browser import Page, office_of, served
from desk_suite import ROWS, UMID, asks
from gateway import PASSWORD, USER, Gateway


def behind(suite, waits):
    """An office of three channels behind a gateway that knows a user of two."""
    file = f'gateway-{len(suite.gateways)}.db'
    process, port = office_of(suite.program, suite.directory, file, [*ROWS, '3,25,06:00:00:00,40'])
    suite.offices.append(process)
    gateway = Gateway(suite.directory, port, waits)
    suite.gateways.append(gateway)
    page = Page(suite.driver, gateway.url)
    page.office, page.gateway, page.process = f'http://127.0.0.1:{port}', gateway, process
    page.file, page.port = f'{suite.directory}/{file}', port
    word = base64.b64encode(f'{USER}:{PASSWORD}'.encode()).decode()
    suite.driver.execute_cdp_cmd('Network.enable', {})
    suite.driver.execute_cdp_cmd('Network.setExtraHTTPHeaders', {'headers': {'Authorization': f'Basic {word}'}})
    asks(page, '1/tapes', '{"barcode":"A0001","slot":1}')
    asks(page, '1/clips', f'{{"frames":2000,"in":"00:00:00:00","tape":1,"title":"ONE","umid":"{UMID}01"}}')
    asks(page, '1/days', '{"day":1}')
    asks(page, '3/days', '{"day":1}')
    return page


def leaves(suite):
    suite.driver.execute_cdp_cmd('Network.setExtraHTTPHeaders', {'headers': {}})


def begins_again(suite, page):
    page.process, _ = served(suite.program, page.file, page.port)
    suite.offices.append(page.process)


def gateway(suite):
    page = behind(suite, 60)
    try:
        page.go('day', 1, 1)
        suite.equals('who asks, as the gateway has it', USER, page.text('#user'))
        suite.equals('it is connected', 'CONNECTED', page.text('#connection'))
        killed(suite, page)
        not_yours(suite, page)
        suite.console(page)
    finally:
        leaves(suite)


def killed(suite, page):
    """The gateway answers 502: that is no refusal, and says nothing of the day."""
    page.until(lambda: page.script('return document.querySelectorAll(".days a.open").length') == 1, 'the strip')
    page.type('add-item', at='06:00:00:00', length='25', source='BL')
    page.process.kill()
    page.process.wait()
    page.submit('add-item')
    page.refused('add-item', None, 'It may have been done, or not')
    suite.holds('the gateway\'s answer is told', '502 NoOffice' in page.message('add-item'))
    suite.equals('it is said at the top', 'NO ANSWER', page.text('#connection'))
    page.script('window.dispatchEvent(new Event("focus"))')
    page.until(lambda: sum(' 502 ' in line for line in page.gateway.asked()) >= 3, 'the view asks again')
    suite.equals('the day stays what it was', 'OPEN', page.text('#day-state'))
    suite.holds('its work stays too', page.seen('.timeline'))
    suite.equals('and the strip', [1, 0], page.script('''
        return [document.querySelectorAll('.days a.open').length,
            [...document.querySelectorAll('.days a')].filter((each) => !each.className).length];'''))
    page.until(lambda: any('"GET /ch/1/office' in line and ' 502 ' in line for line in page.gateway.asked()),
               'what is asked in between is passed on by the gateway')
    suite.passes()
    begins_again(suite, page)
    page.until(lambda: page.text('#connection') == 'CONNECTED', 'it is found again by itself')
    page.submit('add-item')
    page.refused('add-item', None, 'It was not done')
    page.one('form[data-form="add-item"] button.sure').click()
    page.done('add-item', 'Item 1, BL, begins at 06:00:00:00')


def not_yours(suite, page):
    """An address of a channel that isn't the user's: it says so, and shows no other one's day."""
    page.driver.get(f'{page.url}/#/3/day/1')
    page.until(lambda: page.script('return document.body.dataset.ready') == 'not-yours', 'it is refused')
    suite.holds('in words', 'You may not speak for channel 3' in page.text('main'))
    suite.equals('nothing of another channel is shown', 0, len(page.all('main [role="grid"], main .timeline')))
    suite.equals('nor is any asked for', [], [line for line in page.gateway.asked() if ' /ch/3/' in line])


def halted(suite):
    """An office that is halted: the desk says that it waits, and then that no answer came. It did what was asked."""
    page = behind(suite, 6)
    try:
        page.go('vault', 1)
        page.type('add-tape', barcode='HALT1', slot=5)
        os.kill(page.process.pid, signal.SIGSTOP)
        page.submit('add-tape')
        page.until(lambda: page.text('#connection') == 'WAITING', 'it says that it waits')
        page.refused('add-tape', None, 'It may have been done, or not')
        suite.holds('504 is no refusal', '504 NoAnswer' in page.message('add-tape'))
        suite.equals('nothing is said beside a field', '', page.fault('add-tape', 'barcode'))
        os.kill(page.process.pid, signal.SIGCONT)
        page.until(lambda: page.text('#connection') == 'CONNECTED', 'it is found again by itself')
        page.submit('add-tape')
        page.done('add-tape', 'It was done: tape 2, HALT1, stands in slot 5')
        suite.equals('once', 1, asks(page, '1/tapes').count('HALT1'))
        # A refusal of the office itself stays one.
        page.type('add-tape', barcode='HALT1', slot=6)
        page.submit('add-tape')
        page.refused('add-tape', 'barcode', '43 BarcodeKnown')
        suite.console(page)
    finally:
        os.kill(page.process.pid, signal.SIGCONT)
        leaves(suite)
