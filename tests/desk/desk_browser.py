"""The browser as the tests use it: finding what is seen, clicking, typing, and what it logged."""

import os
import subprocess
import tempfile
import time

from selenium import webdriver
from selenium.webdriver.common.action_chains import ActionChains
from selenium.webdriver.chrome.service import Service
from selenium.webdriver.common.by import By
from selenium.webdriver.common.keys import Keys

PATIENCE = 60


class Slow(AssertionError):
    pass


def office_of(program, directory, name, rows):
    """An office over a new file, and the port that it serves."""
    file = os.path.join(directory, name)
    subprocess.run([program, 'answer', '--db', file, *rows], stdin=subprocess.DEVNULL, check=True,
                   stdout=subprocess.DEVNULL)
    return served(program, file)


def served(program, file, port=0):
    process = subprocess.Popen([program, 'serve', '--db', file, '--port', str(port), '--turns', '1000000'],
                               stdout=subprocess.PIPE, stderr=subprocess.DEVNULL, text=True)
    return process, int(process.stdout.readline().rsplit(':', 1)[1])


def driver_of(downloads):
    options = webdriver.ChromeOptions()
    options.binary_location = '/usr/bin/chromium'
    for word in ['--headless=new', '--no-sandbox', '--disable-dev-shm-usage', '--disable-gpu', '--window-size=1440,900',
                 '--force-device-scale-factor=1', '--disable-background-networking', '--no-first-run',
                 '--disable-component-update', '--disable-sync', '--proxy-server=direct://', '--hide-scrollbars=false',
                 '--ignore-certificate-errors']:
        options.add_argument(word)
    options.add_experimental_option('prefs', {'download.default_directory': downloads,
                                              'download.prompt_for_download': False})
    options.set_capability('goog:loggingPrefs', {'browser': 'ALL'})
    service = Service('/usr/bin/chromedriver')
    driver = webdriver.Chrome(options=options, service=service)
    driver.set_page_load_timeout(2 * PATIENCE)
    driver.set_script_timeout(2 * PATIENCE)
    sized(driver, 1440, 900)
    return driver


def sized(driver, width, height, sharp=1):
    driver.execute_cdp_cmd('Emulation.setDeviceMetricsOverride',
                           {'width': width, 'height': height, 'deviceScaleFactor': sharp, 'mobile': False})


class Page:
    def __init__(self, driver, url):
        self.driver = driver
        self.url = url
        self.console = []

    def until(self, look, what):
        end = time.monotonic() + PATIENCE
        while True:
            try:
                found = look()
                if found:
                    return found
            except Exception as fault:  # what is looked for may be drawn anew meanwhile
                last = fault
            else:
                last = None
            if time.monotonic() > end:
                raise Slow(f'{what}: not within {PATIENCE} s {last or ""}')
            time.sleep(0.03)

    def go(self, view, channel=1, *more):
        self.opens(view, channel, *more)
        self.ready(view, channel)

    def opens(self, view, channel=1, *more):
        path = '/'.join(['#', str(channel), view, *map(str, more)])
        self.driver.get(f'{self.url}/{path}')

    def leads(self, view, channel=1, *more):
        """Another view in the page that is open."""
        self.script('location.hash = arguments[0]', '/'.join(['#', str(channel), view, *map(str, more)]))
        self.ready(view, channel)

    def seen(self, selector):
        return self.script('return document.querySelector(arguments[0])?.checkVisibility() ?? false', selector)

    def focus(self):
        """What has the focus, in words."""
        return self.script('''
            const at = document.activeElement;
            return !at ? 'nothing'
                : at.name || at.id || at.getAttribute('aria-label') || at.className || at.tagName;''')

    def ready(self, view, channel=1):
        self.until(lambda: self.script('return document.body.dataset.ready') == f'{channel}/{view}', f'view {view}')

    def script(self, text, *arguments):
        return self.driver.execute_script(text, *arguments)

    def one(self, selector):
        return self.driver.find_element(By.CSS_SELECTOR, selector)

    def all(self, selector):
        return self.driver.find_elements(By.CSS_SELECTOR, selector)

    def text(self, selector):
        return self.script('return document.querySelector(arguments[0])?.textContent ?? ""', selector)

    def field(self, form, name):
        return self.one(f'form[data-form="{form}"] [name="{name}"]')

    def fault(self, form, name):
        """What stands beside a field, by the field's own description."""
        return self.script('''
            const field = document.querySelector(`form[data-form="${arguments[0]}"] [name="${arguments[1]}"]`);
            return field.getAttribute('aria-describedby').split(' ').map((id) => document.getElementById(id))
                .filter((each) => each.classList.contains('fault'))
                .map((each) => each.textContent).join('');''', form, name)

    def message(self, form):
        return self.script('''
            return document.querySelector(`form[data-form="${arguments[0]}"] > p.fault`).textContent''', form)

    def result(self, form):
        return self.text(f'form[data-form="{form}"] > p.result')

    def type(self, form, **values):
        """Fills fields as a paste would; typing itself is tried by the day that is done by keyboard."""
        self.reach(f'form[data-form="{form}"]')
        for name, value in values.items():
            field = self.field(form, name)
            if field.tag_name == 'select':
                field.find_element(By.CSS_SELECTOR, f'option[value="{value}"]').click()
            elif field.get_attribute('type') == 'file':
                field.send_keys(value)
            else:
                self.script('''
                    const [field, text] = arguments;
                    field.value = text;
                    field.dispatchEvent(new Event('input', { bubbles: true }));
                    field.dispatchEvent(new Event('change', { bubbles: true }));''', field, str(value))

    def submit(self, form, sure=False):
        self.until(lambda: self.idle(form), f'{form} is idle')
        self.reach(f'form[data-form="{form}"] button[type="submit"]').click()
        if sure:
            self.until(lambda: self.one(f'form[data-form="{form}"] button.sure'), 'the question').click()

    def idle(self, form):
        """Whether a form has done what was pressed before, and read what came of it."""
        return self.script('return document.querySelector(arguments[0])?.getAttribute("aria-busy") !== "true"',
                           f'form[data-form="{form}"]')

    def reach(self, selector):
        """An element, once the folds around it are open and it is in view."""
        self.script('''
            const element = document.querySelector(arguments[0]);
            for (let at = element; at; at = at.parentElement) if (at.tagName === 'DETAILS') at.open = true;
            element?.scrollIntoView({ block: 'nearest' });''', selector)
        return self.one(selector)

    def done(self, form, words):
        self.until(lambda: words in self.result(form), f'{form}: "{words}"')

    def refused(self, form, name, words):
        look = (lambda: words in self.fault(form, name)) if name else (lambda: words in self.message(form))
        self.until(look, f'{form}.{name}: "{words}"')

    def keys(self, *keys):
        ActionChains(self.driver, duration=20).send_keys(*keys).perform()

    def alt(self, letter):
        ActionChains(self.driver, duration=20).key_down(Keys.ALT).send_keys(letter).key_up(Keys.ALT).perform()

    def picture(self, file):
        self.driver.save_screenshot(file)

    def log(self):
        """The console's errors. A refusal is an answer 4xx, which the browser logs by itself: that is no error."""
        found = [line for line in self.driver.get_log('browser') if line['level'] == 'SEVERE'
                 and line.get('source') != 'network']
        self.console += found
        return self.console


def scratch():
    """A directory for files, in memory where there is one, so that many requests don't wait for a disk."""
    return tempfile.mkdtemp(prefix='desk-', dir='/dev/shm' if os.access('/dev/shm', os.W_OK) else None)
