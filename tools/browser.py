"""A headless Chromium that is driven over the WebDriver protocol, by `chromedriver` of Debian's package chromium-driver."""
import base64
import json
import os
import shutil
import subprocess
import tempfile
import time
import urllib.error
import urllib.request

from trials import Trouble, free_port

DRAWN_ANEW = ('stale', 'not found', 'interactable', 'intercepted')  # what is said of an element that was drawn anew meanwhile
ELEMENT = 'element-6066-11e4-a52e-4f735466cecf'  # the name under which the protocol gives an element
KEYS = {
    'left': '\ue012', 'up': '\ue013', 'right': '\ue014', 'down': '\ue015', 'home': '\ue011', 'end': '\ue010', 'enter': '\ue007',
    'escape': '\ue00c', 'tab': '\ue004',
}
SELECT_ALL, DELETE = '\ue009a', '\ue017'
PATIENCE = 20  # seconds until something has to be seen
WIDTH, HEIGHT = 1280, 800


def install():
    """Installs Chromium and its driver by Debian's packages where they are not there."""
    if shutil.which('chromium') and shutil.which('chromedriver'):
        return
    quiet = os.environ | {'DEBIAN_FRONTEND': 'noninteractive'}
    for words in (['update'], ['install', '-y', '--no-install-recommends', 'chromium', 'chromium-driver', 'fonts-dejavu-core']):
        done = subprocess.run(['apt-get', '-q', *words], env=quiet, capture_output=True, text=True)
        if done.returncode:
            raise Trouble(f"apt-get {words[0]} ended with status {done.returncode}: {done.stderr.strip()[-300:]}")


class Chromium:
    """A browser with a profile of its own. It is ended at the end of `with`."""

    def __init__(self):
        self.room = tempfile.mkdtemp()
        self.port = free_port()
        self.driver = subprocess.Popen(
            ['chromedriver', f'--port={self.port}', '--log-level=OFF'], stdin=subprocess.DEVNULL, stdout=subprocess.DEVNULL,
            stderr=subprocess.DEVNULL, env=os.environ | {'HOME': self.room},
        )
        self.session = None
        try:
            self.wait_for_the_driver()
            self.begin()
        except BaseException:
            self.close()
            raise

    def __enter__(self):
        return self

    def __exit__(self, *_):
        self.close()

    def close(self):
        try:
            if self.session:
                self.send('DELETE', f'/session/{self.session}')
        except (OSError, Trouble):
            pass
        self.driver.terminate()
        self.driver.wait(PATIENCE)
        shutil.rmtree(self.room, ignore_errors=True)

    def wait_for_the_driver(self):
        until = time.monotonic() + PATIENCE
        while time.monotonic() < until:
            try:
                if self.send('GET', '/status')['ready']:
                    return
            except OSError:
                pass
            time.sleep(0.05)
        raise Trouble('chromedriver does not listen')

    def begin(self):
        words = [
            '--headless=new', '--no-sandbox', '--disable-gpu', '--disable-dev-shm-usage', '--hide-scrollbars', '--no-first-run',
            '--force-color-profile=srgb', f'--window-size={WIDTH},{HEIGHT}', f'--user-data-dir={self.room}/profile',
        ]
        wanted = {'browserName': 'chrome', 'goog:chromeOptions': {'args': words}, 'goog:loggingPrefs': {'browser': 'ALL'}}
        self.session = self.send('POST', '/session', {'capabilities': {'alwaysMatch': wanted}})['sessionId']
        self.set_size()

    def send(self, method, path, body=None):
        """A command of the protocol: its value."""
        data = None if body is None else json.dumps(body).encode()
        kind = {'Content-Type': 'application/json'}
        asked = urllib.request.Request(f'http://127.0.0.1:{self.port}{path}', data, kind, method=method)
        try:
            with urllib.request.urlopen(asked, timeout=60) as answer:
                return json.load(answer)['value']
        except urllib.error.HTTPError as error:
            raise Trouble(json.load(error)['value']['message'].split('\n')[0]) from None

    def command(self, path, body=None):
        return self.send('POST', f'/session/{self.session}/{path}', body or {})

    def ask(self, path):
        return self.send('GET', f'/session/{self.session}/{path}')

    def internals(self, name, **parameters):
        """A command of Chromium's own protocol."""
        return self.command('goog/cdp/execute', {'cmd': name, 'params': parameters})

    def set_size(self, width=WIDTH, height=HEIGHT):
        self.internals('Emulation.setDeviceMetricsOverride', width=width, height=height, deviceScaleFactor=1, mobile=False)

    def set_scheme(self, scheme):
        """Whether the person wants pages light or dark."""
        self.internals('Emulation.setEmulatedMedia', features=[{'name': 'prefers-color-scheme', 'value': scheme}])

    def open(self, address):
        self.command('url', {'url': address})

    def run(self, script, *arguments):
        """What a script in the page returns."""
        return self.command('execute/sync', {'script': script, 'args': list(arguments)})

    def time(self, action, condition, *arguments):
        """The milliseconds from an action in the page until a condition holds and is drawn; both are scripts."""
        script = f'''
            const [told, given] = [arguments[arguments.length - 1], Array.from(arguments).slice(0, -1)];
            const holds = (...arguments) => {{ {condition} }};
            const begun = (() => {{ {action} }})() ?? performance.now();
            const isShown = () => requestAnimationFrame(() => told(performance.now() - begun));
            const look = () => holds(...given) ? isShown() : setTimeout(look, 1);
            look();'''
        return self.command('execute/async', {'script': script, 'args': list(arguments)})

    def until(self, what, condition, *arguments):
        """Waits until a script in the page returns something that is not false, and gives it."""
        end = time.monotonic() + PATIENCE
        while time.monotonic() < end:
            found = self.run(condition, *arguments)
            if found not in (None, False, '', 0, []):
                return found
            time.sleep(0.02)
        raise Trouble(f'{what}: was not seen within {PATIENCE} seconds')

    def element(self, selector):
        """The first element of a selector of style sheets, as soon as it is there."""
        end = time.monotonic() + PATIENCE
        while time.monotonic() < end:
            found = self.command('elements', {'using': 'css selector', 'value': selector})
            if found:
                return found[0][ELEMENT]
            time.sleep(0.02)
        raise Trouble(f'{selector} is not there')

    def click(self, selector):
        """Clicks on an element as the mouse does. Where it is drawn anew meanwhile, the new one."""
        for tries in range(20):
            try:
                return self.command(f'element/{self.element(selector)}/click')
            except Trouble as trouble:
                if tries == 19 or not any(word in str(trouble) for word in DRAWN_ANEW):
                    raise
                time.sleep(0.05)

    def type(self, selector, text):
        """Types a text in the place of what stands in a field."""
        element = self.element(selector)
        for keys in (SELECT_ALL, DELETE, text):
            if keys:
                self.command(f'element/{element}/value', {'text': keys})

    def choose(self, selector, value):
        """Chooses an option of a list by its value."""
        self.click(f'{selector} option[value="{value}"]')

    def press(self, *keys):
        """Presses keys, one after another, wherever the focus is: their names, or the characters."""
        strokes = []
        for key in keys:
            strokes += [{'type': 'keyDown', 'value': KEYS.get(key, key)}, {'type': 'keyUp', 'value': KEYS.get(key, key)}]
        self.command('actions', {'actions': [{'type': 'key', 'id': 'keyboard', 'actions': strokes}]})

    def hover(self, selector):
        place = {ELEMENT: self.element(selector)}
        moves = [{'type': 'pointerMove', 'duration': 0, 'origin': place, 'x': 0, 'y': 0}]
        self.command('actions', {'actions': [{'type': 'pointer', 'id': 'mouse', 'actions': moves}]})

    def text(self, selector):
        """The text of an element, as it is seen."""
        return self.ask(f'element/{self.element(selector)}/text')

    def window(self):
        """Where one is now among the windows."""
        return self.ask('window')

    def new_window(self):
        made = self.command('window/new', {'type': 'window'})['handle']
        self.go_to_window(made)
        self.set_size()
        return made

    def go_to_window(self, window):
        self.command('window', {'handle': window})

    def close_window(self):
        self.send('DELETE', f'/session/{self.session}/window')

    def faults(self):
        """What the browser complained of since this was asked last, but for answers that something is not there."""
        told = [each['message'] for each in self.command('se/log', {'type': 'browser'}) if each['level'] == 'SEVERE']
        return [message for message in told if not message.endswith('the server responded with a status of 404 (Not Found)')]

    def picture(self, selector=None):
        """A picture of the page, or of an element of it, as a PNG."""
        return base64.b64decode(self.ask(f'element/{self.element(selector)}/screenshot' if selector else 'screenshot'))
