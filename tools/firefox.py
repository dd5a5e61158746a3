"""A headless Firefox that is driven as the Chromium of browser.py is, over its own protocol Marionette, whose commands are those of
WebDriver under other names."""
import json
import os
import shutil
import socket
import subprocess
import tempfile
import time

from browser import ELEMENT, HEIGHT, PATIENCE, WIDTH, Chromium
from trials import Trouble, free_port

# What a command of WebDriver is called here: by its method and its path behind the session, with an element's name left out.
NAMES = {
    'POST url': 'Navigate', 'GET url': 'GetCurrentURL', 'POST back': 'Back', 'POST forward': 'Forward',
    'POST execute/sync': 'ExecuteScript', 'POST execute/async': 'ExecuteAsyncScript', 'POST elements': 'FindElements',
    'POST element/click': 'ElementClick', 'POST element/value': 'ElementSendKeys', 'GET element/text': 'GetElementText',
    'POST actions': 'PerformActions', 'GET window': 'GetWindowHandle', 'POST window': 'SwitchToWindow',
    'DELETE window': 'CloseWindow', 'POST window/new': 'NewWindow', 'GET screenshot': 'TakeScreenshot',
    'GET element/screenshot': 'TakeScreenshot',
}


class Firefox(Chromium):
    """A browser with a profile of its own. It is ended at the end of `with`."""

    def __init__(self):
        if not shutil.which('firefox-esr'):
            raise Trouble('firefox-esr is not there')
        self.room, self.port, self.number = tempfile.mkdtemp(), free_port(), 0
        with open(f'{self.room}/prefs.js', 'w', encoding='ascii') as file:
            file.write(f'user_pref("marionette.port", {self.port});\n')
        words = ['firefox-esr', '--headless', '--no-remote', '--profile', self.room, '--marionette',
                 '--remote-allow-system-access']
        self.driver = subprocess.Popen(
            words, stdin=subprocess.DEVNULL, stdout=subprocess.DEVNULL, stderr=subprocess.DEVNULL,
            env=os.environ | {'HOME': self.room},
        )
        self.session = 'it'
        try:
            self.stream = self.connected().makefile('rwb')
            self.message()  # it says first what it is
            self.marionette('WebDriver:NewSession', {'strictFileInteractability': True})
            self.set_size()
        except BaseException:
            self.close()
            raise

    def close(self):
        self.driver.terminate()
        self.driver.wait(PATIENCE)
        shutil.rmtree(self.room, ignore_errors=True)

    def connected(self):
        until = time.monotonic() + 3 * PATIENCE
        while time.monotonic() < until:
            try:
                return socket.create_connection(('127.0.0.1', self.port), timeout=60)
            except OSError:
                time.sleep(0.1)
        raise Trouble('firefox-esr does not listen')

    def message(self):
        """The next message: its length, and a text."""
        length = b''
        while not length.endswith(b':'):
            length += self.stream.read(1)
        return json.loads(self.stream.read(int(length[:-1])))

    def marionette(self, name, parameters):
        self.number += 1
        text = json.dumps([0, self.number, name, parameters]).encode()
        self.stream.write(b'%d:' % len(text) + text)
        self.stream.flush()
        _, _, error, result = self.message()
        if error:
            raise Trouble(error['message'].split('\n')[0])
        return result['value'] if isinstance(result, dict) and set(result) == {'value'} else result

    def send(self, method, path, body=None):
        """A command of WebDriver, by the name that it has here."""
        parts, parameters = path.split('/')[3:], dict(body or {})
        if parts[0] == 'element':
            parameters |= {'id': parts.pop(1)}
        if parts[-1] == 'screenshot':
            parameters |= {'full': False}
        return self.marionette(f"WebDriver:{NAMES[f'{method} ' + '/'.join(parts)]}", parameters)

    def set_size(self, width=WIDTH, height=HEIGHT):
        around = self.run('return [outerWidth - innerWidth, outerHeight - innerHeight]')
        self.marionette('WebDriver:SetWindowRect', {'width': width + around[0], 'height': height + around[1]})

    def set_scheme(self, scheme):
        self.marionette('Marionette:SetContext', {'value': 'chrome'})
        number = {'dark': 0, 'light': 1}[scheme]
        self.run(f'Services.prefs.setIntPref("layout.css.prefers-color-scheme.content-override", {number})')
        self.marionette('Marionette:SetContext', {'value': 'content'})

    def faults(self):
        """Firefox does not tell what it complained of."""
        return []
