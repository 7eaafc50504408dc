"""Headless Chromium, driven through a pipe in its own protocol of messages, as the test of the pictures wants it."""
import contextlib
import itertools
import json
import os
import select
import tempfile
import time

PATIENCE = 60  # seconds for an answer, or for what is waited for
FLAGS = ('--headless', '--no-sandbox', '--disable-gpu', '--no-first-run', '--remote-debugging-pipe')
# The number of each key, and what it types.
KEYS = {'Tab': (9, {}), ' ': (32, {'text': ' '})}


class Page:
    """A page that is shown; each call waits for its answer."""

    def __init__(self, to_browser, from_browser):
        self.to_browser, self.from_browser, self.rest = to_browser, from_browser, b''
        self.numbers = itertools.count(1)
        self.session = {}
        target = self.call('Target.createTarget', url='about:blank')['targetId']
        self.session = {'sessionId': self.call('Target.attachToTarget', targetId=target, flatten=True)['sessionId']}
        self.call('Page.enable')

    def message(self):
        """The next message of the browser."""
        while b'\0' not in self.rest:
            ready = select.select([self.from_browser], [], [], PATIENCE)[0]
            part = os.read(self.from_browser, 1 << 16) if ready else b''
            assert part, 'the browser answers'
            self.rest += part
        first, _, self.rest = self.rest.partition(b'\0')
        return json.loads(first)

    def call(self, method, **parameters):
        """The result of a method."""
        number = next(self.numbers)
        sent = json.dumps({'id': number, 'method': method, 'params': parameters, **self.session}).encode() + b'\0'
        while sent:
            sent = sent[os.write(self.to_browser, sent):]
        while (told := self.message()).get('id') != number:
            pass
        assert 'error' not in told, '%s: %s' % (method, told.get('error'))
        return told['result']

    def go(self, address):
        """Shows another page, once it is whole."""
        self.call('Page.navigate', url='about:blank')
        self.call('Page.navigate', url=address)
        self.until('document.readyState === "complete" && location.href !== "about:blank"')

    def until(self, expression):
        """Waits until an expression in JavaScript is true."""
        deadline = time.monotonic() + PATIENCE
        while not self.value(expression):
            assert time.monotonic() < deadline, 'never: ' + expression
            time.sleep(0.01)

    def value(self, expression):
        """The value of an expression in JavaScript."""
        told = self.call('Runtime.evaluate', expression=expression, returnByValue=True)
        assert 'exceptionDetails' not in told, '%s: %s' % (expression, told.get('exceptionDetails'))
        return told['result'].get('value')

    def press(self, key):
        code, typed = KEYS[key]
        for kind in ('keyDown', 'keyUp'):
            self.call('Input.dispatchKeyEvent', type=kind, key=key, windowsVirtualKeyCode=code, **typed)

    def prefer(self, scheme):
        """Prefers light or dark colours."""
        self.call('Emulation.setEmulatedMedia', features=[{'name': 'prefers-color-scheme', 'value': scheme}])

    def named(self, role):
        """The names of all that has a role, as a screen reader tells them."""
        nodes = self.call('Accessibility.getFullAXTree')['nodes']
        return [node['name']['value'] for node in nodes if not node['ignored'] and node['role']['value'] == role]


@contextlib.contextmanager
def opened(program='chromium'):
    """A page in a browser of its own, which ends with it."""
    reading, to_browser = os.pipe()
    from_browser, writing = os.pipe()
    actions = [(os.POSIX_SPAWN_OPEN, place, '/dev/null', os.O_RDWR, 0) for place in (0, 1, 2)]
    actions += [(os.POSIX_SPAWN_DUP2, reading, 3), (os.POSIX_SPAWN_DUP2, writing, 4)]
    with tempfile.TemporaryDirectory(ignore_cleanup_errors=True) as folder:
        child = os.posix_spawnp(program, [program, *FLAGS, '--user-data-dir=' + folder], os.environ, file_actions=actions)
        os.close(reading)
        os.close(writing)
        try:
            page = Page(to_browser, from_browser)
            yield page
            page.session = {}
            page.call('Browser.close')
        finally:
            os.close(to_browser)
            os.close(from_browser)
            os.waitpid(child, 0)
