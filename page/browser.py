"""A headless Chromium that is driven by its DevTools protocol, over a pipe: standard library alone."""
import base64
import contextlib
import itertools
import json
import os
import select
import shutil
import subprocess
import tempfile

WORDS = ['--headless', '--disable-gpu', '--no-first-run', '--disable-extensions', '--disable-background-networking',
         '--remote-debugging-pipe', '--window-size=1280,1000', 'about:blank']
PATIENCE = 30  # seconds
# It reads what is asked from descriptor 3 and writes answers to 4.
AS_3_AND_4 = 'exec "$@" 3<&{} 4>&{}'


class Failed(Exception):
    """What the browser refuses, or a script in a page throws."""


class Browser:
    """One page of a browser. What it says between two answers is kept in `heard`."""

    def __init__(self, program, answer_request=None):
        self.home = tempfile.mkdtemp(prefix='page-test-')
        asked, self.to = os.pipe()
        self.of, told = os.pipe()
        root = ['--no-sandbox'] * (os.geteuid() == 0)
        words = ['sh', '-c', AS_3_AND_4.format(asked, told), 'sh', program, *root, f'--user-data-dir={self.home}', *WORDS]
        self.process = subprocess.Popen(words, pass_fds=(asked, told), stdin=subprocess.DEVNULL,
                                        stdout=subprocess.DEVNULL, stderr=subprocess.DEVNULL)
        os.close(asked)
        os.close(told)
        self.numbers, self.rest, self.heard, self.session = itertools.count(1), b'', [], None
        self.answer_request = answer_request
        self.attach()

    def attach(self):
        page = next(it for it in self.send('Target.getTargets')['targetInfos'] if it['type'] == 'page')
        self.session = self.send('Target.attachToTarget', targetId=page['targetId'], flatten=True)['sessionId']
        for domain in ('Page', 'Runtime', 'Log', 'DOM'):
            self.send(f'{domain}.enable')

    def read(self):
        """The next message of the browser."""
        while b'\0' not in self.rest:
            if not select.select([self.of], [], [], 2 * PATIENCE)[0]:
                raise Failed('the browser is silent')
            more = os.read(self.of, 1 << 20)
            if not more:
                raise Failed('the browser has ended')
            self.rest += more
        message, _, self.rest = self.rest.partition(b'\0')
        return json.loads(message)

    def post(self, method, params):
        number = next(self.numbers)
        message = {'id': number, 'method': method, 'params': params}
        if self.session:
            message['sessionId'] = self.session
        data = json.dumps(message).encode() + b'\0'
        while data:
            data = data[os.write(self.to, data):]
        return number

    def send(self, method, **params):
        """Asks the browser, and returns its answer."""
        number = self.post(method, params)
        while True:
            message = self.read()
            if message.get('id') == number:
                break
            self.hear(message)
        if 'error' in message:
            raise Failed(f'{method}: {message["error"]["message"]}')
        return message['result']

    def hear(self, message):
        """Keeps an event. A request that is held up is answered, by what it was made with."""
        if message.get('method') == 'Fetch.requestPaused':
            request = message['params']['request']
            body = self.answer_request(request['url'], request.get('postData', ''))
            headers = [{'name': 'Access-Control-Allow-Origin', 'value': '*'}]
            self.post('Fetch.fulfillRequest', {'requestId': message['params']['requestId'], 'responseCode': 200,
                                               'responseHeaders': headers, 'body': base64.b64encode(body).decode()})
        elif 'method' in message:
            self.heard.append(message)

    def wait_for(self, method):
        """Waits for an event."""
        while not any(it['method'] == method for it in self.heard):
            self.hear(self.read())

    def run(self, script):
        """The value of a script's expression in the page, once that is there."""
        answer = self.send('Runtime.evaluate', expression=script, awaitPromise=True, returnByValue=True)
        if 'exceptionDetails' in answer:
            details = answer['exceptionDetails']
            raise Failed(details.get('exception', {}).get('description', details['text']))
        return answer['result'].get('value')

    def open(self, url, is_ready):
        """Opens a page anew, and waits until it is loaded and this expression holds in it."""
        self.send('Page.navigate', url='about:blank')
        self.heard = [it for it in self.heard if it['method'] != 'Page.loadEventFired']
        self.send('Page.navigate', url=url)
        self.wait_for('Page.loadEventFired')
        self.wait_until(is_ready)

    def wait_until(self, holds):
        """Waits until this expression holds in the page."""
        self.run(f'new Promise((done, failed) => {{ const look = () => ({holds}) ? done() : setTimeout(look, 5); look(); '
                 f'setTimeout(() => failed(new Error({json.dumps(f"never: {holds}")})), {1000 * PATIENCE}); }})')

    def key(self, name, text='', modifiers=0):
        for kind in ('keyDown', 'keyUp'):
            self.send('Input.dispatchKeyEvent', type=kind, key=name, code=name, text=text * (kind == 'keyDown'),
                      windowsVirtualKeyCode={'Backspace': 8, 'Enter': 13}.get(name, 0), modifiers=modifiers)

    def type(self, text):
        self.send('Input.insertText', text=text)

    def mouse(self, kind, x, y):
        self.send('Input.dispatchMouseEvent', type=kind, x=x, y=y, button='left', buttons=1, clickCount=1)

    def thrown(self):
        """What scripts threw, and what the page was refused, since it was asked last."""
        found = [it['params'] for it in self.heard if it['method'] in ('Runtime.exceptionThrown', 'Log.entryAdded')]
        self.heard = []
        return found

    def shoot(self, path):
        data = self.send('Page.captureScreenshot', format='png')['data']
        path.write_bytes(base64.b64decode(data))

    def close(self):
        with contextlib.suppress(OSError, Failed):
            self.session = None
            self.send('Browser.close')
        self.process.wait()
        os.close(self.to)
        os.close(self.of)
        shutil.rmtree(self.home, ignore_errors=True)
