"""A headless Chromium, driven over its pipe: pages, clicks, keys, and pictures of them."""
import base64
import fcntl
import json
import os
import shutil
import subprocess
import tempfile
import time

NAMES = ('chromium', 'chromium-browser', 'google-chrome', 'chrome')


def find_browser():
    """The path of a Chromium, or None where none is installed."""
    return next((path for path in map(shutil.which, NAMES) if path), None)


class BrowserFault(Exception):
    """What a browser or a page refused to do."""


class Browser:
    """One browser with one page. It is closed with `close`, or at the end of a `with`."""

    def __init__(self, path, width=1440, height=900):
        self.folder = tempfile.mkdtemp()
        to_browser, self.writer = os.pipe()
        self.reader, from_browser = os.pipe()
        self.process = subprocess.Popen(
            [path, '--headless=new', '--no-sandbox', '--disable-gpu', '--hide-scrollbars',
             '--remote-debugging-pipe', f'--user-data-dir={self.folder}', 'about:blank'],
            stdin=subprocess.DEVNULL, stdout=subprocess.DEVNULL, stderr=subprocess.DEVNULL,
            preexec_fn=lambda: _place(to_browser, from_browser), pass_fds=(3, 4))
        os.close(to_browser)
        os.close(from_browser)
        self.rest = b''
        self.number = 0
        self.session = None
        target = self.ask('Target.createTarget', url='about:blank')['targetId']
        self.session = self.ask('Target.attachToTarget', targetId=target,
                                flatten=True)['sessionId']
        self.ask('Page.enable')
        self.size(width, height)

    def __enter__(self):
        return self

    def __exit__(self, *fault):
        self.close()

    def close(self):
        """Ends the browser, and it alone."""
        os.close(self.writer)
        try:
            self.process.wait(10)
        except subprocess.TimeoutExpired:
            self.process.kill()
            self.process.wait()
        os.close(self.reader)
        shutil.rmtree(self.folder, ignore_errors=True)

    def ask(self, method, **params):
        """What the browser answers to a request; BrowserFault where it refuses it."""
        self.number += 1
        request = {'id': self.number, 'method': method, 'params': params}
        if self.session:
            request['sessionId'] = self.session
        _write_all(self.writer, json.dumps(request).encode() + b'\0')
        while True:
            answer = self._next()
            if answer.get('id') == self.number:
                if 'error' in answer:
                    raise BrowserFault(answer['error']['message'])
                return answer['result']

    def _next(self):
        while b'\0' not in self.rest:
            piece = os.read(self.reader, 1 << 20)
            if not piece:
                raise BrowserFault('the browser ended')
            self.rest += piece
        line, self.rest = self.rest.split(b'\0', 1)
        return json.loads(line)

    def size(self, width, height):
        self.ask('Emulation.setDeviceMetricsOverride', width=width, height=height,
                 deviceScaleFactor=1, mobile=False)

    def theme(self, name):
        """`dark` or `light`."""
        self.ask('Emulation.setEmulatedMedia',
                 features=[{'name': 'prefers-color-scheme', 'value': name}])

    def value(self, expression):
        """What an expression of the page's script comes to."""
        answer = self.ask('Runtime.evaluate', expression=expression, returnByValue=True)
        if 'exceptionDetails' in answer:
            raise BrowserFault(answer['exceptionDetails'].get('text', expression))
        return answer['result'].get('value')

    def open(self, path, seconds=60):
        """Opens a file, and waits until the page says that it is ready. The milliseconds that its
        script counted until then."""
        self.ask('Page.navigate', url='file://' + os.path.abspath(path))
        end = time.monotonic() + seconds
        while time.monotonic() < end:
            ready = self.value('(document.documentElement && document.documentElement.dataset.ready) || ""')
            if ready:
                return int(ready)
            time.sleep(0.05)
        raise BrowserFault(f'{path} is not ready after {seconds} seconds')

    def mouse(self, kind, x, y):
        self.ask('Input.dispatchMouseEvent', type=kind, x=x, y=y, clickCount=1,
                 button='none' if kind == 'mouseMoved' else 'left')

    def click(self, x, y):
        for kind in ('mouseMoved', 'mousePressed', 'mouseReleased'):
            self.mouse(kind, x, y)

    def key(self, name):
        codes = {'ArrowLeft': 37, 'ArrowUp': 38, 'ArrowRight': 39, 'ArrowDown': 40, 'Enter': 13,
                 'Home': 36, 'End': 35, 'PageDown': 34}
        for kind in ('keyDown', 'keyUp'):
            self.ask('Input.dispatchKeyEvent', type=kind, key=name, code=name,
                     windowsVirtualKeyCode=codes[name])

    def settle(self):
        """Waits until what was changed is drawn."""
        self.ask('Runtime.evaluate', awaitPromise=True, expression=(
            'new Promise((done) => requestAnimationFrame(() => requestAnimationFrame(done)))'))

    def picture(self):
        """A PNG of what is in sight."""
        return base64.b64decode(self.ask('Page.captureScreenshot', format='png')['data'])

    def printed(self):
        """The page as it is printed, a PDF."""
        return base64.b64decode(self.ask('Page.printToPDF')['data'])


def _place(to_browser, from_browser):
    """In the new process: the two pipes get the numbers 3 and 4, by which a browser knows them."""
    ends = [fcntl.fcntl(end, fcntl.F_DUPFD, 10) for end in (to_browser, from_browser)]
    os.dup2(ends[0], 3)
    os.dup2(ends[1], 4)


def _write_all(file, data):
    while data:
        data = data[os.write(file, data):]
