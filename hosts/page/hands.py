"""Hands and eyes for trying the page: a browser, what is pressed, what is read from the screen, and a cable to a meter."""

import os
import pathlib
import subprocess
import tempfile
import termios
import time
import tty

from selenium import webdriver
from selenium.webdriver.chrome.service import Service
from selenium.webdriver.common.by import By
from selenium.webdriver.common.keys import Keys

PAGE = pathlib.Path('target/page/index.html').resolve()
ROOM = tempfile.TemporaryDirectory()
DOWNLOADS = pathlib.Path(ROOM.name, 'downloads')
SERIAL, PASSWORD = '1234567890', '20304050'
seen = [0]  # how much was compared


def expect(found, wanted, what):
    seen[0] += 1
    if found != wanted:
        raise AssertionError(f'{what}: {str(found)[:400]!r}, not {str(wanted)[:400]!r}')


def has(text, words, what):
    expect(words in text, True, f'{what}: not said: {words!r}, but {text[:400]!r}:')


def example(name):
    return pathlib.Path('examples', name).read_bytes()


def rows_in(post):
    """A post's rows by table, read here by themselves."""
    lines = post.decode('ascii').split('\r\n')
    return {int(line[6:8]): line[9:33] for line in lines if line.startswith('131')}


def start_browser():
    DOWNLOADS.mkdir()
    options = webdriver.ChromeOptions()
    options.binary_location = '/usr/bin/chromium'
    words = ['--headless=new', '--disable-gpu', '--disable-dev-shm-usage', '--window-size=1240,1400', '--lang=en-US']
    if os.getuid() == 0:
        words.append('--no-sandbox')  # chromium asks for it where one is root
    for word in words:
        options.add_argument(word)
    options.add_experimental_option('prefs', {'download.default_directory': str(DOWNLOADS)})
    options.set_capability('goog:loggingPrefs', {'browser': 'ALL'})
    browser = webdriver.Chrome(service=Service('/usr/bin/chromedriver'), options=options)
    browser.set_script_timeout(60)
    browser.execute_cdp_cmd('Browser.grantPermissions', {'permissions': ['clipboardReadWrite', 'clipboardSanitizedWrite']})
    return browser


# What reads the page as a person would: the picture's cells, and the bytes that are shown.
EYES = '''
window.eyes = {
    cells(where) {
        return Object.fromEntries([...document.querySelectorAll(where + ' tr[data-table]')].map((row) => [row.dataset.table,
            [...row.querySelectorAll('td')].map((cell) => [cell.textContent, cell.className])]));
    },
    bytes(where) {
        const names = 'NUL SOH STX ETX EOT ENQ ACK BEL BS HT LF VT FF CR SO SI DLE DC1 DC2 DC3 DC4 NAK SYN ETB CAN EM SUB ESC FS GS RS US SP'.split(' ');
        const read = (node) => {
            if (node.nodeType === Node.TEXT_NODE) return [...node.data].filter((letter) => letter !== '\\n').map((letter) => letter > ' ' && letter < '\\x7f' ? letter.charCodeAt(0) : -1);
            if (node.className !== 'byte') return node.classList.contains('end-mark') ? [] : [...node.childNodes].flatMap(read);
            const name = node.textContent;
            return [names.includes(name) ? names.indexOf(name) : name === 'DEL' ? 127 : parseInt(name.slice(1), 16)];
        };
        return [...document.querySelectorAll(where)].flatMap(read);
    },
};
'''

# A serial port that the trial holds the other end of.
PORT = '''
const port = {
    told: [], sent: [], speeds: [], isOpen: false,
    async open(told) {
        if (this.isOpen) throw new Error('open already');
        this.told.push(told);
        this.isOpen = true;
        this.readable = new ReadableStream({ start: (controller) => { this.controller = controller; } });
        this.writing = null;
    },
    get writable() {
        this.writing ??= new WritableStream({ write: (chunk) => { this.sent.push([...chunk]); this.speeds.push(this.told.at(-1).baudRate); }, close: () => { this.writing = null; } });
        return this.writing;
    },
    async close() {
        if (this.readable.locked) throw new Error('still read');
        this.isOpen = false;
    },
    hear(bytes) { this.controller.enqueue(Uint8Array.from(bytes)); },
};
window.fakePort = port;
Object.defineProperty(navigator, 'serial', { value: { requestPort: async () => window.noPort ? Promise.reject(new Error('none')) : port }, configurable: true });
'''


class Page:
    """The page in the browser, with hands."""

    def __init__(self, browser, address):
        self.browser = browser
        self.address = address
        self.scripts = []
        self.cables = []
        self.load()

    def load(self):
        self.browser.get(self.address)
        self.run(EYES)
        self.until(lambda: self.by('examples').text != '', 'the page starts')

    def inject(self, script):
        """Has a script run before the page's own, from the next load on."""
        told = self.browser.execute_cdp_cmd('Page.addScriptToEvaluateOnNewDocument', {'source': script})
        self.scripts.append(told['identifier'])

    def resize(self, width, height, mobile):
        told = {'width': width, 'height': height, 'deviceScaleFactor': 1, 'mobile': mobile}
        self.browser.execute_cdp_cmd('Emulation.setDeviceMetricsOverride', told)

    def reset(self):
        """As it was before a part of the trial."""
        self.browser.execute_cdp_cmd('Emulation.clearDeviceMetricsOverride', {})
        while self.scripts:
            self.browser.execute_cdp_cmd('Page.removeScriptToEvaluateOnNewDocument', {'identifier': self.scripts.pop()})
        while self.cables:
            self.cables[-1].close()
        for left in DOWNLOADS.iterdir():
            left.unlink()

    def run(self, script, *words):
        return self.browser.execute_script(script, *words)

    def by(self, name):
        return self.browser.find_element(By.ID, name)

    def until(self, condition, what, seconds=20):
        end = time.monotonic() + seconds
        while not condition():
            if time.monotonic() > end:
                raise AssertionError(f'{what}: not within {seconds} s')
            time.sleep(0.02)

    def answer(self):
        return self.by('answer').text

    def bytes(self, where='#text'):
        found = self.run('return eyes.bytes(arguments[0])', where)
        expect(-1 in found, False, f'{where}: a byte that can\'t be seen')
        return bytes(found)

    def cells(self, where):
        return {int(table): cells for table, cells in self.run('return eyes.cells(arguments[0])', where).items()}

    def paste(self, text):
        """As a person does: from the clipboard into the box, whose old text is replaced."""
        failed = self.browser.execute_async_script('const [text, done] = arguments; navigator.clipboard.writeText(text).then(() => done(null), (fault) => done(String(fault)))', text)
        expect(failed, None, 'the clipboard')
        self.by('box').send_keys(Keys.CONTROL, 'a')
        self.by('box').send_keys(Keys.CONTROL, 'v')

    def press(self, name):
        for button in self.browser.find_elements(By.CSS_SELECTOR, '#examples button'):
            if button.text == name:
                button.click()
                return
        self.by(name).click()

    def choose(self, content, name='chosen.post'):
        path = pathlib.Path(ROOM.name, name)
        path.write_bytes(content)
        self.by('file').send_keys(str(path))
        self.until(lambda: name in self.by('read-title').get_attribute('textContent') or name in self.answer(), 'a file that was chosen')

    def rest(self):
        """Until no visit goes on."""
        self.until(lambda: not self.by('stop').is_enabled() and self.by('to-virtual').is_enabled(), 'the end of a visit')


class Cable:
    """Joins the page's serial port to a meter on a line of this machine: the proved library, compiled for this processor."""

    def __init__(self, page):
        self.page = page
        self.folder = tempfile.mkdtemp(dir=ROOM.name)
        name = f'{self.folder}/line'
        words = ['hosts/run', 'meter-tty', '-p', '-s', '60', '-n', f'{SERIAL},Kiln_7 old,{PASSWORD}', name, f'{self.folder}/state']
        self.meter = subprocess.Popen(words, stdout=subprocess.PIPE)
        self.meter.stdout.readline()
        self.end = os.open(name, os.O_RDWR | os.O_NOCTTY | os.O_NONBLOCK)
        tty.setraw(self.end)
        self.sent = []
        page.cables.append(self)

    def same_speed(self):
        """Whether the page's port is as fast as the meter, or gets so within a second; else nothing arrives."""
        limit = time.monotonic() + 1
        fast = termios.tcgetattr(self.end)[5] == termios.B9600
        while fast and not self.page.run('return fakePort.isOpen && fakePort.told.at(-1).baudRate === 9600'):
            if time.monotonic() > limit:
                return False
        return True

    def carry(self, until=None):
        """Carries bytes both ways while the visit goes on, or until it is told to stop."""
        page, limit = self.page, time.monotonic() + 40
        while page.by('stop').is_enabled() or not page.by('to-head').is_enabled():
            if time.monotonic() > limit:
                raise AssertionError('a visit that does not end')
            for message in page.run('return fakePort.sent.splice(0)'):
                self.sent.append(bytes(message))
                os.write(self.end, self.sent[-1])
            try:
                heard = os.read(self.end, 4096)
            except BlockingIOError:
                heard = b''
            if heard and self.same_speed():
                page.run('fakePort.hear(arguments[0])', list(heard))
            if until and until(self):
                return

    def close(self):
        self.page.cables.remove(self)
        self.meter.terminate()
        self.meter.wait(10)
        os.close(self.end)
        return pathlib.Path(self.folder, 'state').read_bytes()
