"""The page, tried in a real browser: what is pasted, dropped and pressed, and what is then to be seen, saved and delivered.

    try_page.py [--picture FILE] [PART...]

It takes target/page/index.html, from the file and from the forum's server, and a meter on a line of this machine. With --picture
it writes a picture of the page too; with PARTs it tries these alone.
"""

import pathlib
import subprocess
import sys
import time

from selenium.webdriver.common.action_chains import ActionChains
from selenium.webdriver.common.by import By
from selenium.webdriver.common.keys import Keys

from hands import Cable, DOWNLOADS, example, expect, has, PAGE, Page, PASSWORD, PORT, ROOM, rows_in, seen, SERIAL, start_browser
from wrong import made_wrong, WRONG

POSTS = ('winter', 'summer', 'full')


def pictured(cells, rows, tables, what):
    """The picture's cells: each hour's digit and colour, and a line just where the zone changes."""
    expect(sorted(cells), list(range(1, tables + 1)), f'{what}: its tables')
    for table, found in cells.items():
        row = rows.get(table)
        if row is None:
            expect(found, [['left alone', 'alone']], f'{what}: table {table}')
            continue
        expect(''.join(cell[0] for cell in found), row, f'{what}: table {table}')
        for hour, (digit, classes) in enumerate(found):
            words = set(classes.split()) - {'changed'}
            wanted = {f'z{digit}'} | ({'change'} if hour > 0 and row[hour - 1] != digit else set())
            expect(words, wanted, f'{what}: table {table}, hour {hour}')


def delivered(page, name, post, was):
    """The virtual meter's rows before and after, the hours marked that changed, and the program's own account of it."""
    page.press('to-virtual')
    page.rest()
    after = example(f'{name}.delivered').decode().split('\n')[1:]
    rows = {table: after[table - 1] for table in was}
    pictures = page.browser.find_elements(By.CSS_SELECTOR, '#meter table')
    expect(len(pictures), 2, 'pictures of the meter')
    before, now = (page.cells(f'#meter table:nth-of-type({at})') for at in (1, 2))
    pictured(before, was, len(was), f'{name}: before')
    pictured(now, rows, len(was), f'{name}: after')
    hours = 0
    for table in was:
        for hour in range(24):
            changed = was[table][hour] != rows[table][hour]
            hours += changed
            for cells in (before, now):
                expect('changed' in cells[table][hour][1].split(), changed, f'{name}: the mark at table {table}, hour {hour}')
    has(page.by('progress-words').text, f'all {len(rows_in(post))} tables were set', name)
    has(page.by('compared').text, f'{hours} hours in', name)
    has(page.by('compared').text, 'Nothing else did: all ', name)
    return rows


def posts(page):
    new = {table: '1' * 24 for table in range(1, 25)}
    for name in POSTS:
        post, rows = example(f'{name}.post'), rows_in(example(f'{name}.post'))
        page.paste(post.decode('ascii'))
        has(page.answer(), f'This is a post. It sets {len(rows)} of 24 tables', name)
        has(page.answer(), f'{24 - len(rows)} tables are left alone' if len(rows) < 24 else 'No table is left alone', name)
        pictured(page.cells('#meaning'), rows, 24, name)
        expect(page.bytes(), post, f'{name}: the bytes shown')
        words = page.by('meaning').text
        for row in set(rows.values()):
            starts = [hour for hour in range(24) if hour == 0 or row[hour] != row[hour - 1]] + [24]
            stretch = [f'zone {row[a]} from {a} to {b}' for a, b in zip(starts, starts[1:])]
            has(words, ', '.join(stretch) if len(stretch) > 1 else f'zone {row[0]} all day', name)
        page.press('download')
        saved = DOWNLOADS / 'post.frames'
        page.until(saved.exists, 'the frames as a file')
        expect(saved.read_bytes(), example(f'{name}.frames'), f'{name}: the frames')
        saved.unlink()
        page.press('renew')
        delivered(page, name, post, new)
    # Onto what the meter has: summer behind winter changes summer's tables alone.
    page.press('renew')
    page.press('Winter')
    page.press('to-virtual')
    page.rest()
    page.press('Summer')
    page.press('to-virtual')
    page.rest()
    rows = new | rows_in(example('winter.post')) | rows_in(example('summer.post'))
    pictured(page.cells('#meter table:nth-of-type(2)'), rows, 24, 'summer behind winter')


def refused(page, text, place, *words):
    """A text that was pasted or chosen is refused, its beginning shown as accepted and the very character marked."""
    what = f'{text[:60]!r}'
    has(page.answer(), 'This is not a post', what)
    has(page.answer(), f'20, place {place}.', what)
    for some in words:
        has(page.answer(), some, what)
    expect(page.bytes('#text .accepted'), text[:place], f'{what}: the accepted beginning')
    expect(page.bytes('#text mark'), text[place:place + 1], f'{what}: the mark')
    if len(text) - place <= 400:
        expect(page.bytes(), text, f'{what}: the bytes shown')
    for name in ('ways', 'meaning'):
        expect(page.by(name).is_displayed(), False, f'{what}: {name} to be seen')


def line(number, row='1' * 24):
    return f'131.0.{number}({row})\r\n'


ZONES = 'There could have stood 1, 2, 3 or 4'
REFUSED = (
    ('!\n', 0, 'stands “!”', 'There could have stood 1: the start of 131.0. of a table’s line.'),
    (line('01'), 36, 'The text ends after 36 characters', 'There could have stood ! or 1'),
    (line('01') + '!', 37, 'The text ends after 37 characters', 'There could have stood CR: the end of the last line'),
    (line('01') + '!\r\n' + line('02'), 39, 'line 3, column 1', 'Nothing could have stood there: the post is whole before it'),
    (line('09') + line('09') + '!\r\n', 42, 'There could have stood 1 or 2: the number of the table', 'above 09 of the line before'),
    (line('24') + '1', 36, 'There could have stood !: the start of the last line'),
    (line('30'), 6, 'There could have stood 0, 1 or 2'),
    (line('07', '1' * 23), 32, 'stands “)”', ZONES, 'from 23 to 24 o’clock in table 07'),
    (line('07', '1' * 25), 33, 'There could have stood ): the bracket that closes the row of table 07'),
    (line('07') + '\r\n!\r\n', 36, 'the end of the line, CR LF'),
    (' ' + line('07') + '!\r\n', 0, 'the hidden character SP (20 hex)'),
    (line('07', '11\u00a01' + '1' * 20), 11, 'a no-break space (U+00A0)', ZONES),
    (line('07', '11\u200b1' + '1' * 20), 11, 'a zero width space (U+200B)'),
    (line('07', '1111\u202e4321'), 13, 'a right-to-left override (U+202E)'),
    ('\ufeff' + line('07'), 0, 'a byte order mark (U+FEFF)'),
    (line('07', '١' * 24), 9, 'a character that is not ASCII (U+0661)'),
    (line('07', '1\t'), 10, 'the hidden character HT (09 hex)'),
    ('<img src=x onerror=alert(1)>', 0, 'stands “<”'),
)


def refusals(page):
    page.press('The crafted post of last spring')
    refused(page, example('crafted.post'), 49, 'At character 50 (line 2, column 14) stands “)”.', ZONES,
            'the zone from 4 to 5 o’clock in table 02', 'hidden control characters: ETX, ACK, SOH, STX and NAK')
    for text, place, *words in REFUSED:
        page.paste(text)
        refused(page, text.replace('\r\n', '\n').replace('\n', '\r\n').encode(), place, *words)
    # While one types: at each key the answer is that of the text so far.
    page.press('clear')
    has(page.answer(), 'Nothing to see yet', 'an empty box')
    typed = '131.0.07(12x'
    for at, key in enumerate(typed):
        page.by('box').send_keys(key)
        refused(page, typed[:at + 1].encode(), min(at + 1, 11))
    # Half of a pair is no character: it is taken as the bytes of U+FFFD, and they are shown.
    page.run("const box = document.getElementById('box'); box.value = '131\\ud800'; box.dispatchEvent(new Event('input'))")
    refused(page, b'131\xef\xbf\xbd', 3, 'a mark for a character that has none (U+FFFD)')


def editions(page):
    """A Saturday post: no post of edition 1; one of edition 2, where the page knows that."""
    saturday = line('07') + line('25', '2' * 24) + '!\r\n'
    page.paste(saturday)
    refused(page, saturday.encode(), 43, 'There could have stood 0, 1, 2, 3 or 4', 'the number of the table, 01 to 24')
    if not page.by('editions').is_displayed():
        return
    page.browser.find_element(By.CSS_SELECTOR, '#editions input[value="2"]').click()
    has(page.answer(), 'This is a post. It sets 2 of 25 tables', 'a Saturday post')
    pictured(page.cells('#meaning'), rows_in(saturday.encode()), 25, 'a Saturday post')
    has(page.by('meaning').text, 'Saturdays, all year: zone 2 all day', 'a Saturday post')
    page.press('to-virtual')
    page.rest()
    pictured(page.cells('#meter table:nth-of-type(2)'), {table: '1' * 24 for table in range(1, 25)} | {25: '2' * 24}, 25, 'a Saturday post')
    page.browser.find_element(By.CSS_SELECTOR, '#editions input[value="1"]').click()
    refused(page, saturday.encode(), 43)


def files(page):
    winter = example('winter.post')
    page.choose(winter)
    has(page.answer(), 'This is a post. It sets 12 of 24', 'a file')
    expect(page.bytes(), winter, 'the bytes of a file')
    for content, place, words in (
        (winter.replace(b'\r\n', b'\n'), 34, 'the hidden character LF (0A hex)'),
        (winter.replace(b'\r\n', b'\r'), 35, 'There could have stood LF: the end of the line of table 01'),
        (winter + b'\0', 435, 'the hidden character NUL (00 hex)'),
        (winter[:20] + b'\xb1' + winter[21:], 20, 'the byte B1 hex'),
        (bytes(range(256)), 0, 'NUL'),
        (bytes(range(255, -1, -1)), 0, 'the byte FF hex'),
        (b'131.0.01(' + bytes(range(128, 256)), 9, 'the byte 80 hex'),
        (b'131.\x7f', 4, 'the hidden character DEL (7F hex)'),
    ):
        page.choose(content, f'{place}-{len(content)}.bin')
        refused(page, content, place, words)
    page.choose(b'', 'empty.post')
    has(page.answer(), 'empty.post has nothing in it.', 'an empty file')
    # Dropped on the page, as it is.
    drop = '''
        const [bytes, name] = arguments, data = new DataTransfer();
        data.items.add(new File([Uint8Array.from(bytes)], name));
        document.body.dispatchEvent(new DragEvent('drop', { dataTransfer: data, bubbles: true, cancelable: true }));
    '''
    crafted = example('crafted.post').replace(b'\r\n', b'\n')
    page.run(drop, list(crafted), 'dropped.post')
    page.until(lambda: 'dropped.post' in page.by('read-title').text, 'a file that was dropped')
    refused(page, crafted, 34, 'the hidden character LF')
    # What is typed then comes in its place.
    page.by('box').send_keys('1')
    refused(page, b'1', 1)


def megabytes(page):
    """An answer at once, whatever the size: within a second here, on a machine with other work."""
    began = time.monotonic()
    page.paste('131.0.01(' + '1' * 5_000_000)
    has(page.answer(), '20, place 33', 'five million characters')
    has(page.by('read-title').text, 'A text of 5,000,009 characters, too long for the box', 'five million characters')
    expect(time.monotonic() - began < 8, True, 'five million characters pasted in time')
    dropped = '''
        const [size, done] = arguments, data = new DataTransfer(), bytes = new Uint8Array(size).fill(0x0a), began = performance.now();
        bytes.set(new TextEncoder().encode('131.0.01('));
        data.items.add(new File([bytes], 'large.bin'));
        new MutationObserver((_, observer) => {
            observer.disconnect();
            const answered = performance.now() - began;
            requestAnimationFrame(() => requestAnimationFrame(() => done([answered, performance.now() - began])));
        }).observe(document.getElementById('read-title'), { childList: true });
        document.body.dispatchEvent(new DragEvent('drop', { dataTransfer: data, bubbles: true, cancelable: true }));
    '''
    for size in (1_000_000, 50_000_000):
        answered, drawn = page.browser.execute_async_script(dropped, size)
        has(page.answer(), '20, place 9.', f'{size} bytes dropped')
        has(page.by('read-title').text, f'large.bin, {size:,} bytes', f'{size} bytes dropped')
        # the mark's byte and 400 behind it are shown, and of a large file a mebibyte is read
        left = min(size, 1 << 20) - 9 - 1 - 400
        has(page.by('text').text, f'and {left:,} bytes more that were read', f'{size} bytes dropped')
        expect(answered < 1500 and drawn < 3000, True, f'{size} bytes dropped, answered after {answered} ms, drawn after {drawn} ms')


def meter(page):
    """What a visit to the virtual meter says when it does not go well, and how it is stopped."""

    def told(serial, password):
        for name, value in (('serial', serial), ('password', password)):
            page.by(name).clear()
            page.by(name).send_keys(value)
        page.press('to-virtual')
        page.rest()
        return page.by('progress-words').text

    page.press('All tables')
    # Pressed while the third table is under way, which is then the last.
    page.run('''new MutationObserver((_, observer) => {
        if (!document.getElementById('messages').textContent.includes('table 03')) return;
        observer.disconnect();
        document.getElementById('stop').click();
    }).observe(document.getElementById('messages'), { childList: true })''')
    page.press('to-virtual')
    page.rest()
    has(page.by('progress-words').text, 'Stopped before message 7 of 28, table 04. 3 of 24 tables were set.', 'stopped')
    rows = {table: '1' * 24 for table in range(1, 25)} | {table: row for table, row in rows_in(example('full.post')).items() if table <= 3}
    pictured(page.cells('#meter table:nth-of-type(2)'), rows, 24, 'stopped')
    has(page.by('compared').text, 'Nothing else did', 'stopped')
    has(told('', PASSWORD), 'Done: all 24 tables were set', 'a visit behind one that was stopped')

    page.press('renew')
    page.press('Winter')
    has(told('', '11111111'), 'The meter refused message 3 of 16, password: the password is wrong (answer 10). No table was set.', 'a wrong password')
    has(page.by('compared').text, 'No hour changed. Changed too: failed attempts.', 'a wrong password')
    told('', '11111111')
    told(SERIAL, '11111111')
    has(told('', PASSWORD), 'it is locked after three wrong passwords', 'a locked meter')
    page.press('power')
    has(page.by('compared').text, 'Changed too: failed attempts', 'power off and on')
    has(told('9999999999', PASSWORD), 'The meter did not answer message 1 of 16, sign-on. No table was set.', 'another serial')
    has(told('123', PASSWORD), 'Nothing was sent: a serial has ten digits, a password eight.', 'a short serial')
    has(told('', 'abcdefgh'), 'Nothing was sent', 'a password of letters')
    has(told('', PASSWORD), 'Done: all 12 tables were set', 'the right password')


def head(page):
    """Web Serial: the page's head visits a meter that is compiled for this processor."""
    page.inject(PORT)
    page.load()
    page.press('Winter')
    page.run('window.noPort = true')
    page.press('to-head')
    has(page.by('progress-words').text, 'No optical head was chosen', 'no port')
    page.run('window.noPort = false')

    cable = Cable(page)
    page.press('to-head')
    cable.carry()
    has(page.by('progress-words').text, 'Done: all 12 tables were set', 'through a head')
    expect(page.run('return fakePort.speeds'), [300] * 2 + [9600] * 14, 'the speeds')
    expect(page.run('return fakePort.isOpen'), False, 'the port stays open')
    frames = example('winter.frames')
    expect(b''.join(cable.sent[3:-1]), frames, 'the frames on the line')
    expect(len(cable.sent), 16, 'messages')
    listed = page.by('messages').get_attribute('textContent')
    for name in ('sign-on', 'confirmation', 'password', 'table 01', 'table 24', 'leave'):
        has(listed, name, 'message by message')
    # A wrong password; then a stop; then silence; then the head is pulled out.
    page.by('password').clear()
    page.by('password').send_keys('11111111')
    page.press('to-head')
    cable.carry()
    has(page.by('progress-words').text, 'The meter refused message 3 of 16, password: the password is wrong, or the meter is locked', 'a wrong password')
    state = cable.close()
    rows = {table: '1' * 24 for table in range(1, 25)} | rows_in(example('winter.post'))
    expect(''.join(rows.values()).encode() in state, True, 'the rows that the meter keeps')

    page.by('password').clear()
    page.by('password').send_keys(PASSWORD)
    cable = Cable(page)
    page.press('to-head')
    cable.carry(lambda one: len(one.sent) == 6)
    page.press('stop')
    cable.carry()
    words = page.by('progress-words').text
    has(words, 'Stopped before message', 'stopped')
    expect(3 <= int(words.split('. ')[1].split()[0]) < 12, True, f'stopped: {words}')
    cable.close()
    page.press('to-head')
    page.rest()
    has(page.by('progress-words').text, 'The meter did not answer message 1 of 16, sign-on. No table was set.', 'silence')
    page.press('to-head')
    page.until(lambda: page.run('return fakePort.sent.length') > 0, 'a sign-on')
    page.run("fakePort.controller.error(new Error('it is gone'))")
    page.rest()
    has(page.by('progress-words').text, 'can’t be used, or was unplugged: it is gone', 'pulled out')


def keyboard(page):
    """Everything by keys alone, and one sees where one is."""

    def key(*keys):
        ActionChains(page.browser).send_keys(*keys).perform()

    def active():
        return page.run('return [document.activeElement.id, document.activeElement.textContent]')

    def tab_to(wanted):
        for _ in range(40):
            key(Keys.TAB)
            if wanted in active():
                outline = page.run('const style = getComputedStyle(document.activeElement); return [style.outlineStyle, parseFloat(style.outlineWidth)]')
                expect(outline[0] != 'none' and outline[1] >= 2, True, f'one sees that {wanted} has the focus')
                return
        raise AssertionError(f'{wanted} is not reached by keys')

    tab_to('box')
    key('131.0.07(1')
    has(page.answer(), 'The text ends after 10 characters', 'by keys')
    tab_to('All tables')
    key(Keys.ENTER)
    has(page.answer(), 'This is a post', 'by keys')
    tab_to('text')
    tab_to('download')
    key(Keys.SPACE)
    page.until((DOWNLOADS / 'post.frames').exists, 'the frames by keys')
    (DOWNLOADS / 'post.frames').unlink()
    tab_to('password')
    key(PASSWORD)  # what stood there is selected, and replaced
    tab_to('to-virtual')
    # Slowly, so that there is time to stop it.
    page.run('window.atPace = setTimeout; window.setTimeout = (call, wait) => atPace(call, 10 * wait)')
    key(Keys.ENTER)
    expect(active()[0], 'stop', 'the focus of a visit')
    key(Keys.SPACE)
    page.rest()
    page.run('window.setTimeout = atPace')
    has(page.by('progress-words').text, 'Stopped before', 'stopped by keys')
    expect(active()[0], 'to-virtual', 'the focus behind a visit')
    tab_to('power')
    key(Keys.ENTER)
    for _ in range(40):
        ActionChains(page.browser).key_down(Keys.SHIFT).send_keys(Keys.TAB).key_up(Keys.SHIFT).perform()
        if active()[0] == 'to-virtual':
            break
    key(Keys.ENTER)
    page.rest()
    has(page.by('progress-words').text, 'Done: all 24 tables', 'delivered by keys')
    tab_to('renew')
    key(Keys.ENTER)
    expect(page.by('compared').text, '', 'a new meter by keys')


def names(page):
    """Each thing that takes the focus has a name to be called by, and each picture a caption."""
    page.press('Winter')
    things = [thing for thing in page.browser.find_elements(By.CSS_SELECTOR, 'button, input, textarea, progress, [tabindex]') if thing.is_displayed()]
    expect(len(things) > 12, True, 'things to be named')
    for thing in things:
        expect(thing.accessible_name != '', True, f'the name of {thing.get_attribute("outerHTML")[:80]}')
    for name, wanted in (('box', 'The post'), ('file', 'Or a file'), ('serial', 'Serial'), ('password', 'Password'), ('text', 'The text in the box'),
                         ('stop', 'Stop')):
        has(page.by(name).accessible_name, wanted, f'the name of {name}')
    for table in page.browser.find_elements(By.CSS_SELECTOR, 'table.hours'):
        expect(table.find_element(By.TAG_NAME, 'caption').text != '', True, 'the caption of a picture')
    expect(page.run('return document.documentElement.lang'), 'en', 'the language')


def colours(page):
    """Each text is seen against its ground, and the zones are told apart by lightness alone."""
    page.press('Winter')
    light = page.run('''
        const light = (colour) => {
            const [r, g, b] = colour.match(/[0-9.]+/g).slice(0, 3).map((part) => part / 255).map((part) => part <= 0.04045 ? part / 12.92 : ((part + 0.055) / 1.055) ** 2.4);
            return 0.2126 * r + 0.7152 * g + 0.0722 * b;
        };
        return [1, 2, 3, 4].map((zone) => {
            const style = getComputedStyle(document.querySelector('.legend .z' + zone));
            return [light(style.backgroundColor), light(style.color)];
        });
    ''')
    contrast = lambda one, other: (max(one, other) + 0.05) / (min(one, other) + 0.05)
    for zone, (ground, ink) in enumerate(light, 1):
        expect(contrast(ground, ink) >= 4.5, True, f'the contrast of zone {zone}, {contrast(ground, ink):.1f}')
    for one, other in zip(light, light[1:]):
        expect(contrast(one[0], other[0]) >= 1.4, True, f'the zones by lightness, {light}')


def narrow(page):
    """A narrow screen: nothing stands beyond its edge, and the digits can be read."""
    page.resize(360, 740, True)
    page.load()
    for button in ('Winter', 'All tables', 'The crafted post of last spring'):
        page.press(button)
        if page.by('ways').is_displayed():
            page.press('to-virtual')
            page.rest()
        wide = page.run('''return [document.documentElement.scrollWidth, ...[...document.querySelectorAll('main *')]
            .filter((one) => one.getBoundingClientRect().right > 361 || one.getBoundingClientRect().left < -1).map((one) => one.outerHTML.slice(0, 80))]''')
        expect(wide, [360], f'a narrow screen, {button}')
        if button != 'The crafted post of last spring':
            size, cell = page.run("const cell = document.querySelector('#meaning td[class^=z]'); return [parseFloat(getComputedStyle(cell).fontSize), cell.getBoundingClientRect().width]")
            expect(size >= 9 and cell >= 10, True, f'digits of {size} in {cell}')


def policy(page):
    """Nothing is loaded from anywhere, nothing but the page's own script runs; up to here nobody complained."""
    complaints = [entry for entry in page.browser.get_log('browser') if entry['level'] in ('SEVERE', 'WARNING')]
    expect(complaints, [], 'complaints of the browser')
    loaded = page.run("return performance.getEntriesByType('resource').map((entry) => entry.name).filter((name) => !name.startsWith('data:') && !name.startsWith('blob:'))")
    expect(loaded, [], 'what the page loaded')
    tried = page.browser.execute_async_script('''
        const done = arguments[0];
        const script = document.createElement('script');
        script.textContent = 'window.slipped = true';
        document.head.append(script);
        const outside = new Image();
        const image = new Promise((resume) => { outside.onload = () => resume('loaded'); outside.onerror = () => resume('refused'); });
        outside.src = 'http://127.0.0.1:9/x.png';
        const fetched = fetch('http://127.0.0.1:9/').then(() => 'fetched', () => 'refused');
        Promise.all([image, fetched]).then((ends) => done([...ends, window.slipped ?? null]));
    ''')
    expect(tried, ['refused', 'refused', None], 'what the policy refuses')
    said = ' '.join(entry['message'] for entry in page.browser.get_log('browser'))
    for part in ('connect-src', 'img-src', 'script-src'):
        has(said, part, 'what the policy says')


def from_server(page):
    """The same page from the forum's server."""
    server = subprocess.Popen(['hosts/run', 'server', '-p', '0', str(PAGE)], stdout=subprocess.PIPE, text=True)
    try:
        page = Page(page.browser, server.stdout.readline().split()[1])
        page.press('The crafted post of last spring')
        refused(page, example('crafted.post'), 49)
        page.press('Winter')
        pictured(page.cells('#meaning'), rows_in(example('winter.post')), 24, 'from the server')
        page.press('to-virtual')
        page.rest()
        has(page.by('progress-words').text, 'Done: all 12 tables', 'from the server')
        policy(page)
    finally:
        server.terminate()
        expect(server.wait(10), 0, 'the end of the server')


def take_picture(page, path):
    """The page as README shows it: a post, and what it means."""
    page.browser.execute_cdp_cmd('Emulation.setScrollbarsHidden', {'hidden': True})
    page.resize(1120, 800, False)
    page.load()
    page.press('Winter')
    page.run("document.activeElement.blur(); document.getElementById('box').rows = 4")
    page.resize(1120, page.run("return Math.ceil(document.querySelector('#meaning').getBoundingClientRect().bottom + 14)"), False)
    page.browser.save_screenshot(path)
    page.reset()


PARTS = (posts, refusals, editions, files, megabytes, meter, keyboard, names, colours, narrow, head, policy, from_server)


def wrong_pages(browser, chosen):
    """First the trials have to find out pages that are wrong, so that they are known to see it."""
    right, path = PAGE.read_text(), pathlib.Path(ROOM.name, 'wrong.html')
    pages = [one for one in WRONG if not chosen or one[3] in chosen]
    for name, old, new, part in pages:
        path.write_text(made_wrong(right, old, new))
        page = Page(browser, path.as_uri())
        try:
            next(one for one in PARTS if one.__name__ == part)(page)
        except AssertionError:
            continue
        finally:
            page.reset()
            browser.get_log('browser')  # its complaints are not the right page's
        raise AssertionError(f'{part} does not find out: {name}')
    return len(pages)


def main():
    words = sys.argv[1:]
    picture = words[1] if words[:1] == ['--picture'] else None
    chosen = words[2:] if picture else words
    browser = start_browser()
    try:
        began = time.monotonic()
        print(f'page: {wrong_pages(browser, chosen)} wrong pages found out, {time.monotonic() - began:.1f} s', flush=True)
        seen[0] = 0
        page = Page(browser, PAGE.as_uri())
        for part in PARTS:
            if chosen and part.__name__ not in chosen:
                continue
            began, before = time.monotonic(), seen[0]
            page.load()
            part(page)
            page.reset()
            print(f'page: {part.__name__}: {seen[0] - before} comparisons, {time.monotonic() - began:.1f} s', flush=True)
        if picture:
            take_picture(page, picture)
        print(f'page: {seen[0]} comparisons in {browser.capabilities["browserName"]} {browser.capabilities["browserVersion"]}, all as they should be')
    finally:
        browser.quit()
        ROOM.cleanup()


main()
