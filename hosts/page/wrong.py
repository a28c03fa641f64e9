"""Wrong pages, each with one mistake, and the part of the trials that has to find it out."""

import base64
import hashlib
import re

WRONG = (
    ('the rows read a column late', 'at + 9, at + 33', 'at + 10, at + 34', 'posts'),
    ('the frames saved are the post', 'new Blob([frames]', 'new Blob([post]', 'posts'),
    ('changed hours not marked', 'changed?.has(hour)', 'false', 'posts'),
    ('the mark a character late', 'bytesToSee(text.slice(0, place))', 'bytesToSee(text.slice(0, place + 1))', 'refusals'),
    ('line ends as LF', "/\\r\\n?|\\n/g, '\\r\\n'", "/\\r\\n?|\\n/g, '\\n'", 'refusals'),
    ('a file mended', 'new Uint8Array(await file.slice(0, MOST).arrayBuffer())', 'bytesOfText(await file.slice(0, MOST).text())', 'files'),
    ('bytes above 7F as they look', 'byte > 0x7f ?', 'byte > 0xff ?', 'files'),
    ('a long text put into the box', 'pasted.length <= BOX', 'pasted.length <= 1e9', 'megabytes'),
    ('all of a large file read', 'file.slice(0, MOST).arrayBuffer', 'file.arrayBuffer', 'megabytes'),
    ('what else changed not said', "filter((name) => name !== 'tables')", "filter((name) => name === '')", 'meter'),
    ('no stop', 'if (stopped()) return', 'if (false) return', 'meter'),
    ('the focus lost in a visit', "if (now) the('stop').focus();", '', 'keyboard'),
    ('a box without a label', '<label for="box">The post, as it stands in the forum</label>', '', 'names'),
    ('two zones alike', '.z2 { background: #8cc4e6', '.z2 { background: #e0e8f0', 'colours'),
    ('a picture too wide', 'table-layout: fixed; width: 100%; min-width: 0', 'table-layout: fixed; width: 30rem; min-width: 30rem', 'narrow'),
    ('the speed changed a message late', 'number === 2', 'number === 3', 'head'),
    ('a policy without a default', "default-src 'none'; ", '', 'policy'),
)


def made_wrong(page, old, new):
    """A page's text with a mistake in it. The policy's sums are those of its script and style again, so that it runs."""
    if page.count(old) != 1:
        raise AssertionError(f'a wrong page can\'t be made: {old!r} stands {page.count(old)} times in the page')
    page = page.replace(old, new)
    for source, tag in (('script-src', '<script type="module">(.*)</script>'), ('style-src', '<style>(.*)</style>')):
        content = re.search(tag, page, re.DOTALL)[1]
        digest = base64.b64encode(hashlib.sha256(content.encode()).digest()).decode()
        page = re.sub(f"{source} 'sha256-[^']*'", f"{source} 'sha256-{digest}'", page, count=1)
    return page
