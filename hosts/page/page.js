// The page: what is pasted, typed, dropped or chosen is looked at, shown, and delivered.
import { EXAMPLES } from './built.js';
import { bytesOf, check, differences, EDITIONS, framesOf, LINE, makeMeter, meet, POWER_UP, rowsOf, tablesOf } from './modules.js';
import { count, groupsOf, hiddenInWords, listed, reasons, rowInWords, rowsIn } from './post.js';
import { element, legend, picture, textToSee } from './show.js';
import { endInWords, messageName, SerialLine, visit, VirtualLine } from './deliver.js';

const the = (id) => document.getElementById(id);
const ascii = (text) => new TextEncoder().encode(text);
const show = (id, seen) => { the(id).hidden = !seen; };

// No more than this is read of a text: no post is longer than a thousandth of it.
const MOST = 1 << 20;
// A longer text is not put into the box, which would take long to show it.
const BOX = 20000;

let edition = EDITIONS[0];
let text = new Uint8Array(0); // as it was read
let source = ''; // where it is from, in words
let post = null; // the text, where it is a post

// ---- See.

function showPost(rows) {
    const groups = groupsOf(edition), tables = tablesOf(edition), alone = tables - rows.size;
    const pictures = groups.map((group) => picture(group.title, [group], (table) => rows.get(table)));
    const words = element('ul', { class: 'words' });
    for (const group of groups) {
        const alike = new Map();
        for (const { table, name } of group.rows) if (rows.has(table)) alike.set(rows.get(table), [...(alike.get(rows.get(table)) ?? []), name]);
        for (const [row, names] of alike) words.append(element('li', {}, element('b', {}, `${group.title}, ${listed(names, 'and')}: `), rowInWords(row), '.'));
    }
    the('answer').className = 'good';
    the('answer').replaceChildren(element('p', {}, `This is a post. It sets ${rows.size} of ${tables} tables and changes nothing else.`),
        element('p', {}, alone === 0 ? 'No table is left alone.' : `${count(alone, 'table')} ${alone === 1 ? 'is' : 'are'} left alone, as the meter has ${alone === 1 ? 'it' : 'them'}: ${listed(aloneIn(groups, rows), 'and')}.`));
    the('meaning').replaceChildren(legend(), element('div', { class: 'pictures' }, ...pictures), words);
}

// The tables that a post leaves alone, by their days.
function aloneIn(groups, rows) {
    return groups.flatMap((group) => {
        const left = group.rows.filter(({ table }) => !rows.has(table)).map(({ short }) => short);
        if (left.length === 0) return [];
        return [`${group.title} ${left.length === group.rows.length && left.length > 1 ? 'of all months' : `(${left.join(', ')})`}`];
    });
}

function showRefusal(place) {
    const [where, could] = reasons(edition, text, place);
    the('answer').className = 'bad';
    the('answer').replaceChildren(element('p', {}, 'This is not a post. Nothing of it can be delivered.'),
        element('p', {}, where, ' ', could), element('p', {}, hiddenInWords(text)), element('p', { class: 'small' }, `The check’s answer: 20, place ${place}.`));
}

// Looks at a text, with the words that say where it is from.
function look(bytes, from) {
    text = bytes;
    source = from;
    post = null;
    const empty = bytes.length === 0;
    const { number, place } = check(edition, bytes);
    if (number === 1) {
        post = bytes;
        showPost(rowsIn(bytes));
    } else if (empty) {
        the('answer').className = '';
        the('answer').replaceChildren(element('p', {}, from === '' ? 'Nothing to see yet.' : `${from}.`));
    } else {
        showRefusal(place);
    }
    const { seen, all } = textToSee(bytes, number === 1 ? null : place);
    the('read-title').textContent = `${from}: ${count(bytes.length, 'byte')} read${all ? ', each of them shown' : ''}${number === 1 ? '' : '; marked is where it leaves every post'}.`;
    the('text').replaceChildren(...seen);
    show('meaning', number === 1);
    show('read', !empty);
    show('ways', number === 1);
    show('not-yet', number !== 1);
    the('downloaded').textContent = '';
}

// ---- Where a text comes from.

let asked = 0; // counts what was asked to be looked at, so that a slow file does not come after a quick one

// Text has line ends of any kind, and becomes bytes with CR LF.
const bytesOfText = (written) => ascii(written.replace(/\r\n?|\n/g, '\r\n'));

function lookAtBox() {
    asked++;
    look(bytesOfText(the('box').value), the('box').value === '' ? '' : 'The text in the box, each line end as CR LF');
}

// Text that is too long for the box.
function lookAtLongText(written) {
    asked++;
    the('box').value = '';
    const all = written.length.toLocaleString('en');
    look(bytesOfText(written.slice(0, MOST)), `A text of ${all} characters, too long for the box, each line end as CR LF${written.length > MOST ? ', its beginning' : ''}`);
}

async function lookAtFile(file) {
    const mine = ++asked;
    let bytes;
    try {
        bytes = new Uint8Array(await file.slice(0, MOST).arrayBuffer());
    } catch {
        bytes = null;
    }
    if (mine !== asked) return;
    the('box').value = '';
    if (bytes === null) look(new Uint8Array(0), `${file.name} can’t be read`);
    else if (bytes.length === 0) look(bytes, `${file.name} has nothing in it`);
    else look(bytes, `${file.name}, ${count(file.size, 'byte')}${file.size > MOST ? ', its beginning' : ''}, as they are`);
}

the('box').addEventListener('input', lookAtBox);
the('box').addEventListener('paste', (event) => {
    const pasted = event.clipboardData.getData('text/plain');
    if (pasted.length <= BOX) return;
    event.preventDefault();
    lookAtLongText(pasted);
});
the('file').addEventListener('change', () => {
    const [file] = the('file').files;
    the('file').value = '';
    if (file) lookAtFile(file);
});
document.addEventListener('dragover', (event) => event.preventDefault());
document.addEventListener('drop', (event) => {
    const { files } = event.dataTransfer, dropped = event.dataTransfer.getData('text/plain');
    if (files.length === 0 && dropped.length <= BOX) return;
    event.preventDefault();
    if (the('box').disabled) return; // a visit goes on
    if (files.length > 0) lookAtFile(files[0]);
    else lookAtLongText(dropped);
});
the('clear').addEventListener('click', () => {
    the('box').value = '';
    lookAtBox();
    the('box').focus();
});
for (const { name, base64 } of EXAMPLES) {
    const button = element('button', { type: 'button' }, name);
    button.addEventListener('click', () => {
        the('box').value = String.fromCharCode(...bytesOf(base64));
        lookAtBox();
    });
    the('examples').append(button);
}

// ---- Deliver.

the('download').addEventListener('click', () => {
    const { frames } = framesOf(edition, post);
    const link = element('a', { href: URL.createObjectURL(new Blob([frames], { type: 'application/octet-stream' })), download: 'post.frames' });
    link.click();
    setTimeout(() => URL.revokeObjectURL(link.href), 60000);
    the('downloaded').textContent = `${count(frames.length / LINE, 'frame')}, ${frames.length} bytes.`;
});

let stopAsked = false;

// What is for delivering is at rest while a visit goes on, but for Stop.
function setVisiting(now) {
    for (const id of ['to-head', 'to-virtual', 'power', 'renew', 'box', 'file', 'clear']) the(id).disabled = now;
    for (const button of the('examples').children) button.disabled = now;
    for (const button of the('editions').querySelectorAll('input')) button.disabled = now;
    the('stop').disabled = !now;
    if (now) the('stop').focus();
    stopAsked = false;
}

// Delivers the post over a line, with progress message by message.
async function deliverOver(line) {
    const delivered = post;
    the('messages').replaceChildren();
    const tell = (at, messages) => {
        the('progress').max = messages;
        the('progress').value = at;
        the('progress-words').textContent = `Message ${at} of ${messages}: ${messageName(at, messages, delivered)} …`;
        const line = element('li', {}, messageName(at, messages, delivered));
        the('messages').append(line);
        line.scrollIntoView({ block: 'nearest' });
    };
    show('progress', true);
    show('messages', true);
    const end = await visit(line, edition, ascii(the('serial').value), ascii(the('password').value), delivered, tell, () => stopAsked);
    if (end.fact === 'refused') {
        show('progress', false);
        show('messages', false);
    }
    return end;
}

the('stop').addEventListener('click', () => {
    stopAsked = true;
    the('stop').disabled = true;
});

the('to-head').addEventListener('click', async () => {
    let port;
    try {
        port = await navigator.serial.requestPort();
    } catch {
        the('progress-words').textContent = 'No optical head was chosen.';
        return;
    }
    setVisiting(true);
    const line = new SerialLine(port);
    try {
        await line.open(300);
        try {
            the('progress-words').textContent = endInWords(await deliverOver(line), post);
        } finally {
            await line.close();
        }
    } catch (fault) {
        the('progress-words').textContent = `The optical head can’t be used, or was unplugged: ${fault.message}`;
    }
    setVisiting(false);
    the('to-head').focus();
});

// ---- The virtual meter.

const SERIAL = '1234567890', PASSWORD = '20304050', ACCOUNT = 'Kiln_7    ';
let meter;

function renew() {
    meter = makeMeter(edition, ascii(SERIAL), ascii(ACCOUNT), ascii(PASSWORD), new Date()).meter;
    the('facts').textContent = `Its serial is ${SERIAL}, its password ${PASSWORD}.`;
    the('compared').textContent = '';
    showMeter();
}

function showMeter() {
    const rows = rowsOf(edition, meter);
    the('meter').replaceChildren(element('div', { class: 'pictures' }, picture('Its tables now', groupsOf(edition), (table) => rows[table - 1])));
}

// The tables before and after, the hours that changed marked in both, and whether anything else of the record is another.
function compare(before, after) {
    const was = rowsOf(edition, before), is = rowsOf(edition, after), changed = new Map();
    let hours = 0;
    was.forEach((row, at) => {
        const others = new Set([...row].flatMap((zone, hour) => (zone === is[at][hour] ? [] : [hour])));
        if (others.size > 0) changed.set(at + 1, others);
        hours += others.size;
    });
    const groups = groupsOf(edition), elsewhere = differences(edition, before, after).filter((name) => name !== 'tables');
    the('meter').replaceChildren(element('div', { class: 'pictures' }, picture('Before', groups, (table) => was[table - 1], changed),
        picture('After', groups, (table) => is[table - 1], changed)));
    const what = hours === 0 ? 'No hour changed.' : `${count(hours, 'hour')} in ${count(changed.size, 'table')} changed, marked below.`;
    the('compared').textContent = elsewhere.length === 0
        ? `${what} Nothing else did: all ${before.length.toLocaleString('en')} bytes of the meter’s record were compared, among them its account, clock, counters and closed months.`
        : `${what} Changed too: ${listed(elsewhere, 'and')}.`;
}

the('to-virtual').addEventListener('click', async () => {
    setVisiting(true);
    const before = meter, line = new VirtualLine(meter);
    const end = await deliverOver(line), { number } = line;
    await line.close();
    ({ meter } = line);
    the('progress-words').textContent = endInWords(end, post, number);
    compare(before, meter);
    setVisiting(false);
    the('to-virtual').focus();
});
the('power').addEventListener('click', () => {
    const before = meter;
    ({ meter } = meet(meter, POWER_UP, 0));
    compare(before, meter);
});
the('renew').addEventListener('click', renew);

// ---- The start.

if (EDITIONS.length > 1) {
    for (const one of EDITIONS) {
        const choice = element('input', { type: 'radio', name: 'edition', value: one });
        choice.checked = one === edition;
        choice.addEventListener('change', () => {
            edition = one;
            renew();
            look(text, source);
        });
        the('editions').append(element('label', {}, choice, ` edition ${one}, ${tablesOf(one)} tables${one === 2 ? ', with Saturdays' : ''}`));
    }
    show('editions', true);
}
the('serial').value = SERIAL;
the('password').value = PASSWORD;
the('to-head').hidden = !('serial' in navigator);
show('no-head', !('serial' in navigator));
renew();
lookAtBox();
