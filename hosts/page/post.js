// What a text means, in words for people. What is a post, and what could have stood at a place, is asked of the proved check.
import { check, tablesOf, LINE } from './modules.js';

const MONTHS = ['January', 'February', 'March', 'April', 'May', 'June', 'July', 'August', 'September', 'October', 'November', 'December'];
export const two = (number) => String(number).padStart(2, '0');
export const count = (number, thing) => `${number.toLocaleString('en')} ${thing}${number === 1 ? '' : 's'}`;

// The tables of an edition, by the days that they are for.
export function groupsOf(edition) {
    const months = (from) => MONTHS.map((name, at) => ({ table: from + at, name, short: name.slice(0, 3) }));
    const days = [{ title: 'Working days', rows: months(1) }, { title: edition === 2 ? 'Sundays' : 'Saturdays and Sundays', rows: months(13) }];
    if (tablesOf(edition) === 25) days.push({ title: 'Saturdays', rows: [{ table: 25, name: 'all year', short: 'all' }] });
    return days;
}

// The rows of a post, by table number. The text has been found to be a post: its columns are where they belong.
export function rowsIn(post) {
    const text = String.fromCharCode(...post), rows = new Map();
    for (let at = 0; text[at] !== '!'; at += LINE) rows.set(Number(text.slice(at + 6, at + 8)), text.slice(at + 9, at + 33));
    return rows;
}

// The hours of a row as stretches of one zone.
export function stretches(row) {
    const found = [];
    for (let hour = 0; hour < row.length; hour++) {
        if (hour > 0 && row[hour] === row[hour - 1]) found[found.length - 1].to = hour + 1;
        else found.push({ zone: row[hour], from: hour, to: hour + 1 });
    }
    return found;
}

// A row in words: zone 1 from 0 to 6, zone 2 from 6 to 9, ..
export function rowInWords(row) {
    const all = stretches(row);
    if (all.length === 1) return `zone ${row[0]} all day`;
    return all.map(({ zone, from, to }) => `zone ${zone} from ${from} to ${to}`).join(', ');
}

export const listed = (words, last) => (words.length < 2 ? words.join('') : `${words.slice(0, -1).join(', ')} ${last} ${words[words.length - 1]}`);

// The bytes that could have stood behind a beginning, so that some post goes on so.
export function couldFollow(edition, beginning) {
    const longer = new Uint8Array(beginning.length + 1);
    longer.set(beginning);
    return Array.from({ length: 256 }, (_, byte) => byte).filter((byte) => {
        longer[beginning.length] = byte;
        const { number, place } = check(edition, longer);
        return number === 1 || place > beginning.length;
    });
}

const CONTROLS = 'NUL SOH STX ETX EOT ENQ ACK BEL BS HT LF VT FF CR SO SI DLE DC1 DC2 DC3 DC4 NAK SYN ETB CAN EM SUB ESC FS GS RS US SP'.split(' ');

// A byte by a name where it would not be seen, else null.
export function hiddenName(byte) {
    if (byte <= 0x20) return CONTROLS[byte];
    if (byte === 0x7f) return 'DEL';
    return byte > 0x7f ? `x${byte.toString(16).toUpperCase()}` : null;
}
export const nameOf = (byte) => hiddenName(byte) ?? String.fromCharCode(byte);

// Characters that look like nothing, or like another.
const LOOKS = {
    0x00a0: 'a no-break space', 0x00ad: 'a soft hyphen', 0x200b: 'a zero width space', 0x200c: 'a zero width non-joiner', 0x200d: 'a zero width joiner',
    0x200e: 'a left-to-right mark', 0x200f: 'a right-to-left mark', 0x2028: 'a line separator', 0x2029: 'a paragraph separator',
    0x202a: 'a left-to-right embedding', 0x202b: 'a right-to-left embedding', 0x202c: 'an end of direction', 0x202d: 'a left-to-right override',
    0x202e: 'a right-to-left override', 0x2060: 'a word joiner', 0x2066: 'a left-to-right isolate', 0x2067: 'a right-to-left isolate',
    0x2068: 'a first strong isolate', 0x2069: 'an end of isolation', 0xfeff: 'a byte order mark', 0xfffd: 'a mark for a character that has none',
};

// What stands at a place of a text: a character, and how it is told apart from those that look like it.
export function standsAt(text, place) {
    const byte = text[place];
    if (byte === 0x0d && text[place + 1] === 0x0a) return 'the end of the line, CR LF';
    if (byte <= 0x20 || byte === 0x7f) return `the hidden character ${nameOf(byte)} (${two(byte.toString(16).toUpperCase())} hex)`;
    if (byte < 0x80) return `“${String.fromCharCode(byte)}”`;
    const letters = new TextDecoder('utf-8', { ignoreBOM: true }).decode(text.slice(place, place + 4)), code = letters.codePointAt(0);
    const known = code === 0xfffd && byte !== 0xef ? 'no character of UTF-8' : LOOKS[code];
    if (code === 0xfffd && byte !== 0xef) return `the byte ${byte.toString(16).toUpperCase()} hex, which starts ${known}`;
    const unicode = `U+${code.toString(16).toUpperCase().padStart(4, '0')}`;
    return known ? `${known} (${unicode})` : `a character that is not ASCII (${unicode})`;
}

// What a place of a post is for. The beginning is one that some post has.
function purpose(edition, beginning, choice) {
    const start = beginning.length - (beginning.length % LINE), column = beginning.length - start;
    const table = String.fromCharCode(...beginning.slice(start + 6, start + 8));
    if (beginning[start] === 0x21) return 'the end of the last line, CR LF';
    if (column === 0) {
        const ways = [];
        if (choice.includes('1')) ways.push('131.0. of a table’s line');
        if (choice.includes('!')) ways.push('the last line of a post');
        return `the start of ${listed(ways, 'or')}`;
    }
    if (column < 6) return 'the start of a table’s line, 131.0.';
    if (column < 8) {
        const above = start === 0 ? '' : `, above ${String.fromCharCode(...beginning.slice(start - LINE + 6, start - LINE + 8))} of the line before`;
        return `the number of the table, 01 to ${tablesOf(edition)}${above}`;
    }
    if (column === 8) return `the bracket that opens the row of table ${table}`;
    if (column < 33) return `the zone from ${column - 9} to ${column - 8} o’clock in table ${table}`;
    if (column === 33) return `the bracket that closes the row of table ${table}, whose 24 hours are told`;
    return `the end of the line of table ${table}, CR LF`;
}

// The hidden characters of a text, line ends aside, in a sentence; none is an empty one.
export function hiddenInWords(text) {
    const hidden = text.filter((byte) => (byte < 0x20 && byte !== 0x0d && byte !== 0x0a) || byte === 0x7f);
    if (hidden.length === 0) return '';
    const names = listed([...new Set(hidden)].map(nameOf), 'and');
    return `The text has ${count(hidden.length, 'hidden control character')}: ${names}. Commands to a meter are made with such; a post has none.`;
}

// Why a text that is no post is none, in two sentences: where it leaves every post, and what could have stood there.
export function reasons(edition, text, place) {
    const beginning = text.slice(0, place), choice = couldFollow(edition, beginning).map(nameOf);
    const could = choice.length === 0
        ? 'Nothing could have stood there: the post is whole before it, and a post has nothing behind its last line.'
        : `There could have stood ${listed(choice, 'or')}: ${purpose(edition, beginning, choice)}.`;
    if (place === text.length) return [`The text ends after ${count(place, 'character')}, before a post does.`, could];
    const lines = beginning.filter((byte) => byte === 0x0a).length, column = place - (beginning.lastIndexOf(0x0a) + 1);
    return [`At character ${(place + 1).toLocaleString('en')} (line ${lines + 1}, column ${column + 1}) stands ${standsAt(text, place)}.`, could];
}
