// The pictures: hours by tables, and a text with every byte to be seen.
import { hiddenName, stretches, two } from './post.js';

// An element with its attributes and what stands in it.
export function element(name, attributes, ...content) {
    const made = document.createElement(name);
    for (const [key, value] of Object.entries(attributes)) made.setAttribute(key, value);
    made.append(...content);
    return made;
}

// A row of hours: each with its zone's digit and colour, a line where the zone changes, and a mark where it is in `changed`.
function hoursOf(row, changed) {
    const starts = new Set(stretches(row).map(({ from }) => from));
    return [...row].map((zone, hour) => {
        const classes = [`z${zone}`];
        if (hour > 0 && starts.has(hour)) classes.push('change');
        if (changed?.has(hour)) classes.push('changed');
        return element('td', { class: classes.join(' ') }, zone);
    });
}

// A table of hours by tables. `rows` gives a table's row, or nothing where it is left alone; `changed` the hours to be marked.
export function picture(title, groups, rows, changed) {
    const columns = element('colgroup', {}, element('col', { class: 'name' }), element('col', { span: 24 }));
    const hours = Array.from({ length: 24 }, (_, hour) => element('th', { scope: 'col' }, String(hour)));
    const head = element('thead', {}, element('tr', {}, element('td', {}), ...hours));
    const bodies = groups.map((group) => {
        const body = element('tbody', {});
        if (groups.length > 1) body.append(element('tr', {}, element('th', { scope: 'rowgroup', colspan: 25 }, group.title)));
        for (const { table, name, short } of group.rows) {
            const row = rows(table);
            const cells = row ? hoursOf(row, changed?.get(table)) : [element('td', { class: 'alone', colspan: 24 }, 'left alone')];
            const label = element('th', { scope: 'row', title: `table ${two(table)}: ${group.title}, ${name}` }, short);
            body.append(element('tr', { 'data-table': table }, label, ...cells));
        }
        return body;
    });
    return element('table', { class: 'hours' }, element('caption', {}, title), columns, head, ...bodies);
}

export function legend() {
    const zones = [1, 2, 3, 4].map((zone) => element('span', { class: `z${zone}` }, `zone ${zone}`));
    return element('p', { class: 'row legend' }, ...zones, 'A dark line stands where the zone changes.');
}

// A byte to be seen: as itself, or by its name in a frame.
const shown = (byte) => {
    const name = hiddenName(byte);
    return name === null ? String.fromCharCode(byte) : element('span', { class: 'byte' }, name);
};

// Bytes to be seen, with a new line behind each LF.
function bytesToSee(bytes) {
    const seen = [];
    let plain = '';
    for (const byte of bytes) {
        const one = shown(byte);
        if (typeof one === 'string') {
            plain += one;
            continue;
        }
        seen.push(plain, one);
        plain = byte === 0x0a ? '\n' : '';
    }
    return [...seen, plain];
}

// How much is shown of what stands behind the mark.
const BEHIND = 400;

// A text as it was read, up to and behind the place at which it leaves every post; null for a post. All of it is seen but for the rest
// of a long one.
export function textToSee(text, place) {
    if (place === null) return { seen: bytesToSee(text), all: true };
    const seen = [element('span', { class: 'accepted' }, ...bytesToSee(text.slice(0, place)))];
    if (place === text.length) return { seen: [...seen, element('mark', { class: 'end-mark' }, 'the text ends here')], all: true };
    const rest = text.slice(place + 1, place + 1 + BEHIND), hidden = text.length - place - 1 - rest.length;
    seen.push(element('mark', {}, shown(text[place])), element('span', { class: 'rest' }, ...bytesToSee(rest)));
    if (hidden > 0) seen.push(element('span', { class: 'rest' }, ` … and ${hidden.toLocaleString('en')} bytes more that were read`));
    return { seen, all: hidden === 0 };
}
