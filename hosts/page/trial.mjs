// The trial of the page's module: texts with the model's answers, from standard input (the trial of posts writes them), through the
// very calls that the page makes. First it has to find out modules that are wrong.
import { readSync } from 'node:fs';
import { check, exportInto } from '../../target/page/parts/modules.js';

const FILL = 0xc3;

// What is read ahead of standard input.
const ahead = Buffer.alloc(1 << 20);
let from = 0, to = 0;
function take(count) {
    const taken = Buffer.alloc(count);
    for (let had = 0; had < count;) {
        if (from === to) {
            from = 0;
            to = readSync(0, ahead);
            if (to === 0) return had === 0 ? null : fail('the answers break off');
        }
        const some = ahead.copy(taken, had, from, to);
        had += some;
        from += some;
    }
    return taken;
}
const byte = () => take(1)[0];
const size = () => take(4).readUInt32LE();
const bytes = () => take(size());

function fail(words) {
    console.log(`page: the module: ${words}`);
    process.exit(1);
}

// The next text with the model's answers, or null at the end.
function next() {
    const edition = take(1);
    if (edition === null) return null;
    const text = bytes(), number = byte(), place = size();
    const exports = Array.from({ length: byte() }, () => ({ number: byte(), length: size(), place: size(), buffer: bytes() }));
    return { edition: edition[0], text, number, place, exports };
}

// The first difference between a module and the model on a text, in words, or null.
function difference(module, { edition, text, number, place, exports }) {
    const found = module.check(edition, text);
    if (found.number !== number || found.place !== place) return `check gave ${found.number} ${found.place}, not ${number} ${place}`;
    for (const wanted of exports) {
        const given = module.exportInto(edition, text, Buffer.alloc(wanted.buffer.length, FILL));
        for (const name of ['number', 'length', 'place']) if (given[name] !== wanted[name]) return `export gave ${name} ${given[name]}, not ${wanted[name]}`;
        if (wanted.buffer.compare(given.buffer) !== 0) return `export into ${wanted.buffer.length} bytes left others`;
    }
    return null;
}

const changed = (answer, change) => ({ ...answer, ...change(answer) });
const WRONG = [
    { check: (edition, text) => changed(check(edition, text), ({ number, place }) => ({ place: number === 1 ? place : place + 1 })), exportInto },
    { check: (edition, text) => changed(check(edition, text), () => ({ number: 20 })), exportInto },
    { check: (edition, text) => changed(check(edition, text), () => ({ number: 1 })), exportInto },
    { check, exportInto: (edition, text, out) => changed(exportInto(edition, text, out), ({ number }) => ({ number: number === 21 ? 1 : number })) },
    { check, exportInto: (edition, text, out) => changed(exportInto(edition, text, out), ({ buffer }) => ({ buffer: buffer.map((byte) => byte & 0x7f) })) },
    { check, exportInto: (edition, text, out) => changed(exportInto(edition, text, out), ({ buffer, length }) => ({ buffer: buffer.fill(0, length) })) },
];

let texts = 0, posts = 0;
const notFoundOut = new Set(WRONG);
for (let one = next(); one !== null; one = next()) {
    for (const module of notFoundOut) if (difference(module, one) !== null) notFoundOut.delete(module);
    const found = difference({ check, exportInto }, one);
    if (found !== null) fail(`${found}\ntext of ${one.text.length} bytes, hex: ${one.text.toString('hex')}`);
    texts++;
    posts += one.number === 1 ? 1 : 0;
}
if (notFoundOut.size > 0) fail(`${notFoundOut.size} wrong modules were not found out`);
const wanted = Number(process.argv[2] ?? 0);
if (texts < wanted) fail(`${texts} texts, not ${wanted}`);
console.log(`page: the module: ${texts} texts, ${posts} of them posts, all equal to the model; ${WRONG.length} wrong modules found out`);
