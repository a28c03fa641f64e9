// Every call into the proved module, and nothing else. A text, a record or a message goes in and comes out as an array of bytes; what
// the headers call a length is 64 bits wide in the module, whatever the browser.
import { MODULE, LAYOUT } from './built.js';

// The editions of meters that the module knows, and how many tables each has.
export const EDITIONS = [1, 2];
export const tablesOf = (edition) => (edition === 2 ? 25 : 24);
export const LINE = 36;

export const bytesOf = (base64) => Uint8Array.from(atob(base64), (letter) => letter.charCodeAt(0));
const proved = (await WebAssembly.instantiate(bytesOf(MODULE))).instance.exports;

// What is lent to one call lies one behind the other, from where the module's own memory ends.
class Loan {
    constructor() {
        this.next = proved.__heap_base.value;
    }
    room(size) {
        const at = this.next;
        this.next = (at + size + 15) & ~7;
        const missing = this.next - proved.memory.buffer.byteLength;
        if (missing > 0) proved.memory.grow(Math.ceil(missing / 65536));
        return at;
    }
    bytes(bytes) {
        const at = this.room(bytes.length);
        new Uint8Array(proved.memory.buffer).set(bytes, at);
        return at;
    }
    take(at, size) {
        return new Uint8Array(proved.memory.buffer).slice(at, at + size);
    }
    length(at) {
        return Number(new DataView(proved.memory.buffer).getBigUint64(at, true));
    }
    byte(at) {
        return new Uint8Array(proved.memory.buffer)[at];
    }
}
const size = (bytes) => BigInt(bytes.length);

// dirgemist.h: whether a text is a post, and where it leaves every post.
export function check(edition, text) {
    const loan = new Loan(), place = loan.room(8), at = loan.bytes(text);
    const number = proved.dirgemist_post_check(edition, at, size(text), place);
    return { number, place: loan.length(place) };
}

// dirgemist.h: the frames of a post, into a buffer as it is given, which comes back as the module left it.
export function exportInto(edition, text, buffer) {
    const loan = new Loan(), length = loan.room(8), place = loan.room(8), at = loan.bytes(text), out = loan.bytes(buffer);
    const number = proved.dirgemist_post_export(edition, at, size(text), out, size(buffer), length, place);
    return { number, length: loan.length(length), place: loan.length(place), buffer: loan.take(out, buffer.length) };
}

export function framesOf(edition, text) {
    const { number, place, length, buffer } = exportInto(edition, text, new Uint8Array(tablesOf(edition) * LINE));
    return { number, place, frames: buffer.slice(0, length) };
}

// dirgemist_session.h: a session that delivers a post with a password; no serial calls any meter. No energy is read, so the decimals
// are those of any family: 0.
export function startSession(edition, serial, password, post) {
    const loan = new Loan(), length = loan.room(8), place = loan.room(8), session = loan.room(LAYOUT.session);
    const told = [loan.bytes(serial), loan.bytes(password), loan.bytes(post)], out = loan.room(LAYOUT.messageRoom);
    const number = proved.dirgemist_session_start(session, edition, 0, serial.length > 0 ? 1 : 0, told[0], size(serial), 1, told[1], size(password),
        1, told[2], size(post), out, BigInt(LAYOUT.messageRoom), length, place);
    return { number, place: loan.length(place), session: loan.take(session, LAYOUT.session), message: loan.take(out, loan.length(length)) };
}

// dirgemist_session.h: what the session makes of a reply; an empty one is silence.
export function answerSession(session, post, reply) {
    const loan = new Loan(), length = loan.room(8), fact = loan.room(1), at = loan.room(1), record = loan.bytes(session);
    const work = loan.bytes(post), heard = loan.bytes(reply), out = loan.room(LAYOUT.messageRoom);
    const number = reply.length === 0
        ? proved.dirgemist_session_silence(record, fact, at)
        : proved.dirgemist_session_reply(record, work, size(post), heard, size(reply), out, BigInt(LAYOUT.messageRoom), fact, at, length);
    const message = reply.length === 0 ? new Uint8Array(0) : loan.take(out, loan.length(length));
    return { number, fact: loan.byte(fact), at: loan.byte(at), session: loan.take(record, LAYOUT.session), message };
}

// Of a session: the message that was sent last, and how many it has in all.
export const sentOf = (session) => session[LAYOUT.sent];
export const messagesOf = (session) => session[LAYOUT.count] + 4;

// dirgemist_meter.h: a new meter with an optical link (1) that counts in Wh (decimals 0).
export function makeMeter(edition, serial, account, password, now) {
    const loan = new Loan(), record = loan.room(LAYOUT.meter);
    const told = [serial, account, password].flatMap((bytes) => [loan.bytes(bytes), size(bytes)]);
    const number = proved.dirgemist_meter_make(record, ...told, now.getFullYear(), now.getMonth() + 1, now.getDate(), now.getHours(),
        now.getMinutes(), now.getSeconds(), edition, 1, 0);
    return { number, meter: loan.take(record, LAYOUT.meter) };
}

// dirgemist_meter.h: something happens to a meter.
export const CHARACTER = 0, SILENCE = 1, POWER_UP = 4;
export function meet(meter, kind, value) {
    const loan = new Loan(), length = loan.room(8), speed = loan.room(1), place = loan.room(1);
    const record = loan.bytes(meter), reply = loan.room(LAYOUT.replyRoom);
    const number = proved.dirgemist_meter_meet(record, kind, value, reply, BigInt(LAYOUT.replyRoom), length, speed, place);
    return { number, meter: loan.take(record, LAYOUT.meter), reply: loan.take(reply, loan.length(length)), speed: loan.byte(speed) };
}

// The parts of two meters' records that differ: each byte is compared but for those between the fields. What an edition does not use
// of the tables is none of them.
export function differences(edition, one, other) {
    const parts = { ...LAYOUT.parts, tables: { at: LAYOUT.parts.tables.at, size: 24 * tablesOf(edition) } };
    const partAt = (byte) => Object.keys(parts).find((name) => byte >= parts[name].at && byte < parts[name].at + parts[name].size) ?? 'another fact';
    const differ = Array.from(one.keys()).filter((at) => one[at] !== other[at] && !LAYOUT.between.includes(at));
    return [...new Set(differ.map(partAt))];
}

// The rows of a meter's tables.
export function rowsOf(edition, meter) {
    const text = String.fromCharCode(...meter.slice(LAYOUT.parts.tables.at));
    return Array.from({ length: tablesOf(edition) }, (_, at) => text.slice(24 * at, 24 * at + 24));
}
