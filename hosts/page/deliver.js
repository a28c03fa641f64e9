// A visit of the head to a meter. The proved session says what is sent and what a reply means; a line carries the bytes: that of an
// optical head on a serial port, or one to a meter in this page.
import { answerSession, CHARACTER, LINE, meet, messagesOf, sentOf, SILENCE, startSession } from './modules.js';

const rest = (milliseconds) => new Promise((resume) => setTimeout(resume, milliseconds));

// ---- Lines.

// To a meter in the page: each byte is given to it, and what it replies comes back. The pace is one that the eye can follow.
export class VirtualLine {
    constructor(meter) {
        this.meter = meter;
        this.number = 0; // what the meter answered last
    }
    async exchange(message) {
        await rest(60);
        const heard = [];
        for (const byte of message) {
            const { number, meter, reply } = meet(this.meter, CHARACTER, byte);
            this.meter = meter;
            this.number = number;
            heard.push(...reply);
        }
        return Uint8Array.from(heard);
    }
    // Nobody speaks any more: eight seconds of silence end a session that was not left.
    async close() {
        this.meter = meet(this.meter, SILENCE, 0).meter;
    }
}

// How long the head waits for a reply, and how long for its next byte, in milliseconds.
const PATIENCE = 2000, GAP = 500;
const ETX = 0x03, ACK = 0x06, NAK = 0x95, LF = 0x0a, SOH = 0x81, STX = 0x82, SLASH = 0xaf;

// Whether what came so far is a whole reply.
function whole(reply) {
    if (reply[0] === ACK || reply[0] === NAK) return true;
    if (reply[0] === SLASH) return reply[reply.length - 1] === LF;
    return (reply[0] === SOH || reply[0] === STX) && reply.length >= 2 && reply[reply.length - 2] === ETX;
}

// To an optical head on a serial port. A byte of ours carries its own parity: 8 bits, none of the port's.
export class SerialLine {
    constructor(port) {
        this.port = port;
        this.heard = [];
        this.wake = () => {};
    }
    async open(baud) {
        await this.port.open({ baudRate: baud, dataBits: 8, parity: 'none', stopBits: 1 });
        this.baud = baud;
        this.reader = this.port.readable.getReader();
        this.listening = this.listen();
    }
    async listen() {
        try {
            for (;;) {
                const { value, done } = await this.reader.read();
                if (done) break;
                this.heard.push(...value);
                this.wake();
            }
        } catch (fault) {
            this.fault = fault;
            this.wake();
        } finally {
            this.reader.releaseLock();
        }
    }
    async close() {
        await this.reader.cancel().catch(() => {});
        await this.listening;
        await this.port.close();
    }
    // Sends, and rests until all has left: some drivers say so too early, and the speed must not change before.
    async send(message) {
        const left = performance.now() + (message.length * 10000) / this.baud;
        const writer = this.port.writable.getWriter();
        await writer.write(message);
        await writer.close();
        await rest(left - performance.now());
    }
    // Waits until something came, at most so long.
    async more(known, milliseconds) {
        if (this.heard.length > known || this.fault) return;
        await Promise.race([new Promise((woken) => { this.wake = woken; }), rest(milliseconds)]);
    }
    async exchange(message, number) {
        await this.send(message);
        if (number === 2) {
            // The confirmation asks for 9600 baud, and the meter replies at it.
            await this.close();
            await this.open(9600);
        }
        for (let known = 0, wait = PATIENCE; !whole(this.heard); wait = GAP) {
            await this.more(known, wait);
            if (this.fault) throw this.fault;
            if (this.heard.length === known) break;
            known = this.heard.length;
        }
        return Uint8Array.from(this.heard.splice(0));
    }
}

// ---- The visit.

// What a message of a visit is for.
export function messageName(number, messages, post) {
    if (number <= 3) return ['sign-on', 'confirmation', 'password'][number - 1];
    if (number === messages) return 'leave';
    const at = (number - 4) * LINE;
    return `table ${String.fromCharCode(...post.slice(at + 6, at + 8))}`;
}

// Delivers a post. `tell` hears each message before it is sent, `stopped` is asked before each. It ends with a fact: over, nak, wrong,
// silent or stopped, at a message; or with a refusal's number before anything was sent.
export async function visit(line, edition, serial, password, post, tell, stopped) {
    const started = startSession(edition, serial, password, post);
    if (started.number !== 1) return { fact: 'refused', number: started.number, place: started.place };
    let { session, message } = started;
    const messages = messagesOf(session);
    for (;;) {
        const at = sentOf(session);
        if (stopped()) return { fact: 'stopped', at, messages };
        tell(at, messages, message);
        const step = answerSession(session, post, await line.exchange(message, at));
        if (step.number !== 1) return { fact: 'refused', number: step.number, place: 0 };
        if (step.fact !== 0) return { fact: ['', 'over', 'nak', 'wrong', 'silent'][step.fact], at: step.at, messages };
        ({ session, message } = step);
    }
}

// ---- Words.

const REFUSALS = {
    3: 'a character came damaged', 4: 'the checksum is wrong', 5: 'the message is too long', 6: 'the message has no known shape',
    7: 'it does not know the command', 8: 'it does not allow that now', 9: 'the data are not such as it takes',
    10: 'the password is wrong', 11: 'it is locked after three wrong passwords, until its power was off and on',
};

// Why a meter said NAK to a message. A real meter does not say; the virtual one's answer is known.
function refusalInWords(at, answer) {
    if (REFUSALS[answer]) return `${REFUSALS[answer]} (answer ${answer})`;
    if (at === 3) return 'the password is wrong, or the meter is locked after three wrong ones, until its power was off and on';
    return 'the message came damaged, or it is not such as the meter takes';
}

// The end of a visit in words, for its owner: what happened, and which tables were set.
export function endInWords(end, post, answer) {
    if (end.fact === 'refused') {
        if (end.number === 9) return 'Nothing was sent: a serial has ten digits, a password eight.';
        return `Nothing was sent: the session was refused with ${end.number}.`;
    }
    const lines = end.messages - 4, set = Math.min(Math.max(end.at - 4, 0), lines), name = messageName(end.at, end.messages, post);
    const tables = set === 0 ? 'No table was set' : `${set} of ${lines} tables were set`;
    if (end.fact === 'over') return `Done: ${lines === 1 ? 'the table was' : `all ${lines} tables were`} set, each acknowledged by the meter.`;
    const where = `message ${end.at} of ${end.messages}, ${name}`;
    if (end.fact === 'nak') return `The meter refused ${where}: ${refusalInWords(end.at, answer)}. ${tables}.`;
    if (end.fact === 'silent') return `The meter did not answer ${where}. ${tables}${set < lines && end.at > 3 && end.at < end.messages ? '; whether the last one arrived is not known' : ''}.`;
    if (end.fact === 'wrong') return `The meter’s answer to ${where} was not the right one, or came damaged. ${tables}${end.at > 3 && end.at < end.messages ? '; whether the last one arrived is not known' : ''}.`;
    return `Stopped before ${where}. ${tables}. The meter ends the session by itself after 8 seconds of silence.`;
}
