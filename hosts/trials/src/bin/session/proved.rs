//! The proved head. Its record and its texts lie in guarded memory at every call.

use crate::{Head, Heard, Session, Started, Told};
use dirgemist::session as library;
use trials::memory::Guarded;

fn record_of(session: &Session) -> library::Session {
    library::Session {
        serial: session.serial,
        password: session.password,
        named: session.named,
        access: session.access,
        work: session.work,
        count: session.count,
        sent: session.sent,
        fact: session.fact,
        edition: session.edition,
        decimals: session.decimals,
    }
}

fn session_of(record: &library::Session) -> Session {
    Session {
        serial: record.serial,
        password: record.password,
        named: record.named,
        access: record.access,
        work: record.work,
        count: record.count,
        sent: record.sent,
        fact: record.fact,
        edition: record.edition,
        decimals: record.decimals,
    }
}

fn heard_of(turn: library::Turn) -> Heard {
    Heard {
        number: turn.number,
        fact: turn.fact,
        message: turn.message,
        length: turn.length,
    }
}

pub struct Proved {
    record: Guarded,
    texts: [Guarded; 3],
}

impl Default for Proved {
    fn default() -> Proved {
        Proved {
            record: Guarded::new(size_of::<library::Session>()),
            texts: [(); 3].map(|()| Guarded::new(2_048)),
        }
    }
}

impl Head for Proved {
    fn start(&mut self, session: &mut Session, told: &Told, out: &mut [u8]) -> Started {
        let [serial, password, work] = &mut self.texts;
        let told = library::Told {
            edition: told.edition,
            decimals: told.decimals,
            named: told.named,
            serial: serial.copy(told.serial),
            access: told.access,
            password: password.copy(told.password),
            kind: told.kind,
            work: work.copy(told.work),
        };
        let (started, record) = told.start(out);
        *session = session_of(&record);
        Started {
            number: started.number,
            length: started.length,
            place: started.place,
        }
    }

    fn reply(&mut self, session: &mut Session, work: &[u8], reply: &[u8], out: &mut [u8]) -> Heard {
        let record = self.record.place(record_of(session));
        let [given, came, _] = &mut self.texts;
        let turn = record.reply(given.copy(work), came.copy(reply), out);
        *session = session_of(record);
        heard_of(turn)
    }

    fn silence(&mut self, session: &mut Session) -> Heard {
        let record = self.record.place(record_of(session));
        let turn = record.silence();
        *session = session_of(record);
        heard_of(turn)
    }
}
