//! A request or a reply under the strict profile: what each record means, what is decided after the end, and the whole message
//! read at once.

use super::record::{
    ALGORITHMS, Breach, COOKIE, END, ERROR, HEADER, MISSING, PORT, PROTOCOLS, Record, SERVER, WARNING,
};

/// An unknown record has its critical bit set.
const CRITICAL: u8 = 3;
/// The set of records is not allowed.
const NOT_ALLOWED: u8 = 4;
/// More cookies than the table holds.
const NO_ROOM: u8 = 7;
const AN_ERROR: u8 = 11;
const A_WARNING: u8 = 12;
const NO_PROTOCOL: u8 = 13;
const NO_ALGORITHM: u8 = 14;
const NO_COOKIE: u8 = 15;
const NOT_OFFERED: u8 = 17;
const STRICT: u8 = 18;

/// Which message is expected.
pub enum Expected {
    Request,
    /// A reply to one who offered these.
    Reply {
        protocols: Vec<u16>,
        algorithms: Vec<u16>,
    },
}

/// What a message is read under.
pub struct Asked {
    pub limit: usize,
    pub cells: usize,
    pub expected: Expected,
}

/// Why a message is refused, for what counts the outcomes.
#[derive(Clone, Copy, PartialEq)]
pub enum Why {
    /// The number tells it.
    Told,
    /// 3 for a kind.
    Unknown(u16),
    /// 17 for either number.
    Protocol,
    Algorithm,
    /// 18 for a record.
    Record(Breach),
    /// 18 for a byte after the end.
    ByteAfterEnd,
}

#[derive(Clone, PartialEq)]
pub struct Refusal {
    pub number: u8,
    pub place: usize,
    pub code: Option<u16>,
    pub why: Why,
}

#[derive(Clone, PartialEq)]
pub enum Answer {
    Request { protocols: Vec<u16>, algorithms: Vec<u16> },
    Reply { protocol: u16, algorithm: u16, server: Option<Vec<u8>>, port: Option<u16>, cookies: Vec<Vec<u8>> },
    Refused(Refusal),
}

/// A refusal without a place: number, code and reason.
pub struct Fault(u8, Option<u16>, Why);

impl Fault {
    fn plain(number: u8) -> Self {
        Self(number, None, Why::Told)
    }

    pub fn at(self, place: usize) -> Answer {
        let Self(number, code, why) = self;
        Answer::Refused(Refusal { number, place, code, why })
    }
}

/// 1 or 2 of a record, or of bytes that are too few for its header.
pub fn unreadable(record: Option<&Record>) -> Option<Fault> {
    record.map_or(Some(MISSING), Record::fault).map(Fault::plain)
}

/// 18 for the byte that stands there.
pub fn byte_after_end(place: usize) -> Answer {
    Fault(STRICT, None, Why::ByteAfterEnd).at(place)
}

/// What the records so far have told.
#[derive(Default)]
pub struct Found {
    protocols: Option<Vec<u16>>,
    algorithms: Option<Vec<u16>>,
    server: Option<Vec<u8>>,
    port: Option<u16>,
    cookies: Vec<Vec<u8>>,
}

impl Found {
    /// Takes the next record, or tells why the message is refused for it: its own faults, then 18, then what it means.
    pub fn take(&mut self, expected: &Expected, record: &Record) -> Result<(), Fault> {
        if let Some(fault) = unreadable(Some(record)) {
            return Err(fault);
        }
        if let Some(breach) = record.breach() {
            return Err(Fault(STRICT, None, Why::Record(breach)));
        }
        match (record.kind, expected) {
            (END, _) => Ok(()),
            (PROTOCOLS, _) => first(&mut self.protocols, list(expected, record)?),
            (ALGORITHMS, _) => first(&mut self.algorithms, list(expected, record)?),
            (ERROR | WARNING | COOKIE, Expected::Request) => Err(Fault::plain(NOT_ALLOWED)),
            (SERVER | PORT, Expected::Request) => Ok(()),
            (ERROR, _) => Err(Fault(AN_ERROR, Some(record.number()), Why::Told)),
            (WARNING, _) => Err(Fault(A_WARNING, Some(record.number()), Why::Told)),
            (COOKIE, _) => {
                self.cookies.push(record.body.to_vec());
                Ok(())
            }
            (SERVER, _) => first(&mut self.server, record.body.to_vec()),
            (PORT, _) => first(&mut self.port, record.number()),
            (kind, _) if record.critical => Err(Fault(CRITICAL, None, Why::Unknown(kind))),
            _ => Ok(()),
        }
    }

    /// What is decided after the end record, which stands there and behind which nothing does.
    pub fn decided(self, asked: &Asked, place: usize) -> Answer {
        match &asked.expected {
            Expected::Request => self.request(),
            Expected::Reply { protocols, algorithms } => self.reply(protocols, algorithms, asked.cells / 2),
        }
        .unwrap_or_else(|fault| fault.at(place))
    }

    fn request(self) -> Result<Answer, Fault> {
        match (self.protocols, self.algorithms) {
            (Some(protocols), Some(algorithms)) => Ok(Answer::Request { protocols, algorithms }),
            _ => Err(Fault::plain(NOT_ALLOWED)),
        }
    }

    fn reply(self, protocols: &[u16], algorithms: &[u16], room: usize) -> Result<Answer, Fault> {
        let named = |list: Option<Vec<u16>>, empty: u8| match list.as_deref() {
            None => Err(Fault::plain(NOT_ALLOWED)),
            Some([]) => Err(Fault::plain(empty)),
            Some(list) => Ok(list[0]),
        };
        let protocol = named(self.protocols, NO_PROTOCOL)?;
        let algorithm = named(self.algorithms, NO_ALGORITHM)?;
        if !protocols.contains(&protocol) {
            return Err(Fault(NOT_OFFERED, Some(protocol), Why::Protocol));
        }
        if !algorithms.contains(&algorithm) {
            return Err(Fault(NOT_OFFERED, Some(algorithm), Why::Algorithm));
        }
        match self.cookies.len() {
            0 => Err(Fault::plain(NO_COOKIE)),
            count if count > room => Err(Fault::plain(NO_ROOM)),
            _ => Ok(Answer::Reply { protocol, algorithm, server: self.server, port: self.port, cookies: self.cookies }),
        }
    }
}

/// The numbers of a list; a reply's has one at most.
fn list(expected: &Expected, record: &Record) -> Result<Vec<u16>, Fault> {
    let numbers = record.numbers();
    match expected {
        Expected::Reply { .. } if numbers.len() > 1 => Err(Fault::plain(NOT_ALLOWED)),
        _ => Ok(numbers),
    }
}

/// Keeps what a kind tells of which there is one record.
fn first<T>(kept: &mut Option<T>, told: T) -> Result<(), Fault> {
    match kept.replace(told) {
        None => Ok(()),
        Some(_) => Err(Fault::plain(NOT_ALLOWED)),
    }
}

/// What a message as it is cut by the limit is answered with.
pub fn read(asked: &Asked, bytes: &[u8]) -> Answer {
    let message = &bytes[..bytes.len().min(asked.limit)];
    let mut found = Found::default();
    let mut place = 0;
    loop {
        let Some(record) = Record::of(&message[place..]) else {
            return Fault::plain(MISSING).at(place);
        };
        if let Err(fault) = found.take(&asked.expected, &record) {
            return fault.at(place);
        }
        if record.kind == END {
            break;
        }
        place += record.length();
    }
    let behind = place + HEADER;
    if behind < message.len() { byte_after_end(behind) } else { found.decided(asked, place) }
}
