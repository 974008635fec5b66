//! What reading a request and reading a reply share. The crate tells no place and has no table: the place is found by
//! walking with its record reader, and refusal 7 is document 01's. Refusal 17 is order 3's.

use super::NtsError;
use super::lines;
use super::poll::now;
use super::reading;
use crate::payload::Payload;

const NO_ROOM: u8 = 7;
const NOT_OFFERED: u8 = 17;

/// A message as it is read under a limit.
pub fn cut(message: &[u8], limit: usize) -> &[u8] {
    &message[..message.len().min(limit)]
}

/// The payload of ops L and l: the limit, the table's cells, and what stands behind them.
pub fn limited(payload: &[u8]) -> Option<(usize, usize, &[u8])> {
    let mut payload = Payload(payload);
    Some((payload.number()?.into(), payload.table()?, payload.0))
}

/// What the crate answered, and how many bytes it took for it.
pub struct Answer {
    pub result: Result<Accepted, Refused>,
    pub taken: usize,
}

/// Why a message is refused.
pub enum Refused {
    /// For an error of the crate's.
    Crates(NtsError),
    /// For a number that was not offered, which no error of the crate's tells.
    NotOffered(u16),
}

impl From<NtsError> for Refused {
    fn from(error: NtsError) -> Self {
        Self::Crates(error)
    }
}

impl Refused {
    /// The refusal's number, and the code that is returned with it.
    pub fn told(self) -> (u8, Option<u16>) {
        match self {
            Self::Crates(error) => refusal(error),
            Self::NotOffered(number) => (NOT_OFFERED, Some(number)),
        }
    }
}

/// The line of an accepted message and how many entries of the table it fills.
pub struct Accepted {
    pub line: Vec<u8>,
    pub entries: usize,
}

/// What a reader answers to bytes that are all there.
pub fn at_once<'a>(message: &'a [u8], read: impl AsyncFnOnce(&mut &'a [u8]) -> Result<Accepted, Refused>) -> Answer {
    let mut rest = message;
    let result = now(read(&mut rest));
    Answer { result, taken: message.len() - rest.len() }
}

/// The place of the record that an answer to a cut message was decided on: the one that is refused, or the end record.
pub fn deciding(answer: &Answer, message: &[u8]) -> usize {
    let place = match answer.result {
        Err(Refused::Crates(NtsError::IO(_))) => unread(message).1,
        _ => last_taken(message, answer.taken),
    };
    place as usize
}

/// Writes the line of an answer to a cut message.
pub fn tell(line: &mut Vec<u8>, answer: Answer, message: &[u8], cells: usize) {
    let taken = answer.taken;
    let refused = |line: &mut Vec<u8>, refusal| lines::refused_at(line, refusal, last_taken(message, taken));
    match answer.result {
        Ok(accepted) if accepted.entries > cells / 2 => refused(line, NO_ROOM),
        Ok(accepted) => line.extend_from_slice(&accepted.line),
        Err(Refused::Crates(NtsError::IO(error))) => {
            let (refusal, place) = unread(message);
            assert_eq!(refusal, reading::refusal(error.kind()), "the walk and the crate agree");
            lines::refused_at(line, refusal, place);
        }
        Err(error) => {
            let (refusal, code) = error.told();
            refused(line, refusal);
            if let Some(code) = code {
                lines::text(line, " code ");
                lines::number(line, code);
            }
        }
    }
}

/// Document 01's number for an error of the crate's readers of messages or of its choice, and the code that is returned
/// with it.
pub fn refusal(error: NtsError) -> (u8, Option<u16>) {
    match error {
        NtsError::UnrecognizedCriticalRecord => (3, None),
        NtsError::Invalid => (4, None),
        NtsError::AeadNotSupported(code) => (5, Some(code)),
        NtsError::IncorrectSizedKey => (6, None),
        NtsError::Error(code) => (11, Some(code.into())),
        NtsError::UnknownWarning(code) => (12, Some(code)),
        NtsError::NoOverlappingProtocol => (13, None),
        NtsError::NoOverlappingAlgorithm => (14, None),
        NtsError::NoCookie => (15, None),
        other => panic!("the crate gave {other:?}"),
    }
}

/// The place of the record that ends where the crate stopped taking bytes: the one that it decided on, the end record
/// where it decided after the end.
fn last_taken(message: &[u8], taken: usize) -> u64 {
    let mut place = 0;
    loop {
        let (_, size) = reading::record(&message[place..]).expect("the crate read this record");
        if place + size == taken {
            return place as u64;
        }
        place += size;
    }
}

/// The first record that does not read: the refusal and the place.
fn unread(message: &[u8]) -> (u8, u64) {
    let mut place = 0;
    loop {
        match reading::record(&message[place..]) {
            Ok((_, size)) => place += size,
            Err(refusal) => return (refusal, place as u64),
        }
    }
}
