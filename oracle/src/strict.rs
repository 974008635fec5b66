//! The strict profile of order 5. The crate has no such reader, so these answers are a model's, written for the runs from RFC
//! 8915 (sections 4 and 4.1.1 to 4.1.8), document 01 and orders 1, 3 and 5. It reads the bytes itself. With what asks the
//! crate it shares the fields of a payload and the pieces of a line, and nothing that knows of records.

mod beside;
mod counted;
mod feeding;
mod message;
mod record;

pub use counted::{EITHER, FED, REPLIES, REQUESTS, counted, family};

use crate::nts::lines;
use crate::payload::Payload;
use feeding::Feed;
use message::{Answer, Asked, Expected};

/// What a case describes.
enum Case<'a> {
    /// Ops s and S.
    Whole(Asked, &'a [u8]),
    /// Ops t and T.
    Fed(Asked, Feed<'a>),
}

impl<'a> Case<'a> {
    /// None where the payload does not fit the op.
    fn of(op: u8, payload: &'a [u8]) -> Option<Self> {
        let mut payload = Payload(payload);
        match op {
            b's' => {
                let (limit, cells) = (payload.limit()?, payload.table()?);
                Some(Self::Whole(Asked { limit, cells, expected: Expected::Request }, payload.0))
            }
            b'S' => {
                let (limit, cells, expected) = (payload.limit()?, payload.table()?, offered(&mut payload)?);
                Some(Self::Whole(Asked { limit, cells, expected }, payload.0))
            }
            b't' => Self::fed(Expected::Request, payload),
            b'T' => Self::fed(offered(&mut payload)?, payload),
            _ => None,
        }
    }

    /// Ops t and T, the lists taken off.
    fn fed(expected: Expected, mut payload: Payload<'a>) -> Option<Self> {
        let (limit, cells, buffer, close) = (payload.limit()?, payload.table()?, payload.room()?, payload.yes()?);
        let count = payload.number()?;
        let pieces = (0..count).map(|_| payload.lent()).collect::<Option<Vec<_>>>()?;
        payload.end()?;
        Some(Self::Fed(Asked { limit, cells, expected }, Feed { buffer, close, pieces }))
    }
}

/// A reply to one who offered these lists.
fn offered(payload: &mut Payload) -> Option<Expected> {
    Some(Expected::Reply { protocols: payload.listed()?, algorithms: payload.listed()? })
}

/// Writes the answer to a case of ops s, S, t and T; none where the payload does not fit.
pub fn answered(line: &mut Vec<u8>, op: u8, payload: &[u8]) -> Option<()> {
    match Case::of(op, payload)? {
        Case::Whole(asked, bytes) => {
            let answer = message::read(&asked, bytes);
            tell(line, &answer);
            beside::judged(line, &asked, bytes, &answer);
        }
        Case::Fed(asked, feed) => feeding::told(line, &asked, &feed),
    }
    Some(())
}

/// The line of an answer.
fn tell(line: &mut Vec<u8>, answer: &Answer) {
    match answer {
        Answer::Request { protocols, algorithms } => {
            lines::text(line, "key-exchange protocols ");
            lines::numbers(line, protocols.iter().copied());
            lines::text(line, " algorithms ");
            lines::numbers(line, algorithms.iter().copied());
            // The profile knows no denied names.
            lines::text(line, " denied 0 ");
        }
        Answer::Reply { protocol, algorithm, server, port, cookies } => {
            lines::text(line, "reply protocol ");
            lines::number(line, *protocol);
            lines::text(line, " algorithm ");
            lines::number(line, *algorithm);
            lines::text(line, " server ");
            match server {
                Some(name) => lines::bytes(line, name),
                None => line.push(b'-'),
            }
            lines::text(line, " port ");
            match port {
                Some(port) => lines::number(line, *port),
                None => line.push(b'-'),
            }
            // Nor does it know keep-alive.
            lines::text(line, " keep-alive 0 cookies ");
            lines::number(line, cookies.len() as u64);
            line.push(b' ');
            for cookie in cookies {
                lines::bytes(line, cookie);
            }
        }
        Answer::Refused(refusal) => {
            lines::refused_at(line, refusal.number, refusal.place as u64);
            if let Some(code) = refusal.code {
                lines::text(line, " code ");
                lines::number(line, code);
            }
        }
    }
}
