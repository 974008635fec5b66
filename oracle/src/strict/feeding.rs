//! A message fed in pieces, byte by byte, as orders 1 and 5 have it. Beside it the pieces joined are read as a whole message:
//! unless the buffer was too short the two answers must be the same.

use super::message::{self, Answer, Asked, Found, Refusal, Why, byte_after_end, unreadable};
use super::record::{END, Record};
use super::tell;
use crate::nts::lines;

/// The refusal of a byte for which the buffer has no room.
const NO_BUFFER: u8 = 16;

/// What comes over the line, and the buffer that it gathers in.
pub struct Feed<'a> {
    pub buffer: usize,
    pub close: bool,
    pub pieces: Vec<&'a [u8]>,
}

/// What an answer was given with.
#[derive(Clone, Copy, PartialEq)]
pub enum By {
    /// A record that stands whole and is refused.
    Record,
    /// A byte after the end record.
    ByteAfterEnd,
    /// A byte for which the buffer has no room.
    FullBuffer,
    /// The limit or the close, before the end record stands whole.
    Limit,
    Close,
    /// The limit or the close behind the end record.
    EndAtLimit,
    EndAndClose,
}

/// What a line has come to after all calls.
pub struct Fed {
    /// How many bytes were stored.
    pub held: usize,
    /// The call that brought the end record's last byte, if it stands whole and was not refused.
    pub end: Option<usize>,
    /// The answer, what it was given with, and the first call that gave it.
    pub answered: Option<(Answer, By, usize)>,
}

/// A line that is read.
struct Line<'a> {
    asked: &'a Asked,
    buffer: usize,
    stored: Vec<u8>,
    /// Where the record begins that is arriving.
    place: usize,
    found: Found,
    /// Whether that record is the end record, and stands whole.
    ended: bool,
}

impl Line<'_> {
    /// Whether all bytes inside the limit are there.
    fn at_limit(&self) -> bool {
        self.stored.len() == self.asked.limit
    }

    /// Takes the next byte, and tells the answer if that gives one.
    fn arrive(&mut self, byte: u8) -> Option<(Answer, By)> {
        let here = self.stored.len();
        if self.at_limit() {
            return None;
        }
        if self.ended {
            return Some((byte_after_end(here), By::ByteAfterEnd));
        }
        if here == self.buffer {
            let refusal = Refusal { number: NO_BUFFER, place: here, code: None, why: Why::Told };
            return Some((Answer::Refused(refusal), By::FullBuffer));
        }
        self.stored.push(byte);
        let record = Record::of(&self.stored[self.place..]).filter(Record::is_whole)?;
        if let Err(fault) = self.found.take(&self.asked.expected, &record) {
            return Some((fault.at(self.place), By::Record));
        }
        if record.kind == END {
            self.ended = true;
        } else {
            self.place = self.stored.len();
        }
        None
    }

    /// What there is to tell where no further byte of the message can come.
    fn cut(&mut self, closed: bool) -> Option<(Answer, By)> {
        if !self.at_limit() && !closed {
            return None;
        }
        if self.ended {
            let answer = std::mem::take(&mut self.found).decided(self.asked, self.place);
            return Some((answer, if self.at_limit() { By::EndAtLimit } else { By::EndAndClose }));
        }
        let record = Record::of(&self.stored[self.place..]);
        let fault = unreadable(record.as_ref()).expect("a record that is not whole does not read");
        Some((fault.at(self.place), if self.at_limit() { By::Limit } else { By::Close }))
    }
}

/// Feeds a line its pieces and, if it is closed, the close.
pub fn fed(asked: &Asked, feed: &Feed) -> Fed {
    let mut line =
        Line { asked, buffer: feed.buffer, stored: Vec::new(), place: 0, found: Found::default(), ended: false };
    let mut end = None;
    let mut answered = None;
    let pieces = feed.pieces.iter().map(|&piece| (piece, false));
    let close = feed.close.then_some((&[][..], true));
    for (call, (piece, closed)) in pieces.chain(close).enumerate() {
        let answer = piece.iter().find_map(|&byte| line.arrive(byte)).or_else(|| line.cut(closed));
        if line.ended && end.is_none() {
            end = Some(call);
        }
        if let Some((answer, by)) = answer {
            answered = Some((answer, by, call));
            break;
        }
    }
    Fed { held: line.stored.len(), end, answered }
}

/// The line of a message that is fed in pieces.
pub fn told(line: &mut Vec<u8>, asked: &Asked, feed: &Feed) {
    let Fed { held, answered, .. } = fed(asked, feed);
    match &answered {
        None => lines::text(line, "waiting"),
        Some((answer, by, _)) => {
            tell(line, answer);
            if *by != By::FullBuffer {
                let mut whole = Vec::new();
                tell(&mut whole, &message::read(asked, &feed.pieces.concat()));
                lines::agreed(line, "the pieces", ("the pieces joined", &whole));
            }
        }
    }
    lines::text(line, " held ");
    lines::number(line, held as u64);
    if let Some((_, _, call)) = answered {
        lines::text(line, " call ");
        lines::number(line, call as u64);
    }
}
