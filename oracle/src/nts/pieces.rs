//! Reads fed in pieces. What is answered is the crate's: to the pieces joined. When it is answered and how many bytes are
//! held then is told by the rules of order 1, from the place that the crate decided on alone. Beside it the crate's own
//! reader is fed the same pieces, and must answer the same, with the call and with the bytes that the rules tell, but for
//! a record that it judges before its last byte.

use super::feeding::{Fed, Feed};
use super::lines;
use super::offered::Offered;
use super::replies;
use super::requests;
use super::whole::{self, Answer, Refused};
use super::{NtsError, reading};
use crate::corpus::CRATES_LIMIT;

/// What ends the reading.
pub const A_RECORD: &str = "a record that stands whole";
pub const THE_LIMIT: &str = "the limit";
pub const THE_CLOSE: &str = "the close";
pub const A_FULL_BUFFER: &str = "a full buffer";
pub const NOTHING: &str = "nothing so far";

/// The refusal of a byte for which the buffer has no room.
const NO_BUFFER: u8 = 16;
const ILL_FORMED: u8 = 2;

/// Op f.
pub fn request(line: &mut Vec<u8>, payload: &[u8]) -> Option<()> {
    let feed = Feed::of(payload)?;
    *line = told(&feed, requests::read(&feed.bytes, feed.limit), requests::fed(&feed));
    Some(())
}

/// Op F. As for ops y and l the answer is that of the copy in which five edits make the crate's reader document 01's, and
/// where no difference applies the line of the reader as it stands must be the same. Each call is told of the same lists.
pub fn reply(line: &mut Vec<u8>, payload: &[u8]) -> Option<()> {
    let (offered, feed) = asked(payload)?;
    let copys = replies::read_by_the_copy(&feed.bytes, feed.limit, &offered);
    *line = told(&feed, copys, replies::fed_to_the_copy(&feed, &offered));
    if replies::difference(feed.message(), &offered).is_none() {
        let crates = told(&feed, replies::read(&feed.bytes, feed.limit), replies::fed(&feed));
        lines::judged(line, &crates, "the copy with five edits");
    }
    Some(())
}

/// What a case of op F describes.
pub fn asked(payload: &[u8]) -> Option<(Offered, Feed)> {
    let (offered, feed) = Offered::before(payload)?;
    Some((offered, Feed::of(feed)?))
}

/// The record that an answer was decided on.
struct Deciding {
    /// How many bytes there are through it, if it stands whole within message and limit.
    whole: Option<usize>,
    /// How many bytes there are through those of it after which the crate refuses it as ill-formed whatever follows: the
    /// number of a kind that has one, and both halves of the keys.
    judged_early: Option<usize>,
}

impl Deciding {
    fn of(answer: &Answer, message: &[u8]) -> Self {
        let place = whole::deciding(answer, message);
        let &[k0, k1, s0, s1, ..] = &message[place..] else {
            return Self { whole: None, judged_early: None };
        };
        let size = usize::from(u16::from_be_bytes([s0, s1]));
        let end = place + 4 + size;
        let judged_early = match u16::from_be_bytes([k0 & 0x7f, k1]) {
            _ if !is_ill_formed(answer) => None,
            2 | 3 | 7 => Some(place + 4 + 2),
            12 => Some(place + 4 + size / 2 * 2),
            _ => None,
        };
        Self { whole: (end <= message.len()).then_some(end), judged_early }
    }
}

fn is_ill_formed(answer: &Answer) -> bool {
    matches!(&answer.result, Err(Refused::Crates(NtsError::IO(error))) if reading::refusal(error.kind()) == ILL_FORMED)
}

/// What ends a reading, how many bytes are held then and with which call; no call where nothing does.
struct Moment {
    by: &'static str,
    held: usize,
    call: Option<usize>,
}

impl Moment {
    /// By the rules of order 1. A record is judged when it stands whole, or when the limit or the close cuts it, and what
    /// follows it is not held. A byte inside the limit that arrives before that, and that a buffer of that length has no
    /// room for, ends the reading.
    fn of(feed: &Feed, buffer: usize, deciding: &Deciding) -> Self {
        let (limit, there) = (feed.limit, feed.bytes.len());
        let at_the_limit = (there >= limit).then_some((THE_LIMIT, limit));
        let decided = deciding.whole.map(|end| (A_RECORD, end)).or(at_the_limit);
        if buffer < limit.min(there) && decided.is_none_or(|(_, held)| buffer < held) {
            return Self { by: A_FULL_BUFFER, held: buffer, call: feed.call_with(buffer + 1) };
        }
        let decided = decided.and_then(|(by, held)| Some(Self { by, held, call: Some(feed.call_with(held)?) }));
        decided.unwrap_or_else(|| {
            let by = if feed.close { THE_CLOSE } else { NOTHING };
            Self { by, held: there, call: feed.closing() }
        })
    }

    /// When the crate's own reader, which needs no buffer, answers and how many bytes it took.
    fn of_the_crates(feed: &Feed, deciding: &Deciding) -> Self {
        match deciding.judged_early {
            Some(taken) => Self { by: A_RECORD, held: taken, call: feed.call_with(taken) },
            None => Self::of(feed, feed.limit, deciding),
        }
    }

    fn tell(&self, line: &mut Vec<u8>) {
        lines::text(line, " held ");
        lines::number(line, self.held as u64);
        if let Some(call) = self.call {
            lines::text(line, " call ");
            lines::number(line, call as u64);
        }
    }
}

/// The line of a read that is fed in pieces, by a reader's answer to the pieces joined. What the same reader answered to
/// them in pieces must agree.
fn told(feed: &Feed, joined: Answer, fed: Fed) -> Vec<u8> {
    let deciding = Deciding::of(&joined, feed.message());
    let moment = Moment::of(feed, feed.buffer, &deciding);
    let crates_moment = Moment::of_the_crates(feed, &deciding);
    let mut answer = Vec::new();
    whole::tell(&mut answer, joined, feed.message(), feed.cells);

    let mut expected = if crates_moment.call.is_some() { answer.clone() } else { b"waiting".to_vec() };
    crates_moment.tell(&mut expected);
    lines::judged(&mut expected, &told_in_pieces(feed, fed), "the pieces joined");
    if expected.starts_with(lines::DISAGREES.as_bytes()) {
        return expected;
    }

    let mut line = match moment.by {
        NOTHING => b"waiting".to_vec(),
        A_FULL_BUFFER => {
            let mut line = Vec::new();
            lines::refused_at(&mut line, NO_BUFFER, feed.buffer as u64);
            line
        }
        _ => answer,
    };
    moment.tell(&mut line);
    line
}

/// What a reader answered that was fed, how many bytes it took and with which call.
fn told_in_pieces(feed: &Feed, Fed { taken, answered }: Fed) -> Vec<u8> {
    let mut line = Vec::new();
    let call = match answered {
        Some((result, call)) => {
            whole::tell(&mut line, Answer { result, taken }, feed.message(), feed.cells);
            Some(call)
        }
        None => {
            lines::text(&mut line, "waiting");
            None
        }
    };
    Moment { by: NOTHING, held: taken, call }.tell(&mut line);
    line
}

/// How the reading of a case ended, for what counts the outcomes.
pub struct Ended {
    pub by: &'static str,
    /// Whether it was read under the crate's own limit.
    pub under_the_crates_limit: bool,
    /// Whether the crate's own reader has answered with fewer bytes.
    pub judged_early: bool,
}

/// How the reading of a case ended; none where the payload is no good.
pub fn ended(op: u8, payload: &[u8]) -> Option<Ended> {
    let (feed, answer) = if op == b'f' {
        let feed = Feed::of(payload)?;
        let answer = requests::read(&feed.bytes, feed.limit);
        (feed, answer)
    } else {
        let (offered, feed) = asked(payload)?;
        let answer = replies::read_by_the_copy(&feed.bytes, feed.limit, &offered);
        (feed, answer)
    };
    let deciding = Deciding::of(&answer, feed.message());
    let Moment { by, held, .. } = Moment::of(&feed, feed.buffer, &deciding);
    Some(Ended {
        by,
        under_the_crates_limit: feed.limit == CRATES_LIMIT,
        judged_early: deciding.judged_early.is_some_and(|taken| taken < held),
    })
}
