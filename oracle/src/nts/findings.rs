//! What a request's walk finds, and the decision from a finding: ops v and V. Where the walk stops and why is the crate's: at
//! the record that its reader of requests decided on. The records up to it are counted by walking with its record reader.

use super::NtsError;
use super::lines;
use super::reading;
use super::record::NtsRecord;
use super::requests;
use super::whole::{self, Refused};
use crate::corpus::CRATES_LIMIT;
use crate::payload::Payload;

/// What is counted apart: kinds 0 to 10, 12, 13 and 14, and unknown ones together.
const COUNTS: usize = 15;
/// The numbers of a finding that op V can replace, counted from 1 there.
pub const NUMBERS: [&str; COUNTS + 3] = [
    "the limit",
    "the count of 0",
    "the count of 1",
    "the count of 2",
    "the count of 3",
    "the count of 4",
    "the count of 5",
    "the count of 6",
    "the count of 7",
    "the count of 8",
    "the count of 9",
    "the count of 10",
    "the count of 12",
    "the count of 13",
    "the count of 14",
    "the count of unknown ones",
    "the place",
    "the reason",
];

/// What a finding of other bytes differs in.
pub const OTHER_COUNTS: &str = "counts of other bytes";
pub const OTHER_PLACE: &str = "a place in other bytes";
pub const OTHER_REASON: &str = "a reason in other bytes";
pub const OTHER_STARTS: &str = "a first body that begins elsewhere";
pub const OTHER_LENGTHS: &str = "a first body of another length";

/// What a finding is let in with.
pub const ITS_OWN_BYTES: &str = "its own bytes";
pub const OTHER_BYTES: &str = "other bytes of which it is the finding too";
pub const THE_SAME_NUMBER: &str = "a number replaced by the same";
pub const ANOTHER_LIMIT: &str = "another limit";
pub const THE_OTHERS_NUMBER: &str = "the one number in which other bytes differ";

/// The reason of a walk that the end record stopped; others are the refusal's number.
const ENDED: u8 = 0;
/// The refusal of a finding that no walk over the message gives, and its place.
const NO_FINDING: (u8, u64) = (9, 0);

/// Where a body begins and how long it is.
type Body = (usize, usize);

#[derive(Clone, PartialEq, Eq)]
pub struct Finding {
    limit: u16,
    counts: [u16; COUNTS],
    place: u64,
    reason: u8,
    /// The first body of each kind; 0 and 0 where there is none.
    firsts: [Body; COUNTS],
}

impl Finding {
    /// What the walk over a message finds under a limit.
    pub fn of(bytes: &[u8], limit: u16) -> Self {
        let message = whole::cut(bytes, limit.into());
        let answer = requests::read(bytes, limit.into());
        let place = whole::deciding(&answer, message);
        let (mut counts, mut firsts) = ([0; COUNTS], [(0, 0); COUNTS]);
        let (mut at, mut ended) = (0, false);
        while at <= place
            && let Ok((record, size)) = reading::record(&message[at..])
        {
            let kind = counted_as(&record);
            if counts[kind] == 0 {
                firsts[kind] = (at + 4, size - 4);
            }
            counts[kind] += 1;
            at += size;
            ended = matches!(record, NtsRecord::EndOfMessage);
        }
        let reason = match answer.result {
            Err(Refused::Crates(NtsError::IO(error))) => reading::refusal(error.kind()),
            _ if ended => ENDED,
            Err(error) => error.told().0,
            Ok(_) => panic!("the crate accepts no request without an end record"),
        };
        assert!(reason <= 4, "the crate refuses with {reason} before the end record");
        Self { limit, counts, place: place as u64, reason, firsts }
    }

    /// One of its numbers, counted from 1.
    pub fn number(&self, which: u8) -> u64 {
        match which {
            1 => self.limit.into(),
            2..=16 => self.counts[usize::from(which) - 2].into(),
            17 => self.place,
            18 => self.reason.into(),
            _ => panic!("a finding has no number {which}"),
        }
    }

    /// With that number replaced, or none where it is 0; no answer where there is no such number or the value does not fit.
    fn with(mut self, which: u8, value: u64) -> Option<Self> {
        match which {
            0 => {}
            1 => self.limit = value.try_into().ok()?,
            2..=16 => self.counts[usize::from(which) - 2] = value.try_into().ok()?,
            17 => self.place = value,
            18 => self.reason = value.try_into().ok().filter(|&reason| reason <= 4)?,
            _ => return None,
        }
        Some(self)
    }

    fn tell(&self, line: &mut Vec<u8>) {
        lines::text(line, "limit ");
        lines::number(line, self.limit);
        line.push(b' ');
        lines::numbers(line, self.counts.into_iter());
        line.push(b' ');
        match self.reason {
            ENDED => {
                lines::text(line, "ended at ");
                lines::number(line, self.place);
            }
            refusal => lines::refused_at(line, refusal, self.place),
        }
    }
}

/// The index of a record's count.
fn counted_as(record: &NtsRecord) -> usize {
    match record {
        NtsRecord::EndOfMessage => 0,
        NtsRecord::NextProtocol { .. } => 1,
        NtsRecord::Error { .. } => 2,
        NtsRecord::Warning { .. } => 3,
        NtsRecord::AeadAlgorithm { .. } => 4,
        NtsRecord::NewCookie { .. } => 5,
        NtsRecord::Server { .. } => 6,
        NtsRecord::Port { .. } => 7,
        NtsRecord::KeepAlive => 8,
        NtsRecord::SupportedNextProtocolList { .. } => 9,
        NtsRecord::SupportedAlgorithmList { .. } => 10,
        NtsRecord::FixedKeyRequest { .. } => 11,
        NtsRecord::NtpServerDeny { .. } => 12,
        NtsRecord::Authentication { .. } => 13,
        NtsRecord::Unknown { .. } => 14,
    }
}

/// Op v.
pub fn walked(line: &mut Vec<u8>, payload: &[u8]) -> Option<()> {
    let mut payload = Payload(payload);
    let limit = payload.limit()?.try_into().ok()?;
    Finding::of(payload.0, limit).tell(line);
    Some(())
}

/// Op V.
pub fn decided(line: &mut Vec<u8>, payload: &[u8]) -> Option<()> {
    let Deciding { finding, cells, message, .. } = Deciding::of(payload)?;
    if finding == Finding::of(message, finding.limit) {
        let limit = finding.limit.into();
        whole::tell(line, requests::read(message, limit), whole::cut(message, limit), cells);
    } else {
        let (refusal, place) = NO_FINDING;
        lines::refused_at(line, refusal, place);
    }
    Some(())
}

/// What a case of op V describes.
struct Deciding<'a> {
    /// The bytes that are walked, and the finding of them.
    walked: &'a [u8],
    found: Finding,
    /// Which number is replaced, and the finding with it.
    which: u8,
    finding: Finding,
    cells: usize,
    message: &'a [u8],
}

impl<'a> Deciding<'a> {
    /// None where the payload is no good.
    fn of(payload: &'a [u8]) -> Option<Self> {
        let mut payload = Payload(payload);
        let (limit, cells) = (payload.limit()?.try_into().ok()?, payload.table()?);
        let (which, value, walked) = (payload.byte()?, payload.long()?, payload.lent()?);
        let found = Finding::of(walked, limit);
        let finding = found.clone().with(which, value)?;
        Some(Self { walked, found, which, finding, cells, message: payload.0 })
    }
}

/// How a case of op V was judged, for what counts the outcomes.
pub struct Judged {
    /// What the finding is let in with, or what it is refused for.
    pub finding: Result<&'static str, &'static str>,
    /// Whether it was decided under the crate's own limit.
    pub under_the_crates_limit: bool,
}

/// How a case of op V was judged; none where the payload is no good.
pub fn judged(payload: &[u8]) -> Option<Judged> {
    let Deciding { walked, found, which, finding, message, .. } = Deciding::of(payload)?;
    let limit = finding.limit;
    let there = Finding::of(message, limit);
    let is_replaced = finding != found;
    let judged = if finding == there {
        Ok(match which {
            1 if is_replaced => ANOTHER_LIMIT,
            _ if is_replaced => THE_OTHERS_NUMBER,
            _ if walked != message => OTHER_BYTES,
            0 => ITS_OWN_BYTES,
            _ => THE_SAME_NUMBER,
        })
    } else {
        let begins = |finding: &Finding| finding.firsts.map(|(start, _)| start);
        Err(match finding {
            _ if is_replaced => NUMBERS[usize::from(which) - 1],
            finding if finding.counts != there.counts => OTHER_COUNTS,
            finding if finding.place != there.place => OTHER_PLACE,
            finding if finding.reason != there.reason => OTHER_REASON,
            finding if begins(&finding) != begins(&there) => OTHER_STARTS,
            _ => OTHER_LENGTHS,
        })
    };
    Some(Judged { finding: judged, under_the_crates_limit: usize::from(limit) == CRATES_LIMIT })
}
