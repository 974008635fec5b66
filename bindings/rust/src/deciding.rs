//! Reading and deciding: a request's reader in two calls.

use crate::refusal::read;
use crate::{raw, Denied, Message, Refusal, Refused, Request};
use core::fmt;
use core::ops::Range;

/// A kind of records as a [`Finding`] counts them: each known kind by itself, and all unknown ones together.
#[derive(Clone, Copy, Debug, PartialEq, Eq, Hash)]
#[non_exhaustive]
pub enum Kind {
    /// 0: the end of the message.
    EndOfMessage = 0,
    /// 1: protocols.
    NextProtocol = 1,
    /// 2: an error.
    Error = 2,
    /// 3: a warning.
    Warning = 3,
    /// 4: algorithms.
    AeadAlgorithm = 4,
    /// 5: a cookie.
    NewCookie = 5,
    /// 6: the server to ask for the time.
    Server = 6,
    /// 7: its port.
    Port = 7,
    /// 8: the connection stays.
    KeepAlive = 8,
    /// 9: the protocols that the server can do.
    SupportedNextProtocolList = 9,
    /// 10: the algorithms that it can do, with their key sizes.
    SupportedAlgorithmList = 10,
    /// 11, and 15 to 32,767: any other.
    Unknown = 11,
    /// 12: keys that are given.
    FixedKeyRequest = 12,
    /// 13: a server that the client does not want.
    NtpServerDeny = 13,
    /// 14: by what the client is known.
    Authentication = 14,
}

impl Kind {
    /// All of them, in the order of their numbers.
    pub const ALL: [Kind; 15] = [
        Kind::EndOfMessage,
        Kind::NextProtocol,
        Kind::Error,
        Kind::Warning,
        Kind::AeadAlgorithm,
        Kind::NewCookie,
        Kind::Server,
        Kind::Port,
        Kind::KeepAlive,
        Kind::SupportedNextProtocolList,
        Kind::SupportedAlgorithmList,
        Kind::Unknown,
        Kind::FixedKeyRequest,
        Kind::NtpServerDeny,
        Kind::Authentication,
    ];

    /// The kind that a record's number is counted under.
    ///
    /// ```
    /// # use ntske::Kind;
    /// assert_eq!((Kind::of(13), Kind::of(11), Kind::of(16385)), (Kind::NtpServerDeny, Kind::Unknown, Kind::Unknown));
    /// ```
    pub const fn of(number: u16) -> Kind {
        if number < 15 {
            Kind::ALL[number as usize]
        } else {
            Kind::Unknown
        }
    }

    /// What a record of it is called.
    pub const fn words(self) -> &'static str {
        match self {
            Kind::EndOfMessage => "end",
            Kind::NextProtocol => "next protocol",
            Kind::Error => "error",
            Kind::Warning => "warning",
            Kind::AeadAlgorithm => "algorithm",
            Kind::NewCookie => "cookie",
            Kind::Server => "server",
            Kind::Port => "port",
            Kind::KeepAlive => "keep-alive",
            Kind::SupportedNextProtocolList => "supported protocols",
            Kind::SupportedAlgorithmList => "supported algorithms",
            Kind::Unknown => "unknown",
            Kind::FixedKeyRequest => "fixed key",
            Kind::NtpServerDeny => "denied server",
            Kind::Authentication => "authentication",
        }
    }
}

/// What a walk over a request found, for a host that logs which records it held, also where it is refused: how many of
/// each kind, and where and why the walk stopped. [`Message::walk_request`] makes one, and [`Message::decide_request`]
/// decides from it.
///
/// The end record counts, and so does a record that is refused with 3 or 4; one that does not read, which is refused
/// with 1 or 2, does not. So the counts add up to the records that [`Message::list`] shows.
///
/// It is shown in words, a line for each kind that there was and a last one for why the walk stopped:
///
/// ```
/// use ntske::*;
///
/// let message = [0x80, 1, 0, 2, 0, 0, 0, 13, 0, 1, b'a', 0, 13, 0, 1, b'b', 0x80, 11, 0, 0];
/// let finding = Message::new(&message).walk_request(LIMIT);
/// assert_eq!(
///     finding.to_string(),
///     "1 next protocol record\n\
///      1 unknown record\n\
///      2 denied server records\n\
///      stopped at 16: an unknown record has its critical bit set (3)"
/// );
/// ```
#[derive(Clone, Copy, PartialEq, Eq)]
pub struct Finding(raw::FindingCells);

impl Finding {
    /// After how many bytes the message was cut.
    pub const fn limit(&self) -> u16 {
        self.0[0]
    }

    /// The place of the first byte of the record that stopped the walk.
    pub const fn place(&self) -> usize {
        self.0[1] as usize
    }

    /// Why that record is refused: 1 to 4. Nothing where it is the end record, after which the decision may still refuse.
    pub const fn reason(&self) -> Option<Refused> {
        match self.0[2] {
            0 => None,
            number => Some(Refused::told(number, 0)),
        }
    }

    /// How many records of a kind there were.
    pub const fn count(&self, kind: Kind) -> usize {
        self.seen(kind)[0]
    }

    /// How many records of unknown kinds there were.
    pub const fn unknown(&self) -> usize {
        self.count(Kind::Unknown)
    }

    /// Where in the message the body of the first record of a kind lies. Nothing where there was none.
    pub fn first_body(&self, kind: Kind) -> Option<Range<usize>> {
        let [count, start, len] = self.seen(kind);
        (count > 0).then(|| start..start + len)
    }

    /// The three cells of a kind.
    const fn seen(&self, kind: Kind) -> [usize; 3] {
        let at = 3 + 3 * kind as usize;
        [self.0[at] as usize, self.0[at + 1] as usize, self.0[at + 2] as usize]
    }
}

impl fmt::Display for Finding {
    fn fmt(&self, f: &mut fmt::Formatter<'_>) -> fmt::Result {
        for kind in Kind::ALL {
            match self.count(kind) {
                0 => {}
                1 => writeln!(f, "1 {} record", kind.words())?,
                count => writeln!(f, "{count} {} records", kind.words())?,
            }
        }
        match self.reason() {
            None => write!(f, "ended at {}", self.place()),
            Some(why) => write!(f, "stopped at {}: {why} ({})", self.place(), why.number()),
        }
    }
}

impl fmt::Debug for Finding {
    fn fmt(&self, f: &mut fmt::Formatter<'_>) -> fmt::Result {
        f.debug_struct("Finding")
            .field("limit", &self.limit())
            .field("place", &self.place())
            .field("reason", &self.reason())
            .field("found", &Found(self))
            .finish()
    }
}

/// What was found, by kind: how many, and where the first body lies.
struct Found<'f>(&'f Finding);

impl fmt::Debug for Found<'_> {
    fn fmt(&self, f: &mut fmt::Formatter<'_>) -> fmt::Result {
        let of = |kind| self.0.first_body(kind).map(|body| (kind, (self.0.count(kind), body)));
        f.debug_map().entries(Kind::ALL.into_iter().filter_map(of)).finish()
    }
}

impl<'m> Message<'m> {
    /// Walks over a request as if the message were cut after `limit` bytes, until its end record or the first record that
    /// is refused with 1, 2, 3 or 4, and tells what it found. Refuses nothing.
    ///
    /// Of a read in pieces that was refused with 1 to 7, the message is what the buffer holds:
    /// `Message::new(&buffer[..line.gathered()]).walk_request(line.limit())`.
    pub fn walk_request(self, limit: u16) -> Finding {
        let mut cells = [0; 48];
        raw::walk_request(self.bytes(), limit, &mut cells);
        Finding(cells)
    }

    /// Decides from a finding of this message: answers as [`Message::request`] under the finding's limit, and leaves the
    /// table as that does. Refusals: 9 for a finding that is not what [`Message::walk_request`] gives over this message
    /// under the finding's own limit, before all others and at place 0; then 1 to 7.
    ///
    /// The finding is not trusted: the message is walked over once more, which [`Message::request`] does not pay for.
    ///
    /// ```
    /// use ntske::*;
    ///
    /// let message = [0x80, 1, 0, 2, 0, 0, 0x80, 4, 0, 2, 0, 15, 0x80, 0, 0, 0];
    /// let (message, mut table) = (Message::new(&message), [0; 32]);
    /// let finding = message.walk_request(LIMIT);
    /// assert_eq!((finding.count(Kind::NextProtocol), finding.place(), finding.reason()), (1, 12, None));
    /// let request = message.decide_request(&finding, &mut table)?;
    /// assert!(matches!(request, Request::KeyExchange { .. }));
    ///
    /// let other = Message::new(&message.bytes()[6..]).decide_request(&finding, &mut table);
    /// assert_eq!(other.unwrap_err(), Refusal { why: Refused::InvalidValue, place: 0 });
    /// # Ok::<(), Refusal>(())
    /// ```
    pub fn decide_request<'t>(self, finding: &Finding, table: &'t mut [u16]) -> Result<Request<'m, 't>, Refusal> {
        let mut answer = [0; 10];
        read(raw::decide_request(&finding.0, self.bytes(), table, &mut answer))?;
        Ok(Request::told(self, &answer, |count| Denied::new(self.bytes(), table, count)))
    }
}
