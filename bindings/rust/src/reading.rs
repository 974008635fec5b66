//! Reading a request, a reply and one record, the listing, and choosing.

use crate::refusal::{accepted, read};
use crate::views::{hides, part, text};
use crate::writing::{count, front};
use crate::{
    raw, AeadAlgorithm, Asked, Authentication, Cookies, Denied, Key, List, Name, NextProtocol, Placed, Records,
    Refusal, Refused,
};

/// How a message is read.
#[derive(Clone, Copy, Debug, Default, PartialEq, Eq, Hash)]
pub enum Profile {
    /// As document 01 has it: what [`Message::request`], [`Message::reply`] and
    /// [`Connection::start`](crate::Connection::start) take.
    #[default]
    Usual,
    /// As RFC 8915 alone allows. Kinds 8 to 14 are unknown: passed over with their bit clear, and 3 with it set, whatever
    /// their body holds. So a request is a key exchange without denied names, and a reply tells no keep-alive. 18 is for a
    /// record of kind 0, 1, 2 or 3 without its critical bit, an end record with a body, and a server name with a byte above
    /// 7F, after 1 and 2 of that record and before what it means; and for a byte that follows the end record inside the
    /// limit, at that byte's place, before all that is decided after the end.
    Strict,
}

/// A message as it came from the other side. `{:?}` shows only how long it is.
#[derive(Clone, Copy)]
pub struct Message<'m>(&'m [u8]);

hides!(Message);

/// A request.
#[derive(Clone, Copy, Debug)]
#[non_exhaustive]
pub enum Request<'m, 't> {
    /// A key exchange.
    KeyExchange {
        /// The protocols that the client can do, the one it likes best first.
        protocols: List<'m, NextProtocol>,
        /// The algorithms, in the same way.
        algorithms: List<'m, AeadAlgorithm>,
        /// The servers that it does not want.
        denied: Denied<'m, 't>,
    },
    /// A request for cookies with keys that are given.
    FixedKey {
        /// By what the client is known.
        authentication: Authentication<'m>,
        /// The key from client to server.
        c2s: Key<'m>,
        /// The key from server to client.
        s2c: Key<'m>,
        /// The algorithm, which the keys' lengths are right for.
        algorithm: AeadAlgorithm,
        /// The protocol, which is not judged.
        protocol: NextProtocol,
        /// Whether the connection is to stay.
        keep_alive: bool,
    },
    /// A question for what the server can do.
    Support {
        /// By what the client is known.
        authentication: Authentication<'m>,
        /// What it asks.
        asked: Asked,
    },
    /// A sort that this package does not know: the archive is of another version.
    Unknown {
        /// The number of the sort.
        sort: usize,
    },
}

/// What a client offered in its request, against which a reply is read: the lists that it gave to
/// [`write_request`](crate::write_request). A list may be empty, or have a number twice; their order does not count.
///
/// Lists cannot change places:
///
/// ```compile_fail,E0308
/// # use ntske::{AeadAlgorithm, NextProtocol, Offered};
/// # fn host(protocols: &[NextProtocol], algorithms: &[AeadAlgorithm]) {
/// let offered = Offered { protocols: algorithms, algorithms: protocols };
/// # }
/// ```
#[derive(Clone, Copy, Debug, PartialEq, Eq, Hash)]
pub struct Offered<'o> {
    /// The protocols.
    pub protocols: &'o [NextProtocol],
    /// The algorithms.
    pub algorithms: &'o [AeadAlgorithm],
}

/// A reply to a key-exchange request.
#[derive(Clone, Copy, Debug)]
#[non_exhaustive]
pub struct Reply<'m, 't> {
    /// The protocol that was chosen, one of those that were offered.
    pub protocol: NextProtocol,
    /// The algorithm that was chosen, likewise.
    pub algorithm: AeadAlgorithm,
    /// The server to ask for the time, if one is named.
    pub server: Option<Name<'m>>,
    /// Its port, if one is named.
    pub port: Option<u16>,
    /// Whether the connection stays.
    pub keep_alive: bool,
    /// The cookies, one at least.
    pub cookies: Cookies<'m, 't>,
}

impl<'m, 't> Request<'m, 't> {
    /// The request that cells tell, with the names of a key exchange, of which there are so many.
    pub(crate) fn told(
        message: Message<'m>,
        cells: &raw::RequestCells,
        names: impl FnOnce(usize) -> Denied<'m, 't>,
    ) -> Self {
        let [sort, a, b, c, d, e, f, g, h, i] = *cells;
        match sort {
            1 => Request::KeyExchange {
                protocols: List::new(message.part(a, b)),
                algorithms: List::new(message.part(c, d)),
                denied: names(e),
            },
            2 => Request::FixedKey {
                authentication: Authentication::of(message.part(a, b)),
                c2s: Key::new(message.part(c, d)),
                s2c: Key::new(message.part(e, f)),
                algorithm: AeadAlgorithm(g as u16),
                protocol: NextProtocol(h as u16),
                keep_alive: i == 1,
            },
            3 => Request::Support {
                authentication: Authentication::of(message.part(a, b)),
                asked: Asked { protocols: c == 1, algorithms: d == 1, keep_alive: e == 1 },
            },
            sort => Request::Unknown { sort },
        }
    }
}

impl<'m, 't> Reply<'m, 't> {
    /// The reply that cells tell, with the cookies of a table.
    pub(crate) fn told(message: Message<'m>, cells: &raw::ReplyCells, table: &'t [u16]) -> Self {
        let [protocol, algorithm, named, start, len, ported, port, keep_alive, cookies] = *cells;
        Reply {
            protocol: NextProtocol(protocol as u16),
            algorithm: AeadAlgorithm(algorithm as u16),
            server: (named == 1).then(|| Name::of(message.part(start, len))),
            port: (ported == 1).then_some(port as u16),
            keep_alive: keep_alive == 1,
            cookies: Cookies::new(message.bytes(), table, cookies),
        }
    }
}

impl<'m> Message<'m> {
    /// The message that bytes are.
    pub const fn new(bytes: &'m [u8]) -> Self {
        Message(bytes)
    }

    /// Its bytes.
    pub const fn bytes(self) -> &'m [u8] {
        self.0
    }

    /// A part of it; empty where that is not inside.
    pub fn part(self, start: usize, len: usize) -> &'m [u8] {
        part(self.0, start, len)
    }

    /// Reads a request as if the message were cut after `limit` bytes, through its first end record; what follows is not
    /// looked at. Two cells of the table are needed for each name that is denied. A refusal, 1 to 7, leaves the table as
    /// it is.
    ///
    /// 1 does not say that more bytes would help, nor another number that they would not. So a host that takes a message
    /// off a line does not call this again and again: it feeds a [`Connection`](crate::Connection).
    ///
    /// The table cannot be lent again, nor the message be overwritten, while a name of it is in use:
    ///
    /// ```compile_fail,E0499
    /// # use ntske::{Message, Request};
    /// # fn host(one: Message<'_>, other: Message<'_>, table: &mut [u16]) {
    /// let first = one.request(65_535, table);
    /// let second = other.request(65_535, table);
    /// println!("{first:?}");
    /// # }
    /// ```
    pub fn request<'t>(self, limit: u16, table: &'t mut [u16]) -> Result<Request<'m, 't>, Refusal> {
        self.request_in(Profile::Usual, limit, table)
    }

    /// Reads a request in a profile. Refusals: 1 to 7; in the strict one 1 to 4 and 18.
    ///
    /// ```
    /// use ntske::*;
    ///
    /// // a list of protocols without its critical bit, which RFC 8915 asks for
    /// let message = [0, 1, 0, 2, 0, 0, 0x80, 4, 0, 2, 0, 15, 0x80, 0, 0, 0];
    /// let message = Message::new(&message);
    /// assert!(message.request(LIMIT, &mut []).is_ok());
    /// let refusal = message.request_in(Profile::Strict, LIMIT, &mut []).unwrap_err();
    /// assert_eq!(refusal, Refusal { why: Refused::NotAllowed, place: 0 });
    /// ```
    pub fn request_in<'t>(
        self,
        profile: Profile,
        limit: u16,
        table: &'t mut [u16],
    ) -> Result<Request<'m, 't>, Refusal> {
        let mut answer = [0; 10];
        read(match profile {
            Profile::Usual => raw::read_request(self.0, limit, table, &mut answer),
            Profile::Strict => raw::read_request_strict(self.0, limit, table, &mut answer),
        })?;
        Ok(Request::told(self, &answer, |count| Denied::new(self.0, table, count)))
    }

    /// Reads a reply in the same way, with two cells of the table for each cookie. It must answer what was asked: 17 is for
    /// a protocol, and then for an algorithm, that is not among those offered. Refusals: 1 to 4, 7, 11 to 15, 17.
    ///
    /// ```
    /// use ntske::*;
    ///
    /// // the client offered algorithm 15, and the reply names 17
    /// let message = [0x80, 1, 0, 2, 0, 0, 0x80, 4, 0, 2, 0, 17, 0, 5, 0, 1, 0xAA, 0x80, 0, 0, 0];
    /// let (protocols, algorithms) = ([NextProtocol::NTPV4], [AeadAlgorithm::AES_SIV_CMAC_256]);
    /// let offered = Offered { protocols: &protocols, algorithms: &algorithms };
    /// let refusal = Message::new(&message).reply(LIMIT, offered, &mut [0; 16]).unwrap_err();
    /// assert_eq!(refusal.why, Refused::AeadNotOffered(AeadAlgorithm::AES_SIV_CMAC_512));
    /// assert_eq!(refusal.to_string(), "refused 17 at 17: the reply's algorithm was not offered, algorithm 17");
    /// ```
    pub fn reply<'t>(self, limit: u16, offered: Offered<'_>, table: &'t mut [u16]) -> Result<Reply<'m, 't>, Refusal> {
        self.reply_in(Profile::Usual, limit, offered, table)
    }

    /// Reads a reply in a profile. Refusals: 1 to 4, 7, 11 to 15, 17; in the strict one 18 besides.
    pub fn reply_in<'t>(
        self,
        profile: Profile,
        limit: u16,
        offered: Offered<'_>,
        table: &'t mut [u16],
    ) -> Result<Reply<'m, 't>, Refusal> {
        let mut answer = [0; 9];
        let Offered { protocols, algorithms } = offered;
        read(match profile {
            Profile::Usual => raw::read_reply(self.0, limit, protocols, algorithms, table, &mut answer),
            Profile::Strict => raw::read_reply_strict(self.0, limit, protocols, algorithms, table, &mut answer),
        })?;
        Ok(Reply::told(self, &answer, table))
    }

    /// Reads the record at a place, with its critical bit as it was received and the place after it. Refusals: 1 and 2,
    /// at the place that was asked for.
    pub fn record(self, place: usize) -> Result<Placed<'m>, Refusal> {
        let mut answer = [0; 8];
        accepted(raw::read_record(self.0, place, &mut answer)).map_err(|why| Refusal { why, place })?;
        Ok(Placed::told(self, place, &answer))
    }

    /// The records of the message, one after the other, through the first end record or up to the first that does not
    /// read whole.
    ///
    /// ```
    /// # use ntske::{Message, Refusal, Refused};
    /// let cut = [0x80, 1, 0, 2, 0, 0, 0x80, 4];
    /// let mut records = Message::new(&cut).records();
    /// let first = records.next().unwrap()?;
    /// assert_eq!((first.place, first.kind, first.critical, first.size, first.body), (0, 1, true, 2, &[0, 0][..]));
    /// assert_eq!(records.next().unwrap().unwrap_err(), Refusal { why: Refused::UnexpectedEof, place: 6 });
    /// assert!(records.next().is_none());
    /// # Ok::<(), Refusal>(())
    /// ```
    ///
    /// Each tells its critical bit as it was received and the one that document 01 names for its kind, and so where the
    /// sender forgot or added it:
    ///
    /// ```
    /// # use ntske::{Message, Refusal};
    /// // protocols without the bit, a cookie with one, and an unknown record, which has none of its own
    /// let message = [0, 1, 0, 0, 0x80, 5, 0, 0, 0x80, 11, 0, 0, 0x80, 0, 0, 0];
    /// let mut slips = vec![];
    /// for placed in Message::new(&message).records() {
    ///     let placed = placed?;
    ///     slips.extend(placed.slip().map(|slip| format!("{}: kind {} {slip}", placed.place, placed.kind)));
    /// }
    /// assert_eq!(slips, ["0: kind 1 without its critical bit", "4: kind 5 with a critical bit"]);
    /// # Ok::<(), Refusal>(())
    /// ```
    pub const fn records(self) -> Records<'m> {
        Records::new(self)
    }

    /// Lists the records as text, a line each, and what [`Message::request`] answers with room for so many names, as the
    /// program kelist prints it (with the limit 65,535 and room for 1,024). The text is put at the front of `out`;
    /// [`LISTING`](crate::LISTING) bytes are enough for every message. Refusals: 10.
    pub fn list(self, limit: u16, room: usize, out: &mut [u8]) -> Result<&str, Refused> {
        let mut written = [0];
        let word = raw::list(self.0, limit, room, out, &mut written);
        front(count(word, written), out).map(|listing| text(listing))
    }
}

/// What the server takes of a client's lists.
#[derive(Clone, Copy, Debug, PartialEq, Eq)]
pub struct Chosen {
    /// The protocol.
    pub protocol: NextProtocol,
    /// The algorithm.
    pub algorithm: AeadAlgorithm,
}

/// Chooses of the client's lists the first number that the server's own list holds. Refusals: 9 for a client's list of
/// an odd length, 13, 14.
///
/// Lists cannot change places:
///
/// ```compile_fail,E0308
/// # use ntske::{choose, AeadAlgorithm, Chosen, List, NextProtocol, Refused};
/// # fn host(protocols: List<'_, NextProtocol>, algorithms: List<'_, AeadAlgorithm>) -> Result<Chosen, Refused> {
/// choose(algorithms, protocols, &[NextProtocol(0)], &[AeadAlgorithm(15)])
/// # }
/// ```
pub fn choose(
    protocols: List<'_, NextProtocol>,
    algorithms: List<'_, AeadAlgorithm>,
    own_protocols: &[NextProtocol],
    own_algorithms: &[AeadAlgorithm],
) -> Result<Chosen, Refused> {
    let mut answer = [0; 2];
    accepted(raw::choose(protocols.bytes(), algorithms.bytes(), own_protocols, own_algorithms, &mut answer))?;
    Ok(Chosen { protocol: NextProtocol(answer[0] as u16), algorithm: AeadAlgorithm(answer[1] as u16) })
}

/// Chooses the protocol alone, which the reply to 14 names: see [`write_no_algorithm`](crate::write_no_algorithm).
/// Refusals: 9 for a list of an odd length, 13.
pub fn choose_protocol(
    protocols: List<'_, NextProtocol>,
    own_protocols: &[NextProtocol],
) -> Result<NextProtocol, Refused> {
    let mut answer = [0];
    accepted(raw::choose_protocol(protocols.bytes(), own_protocols, &mut answer))?;
    Ok(NextProtocol(answer[0] as u16))
}

/// Whether bytes are UTF-8 (RFC 3629).
pub fn is_utf8(bytes: &[u8]) -> bool {
    raw::is_utf8(bytes) == 1
}
