//! A read that is fed as the line delivers.

use crate::refusal::read;
use crate::{raw, Denied, Message, Offered, Profile, Refusal, Reply, Request};
use core::fmt;

/// What a piece led to that was not refused.
#[derive(Clone, Copy, Debug)]
pub enum Fed<T> {
    /// The read waits for more bytes.
    Waiting,
    /// The message is accepted.
    Accepted(T),
}

/// A read of one message in pieces. The host keeps one for each line, as a plain value, and a buffer in which the bytes
/// gather. It lends both to the next call as the last one left them; the table may be another each time.
///
/// A record is judged when it stands whole, or when the limit or the close cuts it. The answer, unless it is 16, is that
/// of [`Message::request_in`] or [`Message::reply_in`] on all pieces joined, the latter with what is told as [`Offered`] to the
/// call that answers. Once there is one, every later call gives it again and changes nothing: one that was accepted
/// whatever the table is that is lent then, in which names and cookies are looked for; a refusal also where a larger table
/// or buffer is lent; and either whatever was offered then.
///
/// A refusal may change buffer and connection, and never the table. The buffer begins with the joined bytes, through the
/// record that decides or until it is full, and no byte behind them changes. 16 is for a byte that the read needs and
/// the buffer has no room for, which one as long as the limit always has; 9 for a buffer that is shorter than what was
/// gathered.
///
/// ```
/// use ntske::*;
///
/// let message = [0x80, 1, 0, 2, 0, 0, 0x80, 4, 0, 2, 0, 15, 0x80, 0, 0, 0];
/// let (mut buffer, mut table) = ([0; 1024], [0; 32]);
/// let mut line = Connection::start(LIMIT);
/// let mut pieces = message.chunks(5);
/// let request = loop {
///     let Some(piece) = pieces.next() else {
///         break line.close_request(&mut buffer, &mut table)?;
///     };
///     if let Fed::Accepted(request) = line.feed_request(piece, &mut buffer, &mut table)? {
///         break request;
///     }
/// };
/// assert!(matches!(request, Request::KeyExchange { .. }));
/// assert_eq!(line.gathered(), 16);
/// # Ok::<(), Refusal>(())
/// ```
///
/// Neither buffer nor table can be lent again while a part of the answer is in use:
///
/// ```compile_fail,E0499
/// # use ntske::{Connection, Refusal};
/// # fn host(line: &mut Connection, other: &mut Connection, buffer: &mut [u8], table: &mut [u16]) -> Result<(), Refusal> {
/// let request = line.close_request(buffer, table)?;
/// other.feed_request(&[], buffer, &mut [])?;
/// println!("{request:?}");
/// # Ok(())
/// # }
/// ```
#[derive(Clone, Copy, PartialEq, Eq)]
pub struct Connection(raw::ConnectionCells);

impl Connection {
    /// A read of a message that is cut after `limit` bytes, which has been handed nothing.
    pub fn start(limit: u16) -> Self {
        Self::start_in(Profile::Usual, limit)
    }

    /// The same in a profile, which the connection keeps. Since in the strict one no byte may follow the end record, such
    /// a read waits once more when that stands whole and nothing was refused: it answers at the close, at once where the
    /// end record ends at the limit, or when a byte inside the limit follows, with 18. That byte is not stored, and is
    /// never 16.
    ///
    /// ```
    /// use ntske::*;
    ///
    /// let message = [0x80, 1, 0, 2, 0, 0, 0x80, 4, 0, 2, 0, 15, 0x80, 0, 0, 0];
    /// let (mut buffer, mut table) = ([0; 16], [0; 0]);
    /// let mut line = Connection::start_in(Profile::Strict, LIMIT);
    /// assert!(matches!(line.feed_request(&message, &mut buffer, &mut table)?, Fed::Waiting));
    /// let mut other = line;
    /// assert!(matches!(line.close_request(&mut buffer, &mut table)?, Request::KeyExchange { .. }));
    /// let refusal = other.feed_request(&[0], &mut buffer, &mut table).unwrap_err();
    /// assert_eq!(refusal, Refusal { why: Refused::NotAllowed, place: 16 });
    /// # Ok::<(), Refusal>(())
    /// ```
    pub fn start_in(profile: Profile, limit: u16) -> Self {
        let mut cells = [0; 9];
        match profile {
            Profile::Usual => raw::connection_new(limit, &mut cells),
            Profile::Strict => raw::connection_new_strict(limit, &mut cells),
        };
        Connection(cells)
    }

    /// The profile in which the message is read.
    pub const fn profile(&self) -> Profile {
        match self.0[8] {
            0 => Profile::Usual,
            _ => Profile::Strict,
        }
    }

    /// After how many bytes the message is cut.
    pub const fn limit(&self) -> u16 {
        self.0[0] as u16
    }

    /// How many bytes the front of the buffer holds. Of a message that was accepted they are all of it, through its end
    /// record.
    pub const fn gathered(&self) -> usize {
        self.0[1]
    }

    /// Hands over a piece of a request, which may be empty. Refusals: 9, 1 to 7, 16, in the strict profile 18; and the one
    /// that the connection holds.
    pub fn feed_request<'b, 't>(
        &mut self,
        piece: &[u8],
        buffer: &'b mut [u8],
        table: &'t mut [u16],
    ) -> Result<Fed<Request<'b, 't>>, Refusal> {
        let (again, mut answer) = (self.is_accepted(), [0; 10]);
        let word = raw::feed_request(&mut self.0, piece, buffer, table, &mut answer);
        if word == raw::WAITING {
            return Ok(Fed::Waiting);
        }
        self.request(word, &answer, again, buffer, table).map(Fed::Accepted)
    }

    /// Says that the line of a request closed: the read waits no more. Refusals: those of
    /// [`feed_request`](Connection::feed_request).
    pub fn close_request<'b, 't>(
        &mut self,
        buffer: &'b mut [u8],
        table: &'t mut [u16],
    ) -> Result<Request<'b, 't>, Refusal> {
        let (again, mut answer) = (self.is_accepted(), [0; 10]);
        let word = raw::close_request(&mut self.0, buffer, table, &mut answer);
        self.request(word, &answer, again, buffer, table)
    }

    /// Hands over a piece of a reply, which may be empty, and what the client offered. Refusals: 9, 1 to 4, 7, 11 to 17,
    /// in the strict profile 18; and the one that the connection holds.
    pub fn feed_reply<'b, 't>(
        &mut self,
        piece: &[u8],
        offered: Offered<'_>,
        buffer: &'b mut [u8],
        table: &'t mut [u16],
    ) -> Result<Fed<Reply<'b, 't>>, Refusal> {
        let mut answer = [0; 9];
        let Offered { protocols, algorithms } = offered;
        let word = raw::feed_reply(&mut self.0, piece, protocols, algorithms, buffer, table, &mut answer);
        if word == raw::WAITING {
            return Ok(Fed::Waiting);
        }
        self.reply(word, &answer, buffer, table).map(Fed::Accepted)
    }

    /// Says that the line of a reply closed: the read waits no more. Refusals: those of
    /// [`feed_reply`](Connection::feed_reply).
    pub fn close_reply<'b, 't>(
        &mut self,
        offered: Offered<'_>,
        buffer: &'b mut [u8],
        table: &'t mut [u16],
    ) -> Result<Reply<'b, 't>, Refusal> {
        let mut answer = [0; 9];
        let Offered { protocols, algorithms } = offered;
        let word = raw::close_reply(&mut self.0, protocols, algorithms, buffer, table, &mut answer);
        self.reply(word, &answer, buffer, table)
    }

    const fn is_accepted(&self) -> bool {
        self.0[4] == 1
    }

    /// The request that a call answered. One that is given again does not fill the table.
    fn request<'b, 't>(
        &self,
        word: u64,
        cells: &raw::RequestCells,
        again: bool,
        buffer: &'b [u8],
        table: &'t [u16],
    ) -> Result<Request<'b, 't>, Refusal> {
        read(word)?;
        let message = Message::new(&buffer[..self.gathered()]);
        let names = if again { Denied::again } else { Denied::new };
        Ok(Request::told(message, cells, |count| names(message.bytes(), table, count)))
    }

    /// The reply that a call answered.
    fn reply<'b, 't>(
        &self,
        word: u64,
        cells: &raw::ReplyCells,
        buffer: &'b [u8],
        table: &'t [u16],
    ) -> Result<Reply<'b, 't>, Refusal> {
        read(word)?;
        Ok(Reply::told(Message::new(&buffer[..self.gathered()]), cells, table))
    }
}

impl fmt::Debug for Connection {
    fn fmt(&self, f: &mut fmt::Formatter<'_>) -> fmt::Result {
        let [limit, gathered, begins, met, state, number, beside, place, _] = self.0;
        f.debug_struct("Connection")
            .field("limit", &limit)
            .field("gathered", &gathered)
            .field("begins", &begins)
            .field("met", &met)
            .field("state", &state)
            .field("number", &number)
            .field("beside", &beside)
            .field("place", &place)
            .field("profile", &self.profile())
            .finish()
    }
}
