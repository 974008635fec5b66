//! A line that delivers bytes in pieces, and the crate's readers of messages fed by it. They are asynchronous: where they
//! ask for a byte that has not arrived they wait, and go on with the next piece.

use std::cell::Cell;
use std::future::Future;
use std::io;
use std::pin::{Pin, pin};
use std::rc::Rc;
use std::task::{Context, Poll, Waker};

use tokio::io::{AsyncRead, AsyncReadExt, ReadBuf, Take};

use super::whole::{self, Accepted, Refused};
use crate::payload::Payload;

/// What a case of ops f and F describes, for F behind its lists.
pub struct Feed {
    pub limit: usize,
    pub cells: usize,
    pub buffer: usize,
    pub close: bool,
    /// The pieces, joined.
    pub bytes: Vec<u8>,
    /// How many of the bytes have arrived with each piece.
    arrived: Vec<usize>,
}

/// The limit of a line that never ends by it: what reads has its own.
pub const NO_LIMIT: u64 = u64::MAX;

impl Feed {
    /// None where the payload is no good.
    pub fn of(payload: &[u8]) -> Option<Self> {
        let mut payload = Payload(payload);
        let (limit, cells, buffer, close) = (payload.limit()?, payload.table()?, payload.room()?, payload.yes()?);
        let (mut bytes, mut arrived) = (Vec::new(), Vec::new());
        for _ in 0..payload.number()? {
            bytes.extend_from_slice(payload.lent()?);
            arrived.push(bytes.len());
        }
        payload.end()?;
        Some(Self { limit, cells, buffer, close, bytes, arrived })
    }

    /// The bytes as they are read under the limit.
    pub fn message(&self) -> &[u8] {
        whole::cut(&self.bytes, self.limit)
    }

    /// The first call after which so many bytes have arrived; none where there is no such call.
    pub fn call_with(&self, count: usize) -> Option<usize> {
        let call = self.arrived.partition_point(|&arrived| arrived < count);
        (call < self.calls() && count <= self.bytes.len()).then_some(call)
    }

    /// The call that says that the line closed, if there is one.
    pub fn closing(&self) -> Option<usize> {
        self.close.then_some(self.arrived.len())
    }

    fn calls(&self) -> usize {
        self.arrived.len() + usize::from(self.close)
    }
}

/// What a line has delivered, and what was taken of it.
#[derive(Clone, Copy, Default)]
struct State {
    arrived: usize,
    taken: usize,
    closed: bool,
}

/// The reading end of a line.
pub struct Line<'a> {
    bytes: &'a [u8],
    state: Rc<Cell<State>>,
}

impl AsyncRead for Line<'_> {
    /// Gives what has arrived and is asked for. Behind it the line ends where it is closed; otherwise the reader waits.
    fn poll_read(self: Pin<&mut Self>, _: &mut Context<'_>, buffer: &mut ReadBuf<'_>) -> Poll<io::Result<()>> {
        let State { arrived, taken, closed } = self.state.get();
        let end = arrived.min(taken + buffer.remaining());
        if end == taken && !closed {
            return Poll::Pending;
        }
        buffer.put_slice(&self.bytes[taken..end]);
        self.state.set(State { arrived, taken: end, closed });
        Poll::Ready(Ok(()))
    }
}

/// What a reader that was fed has taken, and its answer with the call that it came with; no answer where it still waits after
/// the last one.
pub struct Fed {
    pub taken: usize,
    pub answered: Option<(Result<Accepted, Refused>, usize)>,
}

/// Feeds a reader, which is asked at each call, with a line that ends after so many bytes.
pub fn fed<'a>(
    feed: &'a Feed,
    limit: u64,
    read: impl AsyncFnOnce(&mut Take<Line<'a>>) -> Result<Accepted, Refused>,
) -> Fed {
    let state = Rc::new(Cell::new(State::default()));
    let mut line = Line { bytes: &feed.bytes, state: state.clone() }.take(limit);
    let mut reading = pin!(read(&mut line));
    let pieces = feed.arrived.iter().map(|&arrived| (arrived, false));
    let close = feed.close.then_some((feed.bytes.len(), true));
    let answered = pieces.chain(close).enumerate().find_map(|(call, (arrived, closed))| {
        state.set(State { arrived, closed, ..state.get() });
        match reading.as_mut().poll(&mut Context::from_waker(Waker::noop())) {
            Poll::Ready(result) => Some((result, call)),
            Poll::Pending => None,
        }
    });
    Fed { taken: state.get().taken, answered }
}
