//! Reading a request with the crate's `Request::parse`.

use tokio::io::AsyncRead;

use super::feeding::{self, Fed, Feed, NO_LIMIT};
use super::lines;
use super::whole::{self, Accepted, Answer, Refused, at_once};
use crate::corpus::{CELLS, CRATES_LIMIT, LARGEST_LIMIT};

/// Op q: the crate's own file cuts the message.
pub fn under_the_crates_limit(line: &mut Vec<u8>, message: &[u8]) {
    whole::tell(line, at_once(message, verbatim), whole::cut(message, CRATES_LIMIT), CELLS);
}

/// Op Q.
pub fn under_the_largest_limit(line: &mut Vec<u8>, message: &[u8]) {
    tell(line, whole::cut(message, LARGEST_LIMIT), CELLS);
}

/// Op L.
pub fn under_a_limit(line: &mut Vec<u8>, payload: &[u8]) -> Option<()> {
    let (limit, cells, message) = whole::limited(payload)?;
    tell(line, whole::cut(message, limit), cells);
    Some(())
}

/// A cut message, read by the crate's own file where that would not cut it again, otherwise by the copy.
fn tell(line: &mut Vec<u8>, message: &[u8], cells: usize) {
    whole::tell(line, read_cut(message), message, cells);
}

fn read_cut(message: &[u8]) -> Answer {
    if message.len() <= CRATES_LIMIT { at_once(message, verbatim) } else { at_once(message, raised) }
}

/// What is read of bytes that are all there. Under its own limit the crate's own file cuts them.
pub fn read(bytes: &[u8], limit: usize) -> Answer {
    if limit == CRATES_LIMIT { at_once(bytes, verbatim) } else { read_cut(whole::cut(bytes, limit)) }
}

/// What is read of bytes as they arrive, by the crate's own file under its own limit and under those below, otherwise by the
/// copy.
pub fn fed(feed: &Feed) -> Fed {
    match feed.limit {
        CRATES_LIMIT => feeding::fed(feed, NO_LIMIT, verbatim),
        limit if limit < CRATES_LIMIT => feeding::fed(feed, limit as u64, verbatim),
        limit => feeding::fed(feed, limit as u64, raised),
    }
}

/// Reads a message with one of the two files; their types are apart, their text is the same.
macro_rules! reader {
    ($name:ident, $file:ident) => {
        async fn $name<R: AsyncRead + Unpin>(bytes: &mut R) -> Result<Accepted, Refused> {
            use super::$file::Request;

            let request = Request::parse(bytes).await?;
            let mut line = Vec::new();
            Ok(match request {
                Request::KeyExchange { algorithms, protocols, denied_servers } => {
                    lines::text(&mut line, "key-exchange protocols ");
                    lines::numbers(&mut line, protocols.iter().map(|&id| id.into()));
                    lines::text(&mut line, " algorithms ");
                    lines::numbers(&mut line, algorithms.iter().map(|&id| id.into()));
                    lines::text(&mut line, " denied ");
                    lines::number(&mut line, denied_servers.len() as u64);
                    line.push(b' ');
                    for name in denied_servers.iter() {
                        lines::bytes(&mut line, name.as_bytes());
                    }
                    Accepted { line, entries: denied_servers.len() }
                }
                Request::FixedKey { authentication, c2s_key, s2c_key, algorithm, protocol, keep_alive } => {
                    lines::text(&mut line, "fixed-key protocol ");
                    lines::number(&mut line, u16::from(protocol));
                    lines::text(&mut line, " algorithm ");
                    lines::number(&mut line, u16::from(algorithm));
                    lines::text(&mut line, " c2s ");
                    lines::bytes(&mut line, c2s_key.key_bytes());
                    lines::text(&mut line, " s2c ");
                    lines::bytes(&mut line, s2c_key.key_bytes());
                    authenticated(&mut line, &authentication, keep_alive);
                    Accepted { line, entries: 0 }
                }
                Request::Support { authentication, wants_protocols, wants_algorithms, keep_alive } => {
                    lines::text(&mut line, "support protocols ");
                    lines::number(&mut line, wants_protocols);
                    lines::text(&mut line, " algorithms ");
                    lines::number(&mut line, wants_algorithms);
                    authenticated(&mut line, &authentication, keep_alive);
                    Accepted { line, entries: 0 }
                }
            })
        }
    };
}

reader!(verbatim, messages);
reader!(raised, messages_raised);

/// The end of the line of a fixed-key or support request.
fn authenticated(line: &mut Vec<u8>, authentication: &str, keep_alive: bool) {
    lines::text(line, " authentication ");
    lines::bytes(line, authentication.as_bytes());
    lines::text(line, " keep-alive ");
    lines::number(line, keep_alive);
}
