//! The crate's calls. A reader or writer over memory never waits, so one poll is all.

use std::borrow::Cow;
use std::future::Future;
use std::pin::pin;
use std::task::{Context, Poll, Waker};

use super::messages::KeyExchangeResponse;
use super::record::NtsRecord;
use super::{AeadAlgorithm, NextProtocol, NtsError, messages, messages_raised};
use crate::inputs;
use crate::ours::Contents;

fn now<F: Future>(future: F) -> F::Output {
    match pin!(future).poll(&mut Context::from_waker(Waker::noop())) {
        Poll::Ready(answer) => answer,
        Poll::Pending => panic!("a reader or writer over memory waits"),
    }
}

/// A request as one of the two files reads it; their types are apart, their text is the same.
pub enum Request {
    Verbatim(Result<messages::Request<'static>, NtsError>),
    Raised(Result<messages_raised::Request<'static>, NtsError>),
}

pub fn read_request(message: &[u8], raised: bool) -> Request {
    if raised {
        Request::Raised(now(messages_raised::Request::parse(message)))
    } else {
        Request::Verbatim(now(messages::Request::parse(message)))
    }
}

pub fn read_reply(message: &[u8]) -> Result<KeyExchangeResponse<'static>, NtsError> {
    now(KeyExchangeResponse::parse(message))
}

pub fn cookies() -> Vec<Cow<'static, [u8]>> {
    (0..inputs::COOKIES).map(|index| inputs::cookie(index).into()).collect()
}

pub fn write_reply(cookies: &[Cow<'static, [u8]>], out: &mut Vec<u8>) {
    let response = KeyExchangeResponse {
        protocol: NextProtocol::NTPv4,
        algorithm: AeadAlgorithm::AeadAesSivCmac256,
        cookies: cookies.into(),
        server: None,
        port: None,
        keep_alive: false,
    };
    now(response.serialize(out)).expect("a reply is written");
}

pub fn copy_record(message: &[u8], out: &mut Vec<u8>) {
    let record = now(NtsRecord::parse(message)).expect("a record is read");
    now(record.serialize(out)).expect("a record is written");
}

pub fn request(message: &[u8], raised: bool) -> Option<Contents> {
    macro_rules! contents {
        ($file:ident, $answer:expr) => {
            match $answer.ok()? {
                $file::Request::KeyExchange { algorithms, protocols, denied_servers } => Some((
                    protocols.iter().map(|&id| id.into()).collect(),
                    algorithms.iter().map(|&id| id.into()).collect(),
                    denied_servers.iter().map(|name| name.as_bytes().to_vec()).collect(),
                )),
                _ => panic!("a key-exchange request"),
            }
        };
    }
    match read_request(message, raised) {
        Request::Verbatim(answer) => contents!(messages, answer),
        Request::Raised(answer) => contents!(messages_raised, answer),
    }
}

pub fn reply(message: &[u8]) -> Option<Contents> {
    let reply = read_reply(message).ok()?;
    assert!(reply.server.is_none() && reply.port.is_none() && !reply.keep_alive, "a reply without options");
    let cookies = reply.cookies.iter().map(|cookie| cookie.to_vec()).collect();
    Some((vec![reply.protocol.into()], vec![reply.algorithm.into()], cookies))
}
