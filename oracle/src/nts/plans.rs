//! Reply plans. Each record of a reply is written by the crate's record writer; their order is document 01's. The crate's
//! own writer of replies must give the same records, in its order. The crate has no plans: what is refused is document
//! 01's.

use super::messages::KeyExchangeResponse;
use super::record::NtsRecord;
use super::trays::{self, COOKIE, Tray};
use super::writing::{self, NO_VALUE, by_the_crate, name};
use super::{AeadAlgorithm, NextProtocol};
use super::{lines, sending};
use crate::payload::Payload;

const NO_COOKIE: u8 = 15;
/// What lent memory is filled with.
const FILLER: u8 = 0xa5;

/// What is wrong with the name that is lent with a plan.
pub const OTHER_LENGTH: &str = "a name of another length";
pub const NOT_PLANNED: &str = "a name that is not planned";
pub const NOT_UTF8: &str = "a name that is not UTF-8";

/// A plan but for its tray.
struct Plan {
    protocol: NextProtocol,
    algorithm: AeadAlgorithm,
    port: Option<u16>,
    name_length: Option<u16>,
    keep_alive: bool,
}

/// Op p: a plan made by its calls, of which those that set and clear leave nothing behind.
pub fn by_calls(line: &mut Vec<u8>, payload: &[u8]) -> Option<()> {
    let mut payload = Payload(payload);
    let (plan, name) = Plan::of(&mut payload)?;
    let mut tray = vec![FILLER; payload.room()?];
    let room = payload.room()?;
    let cookies: Vec<&[u8]> = (0..payload.byte()?).map(|_| payload.lent()).collect::<Option<_>>()?;
    payload.end()?;

    let mut used = 0;
    for (index, cookie) in cookies.into_iter().enumerate() {
        match trays::append(&mut tray, used, cookie) {
            Ok(longer) => used = longer,
            Err(refusal) => {
                lines::text(line, "append ");
                lines::number(line, index as u64);
                line.push(b' ');
                lines::refused(line, refusal);
                return Some(());
            }
        }
    }
    plan.tell(line, name, &Tray { bytes: &tray, used }, room);
    Some(())
}

/// Op P: a plan made by hand.
pub fn by_hand(line: &mut Vec<u8>, payload: &[u8]) -> Option<()> {
    let mut payload = Payload(payload);
    let (plan, name) = Plan::of(&mut payload)?;
    let room = payload.room()?;
    plan.tell(line, name, &Tray::of(payload)?, room);
    Some(())
}

impl Plan {
    /// The plan at the start of a payload, and the name that is lent with it.
    fn of<'a>(payload: &mut Payload<'a>) -> Option<(Self, &'a [u8])> {
        let (protocol, algorithm) = (payload.number()?.into(), payload.number()?.into());
        let [has_port, has_name, keep_alive] = payload.flags()?;
        let port = payload.number().map(|port| has_port.then_some(port))?;
        let name_length = payload.number().map(|length| has_name.then_some(length))?;
        Some((Self { protocol, algorithm, port, name_length, keep_alive }, payload.lent()?))
    }

    fn tell(&self, line: &mut Vec<u8>, name: &[u8], tray: &Tray, room: usize) {
        sending::measured(line, self.length(tray));
        writing::tell(line, self.written(name, tray), room);
    }

    /// The length of the reply with any name of the planned length.
    fn length(&self, tray: &Tray) -> Result<usize, u8> {
        let cookies = tray.bodies(COOKIE).map_err(|_| NO_VALUE)?;
        let any = self.name_length.map(|length| "x".repeat(length.into()));
        Ok(self.reply(any.as_deref(), &cookies)?.len())
    }

    fn written(&self, name: &[u8], tray: &Tray) -> Result<Vec<u8>, u8> {
        let cookies = tray.bodies(COOKIE).map_err(|_| NO_VALUE)?;
        let name = self.name(name).map_err(|_| NO_VALUE)?;
        if cookies.is_empty() { Err(NO_COOKIE) } else { self.reply(name, &cookies) }
    }

    /// The lent name if one is planned, or what is wrong with it.
    fn name<'a>(&self, lent: &'a [u8]) -> Result<Option<&'a str>, &'static str> {
        match self.name_length {
            None if lent.is_empty() => Ok(None),
            None => Err(NOT_PLANNED),
            Some(length) if usize::from(length) != lent.len() => Err(OTHER_LENGTH),
            Some(_) => name(lent).map(Some).ok_or(NOT_UTF8),
        }
    }

    /// A reply: its records in document 01's order. The crate puts the cookies before server, port and keep-alive.
    fn reply(&self, name: Option<&str>, cookies: &[&[u8]]) -> Result<Vec<u8>, u8> {
        let protocol_ids = vec![self.protocol].into();
        let algorithm_ids = vec![self.algorithm].into();
        let lists = written([NtsRecord::NextProtocol { protocol_ids }, NtsRecord::AeadAlgorithm { algorithm_ids }])?;
        let server = name.map(|name| NtsRecord::Server { name: name.into() });
        let port = self.port.map(|port| NtsRecord::Port { port });
        let keep_alive = self.keep_alive.then_some(NtsRecord::KeepAlive);
        let options = written([server, port, keep_alive].into_iter().flatten())?;
        let bodies = cookies.iter().map(|&cookie| cookie.into());
        let fields = written(bodies.clone().map(|cookie_data| NtsRecord::NewCookie { cookie_data }))?;
        let end = written([NtsRecord::EndOfMessage])?;

        let response = KeyExchangeResponse {
            protocol: self.protocol,
            algorithm: self.algorithm,
            cookies: bodies.collect(),
            server: name.map(Into::into),
            port: self.port,
            keep_alive: self.keep_alive,
        };
        let crates = by_the_crate(async |out| response.serialize(out).await)?;
        assert_eq!(crates, [&lists[..], &fields, &options, &end].concat(), "the crate's two writers agree");
        Ok([lists, options, fields, end].concat())
    }
}

/// Records by the crate's record writer.
fn written<'a>(records: impl IntoIterator<Item = NtsRecord<'a>>) -> Result<Vec<u8>, u8> {
    by_the_crate(async |out| {
        for record in records {
            record.serialize(&mut *out).await?;
        }
        Ok(())
    })
}

/// What is wrong with the tray or the name of a case of op p or P.
pub fn fault_of(op: u8, payload: &[u8]) -> Option<&'static str> {
    let mut payload = Payload(payload);
    let (plan, name) = Plan::of(&mut payload)?;
    let broken = if op == b'P' {
        payload.room()?;
        Tray::of(payload)?.bodies(COOKIE).err()
    } else {
        None
    };
    broken.or(plan.name(name).err())
}
