//! Trays: fields of a tag, a two-byte length and a body, in the used part of a buffer. The crate has none; all that is here
//! is document 01's.

use super::lines;
use super::writing::{NO_ROOM, NO_VALUE, TOO_LONG};
use crate::payload::Payload;

/// The tags of a field.
pub const COOKIE: u8 = 1;
pub const NAME: u8 = 2;
/// The most cookies that a tray holds; of names it holds any number.
const MOST_COOKIES: usize = super::DEFAULT_NUMBER_OF_COOKIES;

const FULL: u8 = 7;

/// How a tray is broken.
pub const BEYOND: &str = "a used part beyond the tray";
pub const CUT: &str = "a field that is cut";
pub const OTHER_TAG: &str = "another tag";
pub const MANY_FIELDS: &str = "more than eight fields";

/// A buffer and the length of its used part.
pub struct Tray<'a> {
    pub bytes: &'a [u8],
    pub used: usize,
}

impl<'a> Tray<'a> {
    /// What is left of a payload: the used length and the tray.
    pub fn of(mut payload: Payload<'a>) -> Option<Self> {
        Some(Self { used: payload.length()?, bytes: payload.0 })
    }

    /// The bodies of the fields, or how the tray is broken for fields of that tag.
    pub fn bodies(&self, tag: u8) -> Result<Vec<&'a [u8]>, &'static str> {
        let mut rest = Payload(self.bytes.get(..self.used).ok_or(BEYOND)?);
        let mut bodies = Vec::new();
        while let Some(found) = rest.byte() {
            if found != tag {
                return Err(OTHER_TAG);
            }
            bodies.push(rest.lent().ok_or(CUT)?);
        }
        if tag == COOKIE && bodies.len() > MOST_COOKIES { Err(MANY_FIELDS) } else { Ok(bodies) }
    }

    /// The field that appending a cookie adds, or the refusal.
    fn field(&self, cookie: &[u8]) -> Result<Vec<u8>, u8> {
        let cookies = self.bodies(COOKIE).map_err(|_| NO_VALUE)?;
        let length = u16::try_from(cookie.len()).map_err(|_| TOO_LONG)?;
        if cookies.len() == MOST_COOKIES {
            return Err(FULL);
        }
        let field = [&[COOKIE][..], &length.to_be_bytes(), cookie].concat();
        if self.bytes.len() - self.used < field.len() { Err(NO_ROOM) } else { Ok(field) }
    }
}

/// Appends a cookie to a tray with that used length: the new one, or the refusal.
pub fn append(tray: &mut [u8], used: usize, cookie: &[u8]) -> Result<usize, u8> {
    let field = Tray { bytes: tray, used }.field(cookie)?;
    let end = used + field.len();
    tray[used..end].copy_from_slice(&field);
    Ok(end)
}

/// Op a.
pub fn appended(line: &mut Vec<u8>, payload: &[u8]) -> Option<()> {
    let (used, cookie, tray) = to_append(payload)?;
    let mut tray = tray.to_vec();
    match append(&mut tray, used, cookie) {
        Ok(used) => {
            lines::text(line, "used ");
            lines::number(line, used as u64);
            line.push(b' ');
            lines::bytes(line, &tray);
        }
        Err(refusal) => lines::refused(line, refusal),
    }
    Some(())
}

/// A case of op a: the used length, the cookie and the tray.
fn to_append(payload: &[u8]) -> Option<(usize, &[u8], &[u8])> {
    let mut payload = Payload(payload);
    let (used, length) = (payload.length()?, payload.length()?);
    Some((used, payload.bytes(length)?, payload.0))
}

/// How the tray of a case of op a is broken.
pub fn fault_of(payload: &[u8]) -> Option<&'static str> {
    let (used, _, bytes) = to_append(payload)?;
    Tray { bytes, used }.bodies(COOKIE).err()
}
