//! The lists that the reader of a reply is told were offered: before the message of ops y and l, and before all else of op F.

use super::{AeadAlgorithm, NextProtocol};
use crate::payload::Payload;

/// How a list holds a number.
pub const ALONE: &str = "alone";
pub const FIRST: &str = "before others";
pub const BETWEEN: &str = "between others";
pub const LAST: &str = "after others";
pub const TWICE: &str = "more than once";
pub const NOT: &str = "not";
pub const NOT_HERE: &str = "not, but in the other list";
pub const NOTHING: &str = "not, nor any other";

pub struct Offered {
    pub protocols: Vec<NextProtocol>,
    pub algorithms: Vec<AeadAlgorithm>,
}

impl Offered {
    /// The lists at the start of a payload and what stands behind them; none where the payload ends inside them.
    pub fn before(payload: &[u8]) -> Option<(Self, &[u8])> {
        let mut payload = Payload(payload);
        let offered = Self { protocols: payload.listed()?, algorithms: payload.listed()? };
        Some((offered, payload.0))
    }

    /// Whether a reply's two numbers were offered.
    pub fn holds(&self, protocol: u16, algorithm: u16) -> bool {
        self.protocols.contains(&protocol.into()) && self.algorithms.contains(&algorithm.into())
    }

    /// How its lists hold a reply's protocol and, where that was offered, its algorithm.
    pub fn how(&self, protocol: u16, algorithm: u16) -> (&'static str, Option<&'static str>) {
        let protocols: Vec<u16> = self.protocols.iter().map(|&id| id.into()).collect();
        let algorithms: Vec<u16> = self.algorithms.iter().map(|&id| id.into()).collect();
        let then = protocols.contains(&protocol).then(|| how(algorithm, &algorithms, &protocols));
        (how(protocol, &protocols, &algorithms), then)
    }
}

/// How a list holds a number.
fn how(number: u16, list: &[u16], other: &[u16]) -> &'static str {
    let times = list.iter().filter(|&&offered| offered == number).count();
    match list.iter().position(|&offered| offered == number) {
        None if list.is_empty() => NOTHING,
        None if other.contains(&number) => NOT_HERE,
        None => NOT,
        Some(_) if times > 1 => TWICE,
        Some(_) if list.len() == 1 => ALONE,
        Some(0) => FIRST,
        Some(place) if place + 1 == list.len() => LAST,
        Some(_) => BETWEEN,
    }
}
