//! Choosing protocol and algorithm with those lines of the crate's server that choose: as they stand, and in a copy in
//! which one edit makes them document 01's. The copy's choice is the answer. Where the one difference does not apply to
//! the lists, that of the lines as they stand must be the same. Refusal 9 is document 01's: the crate's types hold no list
//! of an odd byte length.

use super::poll::now;
use super::writing::{NO_VALUE, numbers};
use super::{AeadAlgorithm, NextProtocol, ServersLists};
use super::{lines, whole};
use crate::payload::Payload;

/// The difference: of the first algorithm of the client's that the server's list holds or the crate knows, not both are so.
pub const NOT_THE_SERVERS: &str = "an algorithm that the server's list does not hold";
pub const NOT_THE_CRATES: &str = "an algorithm that the crate does not know";

/// A client's list of an odd byte length.
pub const ODD_PROTOCOLS: &str = "protocols of an odd length";
pub const ODD_ALGORITHMS: &str = "algorithms of an odd length";

/// The lists of a case.
struct Lists {
    protocols: Vec<NextProtocol>,
    algorithms: Vec<AeadAlgorithm>,
    servers: ServersLists,
}

/// Op g.
pub fn chosen(line: &mut Vec<u8>, payload: &[u8]) -> Option<()> {
    let Ok(lists) = lists(payload)? else {
        lines::refused(line, NO_VALUE);
        return Some(());
    };
    let Lists { protocols, algorithms, servers } = &lists;
    tell(line, now(servers.chosen_by_both_lists(protocols, algorithms, &mut Vec::new())));
    if lists.difference().is_none() {
        let mut crates = Vec::new();
        tell(&mut crates, now(servers.chosen_as_it_stands(protocols, algorithms, &mut Vec::new())));
        lines::judged(line, &crates, "the copy with one edit");
    }
    Some(())
}

/// The lists that a payload describes, within it what is wrong with a client's where document 01 gives 9; none where the
/// payload is no good.
fn lists(payload: &[u8]) -> Option<Result<Lists, &'static str>> {
    let mut payload = Payload(payload);
    let (protocols, algorithms) = (payload.lent()?, payload.lent()?);
    let servers = ServersLists { protocols: payload.numbers()?, algorithms: payload.numbers()? };
    payload.end()?;
    let client = || Ok((numbers(protocols).ok_or(ODD_PROTOCOLS)?, numbers(algorithms).ok_or(ODD_ALGORITHMS)?));
    Some(client().map(|(protocols, algorithms)| Lists { protocols, algorithms, servers }))
}

fn tell(line: &mut Vec<u8>, answer: Result<(NextProtocol, AeadAlgorithm), super::NtsError>) {
    match answer {
        Ok((protocol, algorithm)) => {
            lines::text(line, "chosen ");
            lines::number(line, u16::from(protocol));
            line.push(b' ');
            lines::number(line, u16::from(algorithm));
        }
        Err(error) => lines::refused(line, whole::refusal(error).0),
    }
}

impl Lists {
    /// The difference, if it applies: there is a protocol, and the two ways of choosing an algorithm part.
    fn difference(&self) -> Option<&'static str> {
        self.protocols.iter().find(|protocol| self.servers.protocols.contains(protocol))?;
        self.algorithms.iter().find_map(|algorithm| {
            let crates = !matches!(algorithm, AeadAlgorithm::Unknown(_));
            match (crates, self.servers.algorithms.contains(algorithm)) {
                (false, false) => None,
                (true, true) => Some(None),
                (true, false) => Some(Some(NOT_THE_SERVERS)),
                (false, true) => Some(Some(NOT_THE_CRATES)),
            }
        })?
    }
}

/// The difference that applies to the lists of a case, within it none where it does not; none where the crate is not asked.
pub fn difference_of(payload: &[u8]) -> Option<Option<&'static str>> {
    Some(lists(payload)?.ok()?.difference())
}

/// What is wrong with a client's list of a case.
pub fn fault_of(payload: &[u8]) -> Option<&'static str> {
    lists(payload)?.err()
}
