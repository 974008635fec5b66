//! Accepted messages, and behind each its variants: its records in another order, and with an unknown record put in.

use std::io::{self, Write};

use super::messages::{BEFORE_LISTS, Family, end, filler, shuffle};
use super::records::{good, size};
use super::{CRITICAL, UNKNOWN, kind, record};
use crate::corpus::{LARGEST_LIMIT, LONGEST};
use crate::random::Random;

/// An original and three variants for each of `count` of a family; oracle/orders judges the answers by that order of the
/// cases.
pub fn orders(families: &[Family], seed: u64, count: u64, out: &mut impl Write) -> io::Result<()> {
    let mut random = Random::new(seed, "orders");
    for family in families {
        for _ in 0..count {
            one(family, &mut random, out)?;
        }
    }
    Ok(())
}

fn one(family: &Family, random: &mut Random, out: &mut impl Write) -> io::Result<()> {
    let form = random.below(500);
    let mut records = (family.accepted)(random, form == 0);
    let end = end(random);
    let mut inserted = unknown(random);
    let left = LARGEST_LIMIT - records.concat().len() - end.len() - inserted.len();
    match form {
        // With the record put in, the message through its end is exactly as long as the limit allows.
        1 => records.push(filler(family, random, left - 4)),
        2..8 => {
            let size = random.between(2000, 20_000);
            records.push(filler(family, random, size));
        }
        _ => {}
    }
    shuffle(random, &mut records);
    let other = reordered(family, random, &records);

    // A limit and a table's cells may stand before the message, and lists, the same before all four.
    let room = LONGEST - BEFORE_LISTS - records.concat().len() - end.len() - inserted.len();
    let lists = family.good_lists(random, &records.concat(), room / 2);
    let room = room - lists.len();
    let after = tail(family, random, room);
    let mut other_after = tail(family, random, room);
    while other_after == after {
        other_after = tail(family, random, room);
    }

    family.put_largest_with(out, &lists, &[&records.concat()[..], &end, &after].concat())?;
    family.put_largest_with(out, &lists, &[&other.concat()[..], &end, &other_after].concat())?;
    records.push(end);
    let at = random.below(records.len());
    for bit in [0, CRITICAL] {
        inserted[0] |= bit.to_be_bytes()[0];
        let (before, behind) = (records[..at].concat(), records[at..].concat());
        family.put_largest_with(out, &lists, &[&before[..], &inserted, &behind, &after].concat())?;
    }
    Ok(())
}

/// An unknown record with its bit clear.
fn unknown(random: &mut Random) -> Vec<u8> {
    let kind = match random.below(3) {
        0 => UNKNOWN,
        1 => random.pick(&[15, 16, 255, 256, 0x4000, 0x7ffe, 0x7fff]),
        _ => random.between(15, 0x7fff) as u16,
    };
    let body = if random.once_in(4) {
        // What stands in a body is no record.
        good(random)
    } else {
        let size = size(random);
        random.bytes(size)
    };
    record(kind, body.len(), &body)
}

/// The records in another order, in which those that fill the table keep theirs. Two other records of different kinds stand
/// in every accepted message, so that there is one.
fn reordered(family: &Family, random: &mut Random, records: &[Vec<u8>]) -> Vec<Vec<u8>> {
    let mut other = records.to_vec();
    while other == records {
        shuffle(random, &mut other);
        let is_entry = |record: &[u8]| kind(record) == family.entry;
        let mut entries = records.iter().filter(|record| is_entry(record));
        for place in other.iter_mut().filter(|record| is_entry(record)) {
            place.clone_from(entries.next().expect("as many entries"));
        }
    }
    other
}

/// What stands after the end record: nothing, any bytes, a record, or a further message, of no more bytes than the room.
fn tail(family: &Family, random: &mut Random, room: usize) -> Vec<u8> {
    let mut bytes = match random.below(4) {
        0 => Vec::new(),
        1 => {
            let length = random.below(40);
            random.bytes(length)
        }
        2 => good(random),
        _ => (family.message)(random).0.concat(),
    };
    bytes.truncate(room);
    bytes
}
