//! Requests to walk, and findings to decide from: of the same bytes and of others, as they are and with a number replaced.

use std::io::{self, Write};

use super::messages::{ENTRIES, Family, mutate, of_length, one, short, shuffle, spoil, unknown, word};
use super::payloads::{Decide, walk};
use super::pieces::limit;
use super::records::{body, good};
use super::tokens::{END, sequences};
use super::{CRITICAL, REQUESTS, is_known, kind, record};
use crate::corpus::{CELLS, CRATES_LIMIT, LARGEST_LIMIT, LONGEST, put};
use crate::nts::findings::{Finding, NUMBERS};
use crate::random::Random;

const FAMILY: Family = REQUESTS;
/// The op that walks, and the one that decides.
const WALK: u8 = b'v';
const DECIDE: u8 = b'V';
/// What is decided under where nothing else is said.
const PLAIN: Decide = Decide { limit: CRATES_LIMIT, cells: 12, which: 0, value: 0 };
/// So many bytes of a payload stand before those that are walked.
const HEAD: usize = 17;

/// The corpus: `count` random cases behind those that are made in every way.
pub fn findings(seed: u64, count: u64, out: &mut impl Write) -> io::Result<()> {
    let mut random = Random::new(seed, "findings");
    every_limit(&mut random, out)?;
    every_number(&mut random, out)?;
    ill_formed(&mut random, out)?;
    one_apart(&mut random, out)?;
    tokens(&mut random, 2, out)?;
    around(&mut random, out)?;
    long(&mut random, out)?;
    many(&mut random, out)?;
    rooms(&mut random, out)?;
    bad(&mut random, out)?;
    for _ in 0..count {
        random_case(&mut random, out)?;
    }
    Ok(())
}

/// All sequences of up to three records.
pub fn findings_of_tokens(seed: u64, out: &mut impl Write) -> io::Result<()> {
    tokens(&mut Random::new(seed, "findings of tokens"), 3, out)
}

/// All sequences of up to so many records, as they are and with an end record: walked, decided from their finding, from one
/// with a number replaced, and from that of the sequence with a record altered.
fn tokens(random: &mut Random, most: u32, out: &mut impl Write) -> io::Result<()> {
    let tokens = (FAMILY.tokens)();
    for count in 0..=most {
        sequences(&tokens, count, &mut |sequence| {
            let records: Vec<Vec<u8>> = sequence.iter().chain([&&END[..]]).map(|record| record.to_vec()).collect();
            let bare = sequence.concat();
            let whole = records.concat();
            let limit = random.pick(&[whole.len(), whole.len() - 1, LARGEST_LIMIT]);
            put(out, WALK, &walk(CRATES_LIMIT, &bare))?;
            put(out, WALK, &walk(limit, &whole))?;
            let cells = random.below(9);
            put(out, DECIDE, &Decide { limit, cells, ..PLAIN }.payload(&whole, &whole))?;
            put(out, DECIDE, &replaced(random, Decide { limit, ..PLAIN }, &whole).payload(&whole, &whole))?;
            let other = altered(random, &records).concat();
            put(out, DECIDE, &PLAIN.payload(&other, &whole))
        })?;
    }
    Ok(())
}

/// Short requests, some of them altered, under every limit: walked, decided from their finding, and from that under another
/// limit near it.
fn every_limit(random: &mut Random, out: &mut impl Write) -> io::Result<()> {
    for _ in 0..48 {
        let (mut message, entries) = one(&FAMILY, random);
        message.truncate(160);
        for limit in 0..=message.len() + 2 {
            put(out, WALK, &walk(limit, &message))?;
            let decide = Decide { limit, cells: 2 * entries + random.below(3), ..PLAIN };
            put(out, DECIDE, &decide.payload(&message, &message))?;
            let value = (limit as u64 + random.below(9) as u64).saturating_sub(4);
            put(out, DECIDE, &Decide { which: 1, value, ..decide }.payload(&message, &message))?;
        }
    }
    Ok(())
}

/// Every number of a finding, replaced by each value that is tried, and each reason by each other.
fn every_number(random: &mut Random, out: &mut impl Write) -> io::Result<()> {
    for turn in 0..40 {
        let (message, entries) = one(&FAMILY, random);
        let limit = if turn % 2 == 0 { CRATES_LIMIT } else { limit(random, &message) };
        let decide = Decide { limit, cells: 2 * entries + random.below(2), ..PLAIN };
        let finding = found(&message, limit);
        for which in 1..=NUMBERS.len() as u8 {
            for value in values(&finding, which) {
                put(out, DECIDE, &Decide { which, value, ..decide }.payload(&message, &message))?;
            }
        }
        for value in 0..=5 {
            put(out, DECIDE, &Decide { which: 18, value, ..decide }.payload(&message, &message))?;
        }
    }
    Ok(())
}

/// Two records of the same kind with bodies of each short size, most of them ill-formed, behind the lists: walked, and one
/// decided from the finding of the other.
fn ill_formed(random: &mut Random, out: &mut impl Write) -> io::Result<()> {
    for kind in 0..16 {
        for size in 0..7 {
            for other_size in 0..7 {
                let before = (FAMILY.lists)(random).concat();
                let mut message = |size: usize| {
                    let there = random.bytes(size);
                    let cut = if random.once_in(3) { random.below(size + 1) } else { 0 };
                    let mut message = [before.clone(), record(word(random, kind), size, &there)].concat();
                    message.truncate(message.len() - cut);
                    if cut == 0 && random.once_in(2) {
                        message.extend_from_slice(&END);
                    }
                    message
                };
                let (walked, message) = (message(other_size), message(size));
                put(out, WALK, &walk(CRATES_LIMIT, &message))?;
                put(out, DECIDE, &PLAIN.payload(&walked, &message))?;
            }
        }
    }
    Ok(())
}

/// Two requests of which the findings differ in one number or one first body at most: decided from the finding of the other
/// as it is, with that number put right, and with it or another one replaced by some other value.
fn one_apart(random: &mut Random, out: &mut impl Write) -> io::Result<()> {
    for turn in 0..2000 {
        let mut pair =
            if turn % 2 == 0 { nearly_the_same(random) } else { but_for_a_first_body(random, turn / 2 % 16) };
        if random.once_in(2) {
            pair.reverse();
        }
        let [walked, message] = pair;
        let (found, there) = (found(&walked, PLAIN.limit), found(&message, PLAIN.limit));
        put(out, DECIDE, &PLAIN.payload(&walked, &message))?;
        if let Some(which) = (1..=NUMBERS.len() as u8).find(|&which| found.number(which) != there.number(which)) {
            let decide = Decide { which, value: there.number(which), ..PLAIN };
            put(out, DECIDE, &decide.payload(&walked, &message))?;
            let value = random.pick(&values(&there, which));
            put(out, DECIDE, &Decide { value, ..decide }.payload(&walked, &message))?;
        }
        put(out, DECIDE, &replaced(random, PLAIN, &walked).payload(&walked, &message))?;
    }
    Ok(())
}

/// Two requests that end or are refused alike, and differ in a record behind the first of its kind: it is parted in two, of
/// another length or of another kind; or they differ in what is there of the last body.
fn nearly_the_same(random: &mut Random) -> [Vec<u8>; 2] {
    let [kind, other_kind] = random.pick(&[[6, 8], [8, 13], [13, 15], [15, 6]]);
    let mut records = (FAMILY.lists)(random);
    records.extend([kind, other_kind].map(|kind| sized(random, kind, 3)));
    shuffle(random, &mut records);
    let (size, more) = (random.below(12), random.below(12));
    let one = sized(random, kind, size);
    let [one, other] = match random.below(4) {
        0 => {
            let parted = [one, sized(random, kind, more)].concat();
            [sized(random, kind, size + 4 + more), parted]
        }
        1 => [one, sized(random, kind, more)],
        2 => [one, sized(random, other_kind, size)],
        _ => {
            let kind = random.pick(&[6, 7, 13, 14]);
            let (size, there): (usize, [&[u8]; 2]) = match kind {
                7 => (random.between(3, 9), [&[0], &[0, 123]]),
                _ => (random.between(2, 9), [b"x", &[0xff]]),
            };
            there.map(|there| record(kind, size, there))
        }
    };
    let last = match random.below(4) {
        0 => END.to_vec(),
        1 => short(random, 1),
        2 => record(0x8002, 2, &[0, 1]),
        _ => Vec::new(),
    };
    [one, other].map(|differing| [records.concat(), differing, last.clone()].concat())
}

/// Two requests that differ in where the first body of that kind begins or how long it is, and besides in the lengths of
/// records that are not the first of theirs; where that kind stops the walk, in its place too.
fn but_for_a_first_body(random: &mut Random, kind: u16) -> [Vec<u8>; 2] {
    let counted_apart = |other: &u16| *other != kind && (is_known(kind) || is_known(*other));
    let others: Vec<u16> = [6, 8, 13, 15].into_iter().filter(counted_apart).collect();
    let repeated = random.pick(&others);
    let (size, more) = (4 * random.below(4), 4 * random.between(1, 3));
    let first = sized(random, repeated, size);
    let [one, other] = if random.once_in(2) {
        let record = sized(random, kind, size);
        let [one, other] = [size, size + more].map(|size| sized(random, repeated, size));
        [[&one[..], &record, &other].concat(), [&other[..], &record, &one].concat()]
    } else {
        [0, more].map(|added| {
            let record = sized(random, kind, size + added);
            [record, sized(random, repeated, more - added)].concat()
        })
    };
    let last = if random.once_in(2) { END.to_vec() } else { Vec::new() };
    [one, other].map(|differing| [first.clone(), differing, last.clone()].concat())
}

/// A record with its bit clear and a body of that size, if the kind allows it.
fn sized(random: &mut Random, kind: u16, size: usize) -> Vec<u8> {
    let body = body(random, kind, size);
    record(kind, body.len(), &body)
}

/// Requests around the crate's limit, under it and around it, with bytes after their end.
fn around(random: &mut Random, out: &mut impl Write) -> io::Result<()> {
    for length in CRATES_LIMIT - 6..=CRATES_LIMIT + 6 {
        for more in [0, 1, 5] {
            let mut message = of_length(&FAMILY, random, length);
            message.resize(length + more, 0x80);
            let near = CRATES_LIMIT + random.below(9) - 4;
            for limit in [CRATES_LIMIT, near, LARGEST_LIMIT] {
                put(out, WALK, &walk(limit, &message))?;
                let decide = Decide { limit, cells: CELLS, ..PLAIN };
                put(out, DECIDE, &decide.payload(&message, &message))?;
                let value = random.pick(&[CRATES_LIMIT, length, length - 1, length + 1]) as u64;
                put(out, DECIDE, &Decide { which: 1, value, ..decide }.payload(&message, &message))?;
            }
        }
    }
    Ok(())
}

/// Requests around the largest limit; pairs that are as long as a payload allows; and a short request with as many bytes
/// behind it as there can be, either of which is walked.
fn long(random: &mut Random, out: &mut impl Write) -> io::Result<()> {
    for length in LARGEST_LIMIT - 6..=LARGEST_LIMIT + 6 {
        let mut message = of_length(&FAMILY, random, length);
        for more in [0, 1, 5] {
            message.resize(length + more, 0x80);
            for limit in [LARGEST_LIMIT, LARGEST_LIMIT - random.below(9)] {
                put(out, WALK, &walk(limit, &message))?;
            }
        }
    }
    let decide = Decide { limit: LARGEST_LIMIT, cells: CELLS, ..PLAIN };
    for room in [LONGEST, LONGEST - 1, LONGEST + 1] {
        let longest = (room - HEAD) / 2;
        for length in [longest, longest - 1, longest - 40] {
            let mut message = of_length(&FAMILY, random, length);
            message.resize(room - HEAD - longest, 0x80);
            put(out, DECIDE, &decide.payload(&message, &message))?;
            put(out, DECIDE, &replaced(random, decide, &message).payload(&message, &message))?;
        }
    }
    for _ in 0..12 {
        let (records, _) = (FAMILY.message)(random);
        let short = records.concat();
        let mut message = short.clone();
        message.resize(LARGEST_LIMIT, 0x80);
        let room = LONGEST - HEAD - LARGEST_LIMIT;
        if short.len() <= room {
            put(out, DECIDE, &decide.payload(&short, &message))?;
            put(out, DECIDE, &decide.payload(&message, &short))?;
            let value = random.pick(&[CRATES_LIMIT, short.len(), short.len() - 1]) as u64;
            put(out, DECIDE, &Decide { which: 1, value, ..decide }.payload(&short, &message))?;
        }
    }
    Ok(())
}

/// As many records of a kind as a message can have, and as a pair of messages can.
fn many(random: &mut Random, out: &mut impl Write) -> io::Result<()> {
    for kind in [6, 8, 13, 15, 0x7fff] {
        let records = |count: usize| record(kind, 0, &[]).repeat(count);
        for (count, last) in [(16_383, &[][..]), (16_382, &END), (16_383, &END), (16_381, &[0x80, 1, 0, 0, 0x80, 0, 0])]
        {
            put(out, WALK, &walk(LARGEST_LIMIT, &[&records(count)[..], last].concat()))?;
        }
        let half = (LONGEST - HEAD) / 8 - 6;
        let lists = (FAMILY.lists)(random).concat();
        let decide = Decide { limit: LARGEST_LIMIT, cells: CELLS, ..PLAIN };
        for count in [half, 256, 255] {
            let message = [&records(count)[..], &lists, &END].concat();
            if HEAD + 2 * message.len() <= LONGEST {
                put(out, DECIDE, &decide.payload(&message, &message))?;
            }
            let message = [&records(count)[..], &END].concat();
            put(out, DECIDE, &decide.payload(&message, &message))?;
            put(out, DECIDE, &replaced(random, decide, &message).payload(&message, &message))?;
        }
    }
    Ok(())
}

/// Names around the room of a table.
fn rooms(random: &mut Random, out: &mut impl Write) -> io::Result<()> {
    let most = [ENTRIES - 1, ENTRIES, ENTRIES + 1];
    for entries in (0..=12).chain(most) {
        for cells in (2 * entries).saturating_sub(3)..=(2 * entries + 3).min(CELLS) {
            let mut records = (FAMILY.lists)(random);
            for _ in 0..entries {
                records.push(short(random, FAMILY.entry));
            }
            shuffle(random, &mut records);
            records.push(END.to_vec());
            let message = records.concat();
            let decide = Decide { limit: LARGEST_LIMIT, cells, ..PLAIN };
            put(out, DECIDE, &decide.payload(&message, &message))?;
            put(out, DECIDE, &replaced(random, decide, &message).payload(&message, &message))?;
        }
    }
    Ok(())
}

/// Payloads that do not fit the ops, and the largest values that do.
fn bad(random: &mut Random, out: &mut impl Write) -> io::Result<()> {
    let message = [(FAMILY.lists)(random).concat(), END.to_vec()].concat();
    for length in 0..=4 {
        put(out, WALK, &walk(LARGEST_LIMIT, &[])[..length])?;
    }
    for limit in [LARGEST_LIMIT, LARGEST_LIMIT + 1, 262_144, 262_145, u32::MAX as usize] {
        put(out, WALK, &walk(limit, &message))?;
        put(out, DECIDE, &Decide { limit, ..PLAIN }.payload(&message, &message))?;
    }
    let good = PLAIN.payload(&message, &message);
    for length in 0..=good.len() {
        put(out, DECIDE, &good[..length])?;
    }
    for cells in [CELLS, CELLS + 1, 4096, 65_535] {
        put(out, DECIDE, &Decide { cells, ..PLAIN }.payload(&message, &message))?;
    }
    for which in 0..=255 {
        for value in [0, u64::MAX] {
            put(out, DECIDE, &Decide { which, value, ..PLAIN }.payload(&message, &message))?;
        }
    }
    for which in 0..=18 {
        for value in [4, 5, 255, 256, 65_535, 65_536, 65_537, 1 << 32, 1 << 63] {
            put(out, DECIDE, &Decide { which, value, ..PLAIN }.payload(&message, &message))?;
        }
    }
    for op in [WALK, DECIDE] {
        for length in [LONGEST, LONGEST + 1] {
            put(out, op, &vec![0; length])?;
        }
    }
    Ok(())
}

/// A request that is walked, or decided from its finding, from one with a number replaced, or from the finding of other
/// bytes, with a number replaced at times.
fn random_case(random: &mut Random, out: &mut impl Write) -> io::Result<()> {
    let (mut records, entries) = (FAMILY.message)(random);
    if random.once_in(3) {
        mutate(random, &mut records);
    }
    let mut message = records.concat();
    if random.once_in(12) {
        spoil(random, &mut message);
    }
    let limit = if random.once_in(3) { limit(random, &message) } else { CRATES_LIMIT };
    let cells = match random.below(16) {
        0 => CELLS,
        1..5 => random.below(14),
        _ => 2 * entries + 2 + random.below(2),
    };
    let decide = Decide { limit, cells, which: 0, value: random.word() };
    let (decide, walked) = match random.below(10) {
        0..3 => return put(out, WALK, &walk(limit, &message)),
        3 | 4 => (decide, message.clone()),
        5 | 6 => (replaced(random, decide, &message), message.clone()),
        _ => {
            let mut walked = altered(random, &records).concat();
            if random.once_in(2) {
                (walked, message) = (message, walked);
            }
            (if random.once_in(6) { replaced(random, decide, &walked) } else { decide }, walked)
        }
    };
    put(out, DECIDE, &decide.payload(&walked, &message))
}

/// What the walk finds.
fn found(message: &[u8], limit: usize) -> Finding {
    Finding::of(message, limit.try_into().expect("a limit"))
}

/// A case with any number replaced, most often by one near it; for a limit, also by one near where records begin.
fn replaced(random: &mut Random, decide: Decide, walked: &[u8]) -> Decide {
    let which = random.between(1, NUMBERS.len()) as u8;
    let value = match random.below(4) {
        0 if which == 1 => limit(random, walked) as u64,
        0 => random.below(5) as u64,
        _ => random.pick(&values(&found(walked, decide.limit), which)),
    };
    Decide { which, value, ..decide }
}

/// What a number of a finding is replaced by: itself, numbers near it, 0, another number of the finding, and such as are the
/// same when they are cut to fewer bits.
fn values(finding: &Finding, which: u8) -> [u64; 8] {
    let own = finding.number(which);
    let next = if usize::from(which) < NUMBERS.len() { which + 1 } else { 2 };
    [own, own + 1, own.saturating_sub(1), own + 4, 0, finding.number(next), own + (1 << 16), own + (1 << 32)]
}

/// Other records: these with something altered.
fn altered(random: &mut Random, records: &[Vec<u8>]) -> Vec<Vec<u8>> {
    let mut other = records.to_vec();
    let count = other.len();
    if count == 0 {
        return vec![good(random)];
    }
    let at = random.below(count);
    match random.below(16) {
        // What no finding tells: bytes behind the end record, contents, a known kind's bit, an unknown one's number.
        0 => other.push(good(random)),
        1 => other.push(vec![0x80]),
        2 | 3 => {
            let (kind, size) = (kind(&other[at]), other[at].len() - 4);
            let body = body(random, kind, size);
            other[at].splice(4.., body);
        }
        4 if is_known(kind(&other[at])) => other[at][0] ^= CRITICAL.to_be_bytes()[0],
        4 => other[at][1] ^= 0x40,
        // What most tell: a record more or fewer, the order, sizes, a kind, another request.
        5 => other.insert(at, good(random)),
        6 => {
            let added = if random.once_in(2) { unknown(random, 0) } else { short(random, FAMILY.entry) };
            other.insert(at, added);
        }
        7 => drop(other.remove(at)),
        8 | 9 => other.swap(at, random.below(count)),
        10 | 11 => {
            let alike: Vec<usize> = (0..count).filter(|&index| kind(&other[index]) == kind(&other[at])).collect();
            other.swap(at, random.pick(&alike));
        }
        12 => other[at] = short(random, kind(&records[at])),
        13 => {
            let longer = random.below(count);
            let more = 2 * random.between(1, 3);
            if other[at].len() >= 4 + more {
                let sizes = [(at, other[at].len() - 4 - more), (longer, other[longer].len() - 4 + more)];
                for (index, size) in sizes.into_iter().filter(|_| longer != at) {
                    let kind = kind(&other[index]);
                    other[index] = record(word(random, kind), size, &body_of(random, kind, size));
                }
            }
        }
        14 => {
            let kind: u8 = random.pick(&[0, 1, 4, 6, 8, 9, 11, 13, 14, 15]);
            other[at][1] = kind;
        }
        _ => other = (FAMILY.message)(random).0,
    }
    other
}

/// A body of exactly that size, a good one where the kind allows the size.
fn body_of(random: &mut Random, kind: u16, size: usize) -> Vec<u8> {
    let mut body = body(random, kind, size);
    body.resize(size, 0);
    body
}
