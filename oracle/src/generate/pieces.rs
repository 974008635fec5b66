//! Messages of a family cut in pieces, and what they are fed under: limits, buffers and tables around what they need, with
//! the line closed behind them and not.

use std::io::{self, Write};

use super::messages::{ENTRIES, Family, of_length, one, short, shuffle, word};
use super::payloads::Feed;
use super::record;
use super::tokens::{END, sequences};
use crate::corpus::{CELLS, CRATES_LIMIT, LARGEST_LIMIT, put};
use crate::payload::ROOM;
use crate::random::Random;

/// A piece can have so many bytes.
const LONGEST_PIECE: usize = 65_535;

/// The corpus: `count` random messages of each family behind those that are cut in every way.
pub fn pieces(families: &[Family], seed: u64, count: u64, out: &mut impl Write) -> io::Result<()> {
    for family in families {
        let mut random = Random::new(seed, &format!("pieces of {}", family.name));
        every_way(family, &mut random, out)?;
        ill_formed(family, &mut random, out)?;
        tokens(family, &mut random, 2, out)?;
        around(family, &mut random, out, CRATES_LIMIT, 4)?;
        around(family, &mut random, out, LARGEST_LIMIT, 1)?;
        full_tables(family, &mut random, out)?;
        bad(family, &mut random, out)?;
        for _ in 0..count {
            let (mut message, entries) = one(family, &mut random);
            if random.once_in(6) {
                message.truncate(random.below(message.len() + 1));
            }
            random_feed(family, &mut random, out, &message, entries)?;
        }
    }
    Ok(())
}

/// All sequences of up to three records of each family, cut.
pub fn pieces_of_tokens(families: &[Family], seed: u64, out: &mut impl Write) -> io::Result<()> {
    for family in families {
        let mut random = Random::new(seed, &format!("pieces of tokens of {}", family.name));
        tokens(family, &mut random, 3, out)?;
    }
    Ok(())
}

/// All sequences of up to so many records, as they are and with an end record.
fn tokens(family: &Family, random: &mut Random, most: u32, out: &mut impl Write) -> io::Result<()> {
    let tokens = (family.tokens)();
    for count in 0..=most {
        sequences(&tokens, count, &mut |sequence| {
            let bare = sequence.concat();
            random_feed(family, random, out, &bare, 1)?;
            random_feed(family, random, out, &[&bare[..], &END].concat(), 1)
        })?;
    }
    Ok(())
}

/// Short messages, some of them altered: byte by byte, in two pieces at every place, of every length, with every buffer and
/// under every limit.
fn every_way(family: &Family, random: &mut Random, out: &mut impl Write) -> io::Result<()> {
    for turn in 0..48 {
        let (mut message, entries) = one(family, random);
        message.truncate(160);
        let length = message.len();
        let cells = 2 * entries + 2;
        let plain = Feed { limit: CRATES_LIMIT, cells, buffer: length, close: turn % 2 == 0 };
        let mut case = |random: &mut Random, feed: Feed, pieces: &[&[u8]]| family.put_fed(random, out, feed, pieces);

        let bytes: Vec<&[u8]> = message.chunks(1).collect();
        for buffer in [length.saturating_sub(1), length, length + 1, ROOM] {
            for close in [false, true] {
                case(random, Feed { buffer, close, ..plain }, &bytes)?;
            }
        }
        for place in 0..=length {
            let (before, behind) = message.split_at(place);
            case(random, plain, &[before, behind])?;
            case(random, Feed { close: place % 2 == 0, ..plain }, &[before])?;
            let close = random.once_in(2);
            let pieces = cut(&message, &cuts(random, &message));
            case(random, Feed { buffer: place, close, ..plain }, &pieces)?;
            let limit = place + random.below(3);
            let buffer = random.pick(&[length, length + 1, limit, limit.saturating_sub(1), place]);
            let pieces = cut(&message, &cuts(random, &message));
            case(random, Feed { limit, buffer, close, ..plain }, &pieces)?;
        }
    }
    Ok(())
}

/// A record of each kind with a body of each short size, most of them ill-formed, behind the lists: byte by byte, under a
/// limit at each of its places, closed behind each of them, and with a buffer that ends there.
fn ill_formed(family: &Family, random: &mut Random, out: &mut impl Write) -> io::Result<()> {
    for kind in 0..16 {
        for size in 0..7 {
            let before = (family.lists)(random).concat();
            let message =
                [before.clone(), record(word(random, kind), size, &random.bytes(size)), END.to_vec()].concat();
            let plain = Feed { limit: CRATES_LIMIT, cells: 4, buffer: message.len(), close: false };
            for place in before.len()..before.len() + 5 + size {
                for feed in [Feed { limit: place, ..plain }, Feed { buffer: place, ..plain }] {
                    family.put_fed(random, out, feed, &pieces_of(&message, 1))?;
                }
                family.put_fed(random, out, Feed { close: true, ..plain }, &pieces_of(&message[..place], 1))?;
            }
        }
    }
    Ok(())
}

/// Messages around a limit, under it and around it, with bytes after their end, and buffers around both.
fn around(family: &Family, random: &mut Random, out: &mut impl Write, limit: usize, times: usize) -> io::Result<()> {
    for _ in 0..times {
        for length in limit - 6..=limit + 6 {
            let mut message = of_length(family, random, length);
            message.resize(length + random.pick(&[0, 1, 5]), 0x80);
            for limit in [limit, (limit + random.below(9) - 4).min(LARGEST_LIMIT), LARGEST_LIMIT] {
                let buffer = random.pick(&[length - 1, length, length + 1, limit - 1, limit, ROOM]);
                let feed = Feed { limit, cells: CELLS, buffer, close: random.once_in(2) };
                let size = random.pick(&[1400, 1024, 4095, 4096, 16_384, 33_000]);
                family.put_fed(random, out, feed, &pieces_of(&message, size))?;
                let at = random.pick(&[limit, length - 1, length, length - 4, length - 2]);
                let at = at.min(message.len()).min(LONGEST_PIECE);
                family.put_fed(random, out, feed, &[&message[..at], &message[at..]])?;
            }
        }
    }
    Ok(())
}

/// Entries around the room of a table.
fn full_tables(family: &Family, random: &mut Random, out: &mut impl Write) -> io::Result<()> {
    let most = [ENTRIES - 1, ENTRIES, ENTRIES + 1];
    for entries in (0..=12).chain(most) {
        for cells in (2 * entries).saturating_sub(3)..=(2 * entries + 3).min(CELLS) {
            let mut records = (family.lists)(random);
            for _ in 0..entries {
                records.push(short(random, family.entry));
            }
            shuffle(random, &mut records);
            records.push(END.to_vec());
            let message = records.concat();
            let feed = Feed { limit: LARGEST_LIMIT, cells, buffer: message.len(), close: random.once_in(2) };
            let pieces = cut(&message, &cuts(random, &message));
            family.put_fed(random, out, feed, &pieces)?;
        }
    }
    Ok(())
}

/// Payloads that do not fit the op, and the largest values that do.
fn bad(family: &Family, random: &mut Random, out: &mut impl Write) -> io::Result<()> {
    let message = [(family.lists)(random).concat(), END.to_vec()].concat();
    let feed = Feed { limit: LARGEST_LIMIT, cells: CELLS, buffer: ROOM, close: true };
    let lists = family.good_lists(random, &message, 22);
    let good = [&lists[..], &feed.payload(message.chunks(5))].concat();
    for length in 0..=good.len() {
        put(out, family.fed, &good[..length])?;
    }
    put(out, family.fed, &[&good[..], &[0]].concat())?;
    for feed in [
        Feed { limit: LARGEST_LIMIT + 1, ..feed },
        Feed { limit: u32::MAX as usize, ..feed },
        Feed { cells: CELLS + 1, ..feed },
        Feed { cells: 65_535, ..feed },
        Feed { buffer: ROOM + 1, ..feed },
        Feed { buffer: u32::MAX as usize, ..feed },
    ] {
        family.put_fed(random, out, feed, &pieces_of(&message, 5))?;
    }
    for close in [2, 3, 128, 255] {
        let mut payload = good.clone();
        payload[lists.len() + 10] = close;
        put(out, family.fed, &payload)?;
    }
    Ok(())
}

/// A message in pieces, most often under the crate's limit with room for all of it.
fn random_feed(
    family: &Family,
    random: &mut Random,
    out: &mut impl Write,
    message: &[u8],
    entries: usize,
) -> io::Result<()> {
    let length = message.len();
    let limit = if random.once_in(3) { limit(random, message) } else { CRATES_LIMIT };
    let buffer = match random.below(12) {
        0 => length.saturating_sub(1),
        1 => random.below(length + 1),
        2 => limit.saturating_sub(random.below(2)),
        3 => random.pick(&[0, 1, 4]),
        4..7 => length + random.between(1, 9),
        _ => length,
    };
    let cells = match random.below(16) {
        0 => CELLS,
        1..5 => random.below(14),
        _ => 2 * entries + 2 + random.below(2),
    };
    let feed = Feed { limit, cells, buffer: if random.once_in(400) { ROOM } else { buffer }, close: random.once_in(2) };
    let cuts = cuts(random, message);
    family.put_fed(random, out, feed, &cut(message, &cuts))
}

/// A limit other than the crate's: around the message's length, around where a record begins, inside it, or any.
pub fn limit(random: &mut Random, message: &[u8]) -> usize {
    let around = match random.below(5) {
        0 => message.len(),
        1 | 2 => random.pick(&places(message)),
        3 => random.below(message.len() + 1),
        _ => return random.pick(&[0, LARGEST_LIMIT, CRATES_LIMIT - 1, CRATES_LIMIT + 1]),
    };
    (around + random.below(5)).saturating_sub(2).min(LARGEST_LIMIT)
}

/// Where the records of a message begin, and where the last ends if it is whole.
fn places(message: &[u8]) -> Vec<usize> {
    let mut places = vec![0];
    let mut place = 0;
    while let [_, _, s0, s1, ..] = message[place..] {
        place += 4 + usize::from(u16::from_be_bytes([s0, s1]));
        if place > message.len() {
            break;
        }
        places.push(place);
    }
    places
}

/// Where a message is cut: nowhere, everywhere, at one place, inside each header, inside each character of more than one
/// byte, after each so many bytes, or anywhere; now and then with empty pieces.
fn cuts(random: &mut Random, message: &[u8]) -> Vec<usize> {
    let length = message.len();
    let mut cuts: Vec<usize> = match random.below(8) {
        0 => Vec::new(),
        1 if length <= 400 => (1..length).collect(),
        1 | 2 => vec![random.below(length + 1)],
        3 => places(message).iter().map(|place| place + random.below(5)).collect(),
        4 => (0..length).filter(|&at| message[at] & 0xc0 == 0x80).collect(),
        5 => {
            let size = random.between(1, 40);
            (1..length.div_ceil(size)).map(|count| count * size).collect()
        }
        _ => (0..random.between(1, 9)).map(|_| random.below(length + 1)).collect(),
    };
    if random.once_in(4) {
        for _ in 0..random.between(1, 3) {
            let at = if cuts.is_empty() { random.pick(&[0, length]) } else { random.pick(&cuts) };
            cuts.push(at);
        }
    }
    cuts.retain(|&at| at <= length);
    cuts.sort_unstable();
    cuts
}

/// The pieces of a message that is cut at those places.
fn cut<'a>(message: &'a [u8], cuts: &[usize]) -> Vec<&'a [u8]> {
    let starts = [0].into_iter().chain(cuts.iter().copied());
    let ends = cuts.iter().copied().chain([message.len()]);
    starts.zip(ends).map(|(start, end)| &message[start..end]).collect()
}

/// The pieces of a message of so many bytes each.
fn pieces_of(message: &[u8], size: usize) -> Vec<&[u8]> {
    message.chunks(size).collect()
}
