//! Demand 3 by running: judges the answers to the corpus `orders`. In it an accepted request or reply stands before its
//! three variants; that they are such is found here from the messages' own bytes, not taken from what made them.

use std::collections::BTreeMap;
use std::fmt;
use std::io::{self, BufRead, Write};

use crate::compare::{LEAST, SHOWN, hexadecimal, next_line, open, shortened};
use crate::corpus::{CRATES_LIMIT, Cases, LARGEST_LIMIT};
use crate::generate::{CRITICAL, Family, REPLIES, REQUESTS, is_known, kind, word};

/// The messages of a group, in the corpus' order.
const SORTS: [&str; 4] = [
    "original",
    "variant in another order",
    "variant with an unknown record, bit clear",
    "variant with an unknown record, bit set",
];

/// What is asked of the originals of a family.
struct Originals {
    family: Family,
    /// Which there must be.
    asked: &'static [&'static str],
    /// Which of them a message's records are; none where they are those of no message of the family. It is not tested
    /// there that it is accepted.
    which: fn(&Walk) -> Option<Vec<&'static str>>,
}

static ORIGINALS: [Originals; 2] = [
    Originals { family: REQUESTS, asked: &ORIGINAL_REQUESTS, which: original_request },
    Originals { family: REPLIES, asked: &ORIGINAL_REPLIES, which: original_reply },
];
const ORIGINAL_REQUESTS: [&str; 8] = [
    "key-exchange without denied names",
    "key-exchange with one denied name",
    "key-exchange with two or more denied names",
    "fixed-key with algorithm 15",
    "fixed-key with algorithm 17",
    "support for protocols",
    "support for algorithms",
    "support for both",
];
const ORIGINAL_REPLIES: [&str; 7] = [
    "reply with one cookie",
    "reply with two to eight cookies",
    "reply with more than eight cookies",
    "reply with a server",
    "reply with a port",
    "reply with keep-alive",
    "reply with none of the three",
];

/// Messages and, in the same order, the lines that answer them.
type Messages = [Vec<u8>; SORTS.len()];

/// Judges the crate's and the probe's answers, tells the first wrong ones and what was counted; false where an answer is
/// wrong, answers are missing or too many, something counted is too little, or the probe is said to have failed.
pub fn judge(corpus: &str, crates: &str, probes: &str, failed: bool, out: &mut impl Write) -> io::Result<bool> {
    let mut cases = Cases::new(open(corpus)?);
    let mut answers = [("crate", open(crates)?), ("probe", open(probes)?)];
    let mut counts = Counts::default();
    while let Some((originals, messages)) = group(&mut cases)? {
        let first = counts.groups * SORTS.len() as u64;
        let found = Group::of(originals, &messages).map_err(|fault| {
            io::Error::other(format!("the corpus is none of orders: case {first} or one of the next three: {fault}"))
        })?;
        counts.add(&found, &messages);
        let mut crates_original = None;
        for (who, lines) in &mut answers {
            let Some(lines) = group_of_lines(lines)? else {
                writeln!(out, "case {first} and those after it: not all have an answer of the {who}")?;
                counts.wrong += 1;
                return counts.told(true, out);
            };
            for (index, line) in lines.iter().enumerate() {
                let expected = found.expected(index, &lines, crates_original.as_ref());
                if expected.met_by(line) {
                    continue;
                }
                counts.wrong += 1;
                if counts.wrong <= SHOWN {
                    let (case, sort) = (first + index as u64, SORTS[index]);
                    writeln!(out, "case {case}, {sort}: {}", hexadecimal(&messages[index]))?;
                    if index > 0 {
                        writeln!(out, "  original: {}", hexadecimal(&messages[0]))?;
                    }
                    writeln!(out, "  expected: {expected}\n  {who}: {}", shortened(line))?;
                }
            }
            crates_original = crates_original.or_else(|| lines.into_iter().next());
        }
    }
    for (who, lines) in &mut answers {
        if next_line(lines, &mut Vec::new())? {
            writeln!(out, "the {who} gave more answers than there are messages")?;
            counts.wrong += 1;
        }
    }
    counts.told(failed, out)
}

#[derive(Default)]
struct Counts {
    /// Originals, each with its variants.
    groups: u64,
    /// Originals by what is asked for.
    originals: BTreeMap<&'static str, u64>,
    /// Variants in an order that is not their original's.
    reordered: u64,
    /// Messages that the crate's own file would cut.
    long: usize,
    /// Wrong answers of the crate and of the probe.
    wrong: u64,
}

impl Counts {
    fn add(&mut self, found: &Group, messages: &Messages) {
        self.groups += 1;
        for &original in &found.originals {
            *self.originals.entry(original).or_default() += 1;
        }
        self.reordered += u64::from(found.reordered);
        self.long += messages.iter().filter(|message| message.len() > CRATES_LIMIT).count();
    }

    /// Writes what was counted; false where something is wrong, too little or said to have failed.
    fn told(&self, failed: bool, out: &mut impl Write) -> io::Result<bool> {
        let number = |original| (original, self.originals.get(original).copied().unwrap_or_default());
        let originals = ORIGINALS.iter().flat_map(|originals| originals.asked).copied().map(number);
        let variants = SORTS[1..].iter().map(|&sort| (sort, self.groups));
        let reordered = [("originals with an order that is not their own", self.reordered)];
        let mut good = self.wrong == 0 && !failed;
        for (what, number) in originals.chain(variants).chain(reordered) {
            let few = number < LEAST;
            good &= !few;
            writeln!(out, "{what}: {number}{}", if few { ", too few" } else { "" })?;
        }
        writeln!(
            out,
            "messages over {CRATES_LIMIT} bytes, read by a copy and not the crate's own file: {}",
            self.long
        )?;
        let messages = self.groups * (SORTS.len() as u64 - 1);
        let end = if good { "" } else { ": FAILED" };
        writeln!(out, "{messages} messages in other orders, {} differ{end}", self.wrong)?;
        Ok(good)
    }
}

/// The next messages and what is asked of their original; none where the corpus is at its end.
fn group(cases: &mut Cases<impl BufRead>) -> io::Result<Option<(&'static Originals, Messages)>> {
    let mut messages = Messages::default();
    let mut originals = None;
    let mut lists = Vec::new();
    for (index, message) in messages.iter_mut().enumerate() {
        if !cases.advance()? {
            return if index == 0 { Ok(None) } else { Err(io::Error::other("the corpus ends between variants")) };
        }
        let of = |originals: &'static Originals| {
            let (lists, message) = originals.family.largest_message(cases.op, &cases.payload)?;
            Some((originals, lists.to_vec(), message.to_vec()))
        };
        let found = originals.map_or_else(|| ORIGINALS.iter().find_map(of), of).filter(|_| !cases.too_long);
        let (first, offered, bytes) = found.ok_or_else(|| io::Error::other("the corpus has a case of another op"))?;
        if index > 0 && offered != lists {
            return Err(io::Error::other("the corpus has a variant with other lists than its original's"));
        }
        originals = Some(first);
        lists = offered;
        *message = bytes;
    }
    Ok(originals.map(|originals| (originals, messages)))
}

/// The next lines; none where there are too few.
fn group_of_lines(input: &mut impl BufRead) -> io::Result<Option<Messages>> {
    let mut lines = Messages::default();
    for line in &mut lines {
        if !next_line(input, line)? {
            return Ok(None);
        }
    }
    Ok(Some(lines))
}

/// What the bytes of an original and its variants tell.
struct Group {
    /// Which of those asked for the original is.
    originals: Vec<&'static str>,
    /// Whether the other order is not the original's own.
    reordered: bool,
    /// The place of the record put in with its bit set.
    place: usize,
}

impl Group {
    fn of(originals: &Originals, messages: &Messages) -> Result<Self, &'static str> {
        let walk = |message| Walk::of(message).ok_or("a message has no end record within the limit");
        let [original, other] = [walk(&messages[0])?, walk(&messages[1])?];
        if original.sorted() != other.sorted() || original.end != other.end {
            return Err("the other order has other records");
        }
        let entry = originals.family.entry;
        if !original.of_kind(entry).eq(other.of_kind(entry)) {
            return Err("the denied names or cookies are in another order");
        }
        if original.tail == other.tail {
            return Err("the other order has the same tail");
        }
        original.put_in(&walk(&messages[2])?, 0)?;
        let place = original.put_in(&walk(&messages[3])?, CRITICAL)?;
        let originals = (originals.which)(&original).ok_or("the original's records are those of no message")?;
        Ok(Self { originals, reordered: original.records != other.records, place })
    }

    /// What a line must be, given those of all four messages and, for the probe, the crate's for the original.
    fn expected<'a>(&self, index: usize, lines: &'a Messages, crates_original: Option<&'a Vec<u8>>) -> Expected<'a> {
        match (index, crates_original) {
            (0, Some(line)) => Expected::Line(line),
            (0, None) => Expected::Word(self.originals[0].split(' ').next().expect("a word")),
            (1 | 2, _) => Expected::Line(&lines[0]),
            _ => Expected::Refused(self.place),
        }
    }
}

/// What a line must be.
enum Expected<'a> {
    /// Beginning with this word: accepted, as that request or reply.
    Word(&'a str),
    /// This one.
    Line(&'a [u8]),
    /// Refusal 3 at this place.
    Refused(usize),
}

impl Expected<'_> {
    fn met_by(&self, line: &[u8]) -> bool {
        match self {
            Self::Word(word) => line.split(|&byte| byte == b' ').next() == Some(word.as_bytes()),
            Self::Line(expected) => line == *expected,
            Self::Refused(_) => line == self.to_string().as_bytes(),
        }
    }
}

impl fmt::Display for Expected<'_> {
    fn fmt(&self, f: &mut fmt::Formatter<'_>) -> fmt::Result {
        match self {
            Self::Word(word) => write!(f, "{word} .."),
            Self::Line(line) => write!(f, "{}", shortened(line)),
            Self::Refused(place) => write!(f, "refused 3 at {place}"),
        }
    }
}

/// A message's records before its end record, that record, and what stands after it.
struct Walk<'a> {
    records: Vec<&'a [u8]>,
    end: &'a [u8],
    tail: &'a [u8],
}

impl<'a> Walk<'a> {
    /// Walks by the records' sizes; none where there is no end record within the limit.
    fn of(message: &'a [u8]) -> Option<Self> {
        let mut records = Vec::new();
        let mut rest = message;
        loop {
            let &[_, _, high, low] = rest.first_chunk()?;
            let (record, behind) = rest.split_at_checked(4 + usize::from(u16::from_be_bytes([high, low])))?;
            if kind(record) == 0 {
                let within = message.len() - behind.len() <= LARGEST_LIMIT;
                return within.then_some(Self { records, end: record, tail: behind });
            }
            records.push(record);
            rest = behind;
        }
    }

    fn sorted(&self) -> Vec<&'a [u8]> {
        let mut records = self.records.clone();
        records.sort_unstable();
        records
    }

    fn of_kind(&self, wanted: u16) -> impl Iterator<Item = &'a [u8]> {
        self.records.iter().copied().filter(move |record| kind(record) == wanted)
    }

    /// The place of the one record that the other message has and this one has not: an unknown one with that bit.
    fn put_in(&self, other: &Walk, bit: u16) -> Result<usize, &'static str> {
        let all = [&self.records[..], &[self.end]].concat();
        let mut others = [&other.records[..], &[other.end]].concat();
        let at = all.iter().zip(&others).position(|(ours, theirs)| ours != theirs).ok_or("no record was put in")?;
        let place = others[..at].concat().len();
        let inserted = others.remove(at);
        if others != all || is_known(kind(inserted)) || word(inserted) & CRITICAL != bit {
            return Err("not one unknown record was put in, with its bit");
        }
        Ok(place)
    }

    fn has(&self, kind: u16) -> bool {
        self.of_kind(kind).next().is_some()
    }
}

fn original_request(walk: &Walk) -> Option<Vec<&'static str>> {
    let which = match (walk.has(9), walk.has(10), walk.has(12)) {
        (true, true, _) => 7,
        (false, true, _) => 6,
        (true, false, _) => 5,
        (false, false, true) => match walk.of_kind(4).next()?[4..] {
            [0, 15] => 3,
            [0, 17] => 4,
            _ => return None,
        },
        _ => walk.of_kind(13).count().min(2),
    };
    Some(vec![ORIGINAL_REQUESTS[which]])
}

fn original_reply(walk: &Walk) -> Option<Vec<&'static str>> {
    let cookies = match walk.of_kind(5).count() {
        0 => return None,
        1 => 0,
        2..=8 => 1,
        _ => 2,
    };
    let mut which = vec![cookies];
    for (kind, option) in [(6, 3), (7, 4), (8, 5)] {
        if walk.has(kind) {
            which.push(option);
        }
    }
    if which.len() == 1 {
        which.push(6);
    }
    Some(which.into_iter().map(|which| ORIGINAL_REPLIES[which]).collect())
}
