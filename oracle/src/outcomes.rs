//! The outcomes that can occur, and which of them a case had.

use std::collections::BTreeMap;

use crate::corpus::CRATES_LIMIT;
use crate::nts::choosing::{self, NOT_THE_CRATES, NOT_THE_SERVERS, ODD_ALGORITHMS, ODD_PROTOCOLS};
use crate::nts::findings::{self, ANOTHER_LIMIT, ITS_OWN_BYTES, NUMBERS, OTHER_BYTES, OTHER_COUNTS, OTHER_LENGTHS};
use crate::nts::findings::{OTHER_PLACE, OTHER_REASON, OTHER_STARTS, THE_OTHERS_NUMBER, THE_SAME_NUMBER};
use crate::nts::lines::DISAGREES;
use crate::nts::offered::{ALONE, BETWEEN, FIRST, LAST, NOT, NOT_HERE, NOTHING as NOTHING_OFFERED, TWICE};
use crate::nts::pieces::{self, A_FULL_BUFFER, A_RECORD, NOTHING, THE_CLOSE, THE_LIMIT};
use crate::nts::plans::{self, NOT_PLANNED, NOT_UTF8, OTHER_LENGTH};
use crate::nts::reading;
use crate::nts::replies::{self, AUTHENTICATION, Compared, EMPTY_LIST, MANY_COOKIES, NO_COOKIE, NOT_OFFERED};
use crate::nts::sending;
use crate::nts::trays::{self, BEYOND, CUT, MANY_FIELDS, OTHER_TAG};
use crate::strict;

/// The outcomes that can occur, by what the ops do.
pub const FAMILIES: [(&str, &[&[&str]]); 42] = [
    ("read", &[&READ, &["refused 1", "refused 2"]]),
    ("read c where the top bit is", &[&OTHER_BITS]),
    ("read - where the top bit is", &[&OTHER_BITS]),
    ("write", &[&KINDS, &["a part", "refused 8", "refused 10"], &NO_RECORD]),
    ("measure", &[&KINDS, &["refused 8", "refused 9"]]),
    ("request", &[&REQUESTS]),
    ("reply", &[&REPLIES, &READ_BY]),
    ("reply by the copy, for", &[&DIFFERENCES]),
    ("reply with its protocol offered", &[&OFFERED]),
    ("reply with its algorithm offered", &[&OFFERED]),
    ("fed request", &[&REQUESTS, &FED]),
    ("fed request ended by", &[&ENDED_BY]),
    ("fed reply", &[&REPLIES, &FED, &READ_BY]),
    ("fed reply ended by", &[&ENDED_BY]),
    ("fed reply by the copy, for", &[&DIFFERENCES]),
    ("fed reply with its protocol offered", &[&OFFERED]),
    ("fed reply with its algorithm offered", &[&OFFERED]),
    ("finding", &[&["ended", "refused 1", "refused 2", "refused 3", "refused 4"], &[UNDER_THE_CRATES_LIMIT]]),
    ("finding with", &[&COUNTED]),
    ("finding with more than one of", &[&COUNTED_TWICE]),
    ("decided request", &[&REQUESTS, &[UNDER_THE_CRATES_LIMIT]]),
    ("decided request by a finding let in with", &[&LET_IN]),
    ("decided request refused 9 for", &[&NUMBERS, &OF_OTHER_BYTES]),
    ("strict request", &[&strict::REQUESTS, &strict::EITHER]),
    ("strict reply", &[&strict::REPLIES, &strict::EITHER]),
    ("strict fed request", &[&strict::REQUESTS, &strict::EITHER, &strict::FED]),
    ("strict fed reply", &[&strict::REPLIES, &strict::EITHER, &strict::FED]),
    ("choice", &[&["chosen", "refused 13", "refused 14"], &CHOSEN_BY]),
    ("choice refused 9 for", &[&[ODD_PROTOCOLS, ODD_ALGORITHMS]]),
    ("choice by the copy, for", &[&[NOT_THE_SERVERS, NOT_THE_CRATES]]),
    ("no-protocol", &[&WRITTEN]),
    ("no-algorithm", &[&WRITTEN]),
    ("error", &[&WRITTEN]),
    ("support", &[&SUPPORTS]),
    ("append", &[&["used", "refused 7", "refused 8", "refused 10"]]),
    ("append refused 9 for", &[&BROKEN, &[MANY_FIELDS]]),
    ("plan by calls", &[&PLANS, &["append refused 7", "append refused 10"]]),
    ("plan by calls refused 9 for", &[&NO_NAME]),
    ("plan by hand", &[&PLANS]),
    ("plan by hand refused 9 for", &[&BROKEN, &[MANY_FIELDS], &NO_NAME]),
    ("written request", &[&WRITTEN, &["wrote with names", "wrote with more than eight names", "refused 8"]]),
    ("written request refused 9 for", &[&BROKEN, &[NOT_UTF8]]),
];
/// Each kind with the bit set and with it clear.
const READ: [&str; 30] = [
    "0 c",
    "0 -",
    "1 c",
    "1 -",
    "2 c",
    "2 -",
    "3 c",
    "3 -",
    "4 c",
    "4 -",
    "5 c",
    "5 -",
    "6 c",
    "6 -",
    "7 c",
    "7 -",
    "8 c",
    "8 -",
    "9 c",
    "9 -",
    "10 c",
    "10 -",
    "12 c",
    "12 -",
    "13 c",
    "13 -",
    "14 c",
    "14 -",
    "unknown c",
    "unknown -",
];
/// Other top bits, set and clear beside a record's own.
const OTHER_BITS: [&str; 4] =
    ["set in the size", "clear in the size", "set at the front of the message", "clear at the front of the message"];
const KINDS: [&str; 16] =
    ["0", "1", "2", "3", "4", "5", "6", "7", "8", "9", "10", "12", "13", "14", "unknown c", "unknown -"];
const REQUESTS: [&str; 11] = [
    "key-exchange",
    "key-exchange with names",
    "fixed-key",
    "support",
    "refused 1",
    "refused 2",
    "refused 3",
    "refused 4",
    "refused 5",
    "refused 6",
    "refused 7",
];
const REPLIES: [&str; 19] = [
    "accepted",
    "accepted with server",
    "accepted with port",
    "accepted with server, port",
    "accepted with keep-alive",
    "accepted with server, keep-alive",
    "accepted with port, keep-alive",
    "accepted with server, port, keep-alive",
    "refused 1",
    "refused 2",
    "refused 3",
    "refused 4",
    "refused 7",
    "refused 11",
    "refused 12",
    "refused 13",
    "refused 14",
    "refused 15",
    "refused 17",
];
/// What only a read that is fed in pieces can tell. Of those with an answer: under the crate's own limit, and those to which
/// the crate's reader gives it before the record stands whole.
const FED: [&str; 4] = ["refused 16", "waiting", UNDER_THE_CRATES_LIMIT, JUDGED_EARLY];
const UNDER_THE_CRATES_LIMIT: &str = "answered under the crate's own limit";
const JUDGED_EARLY: &str = "judged by the crate before it is whole";
/// What ended the reading.
const ENDED_BY: [&str; 5] = [A_RECORD, THE_LIMIT, THE_CLOSE, A_FULL_BUFFER, NOTHING];
/// What a finding counts, and what it can count more than one of: an end record, an error, a warning or a cookie stops the
/// walk.
const COUNTED: [&str; 15] = ["0", "1", "2", "3", "4", "5", "6", "7", "8", "9", "10", "12", "13", "14", "unknown"];
const COUNTED_TWICE: [&str; 11] = ["1", "4", "6", "7", "8", "9", "10", "12", "13", "14", "unknown"];
/// With what a finding is let in, and what one of other bytes is refused for.
const LET_IN: [&str; 5] = [ITS_OWN_BYTES, OTHER_BYTES, THE_SAME_NUMBER, ANOTHER_LIMIT, THE_OTHERS_NUMBER];
const OF_OTHER_BYTES: [&str; 5] = [OTHER_COUNTS, OTHER_PLACE, OTHER_REASON, OTHER_STARTS, OTHER_LENGTHS];
/// Whose line a reply's is: that of the crate's reader as it stands, which the edited copy's is then as well, or the edited
/// copy's alone.
const READ_BY: [&str; 2] = ["as the crate reads it", "by the copy with the five edits"];
/// What the copy's line is alone for.
const DIFFERENCES: [&str; 5] = [EMPTY_LIST, AUTHENTICATION, NOT_OFFERED, NO_COOKIE, MANY_COOKIES];
/// How the lists hold what a reply names, where that is asked: after the end, and of the algorithm where the protocol was
/// offered.
const OFFERED: [&str; 8] = [ALONE, FIRST, BETWEEN, LAST, TWICE, NOT, NOT_HERE, NOTHING_OFFERED];
/// Whose choice it is, likewise.
const CHOSEN_BY: [&str; 2] = ["as the crate chooses", "by the copy with one edit"];
/// A message of which nothing can be wrong but the room.
const WRITTEN: [&str; 2] = ["wrote", "refused 10"];
const SUPPORTS: [&str; 12] = [
    "wrote",
    "wrote with algorithms",
    "wrote with protocols",
    "wrote with algorithms, protocols",
    "wrote with keep-alive",
    "wrote with algorithms, keep-alive",
    "wrote with protocols, keep-alive",
    "wrote with algorithms, protocols, keep-alive",
    "refused 8",
    "refused 9 for algorithms that are asked for",
    "refused 9 for algorithms that are not asked for",
    "refused 10",
];
const PLANS: [&str; 10] = [
    "wrote",
    "wrote with port",
    "wrote with server",
    "wrote with port, server",
    "wrote with keep-alive",
    "wrote with port, keep-alive",
    "wrote with server, keep-alive",
    "wrote with port, server, keep-alive",
    "refused 10",
    "refused 15",
];
/// Refusal 9 for a tray of either tag, and for the name that is lent with a plan.
const BROKEN: [&str; 3] = [BEYOND, CUT, OTHER_TAG];
const NO_NAME: [&str; 3] = [NOT_PLANNED, OTHER_LENGTH, NOT_UTF8];
/// Refusal 9 of a writer, by what it was to write.
const NO_RECORD: [&str; 11] = [
    "refused 9 for 1",
    "refused 9 for 4",
    "refused 9 for 6",
    "refused 9 for 9",
    "refused 9 for 10",
    "refused 9 for 12",
    "refused 9 for 13",
    "refused 9 for 14",
    "refused 9 for unknown c",
    "refused 9 for unknown -",
    "refused 9 for a part",
];

/// Adds a case to its outcome's count; if it is a reply's or a choice, to those of what it was compared with, and if a record
/// was read, to those of other top bits.
pub fn count(counts: &mut BTreeMap<String, u64>, op: u8, payload: &[u8], line: &[u8]) {
    match op {
        b'f' | b'F' => return count_fed(counts, op, payload, line),
        b'v' => return count_finding(counts, line),
        b'V' => return count_decided(counts, payload, line),
        b's' | b'S' | b't' | b'T' => return count_strict(counts, op, payload, line),
        _ => {}
    }
    let outcome = outcome(op, payload, line);
    let family = outcome.split(' ').next().unwrap_or_default().to_owned();
    *counts.entry(outcome).or_default() += 1;
    match (op, &family[..]) {
        (b'g', "choice") => {
            if let Some(difference) = choosing::difference_of(payload) {
                count_compared(counts, &family, CHOSEN_BY, difference);
            }
        }
        (_, "reply") => count_reply(counts, &family, op, payload),
        (_, "read") => count_other_bits(counts, op, payload, line),
        _ => {}
    }
}

/// Adds a record that was read to the counts of its bit beside other top bits.
fn count_other_bits(counts: &mut BTreeMap<String, u64>, op: u8, payload: &[u8], line: &[u8]) {
    let [b"ok", b"next", _, bit, ..] = line.splitn(5, |&byte| byte == b' ').collect::<Vec<_>>()[..] else { return };
    let bit = String::from_utf8_lossy(bit);
    for (place, is_set) in reading::other_bits(op, payload) {
        let other = if is_set { "set" } else { "clear" };
        *counts.entry(format!("read {bit} where the top bit is {other} {place}")).or_default() += 1;
    }
}

/// Adds a reply to the counts of what it was compared with and of how the lists hold what it names.
fn count_reply(counts: &mut BTreeMap<String, u64>, family: &str, op: u8, payload: &[u8]) {
    let Some(Compared { difference, offered }) = replies::compared(op, payload) else { return };
    count_compared(counts, family, READ_BY, difference);
    if let Some((protocol, algorithm)) = offered {
        let mut add = |outcome| *counts.entry(outcome).or_default() += 1;
        add(format!("{family} with its protocol offered {protocol}"));
        if let Some(algorithm) = algorithm {
            add(format!("{family} with its algorithm offered {algorithm}"));
        }
    }
}

/// Adds a case to the counts of what it was compared with.
fn count_compared(counts: &mut BTreeMap<String, u64>, family: &str, by: [&str; 2], difference: Option<&str>) {
    let mut add = |outcome| *counts.entry(outcome).or_default() += 1;
    add(format!("{family} {}", by[usize::from(difference.is_some())]));
    if let Some(difference) = difference {
        add(format!("{family} by the copy, for {difference}"));
    }
}

/// Adds a read that is fed in pieces to the counts of its outcome, of what ended it and of what it was compared with.
fn count_fed(counts: &mut BTreeMap<String, u64>, op: u8, payload: &[u8], line: &[u8]) {
    let mut add = |outcome| *counts.entry(outcome).or_default() += 1;
    let text = String::from_utf8_lossy(line);
    let (Some((answer, _)), Some(ended)) = (text.rsplit_once(" held "), pieces::ended(op, payload)) else {
        return add(outcome(op, payload, line));
    };
    let (family, whole) = if op == b'f' { ("request", b'L') } else { ("reply", b'l') };
    let told = outcome(whole, payload, answer.as_bytes());
    if told == DISAGREES {
        return add(told);
    }
    add(format!("fed {family} {}", told.strip_prefix(&format!("{family} ")).unwrap_or(&told)));
    add(format!("fed {family} ended by {}", ended.by));
    if let A_RECORD | THE_LIMIT | THE_CLOSE = ended.by {
        if ended.under_the_crates_limit {
            add(format!("fed {family} {UNDER_THE_CRATES_LIMIT}"));
        }
        if ended.judged_early {
            add(format!("fed {family} {JUDGED_EARLY}"));
        }
        if op == b'F' {
            count_reply(counts, "fed reply", op, payload);
        }
    }
}

/// Adds a finding to the counts of why the walk stopped, of what it met and of those under the crate's own limit.
fn count_finding(counts: &mut BTreeMap<String, u64>, line: &[u8]) {
    let mut add = |outcome| *counts.entry(outcome).or_default() += 1;
    let line = String::from_utf8_lossy(line);
    let words: Vec<&str> = line.split(' ').collect();
    let &["limit", limit, numbers, stopped, ref why @ ..] = &words[..] else {
        return add(line.into_owned());
    };
    add(if stopped == "refused" { format!("finding refused {}", why[0]) } else { format!("finding {stopped}") });
    if limit == CRATES_LIMIT.to_string() {
        add(format!("finding {UNDER_THE_CRATES_LIMIT}"));
    }
    for (kind, number) in COUNTED.into_iter().zip(numbers.trim_matches(['[', ']']).split(',')) {
        if number != "0" {
            add(format!("finding with {kind}"));
        }
        if number != "0" && number != "1" {
            add(format!("finding with more than one of {kind}"));
        }
    }
}

/// Adds a decision from a finding to the counts of its outcome, of how the finding was judged and of those under the crate's
/// own limit.
fn count_decided(counts: &mut BTreeMap<String, u64>, payload: &[u8], line: &[u8]) {
    let mut add = |outcome| *counts.entry(outcome).or_default() += 1;
    let told = outcome(b'L', payload, line);
    let (Some(judged), Some(answer)) = (findings::judged(payload), told.strip_prefix("request ")) else {
        return add(told);
    };
    match judged.finding {
        Ok(let_in) => {
            add(format!("decided request {answer}"));
            add(format!("decided request by a finding let in with {let_in}"));
            if judged.under_the_crates_limit {
                add(format!("decided request {UNDER_THE_CRATES_LIMIT}"));
            }
        }
        Err(fault) => add(format!("decided request {answer} for {fault}")),
    }
}

/// Adds a case of the strict profile to the counts of its outcomes.
fn count_strict(counts: &mut BTreeMap<String, u64>, op: u8, payload: &[u8], line: &[u8]) {
    let mut add = |outcome| *counts.entry(outcome).or_default() += 1;
    let line = String::from_utf8_lossy(line);
    match strict::counted(op, payload) {
        _ if line.starts_with(DISAGREES) => add(DISAGREES.to_owned()),
        None => add(line.into_owned()),
        Some(outcomes) => {
            for outcome in outcomes {
                add(format!("{} {outcome}", strict::family(op)));
            }
        }
    }
}

/// The outcome that the crate's line tells.
fn outcome(op: u8, payload: &[u8], line: &[u8]) -> String {
    if line.starts_with(b"key-exchange") {
        return if line.ends_with(b">") { "request key-exchange with names" } else { "request key-exchange" }
            .to_owned();
    }
    if line.starts_with(b"reply") {
        return format!("reply accepted{}", options(line));
    }
    let line = String::from_utf8_lossy(&line[..line.len().min(64)]);
    if line.starts_with(DISAGREES) {
        return DISAGREES.to_owned();
    }
    let words: Vec<&str> = line.splitn(7, ' ').collect();
    match (op, &words[..]) {
        (b'r' | b'R', ["ok", "next", _, bit, kind, ..]) => format!("read {kind} {bit}"),
        (b'r' | b'R', ["refused", number, ..]) => format!("read refused {number}"),
        (b'w' | b'W' | b'X', ["wrote", ..]) => format!("write {}", to_write(op, payload)),
        (b'w' | b'W' | b'X', ["refused", "9"]) => format!("write refused 9 for {}", to_write(op, payload)),
        (b'w' | b'W' | b'X', ["refused", number]) => format!("write refused {number}"),
        (b'z', ["length", ..]) => format!("measure {}", to_write(op, payload)),
        (b'z', ["refused", number]) => format!("measure refused {number}"),
        (b'q' | b'Q' | b'L', ["refused", number, ..]) => format!("request refused {number}"),
        (b'q' | b'Q' | b'L', [kind @ ("fixed-key" | "support"), ..]) => format!("request {kind}"),
        (b'y' | b'l', ["refused", number, ..]) => format!("reply refused {number}"),
        (b'g', ["chosen", ..]) => "choice chosen".to_owned(),
        (b'g', words) => refused("choice", words, choosing::fault_of(payload)),
        (b'a', ["used", ..]) => "append used".to_owned(),
        (b'a', words) => refused("append", words, trays::fault_of(payload)),
        (b'n' | b'p' | b'P' | b'k', words) if words != ["bad", "case"] => sent(op, payload, words),
        _ => line.into_owned(),
    }
}

/// A refusal, with what is wrong with the case where it is 9.
fn refused(family: &str, words: &[&str], fault: Option<&str>) -> String {
    match (words, fault) {
        ([.., "refused", "9"], Some(fault)) => format!("{family} refused 9 for {fault}"),
        (["append", _, "refused", number], _) => format!("{family} append refused {number}"),
        ([.., "refused", number], _) => format!("{family} refused {number}"),
        _ => words.join(" "),
    }
}

/// The outcome of writing a whole message, which the end of a line tells.
fn sent(op: u8, payload: &[u8], words: &[&str]) -> String {
    let (family, options, fault) = match (op, payload) {
        (b'n', [_, _, _, _, sort, rest @ ..]) => {
            let family = ["no-protocol", "no-algorithm", "error", "support"][usize::from(*sort)];
            let flags = if family == "support" { rest[0] } else { 0 };
            let asked =
                if flags & 1 != 0 { "algorithms that are asked for" } else { "algorithms that are not asked for" };
            (family, flagged(["algorithms", "protocols", "keep-alive"], flags), Some(asked))
        }
        (b'p' | b'P', [_, _, _, _, flags, ..]) => {
            let family = if op == b'p' { "plan by calls" } else { "plan by hand" };
            (family, flagged(["port", "server", "keep-alive"], *flags), plans::fault_of(op, payload))
        }
        _ => {
            let names = sending::names_of(payload).unwrap_or(Ok(0));
            let options = match names {
                Err(_) | Ok(0) => "",
                Ok(1..=8) => " with names",
                Ok(_) => " with more than eight names",
            };
            ("written request", options.to_owned(), names.err())
        }
    };
    match words {
        [.., "wrote", _] => format!("{family} wrote{options}"),
        words => refused(family, words, fault),
    }
}

/// Which of server, port and keep-alive the line of an accepted reply tells.
fn options(line: &[u8]) -> String {
    let words: Vec<&[u8]> = line.splitn(12, |&byte| byte == b' ').collect();
    told([("server", words[6] != b"-"), ("port", words[8] != b"-"), ("keep-alive", words[10] == b"1")])
}

/// Which of three options the flags of a case ask for.
fn flagged(options: [&str; 3], flags: u8) -> String {
    told([0, 1, 2].map(|index| (options[index], flags >> index & 1 == 1)))
}

/// The options that are told.
fn told(options: [(&str, bool); 3]) -> String {
    let told: Vec<&str> = options.into_iter().filter_map(|(option, is_told)| is_told.then_some(option)).collect();
    if told.is_empty() { String::new() } else { format!(" with {}", told.join(", ")) }
}

/// What a case of writing is to write. Each part of op X is a cookie, if it is inside.
fn to_write(op: u8, payload: &[u8]) -> String {
    match (op, payload) {
        (b'X', _) => "a part".to_owned(),
        (b'W', [_, _, _, _, record @ ..]) | (_, record) => match record {
            [11, _, _, 0, ..] => "unknown -".to_owned(),
            [11, ..] => "unknown c".to_owned(),
            [kind, ..] => kind.to_string(),
            [] => String::new(),
        },
    }
}
