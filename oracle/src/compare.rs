//! Compares the crate's answers with the probe's and counts the outcomes.

use std::collections::BTreeMap;
use std::fs::{self, File, OpenOptions};
use std::io::{self, BufRead, BufReader, Write};

use crate::corpus::{self, Cases};
use crate::outcomes::{FAMILIES, count};

/// An outcome that can occur must have this many cases.
pub const LEAST: u64 = 100;
/// So many differences of a corpus are shown.
pub const SHOWN: u64 = 10;
/// So many bytes of a case and letters of a line are shown.
const WIDTH: usize = 400;

const COMPARED: &str = "compared";
const DIFFER: &str = "differ";
/// Added to the tally by oracle/compare where the probe fails.
const FAILED: &str = "failed";

pub fn open(path: &str) -> io::Result<BufReader<File>> {
    let file = File::open(path).map_err(|error| io::Error::other(format!("{path}: {error}")))?;
    Ok(BufReader::with_capacity(1 << 20, file))
}

/// Reads a line without its end; false where there is none.
pub fn next_line(input: &mut impl BufRead, line: &mut Vec<u8>) -> io::Result<bool> {
    line.clear();
    let found = input.read_until(b'\n', line)? > 0;
    if line.last() == Some(&b'\n') {
        line.pop();
    }
    Ok(found)
}

/// Compares two files of answers to a corpus, tells the first differences and adds the counts to the tally.
pub fn compare(
    name: &str,
    corpus: &str,
    crate_lines: &str,
    probe_lines: &str,
    tally: &str,
    out: &mut impl Write,
) -> io::Result<bool> {
    let mut cases = Cases::new(open(corpus)?);
    let (mut ours, mut theirs) = (open(probe_lines)?, open(crate_lines)?);
    let (mut our_line, mut their_line) = (Vec::new(), Vec::new());
    let mut counts: BTreeMap<String, u64> = BTreeMap::new();
    let (mut compared, mut differ) = (0, 0);
    while cases.advance()? {
        let answered = next_line(&mut theirs, &mut their_line)?;
        if !next_line(&mut ours, &mut our_line)? || !answered {
            let who = if answered { "the probe" } else { "the crate" };
            writeln!(out, "{name}, case {compared} and those after it: no answer of {who}")?;
            differ += 1;
            break;
        }
        count(&mut counts, cases.op, &cases.payload, &their_line);
        if our_line != their_line {
            differ += 1;
            if differ <= SHOWN {
                show(out, name, compared, &cases, &their_line, &our_line)?;
            }
        }
        compared += 1;
    }
    if next_line(&mut theirs, &mut their_line)? | next_line(&mut ours, &mut our_line)? {
        writeln!(out, "{name}: the crate and the probe gave different numbers of answers")?;
        differ += 1;
    }
    writeln!(out, "{name}: {compared} cases compared, {differ} differ")?;
    let mut file = OpenOptions::new().create(true).append(true).open(tally)?;
    writeln!(file, "{compared} {COMPARED}\n{differ} {DIFFER}")?;
    for (key, number) in counts {
        writeln!(file, "{number} {key}")?;
    }
    Ok(differ == 0)
}

fn show(
    out: &mut impl Write,
    name: &str,
    index: u64,
    cases: &Cases<impl BufRead>,
    theirs: &[u8],
    ours: &[u8],
) -> io::Result<()> {
    let op = char::from(cases.op).escape_default();
    writeln!(out, "{name}, case {index}: op {op}, {}", hexadecimal(&cases.payload))?;
    writeln!(out, "  crate: {}\n  probe: {}", shortened(theirs), shortened(ours))
}

/// The number of bytes, and the first of them in hexadecimal.
pub fn hexadecimal(bytes: &[u8]) -> String {
    let hex: String = bytes.iter().take(WIDTH).map(|byte| format!("{byte:02x}")).collect();
    format!("{} bytes {hex}{}", bytes.len(), if bytes.len() > WIDTH { ".." } else { "" })
}

/// A line's first letters.
pub fn shortened(line: &[u8]) -> String {
    let rest = if line.len() > WIDTH { ".." } else { "" };
    format!("{}{rest}", String::from_utf8_lossy(&line[..line.len().min(WIDTH)]))
}

/// Sums up a tally; false where something differs or, if asked, where an outcome has too few cases.
pub fn total(tally: &str, judged: bool, out: &mut impl Write) -> io::Result<bool> {
    let mut counts: BTreeMap<String, u64> = BTreeMap::new();
    for line in fs::read_to_string(tally)?.lines() {
        let (number, key) = line.split_once(' ').ok_or_else(|| io::Error::other("the tally is broken"))?;
        let number: u64 = number.parse().map_err(|_| io::Error::other("the tally is broken"))?;
        *counts.entry(key.to_owned()).or_default() += number;
    }
    let [compared, differ, failed] = [COMPARED, DIFFER, FAILED].map(|key| counts.remove(key).unwrap_or_default());
    writeln!(out, "outcomes, by the crate's answers:")?;
    let mut good = compared > 0 && differ == 0 && failed == 0;
    for (family, outcomes) in FAMILIES {
        let prefix = format!("{family} ");
        if !counts.keys().any(|key| key.starts_with(&prefix)) {
            continue;
        }
        for outcome in outcomes.iter().copied().flatten() {
            let number = counts.remove(&format!("{prefix}{outcome}")).unwrap_or_default();
            let few = judged && number < LEAST;
            good &= !few;
            writeln!(out, "  {prefix}{outcome}: {number}{}", if few { ", too few" } else { "" })?;
        }
    }
    for (key, number) in counts {
        writeln!(out, "  {key}: {number}")?;
    }
    writeln!(out, "{compared} cases compared, {differ} differ{}", if good { "" } else { ": FAILED" })?;
    Ok(good)
}

/// Writes one case of a corpus, counted from 0.
pub fn pick(corpus: &str, index: u64, out: &mut impl Write) -> io::Result<bool> {
    let mut cases = Cases::new(open(corpus)?);
    for _ in 0..=index {
        if !cases.advance()? {
            return Err(io::Error::other(format!("the corpus has no case {index}")));
        }
    }
    corpus::put(out, cases.op, &cases.payload)?;
    Ok(true)
}
