//! The smallest replies of a corpus in which the crate's reader as it stands and document 01's differ.

use std::collections::BTreeMap;
use std::io::{self, BufRead, Write};

use super::replies;
use crate::compare::hexadecimal;
use crate::corpus::Cases;

/// Tells, for each difference, the shortest message that it applies to, with the lists that were offered and both answers.
/// Of messages of one length it is that with the shortest lists, and of these the first.
pub fn corpus(input: impl BufRead, out: &mut impl Write) -> io::Result<bool> {
    let mut cases = Cases::new(input);
    let mut found = BTreeMap::new();
    while cases.advance()? {
        let Some(apart) = replies::apart(cases.op, &cases.payload).filter(|_| !cases.too_long) else { continue };
        let size = (apart.message.len(), apart.lists.len());
        let (least, told) = found.entry(apart.difference).or_insert((size, String::new()));
        if told.is_empty() || size < *least {
            let [lists, message] = [apart.lists, apart.message].map(hexadecimal);
            let [crates, copys] = apart.lines.map(|line| String::from_utf8_lossy(&line).into_owned());
            *least = size;
            *told = format!("  lists: {lists}\n  message: {message}\n  crate: {crates}\n  copy: {copys}");
        }
    }
    for (difference, (_, told)) in found {
        writeln!(out, "{difference}\n{told}")?;
    }
    Ok(true)
}
