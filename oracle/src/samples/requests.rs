//! Reading a request: ops q, Q and L.

use std::io::{self, Write};

use super::hex;
use super::named::{cut_names, message};
use super::reading::M;
use crate::corpus::put;
use crate::generate::limited;

/// Messages that are accepted or refused by the set of their records.
pub const MESSAGES: [&str; 102] = [
    "",
    "end",
    "end-with-body",
    "protocol algorithm end",
    "algorithm protocol end",
    "protocol-clear algorithm end",
    "protocol algorithm",
    "protocol end",
    "algorithm end",
    "no-protocol no-algorithm end",
    "no-protocol algorithms end",
    "protocols algorithms end-with-body",
    "protocol-odd algorithm end",
    "end protocol algorithm end",
    "protocol algorithm end critical",
    "protocol algorithm end error",
    "unknown protocol algorithm end",
    "protocol unknown-with-body algorithm end",
    "protocol algorithm unknown end",
    "critical protocol algorithm end",
    "protocol critical algorithm end",
    "protocol algorithm critical end",
    "protocol critical-largest algorithm end",
    "protocol algorithm critical-cut",
    "protocol protocol algorithm end",
    "protocol no-protocol algorithm end",
    "protocol algorithm algorithm end",
    "protocol protocol-odd algorithm end",
    "protocol algorithm protocol critical end",
    "critical protocol algorithm protocol end",
    "protocol algorithm error end",
    "error protocol algorithm end",
    "protocol algorithm error-long end",
    "protocol warning algorithm end",
    "protocol cookie algorithm end",
    "server protocol port algorithm server port end",
    "protocol server-broken algorithm end",
    "protocol algorithm keep-alive end",
    "keep-alive protocol keep-alive-with-body algorithm keep-alive end",
    "protocol algorithm authentication end",
    "protocol algorithm authentication authentication-empty end",
    "protocol algorithm name end",
    "protocol algorithm name name-empty end",
    "name protocol name-empty algorithm name name end",
    "protocol algorithm name-broken end",
    "name end",
    "protocol name end",
    "authentication end",
    "keep-alive end",
    "authentication want-protocols end",
    "authentication want-algorithms end",
    "authentication want-protocols want-algorithms end",
    "want-algorithms-some want-protocols-some authentication-empty keep-alive end",
    "keep-alive authentication want-protocols keep-alive-with-body end",
    "want-protocols end",
    "want-algorithms end",
    "want-protocols want-algorithms keep-alive end",
    "authentication want-protocols want-protocols end",
    "authentication want-algorithms want-algorithms-some end",
    "authentication want-protocols authentication end",
    "authentication want-protocols protocol end",
    "authentication want-protocols algorithm end",
    "authentication want-algorithms protocol algorithm end",
    "authentication want-algorithms keys-0 end",
    "authentication want-protocols name end",
    "authentication want-protocols name-broken end",
    "authentication want-protocols unknown server port end",
    "authentication want-protocols critical end",
    "authentication want-protocols cookie end",
    "protocol algorithm want-protocols end",
    "keys-0 end",
    "keys-odd end",
    "keys-0 keys-0 end",
    "keys-0 authentication protocol algorithm end",
    "keys-0 authentication protocol algorithm-16 end",
    "keys-0 protocol algorithm-16 end",
    "keys-0 authentication algorithm-16 end",
    "keys-0 authentication protocol end",
    "keys-0 authentication protocols algorithm-16 end",
    "keys-0 authentication protocol algorithms end",
    "keys-0 authentication no-protocol algorithm-16 end",
    "keys-0 authentication protocol no-algorithm end",
    "keys-32 authentication protocol algorithm end",
    "keys-32 authentication-empty protocol algorithm keep-alive end",
    "algorithm keep-alive protocol authentication keys-32 end",
    "keys-32 authentication protocol algorithm name name-empty end",
    "keys-32 authentication protocol algorithm name-broken end",
    "keys-32 authentication protocol algorithm unknown server port end",
    "keys-32 authentication protocol-clear algorithm-17 end",
    "keys-32 authentication protocol algorithm-16 end",
    "keys-31 authentication protocol algorithm end",
    "keys-33 authentication protocol algorithm end",
    "keys-64 authentication protocol algorithm end",
    "keys-64 authentication protocol algorithm-17 end",
    "keep-alive keys-64 algorithm-17 protocol authentication end",
    "keys-63 authentication protocol algorithm-17 end",
    "keys-65 authentication protocol algorithm-17 end",
    "keys-32 keys-32 authentication protocol algorithm end",
    "keys-32 protocol algorithm end",
    "keys-32 authentication protocol algorithm want-protocols end",
    "keys-32 authentication protocol algorithm critical end",
    "keys-32 authentication protocol algorithm",
];

pub fn requests(out: &mut impl Write) -> io::Result<()> {
    for names in MESSAGES {
        put(out, b'q', &message(names))?;
    }
    for names in MESSAGES.iter().step_by(8) {
        put(out, b'Q', &message(names))?;
    }
    for limit in (0..=18).chain([4096, 65_535]) {
        put(out, b'L', &limited(limit, 0, &hex(M)))?;
    }
    let two_names = message("protocol name algorithm name-empty end");
    for cells in [0, 1, 2, 3, 4, 5, 6, 2047, 2048, 2049, 65_535] {
        put(out, b'L', &limited(65_535, cells, &two_names))?;
    }
    for limit in 16..=two_names.len() + 1 {
        put(out, b'L', &limited(limit, 2 + limit % 4, &two_names))?;
    }
    for names in ["authentication want-protocols name name end", "keys-32 authentication protocol algorithm name end"] {
        put(out, b'L', &limited(65_535, 0, &message(names)))?;
    }
    for length in 0..=4 {
        put(out, b'L', &vec![0; length])?;
    }
    cut_names(out, b'L', &[], "800D")
}
