//! Messages told by the names of their records.

use std::io::{self, Write};

use super::hex;
use crate::corpus::put;
use crate::generate::{self, limited};

/// Records by a name.
const RECORDS: [(&str, &str); 71] = [
    ("end", "8000 0000"),
    ("end-with-body", "0000 0003 414243"),
    ("end-clear", "0000 0000"),
    ("end-long", "8000 0001 00"),
    ("end-cut", "0000 0002 00"),
    ("protocol", "8001 0002 0000"),
    ("protocol-clear", "0001 0002 0000"),
    ("protocols", "8001 0004 0000 8001"),
    ("protocols-clear", "0001 0004 0000 8001"),
    ("no-protocol", "8001 0000"),
    ("no-protocol-clear", "0001 0000"),
    ("protocol-odd", "8001 0003 000000"),
    ("protocol-odd-clear", "0001 0003 000000"),
    ("algorithm", "8004 0002 000F"),
    ("algorithm-clear", "0004 0002 000F"),
    ("algorithm-17", "8004 0002 0011"),
    ("algorithm-16", "8004 0002 0010"),
    ("algorithms", "8004 0004 000F 0011"),
    ("no-algorithm", "8004 0000"),
    ("error", "8002 0002 0001"),
    ("error-clear", "0002 0002 0001"),
    ("error-long", "8002 0003 000000"),
    ("error-long-clear", "0002 0003 000100"),
    ("error-short", "8002 0001 00"),
    ("error-largest", "0002 0002 FFFF"),
    ("warning", "8003 0002 0000"),
    ("warning-long", "8003 0003 1234"),
    ("warning-clear", "0003 0002 1234"),
    ("warning-short-clear", "0003 0001 12"),
    ("cookie", "0005 0002 4142"),
    ("cookie-empty", "8005 0000"),
    ("cookie-cut", "0005 0009 41"),
    ("server", "8006 0001 78"),
    ("server-empty", "0006 0000"),
    ("server-broken", "8006 0002 C328"),
    ("server-accent", "8006 0002 C3A9"),
    ("server-accent-clear", "0006 0004 61C28062"),
    ("server-accent-cut", "8006 0009 C3A9"),
    ("server-delete", "0006 0002 007F"),
    ("port", "8007 0002 007B"),
    ("port-clear", "0007 0002 0000"),
    ("port-short", "8007 0001 00"),
    ("port-long", "8007 0003 007B"),
    ("keep-alive", "0008 0000"),
    ("keep-alive-with-body", "8008 0002 4142"),
    ("keep-alive-cut", "0008 0009 41"),
    ("want-protocols", "8009 0000"),
    ("want-protocols-some", "0009 0002 0000"),
    ("want-protocols-odd", "0009 0001 00"),
    ("want-algorithms", "800A 0000"),
    ("want-algorithms-some", "800A 0004 000F 0020"),
    ("want-algorithms-odd", "800A 0002 000F"),
    ("want-algorithms-odd-clear", "000A 0002 000F"),
    ("keys-0", "800C 0000"),
    ("keys-odd", "800C 0001 41"),
    ("keys-odd-clear", "000C 0001 41"),
    ("keys-cut", "800C 0001"),
    ("name", "000D 0001 61"),
    ("name-empty", "800D 0000"),
    ("name-broken", "000D 0002 C1BF"),
    ("name-broken-critical", "800D 0001 FF"),
    ("name-cut", "000D 0009 FF"),
    ("authentication", "000E 0002 C3A9"),
    ("authentication-empty", "000E 0000"),
    ("authentication-broken", "000E 0001 80"),
    ("authentication-critical", "800E 0001 80"),
    ("unknown", "000B 0000"),
    ("unknown-with-body", "7FFF 0002 4142"),
    ("critical", "800B 0000"),
    ("critical-largest", "FFFF 0001 41"),
    ("critical-cut", "800F 0009 41"),
];

/// The bytes of such a message; `keys-N` is a key record with halves of N bytes, `cookie-N` a cookie of N bytes.
pub fn message(names: &str) -> Vec<u8> {
    names.split_whitespace().flat_map(record).collect()
}

fn record(name: &str) -> Vec<u8> {
    if let Some((_, bytes)) = RECORDS.iter().find(|(known, _)| *known == name) {
        return hex(bytes);
    }
    let (kind, size) = name.split_once('-').expect("a record's name");
    let size: u8 = size.parse().expect("a size");
    let (word, size) = match kind {
        "keys" => (0x800c, 2 * size),
        "cookie" => (5, size),
        _ => panic!("no record is named {name}"),
    };
    let body: Vec<u8> = (0..size).collect();
    generate::record(word, body.len(), &body)
}

/// A name cut by the limit between sequences, inside one and before the fault; lists may stand before the message.
pub fn cut_names(out: &mut impl Write, op: u8, before: &[u8], word: &str) -> io::Result<()> {
    let bytes = hex(&format!("{word} 0005 41 C3A9 C328 8000 0000"));
    for limit in 0..=bytes.len() {
        put(out, op, &limited(limit, 4, &[before, &bytes].concat()))?;
    }
    Ok(())
}
