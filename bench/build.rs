//! Makes the stand-in for the crate's module `nts`, as oracle/build.rs does: the needed items of its mod.rs, its files
//! record.rs and messages.rs, which are compiled where they stand, and a copy of messages.rs in which one constant is
//! raised. The library is linked by bindings/rust.

use std::{env, fs, path::PathBuf};

/// A line range of mod.rs, counted from 1, with the text of its first and its last line.
type Range = (usize, usize, &'static str, &'static str);

const ITEMS: [Range; 3] = [
    (27, 27, "const DEFAULT_NUMBER_OF_COOKIES: usize = 8;", "const DEFAULT_NUMBER_OF_COOKIES: usize = 8;"),
    (29, 82, "/// From https://www.iana.org/assignments/aead-parameters/aead-parameters.xhtml", "}"),
    (153, 305, "#[derive(Debug, Clone, Copy, PartialEq, Eq, Hash)]", "impl std::error::Error for NtsError {}"),
];

/// The limit of messages.rs, and what the copy has in its place.
const LIMIT: &str = "const MAX_MESSAGE_SIZE: u64 = 4096;";
const RAISED: &str = "const MAX_MESSAGE_SIZE: u64 = 65535;";

fn main() {
    println!("cargo::rerun-if-env-changed=CRATE_FILES");
    let files = env::var("CRATE_FILES").expect("CRATE_FILES: the folder of the crate's src, see bench/run");
    let nts = PathBuf::from(files).join("nts");
    let module = nts.join("mod.rs");
    println!("cargo::rerun-if-changed={}", module.display());
    let text = fs::read_to_string(&module).expect("the crate's nts/mod.rs");
    let lines: Vec<&str> = text.lines().collect();
    let mut out = String::new();
    for (first, last, first_text, last_text) in ITEMS {
        assert_eq!(lines[first - 1], first_text, "nts/mod.rs, line {first}");
        assert_eq!(lines[last - 1], last_text, "nts/mod.rs, line {last}");
        out.extend(lines[first - 1..last].iter().flat_map(|line| [line, "\n"]));
    }

    let [record, messages] = ["record.rs", "messages.rs"].map(|name| nts.join(name));
    let text = fs::read_to_string(&messages).expect("the crate's nts/messages.rs");
    println!("cargo::rerun-if-changed={}", messages.display());
    assert_eq!(text.matches(LIMIT).count(), 1, "nts/messages.rs: {LIMIT}");
    let folder = PathBuf::from(env::var("OUT_DIR").expect("OUT_DIR"));
    let raised = folder.join("messages_raised.rs");
    fs::write(&raised, text.replace(LIMIT, RAISED)).expect("writing a copy of messages.rs");
    for (name, file) in [("record", record), ("messages", messages), ("messages_raised", raised)] {
        assert!(file.is_file(), "{} is missing", file.display());
        out.push_str(&format!("#[path = {file:?}]\npub mod {name};\n"));
    }
    fs::write(folder.join("nts.rs"), out).expect("writing nts.rs");
}
