//! Makes the stand-in for the crate's module `nts`: the needed items of its mod.rs, cut out by line number, and its
//! files record.rs and messages.rs, which are compiled where they stand. Beside them two copies of messages.rs: one in
//! which one constant is raised, and one in which, besides, the reader of replies is document 01's as order 3 corrects it, by
//! five edits. The lines of mod.rs with which the server chooses become the bodies of two functions: as they stand, and
//! document 01's by one edit.

use std::{env, fs, path::PathBuf};

/// A line range of mod.rs, counted from 1, with the text of its first and its last line.
type Range = (usize, usize, &'static str, &'static str);

const ITEMS: [Range; 3] = [
    (27, 27, "const DEFAULT_NUMBER_OF_COOKIES: usize = 8;", "const DEFAULT_NUMBER_OF_COOKIES: usize = 8;"),
    (29, 82, "/// From https://www.iana.org/assignments/aead-parameters/aead-parameters.xhtml", "}"),
    (153, 305, "#[derive(Debug, Clone, Copy, PartialEq, Eq, Hash)]", "impl std::error::Error for NtsError {}"),
];

/// The lines with which the crate's server chooses, up to where it has chosen.
const CHOICE: Range = (665, 688, "                let protocol = protocols", "                    }");

/// What makes that choice document 01's: the crate asks no list of the server's own for the algorithm.
const BY_BOTH_LISTS: Edit =
    (".find(|v| !matches!(v, AeadAlgorithm::Unknown(_)))", ".find(|v| self.algorithms.contains(v))");

/// What those lines find in `self`.
const SERVERS_LISTS: &str = "struct ServersLists {
    protocols: Vec<NextProtocol>,
    algorithms: Vec<AeadAlgorithm>,
}
";

/// The limit of messages.rs, and what the copies have in its place.
const RAISED_LIMIT: Edit = ("const MAX_MESSAGE_SIZE: u64 = 4096;", "const MAX_MESSAGE_SIZE: u64 = 65535;");

/// The lines of messages.rs between which its reader of replies stands.
const REPLY_READER: [&str; 2] = ["impl KeyExchangeResponse<'_> {\n", "    pub async fn serialize(\n"];

/// What makes that reader document 01's, as order 3 corrects it: five differences, each taken away by the replacements below
/// its name.
const EDITS: [Edit; 11] = [
    // An empty list is refused after the end record.
    ("None => return Err(NtsError::NoOverlappingProtocol),", "None => protocol = Some(None),"),
    ("Some((&id, [])) => protocol = Some(id),", "Some((&id, [])) => protocol = Some(Some(id)),"),
    ("None => return Err(NtsError::NoOverlappingAlgorithm),", "None => algorithm = Some(None),"),
    ("Some((&id, [])) => algorithm = Some(id),", "Some((&id, [])) => algorithm = Some(Some(id)),"),
    (
        "        if let (Some(protocol), Some(algorithm)) = (protocol, algorithm) {\n",
        "        let protocol = Some(protocol.ok_or(NtsError::Invalid)?.ok_or(NtsError::NoOverlappingProtocol)?);
        let algorithm = Some(algorithm.ok_or(NtsError::Invalid)?.ok_or(NtsError::NoOverlappingAlgorithm)?);
        if let (Some(protocol), Some(algorithm)) = (protocol, algorithm) {\n",
    ),
    // Kind 14 is not allowed.
    ("NtsRecord::Unknown { .. } | NtsRecord::Authentication { .. } => {}", "NtsRecord::Unknown { .. } => {}"),
    ("NtsRecord::NtpServerDeny { .. }", "NtsRecord::Authentication { .. } | NtsRecord::NtpServerDeny { .. }"),
    // A reply without a cookie is refused.
    (
        "            Ok(KeyExchangeResponse {\n",
        "            if cookies.is_empty() {
                return Err(NtsError::NoCookie);
            }
            Ok(KeyExchangeResponse {\n",
    ),
    // A number that was not offered is refused, after an empty list and before a missing cookie. Of the crate's errors with a
    // number the one that is given is no other refusal of this reader's.
    (
        "parse(reader: impl AsyncRead + Unpin) -> Result<Self, NtsError> {",
        "parse(reader: impl AsyncRead + Unpin, offered: &super::offered::Offered) -> Result<Self, NtsError> {",
    ),
    (
        "        if let (Some(protocol), Some(algorithm)) = (protocol, algorithm) {\n",
        "        if let (Some(protocol), Some(algorithm)) = (protocol, algorithm) {
            if !offered.protocols.contains(&protocol) {
                return Err(NtsError::AeadNotSupported(protocol.into()));
            }
            if !offered.algorithms.contains(&algorithm) {
                return Err(NtsError::AeadNotSupported(algorithm.into()));
            }\n",
    ),
    // Every cookie is kept.
    ("if cookies.len() < DEFAULT_NUMBER_OF_COOKIES {", "if cookies.len() < usize::MAX {"),
];

/// What stands in a text once, and what takes its place.
type Edit = (&'static str, &'static str);

fn main() {
    println!("cargo::rerun-if-env-changed=CRATE_FILES");
    let files = env::var("CRATE_FILES").expect("CRATE_FILES: the folder of the crate's src, see oracle/build");
    let nts = PathBuf::from(files).join("nts");
    let module = nts.join("mod.rs");
    println!("cargo::rerun-if-changed={}", module.display());

    let text = fs::read_to_string(&module).expect("the crate's nts/mod.rs");
    let lines: Vec<&str> = text.lines().collect();
    let mut out = String::new();
    for range in ITEMS {
        out.push_str(&cut_out(&lines, range));
    }
    let choice = cut_out(&lines, CHOICE);
    out.push_str(SERVERS_LISTS);
    out.push_str(&choosing("chosen_as_it_stands", &choice));
    out.push_str(&choosing("chosen_by_both_lists", &edited(&choice, BY_BOTH_LISTS)));
    for name in ["record", "messages"] {
        let file = nts.join(format!("{name}.rs"));
        assert!(file.is_file(), "{} is missing", file.display());
        out.push_str(&format!("#[path = {file:?}]\nmod {name};\n"));
    }
    let messages = nts.join("messages.rs");
    println!("cargo::rerun-if-changed={}", messages.display());
    let text = fs::read_to_string(messages).expect("the crate's nts/messages.rs");
    let raised = edited(&text, RAISED_LIMIT);
    let folder = PathBuf::from(env::var("OUT_DIR").expect("OUT_DIR"));
    for (name, text) in [("messages_raised", &raised), ("messages_edited", &with_document_01s_reader(&raised))] {
        let file = folder.join(format!("{name}.rs"));
        fs::write(&file, text).expect("writing a copy of messages.rs");
        // The edited copy has no use for the crate's number of cookies.
        out.push_str(&format!("#[allow(unused_imports)]\n#[path = {file:?}]\nmod {name};\n"));
    }
    fs::write(folder.join("nts.rs"), out).expect("writing nts.rs");
}

/// The lines of a range.
fn cut_out(lines: &[&str], (first, last, first_text, last_text): Range) -> String {
    assert_eq!(lines[first - 1], first_text, "nts/mod.rs, line {first}");
    assert_eq!(lines[last - 1], last_text, "nts/mod.rs, line {last}");
    lines[first - 1..last].iter().flat_map(|line| [line, "\n"]).collect()
}

/// A function that chooses by those lines, and then hands out what the server would go on with.
fn choosing(name: &str, lines: &str) -> String {
    format!(
        "impl ServersLists {{
    async fn {name}(
        &self,
        protocols: &[NextProtocol],
        algorithms: &[AeadAlgorithm],
        mut io: &mut Vec<u8>,
    ) -> Result<(NextProtocol, AeadAlgorithm), NtsError> {{
        use messages::NoOverlapResponse;

{lines}                    (Some(protocol), Some(algorithm)) => Ok((protocol, algorithm)),
                }};
                result
    }}
}}
"
    )
}

/// A text of messages.rs in which the reader of replies is document 01's, as order 3 corrects it, and nothing else is
/// changed.
fn with_document_01s_reader(text: &str) -> String {
    let [first, last] = REPLY_READER;
    assert_eq!(text.matches(first).count(), 1, "nts/messages.rs: {first}");
    let (before, rest) = text.split_once(first).expect("the reader of replies");
    let (reader, behind) = rest.split_once(last).expect("the end of the reader of replies");
    let reader = EDITS.iter().fold(reader.to_owned(), |reader, &edit| edited(&reader, edit));
    [before, first, &reader, last, behind].concat()
}

fn edited(text: &str, (from, to): Edit) -> String {
    assert_eq!(text.matches(from).count(), 1, "the crate's text: {from}");
    text.replace(from, to)
}
