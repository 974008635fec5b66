//! Holds the declarations of the library's functions against their source: signatures ROOT ARCHIVE
//!
//! Reads each `#[unsafe(no_mangle)] pub extern "C" fn` of the static libraries, puts its arguments into C's and into Rust's form, and compares them, by
//! name, type and order, with include/ntske.h and with bindings/rust/src/raw.rs; compares the functions that `nm` shows in the archive, which
//! may need nothing from outside but what a compiler itself calls to move memory; and asks that tests/abi/calls.c calls each, and each inline
//! function of the header. An array that is lent is a struct in C: it has as many cells as the array, each of its type, and the header asserts where
//! each field lies. The numbers of the header are held against the source, too, its words against bindings/rust/src/refusal.rs, and its lines have at most
//! 100 columns. One line a function; the status is 0 only where nothing differs.

use std::collections::BTreeMap;
use std::process::{Command, ExitCode};

/// The crates that have calls of a host, of which each has a static library beside it.
const CRATES: [&str; 7] = ["reading", "deciding", "feeding", "handing", "planning", "writing", "showing"];

/// The struct in C of a lent array: the function (of any where there is none), the argument, what a cell is, how many there are, and the struct. The
/// last one is no argument's: a finding has an array of them.
const STRUCTS: [(&str, &str, &str, usize, &str); 20] = [
    ("ntske_read_request", "answer", "usize", 10, "ntske_request"),
    ("ntske_read_reply", "answer", "usize", 9, "ntske_reply"),
    ("ntske_read_request_strict", "answer", "usize", 10, "ntske_request"),
    ("ntske_read_reply_strict", "answer", "usize", 9, "ntske_reply"),
    ("ntske_decide_request", "answer", "usize", 10, "ntske_request"),
    ("ntske_feed_request", "answer", "usize", 10, "ntske_request"),
    ("ntske_close_request", "answer", "usize", 10, "ntske_request"),
    ("ntske_feed_reply", "answer", "usize", 9, "ntske_reply"),
    ("ntske_close_reply", "answer", "usize", 9, "ntske_reply"),
    ("ntske_read_record", "answer", "usize", 8, "ntske_record_read"),
    ("ntske_part", "answer", "usize", 2, "ntske_range"),
    ("ntske_entry", "answer", "usize", 2, "ntske_range"),
    ("ntske_number", "answer", "usize", 3, "ntske_listed"),
    ("ntske_pair", "answer", "usize", 3, "ntske_listed"),
    ("ntske_choose", "answer", "usize", 2, "ntske_choice"),
    ("", "connection", "usize", 9, "ntske_connection"),
    ("", "plan", "usize", 8, "ntske_plan"),
    ("", "item", "usize", 7, "ntske_record"),
    ("", "finding", "u16", 48, "ntske_finding"),
    ("", "found", "u16", 3, "ntske_seen"),
];

/// Name, arguments and result, as text in one spacing.
#[derive(Clone, PartialEq)]
struct Signature {
    arguments: Vec<String>,
    result: String,
}

type Signatures = BTreeMap<String, Signature>;

fn main() -> ExitCode {
    let arguments: Vec<String> = std::env::args().collect();
    let [_, root, archive] = &arguments[..] else {
        eprintln!("usage: signatures ROOT ARCHIVE");
        return ExitCode::FAILURE;
    };
    let read = |path: &str| std::fs::read_to_string(format!("{root}/{path}")).unwrap_or_else(|e| panic!("{path}: {e}"));

    let source: String = CRATES.iter().map(|name| read(&format!("crates/{name}_c/src/lib.rt"))).collect();
    let exported = exported(&source);
    let header_text = read("include/ntske.h");
    let header = Header::of(&header_text);
    let raw = declared_in_rust(&read("bindings/rust/src/raw.rs"));
    let calls = read("tests/abi/calls.c");
    let (defined, needed) = symbols(archive);

    let mut differences = 0;
    let mut differs = |what: String| {
        differences += 1;
        println!("DIFFERS {what}");
    };
    for (name, source) in &exported {
        let in_c = in_c(name, source);
        let in_rust = in_rust(source);
        for (place, ours, theirs) in
            [("include/ntske.h", &in_c, &header.declared), ("bindings/rust/src/raw.rs", &in_rust, &raw)]
        {
            match theirs.get(name) {
                None => differs(format!("{name}: not in {place}")),
                Some(theirs) if theirs != ours => {
                    differs(format!("{name} in {place}:\n  source {}\n  there  {}", shown(ours), shown(theirs)))
                }
                Some(_) => {}
            }
        }
        if !defined.contains(name) {
            differs(format!("{name}: not in the archive"));
        }
        println!("{name}{}", shown(&in_c));
    }
    for name in exported.keys().chain(&header.inline) {
        if !calls.contains(&format!("{name}(")) {
            differs(format!("{name}: not called in tests/abi/calls.c"));
        }
    }
    for (place, theirs) in [("include/ntske.h", &header.declared), ("bindings/rust/src/raw.rs", &raw)] {
        for name in theirs.keys().filter(|name| !exported.contains_key(*name)) {
            differs(format!("{name}: in {place} and not in the source"));
        }
    }
    for name in defined.iter().filter(|name| !exported.contains_key(*name)) {
        differs(format!("{name}: in the archive and not in the source"));
    }
    for name in needed.iter().filter(|name| *name != "memcpy") {
        differs(format!("{name}: the archive needs it from outside"));
    }
    header.layouts().into_iter().for_each(&mut differs);
    numbers(&header_text, &read).into_iter().for_each(&mut differs);
    words(&header_text, &read("bindings/rust/src/refusal.rs")).into_iter().for_each(&mut differs);
    for (i, line) in header_text.lines().enumerate().filter(|(_, line)| line.chars().count() > 100) {
        differs(format!("include/ntske.h, line {}: {} columns", i + 1, line.chars().count()));
    }
    println!("{} functions, {differences} differences", exported.len());
    if exported.is_empty() || differences > 0 {
        return ExitCode::FAILURE;
    }
    ExitCode::SUCCESS
}

// ---- the source

/// The exported functions of Rattle source, their arguments as `name: type`.
fn exported(source: &str) -> Signatures {
    let mut found = Signatures::new();
    for text in source.split("#[unsafe(no_mangle)]").skip(1) {
        let text =
            text.trim_start().strip_prefix("pub extern \"C\" fn ").expect("an exported function is extern \"C\"");
        let (name, signature) = rust_signature(text);
        assert!(found.insert(name, signature).is_none(), "two exported functions of one name");
    }
    let marked = source.matches("extern \"C\"").count();
    assert_eq!(found.len(), marked, "each extern \"C\" function is marked #[unsafe(no_mangle)]");
    found
}

/// The functions of the `extern` block.
fn declared_in_rust(text: &str) -> Signatures {
    let block = between(text, "extern \"C\" {", "\n}");
    block.split("fn ").skip(1).map(rust_signature).collect()
}

/// `name(arguments) -> result` at the front of a text.
fn rust_signature(text: &str) -> (String, Signature) {
    let (name, rest) = text.split_once('(').expect("arguments");
    let (arguments, rest) = rest.split_once(')').expect("the end of the arguments");
    let result = rest.trim_start().strip_prefix("->").expect("a result").trim_start();
    let result = result.split(|c: char| !c.is_alphanumeric()).next().unwrap_or_default();
    let arguments = split(arguments);
    (name.trim().into(), Signature { arguments, result: result.into() })
}

/// A type of the source, as far as an argument has one.
enum Type<'t> {
    Number(&'t str),
    Slice { element: &'t str, written: bool },
    Array { element: &'t str, cells: usize, written: bool },
}

fn type_of(text: &str) -> Type<'_> {
    let Some(lent) = text.strip_prefix('&') else { return Type::Number(text) };
    let (lent, written) = lent.strip_prefix("mut ").map_or((lent, false), |lent| (lent, true));
    let inner = lent.strip_prefix('[').and_then(|lent| lent.strip_suffix(']')).expect("a slice or an array");
    match inner.split_once("; ") {
        None => Type::Slice { element: inner, written },
        Some((element, cells)) => Type::Array { element, cells: cells.parse().expect("a length"), written },
    }
}

/// A signature of the source with each argument in another form.
fn mapped(source: &Signature, form: impl Fn(Type<'_>, &str) -> Vec<String>) -> Vec<String> {
    let one = |argument: &String| {
        let (name, ty) = argument.split_once(": ").expect("an argument has a type");
        form(type_of(ty), name)
    };
    source.arguments.iter().flat_map(one).collect()
}

fn in_c(function: &str, source: &Signature) -> Signature {
    let constant = |written: bool| if written { "" } else { "const " };
    let mut arguments = mapped(source, |ty, name| match ty {
        Type::Number(number) => vec![format!("{} {name}", c_number(number))],
        Type::Slice { element, written } => {
            vec![format!("{}{} *{name}", constant(written), c_number(element)), format!("size_t {name}_len")]
        }
        Type::Array { element, cells, written } => {
            vec![format!("{}{} *{name}", constant(written), array(function, name, element, cells))]
        }
    });
    if arguments.is_empty() {
        arguments.push("void".into());
    }
    Signature { arguments, result: c_number(&source.result).into() }
}

fn in_rust(source: &Signature) -> Signature {
    let pointer = |written: bool| if written { "*mut" } else { "*const" };
    let arguments = mapped(source, |ty, name| match ty {
        Type::Number(number) => vec![format!("{name}: {number}")],
        Type::Slice { element, written } => {
            vec![format!("{name}: {} {element}", pointer(written)), format!("{name}_len: usize")]
        }
        Type::Array { element, cells, written } => vec![format!("{name}: {} [{element}; {cells}]", pointer(written))],
    });
    Signature { arguments, result: source.result.clone() }
}

/// The type in C of a lent array: one cell is a number, more are a struct.
fn array(function: &str, argument: &str, element: &str, cells: usize) -> String {
    let fits = |of: &&(&str, &str, &str, usize, &str)| {
        (of.0.is_empty() || of.0 == function) && (of.1, of.2, of.3) == (argument, element, cells)
    };
    match STRUCTS.iter().find(fits) {
        Some(of) => format!("struct {}", of.4),
        None if cells == 1 => c_number(element).into(),
        None => panic!("{function}: no struct is known for {argument} of {cells} cells of {element}"),
    }
}

fn c_number(ty: &str) -> &'static str {
    match ty {
        "u8" => "uint8_t",
        "u16" => "uint16_t",
        "u64" => "uint64_t",
        "usize" => "size_t",
        other => panic!("no form in C for {other}"),
    }
}

// ---- the header

/// What a header has: its text, the functions that it declares, those that it defines, and its structs with their fields, `type name` each; a union
/// without a name is the field `union` with its members behind it.
struct Header {
    text: String,
    declared: Signatures,
    inline: Vec<String>,
    structs: BTreeMap<String, Vec<String>>,
}

impl Header {
    fn of(text: &str) -> Self {
        let (declared, structs) = (Signatures::new(), BTreeMap::new());
        let mut header = Self { text: text.into(), declared, inline: vec![], structs };
        for item in items(&plain(text)) {
            let (head, inside) = item.split_once('{').unwrap_or((&item, ""));
            let words: Vec<&str> = head.split_whitespace().collect();
            match words[..] {
                ["struct", name] => {
                    let fields = inside.rsplit_once('}').expect("the end of a struct").0;
                    header.structs.insert(name.into(), split_at(fields, ';'));
                }
                ["enum", _] | ["static", "const", ..] => {}
                ["static", "inline", ..] => {
                    let name = head.split_once('(').expect("arguments").0;
                    header.inline.push(name.rsplit([' ', '*']).next().unwrap_or_default().into());
                }
                [first, ..] if first.starts_with("NTSKE_CELL") => {}
                _ => {
                    let (head, arguments) = head.split_once('(').unwrap_or_else(|| panic!("no declaration: {item}"));
                    let words: Vec<&str> = head.split_whitespace().collect();
                    let [result, name] = words[..] else { panic!("no declaration: {item}") };
                    let arguments = split(arguments.split_once(')').expect("the end of the arguments").0);
                    let signature = Signature { arguments, result: result.into() };
                    let before = header.declared.insert(name.into(), signature);
                    assert!(before.is_none(), "{name} is declared twice");
                }
            }
        }
        header
    }

    /// How many cells a type has, where each is a number of the type `cell`.
    fn cells(&self, ty: &str, cell: &str) -> usize {
        match ty.strip_prefix("struct ") {
            None if ty == cell => 1,
            None => panic!("a field of a struct of {cell} is no {ty}"),
            Some(name) => self.fields(name, cell).iter().map(|(_, at, n)| at + n).max().expect("a struct has a field"),
        }
    }

    /// The fields of a struct: the path to each, where it begins, and how many cells it has. Of a union's members the fields are told.
    fn fields(&self, name: &str, cell: &str) -> Vec<(String, usize, usize)> {
        let (mut found, mut at) = (vec![], 0);
        for field in self.structs.get(name).unwrap_or_else(|| panic!("no struct {name}")) {
            if let Some(members) = field.strip_prefix("union {").and_then(|rest| rest.strip_suffix('}')) {
                let mut most = 0;
                for (ty, name) in split_at(members, ';').iter().map(|member| typed(member)) {
                    let of = ty.strip_prefix("struct ").expect("a union is of structs");
                    for (path, offset, n) in self.fields(of, cell) {
                        found.push((format!("{name}.{path}"), at + offset, n));
                    }
                    most = most.max(self.cells(&ty, cell));
                }
                at += most;
            } else {
                let (ty, name) = typed(field);
                let (name, times) = self.times(&name);
                let n = times * self.cells(&ty, cell);
                found.push((name.into(), at, n));
                at += n;
            }
        }
        found
    }

    /// A field's name, and how many of its type it has: one, or as many as a number of the header says.
    fn times<'f>(&self, field: &'f str) -> (&'f str, usize) {
        let Some((name, rest)) = field.split_once('[') else { return (field, 1) };
        let times = rest.strip_suffix(']').expect("the end of a length");
        (name, number(between(&self.text, &format!("#define {times} "), "\n")) as usize)
    }

    /// That each struct which is lent has as many cells as the array, and that the header asserts its size and where each field lies.
    fn layouts(&self) -> Vec<String> {
        let mut found = vec![];
        for (_, argument, element, cells, name) in STRUCTS {
            let cell = c_number(element);
            let told = self.cells(&format!("struct {name}"), cell);
            if told != cells {
                found.push(format!("struct {name}: {told} cells, and {argument} has {cells}"));
            }
            let bits = if cell == "size_t" { "" } else { cell.trim_matches(|c: char| !c.is_ascii_digit()) };
            let mut asserted = vec![format!("NTSKE_CELLS{bits}({name}, {cells});")];
            for (path, at, _) in self.fields(name, cell) {
                asserted.push(format!("NTSKE_CELL{bits}({name}, {path}, {at});"));
            }
            for line in asserted {
                if !self.text.lines().any(|there| there == line) {
                    found.push(format!("struct {name}: the header does not say {line}"));
                }
            }
        }
        found.sort();
        found.dedup();
        found
    }
}

/// A header's text without comments, without lines of the preprocessor, and without what is for C++ alone.
fn plain(text: &str) -> String {
    let mut uncommented = String::new();
    let mut rest = text;
    while let Some((before, comment)) = rest.split_once("/*") {
        uncommented += before;
        rest = comment.split_once("*/").expect("the end of a comment").1;
    }
    uncommented += rest;
    let (mut plain, mut skips) = (String::new(), false);
    for line in uncommented.replace("\\\n", " ").lines() {
        match line.split_whitespace().collect::<Vec<_>>()[..] {
            ["#ifdef", "__cplusplus"] => skips = true,
            ["#else"] | ["#endif"] => skips = false,
            [word, ..] if word.starts_with('#') || skips => {}
            _ => plain = plain + line + "\n",
        }
    }
    plain
}

/// What stands outside of all braces, one after the other: declarations, up to their `;`, and functions, up to their `}`.
fn items(text: &str) -> Vec<String> {
    let (mut found, mut item, mut depth) = (vec![], String::new(), 0);
    for letter in text.chars() {
        match letter {
            '{' => depth += 1,
            '}' => depth -= 1,
            _ => {}
        }
        if letter != ';' || depth > 0 {
            item.push(letter);
        }
        if depth == 0 && (letter == ';' || letter == '}' && item.trim_start().starts_with("static inline")) {
            found.push(spaced(&item));
            item.clear();
        }
    }
    assert!(item.trim().is_empty(), "the header ends in {item}");
    found
}

/// `type name`, taken apart.
fn typed(field: &str) -> (String, String) {
    let (ty, name) = field.rsplit_once(' ').unwrap_or_else(|| panic!("no field: {field}"));
    (ty.into(), name.into())
}

// ---- the header's numbers

/// `NAME = number` in C's form, one after the other.
type Numbers = Vec<(String, u64)>;

/// Each number of the header, held against the source that has it.
fn numbers(header: &str, read: &impl Fn(&str) -> String) -> Vec<String> {
    let crate_text = |name: &str| read(&format!("crates/{name}/src/lib.rt"));
    let (nts, record, plan) = (crate_text("nts"), crate_text("record"), crate_text("plan"));
    let (reading, writing, cells) = (crate_text("reading"), crate_text("writing"), crate_text("cells"));
    let (handing, feeding, walk) = (crate_text("handing"), crate_text("feeding"), crate_text("walk"));
    let mut found = vec![];

    let error_arms = |function: &str| arms(between(&nts, function, "\n    }\n"), "NtsError::");
    let cases: Numbers = error_arms("pub fn number(self) -> u8")
        .into_iter()
        .map(|(name, told)| (in_capitals(&name), number(first_of(&told))))
        .collect();
    let refusals = of_one_number(&cases);
    let sorts = arms(between(&reading, "fn request_cells(", "\n}\n"), "Request::");
    let sorts = sorts
        .into_iter()
        .map(|(name, arm)| (in_capitals(&name), number(first_of(arm.split_once('[').expect("an array of cells").1))))
        .collect();
    let bits = arms(between(&reading, "fn ntske_bit_named(", "\n}\n"), "Bit::");
    let bits = bits.into_iter().map(|(name, told)| (in_capitals(&name), number(first_of(&told)))).collect();
    let profiles = arms(between(&feeding, "fn profile_cell(", "\n}\n"), "Profile::");
    let profiles = profiles.into_iter().map(|(name, told)| (in_capitals(&name), number(first_of(&told)))).collect();
    let asked = between(&writing, "    Asked {\n", "    }\n").lines().map(|line| {
        let (name, bit) = line.trim().split_once(": n").expect("a flag of what is asked");
        let value = bit.trim().strip_prefix("/ ").map_or(1, |bit| number(first_of(bit)));
        (name.to_ascii_uppercase(), value)
    });
    let (kinds, codes) = (constants(&record, "NtsRecord"), constants(&nts, "ErrorCode"));
    let in_walk = |name: &str| number(between(&walk, &format!("\nconst {name}: usize = "), ";"));
    let mut indices = kinds.clone();
    indices.push(("UNKNOWN".into(), in_walk("UNKNOWN")));
    indices.sort_by_key(|(_, value)| *value);
    let (algorithms, keys): (Numbers, Numbers) =
        constants(&nts, "AeadAlgorithm").into_iter().partition(|(name, _)| name.starts_with("AES_"));
    let of_plan = constants(&plan, "Plan");
    let one = |name: &str| of_plan.iter().find(|of| of.0 == name).unwrap_or_else(|| panic!("no Plan::{name}")).1;
    let tags = vec![("COOKIE".to_string(), one("COOKIE")), ("DENIED".to_string(), one("DENIED"))];
    for (name, prefix, ours, least) in [
        ("ntske_refusals", "NTSKE_", refusals.clone(), 18),
        ("ntske_kinds", "NTSKE_KIND_", kinds, 14),
        ("ntske_bits", "NTSKE_BIT_", bits, 3),
        ("ntske_found_indices", "NTSKE_FOUND_", indices, 15),
        ("ntske_profiles", "NTSKE_", profiles, 2),
        ("ntske_sorts", "NTSKE_", sorts, 3),
        ("ntske_protocols", "NTSKE_", constants(&nts, "NextProtocol"), 2),
        ("ntske_algorithms", "NTSKE_", algorithms, 2),
        ("ntske_key_lengths", "NTSKE_", keys, 2),
        ("ntske_error_codes", "NTSKE_CODE_", codes, 3),
        ("ntske_asked", "NTSKE_", asked.collect(), 3),
        ("ntske_tags", "NTSKE_TAG_", tags, 2),
    ] {
        let ours: Numbers = ours.into_iter().map(|(of, value)| (format!("{prefix}{of}"), value)).collect();
        let theirs: Numbers = between(header, &format!("enum {name} {{"), "}")
            .split(',')
            .filter_map(|entry| entry.split_once('='))
            .map(|(of, value)| (of.trim().into(), number(value)))
            .collect();
        if ours.len() < least || ours != theirs {
            found.push(format!("enum {name}:\n  source {ours:?}\n  there  {theirs:?}"));
        }
    }

    // each by itself; a limit has sixteen bits, and a listing's output is the program's
    assert!(reading.contains("    limit: u16,\n"), "a limit has sixteen bits");
    let version = number(between(&handing, "const VERSION: u64 = ", ";"));
    let waiting = number(between(&feeding, "const WAITING: u64 = ", ";"));
    for (name, value) in [
        ("VERSION", version),
        ("WAITING", waiting),
        ("MOST_COOKIES", one("COOKIES")),
        ("FIELD_HEADER", one("FIELD_HEADER")),
        ("FOUND_KINDS", in_walk("KINDS")),
        ("LIMIT", u64::from(u16::MAX)),
        ("LISTING", number(between(&read("crates/kelist/src/main.rt"), "let mut out = [0u8; ", "]"))),
        ("OK", 0),
    ] {
        let told = between(header, &format!("#define NTSKE_{name} "), "\n");
        if number(told) != value {
            found.push(format!("NTSKE_{name}: {told}, and in the source {value}"));
        }
    }

    let of_package = format!("version = \"{}.{}.{}\"\n", version >> 16, version >> 8 & 255, version & 255);
    if !read("bindings/rust/Cargo.toml").contains(&of_package) {
        found.push(format!("bindings/rust/Cargo.toml: not {}", of_package.trim_end()));
    }

    let of_rust = read("bindings/rust/src/raw.rs");
    let of_rust = between(&of_rust, "const WAITING: u64 = ", ";");
    if number(&of_rust.replace('_', "")) != waiting {
        found.push(format!("bindings/rust/src/raw.rs: WAITING is {of_rust}, and in the source {waiting}"));
    }

    // a word taken apart: where each number begins, and which refusals have one beside them
    let (beside, place) = (between(&cells, "const BESIDE: u64 = ", ";"), between(&cells, "const PLACE: u64 = ", ";"));
    let sort = between(&cells, "const SORT: u16 = ", ";");
    if !header.contains("(answer & 0xFF)") {
        found.push("a word: the header does not take the number from bits 0 to 7".into());
    }
    for (value, bit, shift) in
        [(sort, 8, "(answer >> 8 & 0xFF)"), (beside, 16, "(answer >> 16 & 0xFFFF)"), (place, 32, "(answer >> 32)")]
    {
        if number(value) != 1 << bit || !header.contains(shift) {
            found.push(format!("a word: {value} in the source, and {shift} in the header"));
        }
    }
    let sorts: Numbers = arms(between(&cells, "\nfn sort(", "\n}\n"), "Code::")
        .into_iter()
        .map(|(name, told)| (in_capitals(&name), number(first_of(&told))))
        .filter(|(_, sort)| *sort != 0)
        .collect();
    for (name, sort) in &sorts {
        if !header.contains(&format!("    NTSKE_BESIDE_{name} = {sort},\n")) {
            found.push(format!("NTSKE_BESIDE_{name}: not {sort}, as in the source"));
        }
    }
    if sorts.len() != 2 {
        found.push(format!("what was not offered is told apart by {sorts:?}"));
    }
    let mut ours: Vec<String> = error_arms("pub fn code(self) -> Code")
        .into_iter()
        .filter(|(_, beside)| !beside.starts_with("Code::None"))
        .filter_map(|(name, _)| cases.iter().find(|case| case.0 == in_capitals(&name)))
        .filter_map(|(_, value)| refusals.iter().find(|refusal| refusal.1 == *value))
        .map(|(name, _)| format!("NTSKE_{name}"))
        .collect();
    ours.dedup();
    let theirs: Vec<&str> = between(header, "ntske_beside_sort(uint64_t answer)", "\n}\n")
        .lines()
        .filter_map(|line| line.trim().strip_prefix("case ")?.strip_suffix(':'))
        .collect();
    if ours != theirs {
        found.push(format!("ntske_beside_sort:\n  source {ours:?}\n  there  {theirs:?}"));
    }
    found
}

/// Cases of one number have one name in C: the words that all of their names end in.
fn of_one_number(cases: &Numbers) -> Numbers {
    let mut found = Numbers::new();
    for (name, value) in cases {
        match found.last_mut() {
            Some((before, same)) if same == value => {
                let both = before.rsplit('_').zip(name.rsplit('_')).take_while(|(one, other)| one == other);
                let mut words: Vec<&str> = both.map(|(word, _)| word).collect();
                words.reverse();
                *before = words.join("_");
            }
            _ => found.push((name.clone(), *value)),
        }
    }
    found
}

/// The header's words for each refusal, which the binding for Rust has in the same order. 17 has two that stand apart, and in the table one for a 17
/// which does not tell what was not offered; Rust has no such value.
fn words(header: &str, refusal: &str) -> Vec<String> {
    let sentences = |name: &str| -> Vec<&str> {
        between(header, &format!(" {name}[] = {{"), "};").split('"').skip(1).step_by(2).collect()
    };
    let (mut said, apart) = (sentences("words"), sentences("not_offered"));
    let mut found = vec![];
    if (said.len(), apart.len()) != (19, 2) {
        found.push(format!("ntske_words: {} sentences for 0 to 18, and {} of 17", said.len(), apart.len()));
        return found;
    }
    said.splice(17..18, apart);
    let mut rest = refusal;
    for (n, sentence) in said.iter().enumerate().skip(1) {
        let forms = [format!("\"{sentence}\""), format!("\"{sentence}, ")];
        match forms.iter().filter_map(|form| rest.find(form.as_str())).min() {
            Some(at) => rest = &rest[at..],
            None => found.push(format!("ntske_words: refusal.rs does not say {n}, {sentence}, behind those before it")),
        }
    }
    found
}

/// The constants of a type that are numbers, bare or under a type of their own, in their order.
fn constants(source: &str, of: &str) -> Numbers {
    let mut found = vec![];
    for line in between(source, &format!("impl {of} {{"), "\n}\n").lines() {
        let Some((name, rest)) = line.trim().strip_prefix("pub const ").and_then(|line| line.split_once(": ")) else {
            continue;
        };
        let (ty, value) = rest.trim_end_matches(';').split_once(" = ").expect("a constant has a value");
        let value = value.trim_start_matches(ty).trim_matches(['(', ')']);
        if value.starts_with(|c: char| c.is_ascii_digit()) {
            found.push((name.into(), number(value)));
        }
    }
    found
}

/// The arms of a match over a type's cases: the case's name, and what stands behind the arrow, up to the next arm.
fn arms(text: &str, of: &str) -> Vec<(String, String)> {
    let mut found = vec![];
    for arm in text.split(of).skip(1) {
        let name = arm.split(|c: char| !c.is_alphanumeric()).next().unwrap_or_default();
        if let Some((_, value)) = arm.split_once("=> ") {
            found.push((name.into(), spaced(value)));
        }
    }
    found
}

/// A name in C's form: each capital begins a word.
fn in_capitals(name: &str) -> String {
    let mut c = String::new();
    for letter in name.chars() {
        if letter.is_ascii_uppercase() && !c.is_empty() {
            c.push('_');
        }
        c.push(letter.to_ascii_uppercase());
    }
    c
}

/// The first number in a text.
fn first_of(text: &str) -> &str {
    text.split(|c: char| !c.is_ascii_digit()).find(|digits| !digits.is_empty()).expect("a number")
}

fn number(text: &str) -> u64 {
    let text = text.trim();
    let read = text.strip_prefix("0x").map_or_else(|| text.parse(), |digits| u64::from_str_radix(digits, 16));
    read.unwrap_or_else(|e| panic!("{text}: {e}"))
}

// ---- the archive

/// The symbols of an archive: those that it shows to a linker, and those that it needs.
fn symbols(archive: &str) -> (Vec<String>, Vec<String>) {
    let out = Command::new("nm").arg(archive).output().expect("nm");
    assert!(out.status.success(), "nm {archive}: {}", String::from_utf8_lossy(&out.stderr));
    let (mut defined, mut needed) = (vec![], vec![]);
    for line in String::from_utf8_lossy(&out.stdout).lines() {
        match line.split_whitespace().collect::<Vec<_>>()[..] {
            [_, kind, name] if kind.chars().all(|c| c.is_ascii_uppercase()) => defined.push(name.to_string()),
            ["U" | "w" | "v", name] => needed.push(name.to_string()),
            _ => {}
        }
    }
    (defined, needed)
}

// ---- text

fn shown(signature: &Signature) -> String {
    format!("({}) -> {}", signature.arguments.join(", "), signature.result)
}

fn between<'t>(text: &'t str, from: &str, to: &str) -> &'t str {
    let rest = text.split_once(from).unwrap_or_else(|| panic!("no {from}")).1;
    rest.split_once(to).unwrap_or_else(|| panic!("no {to} after {from}")).0
}

fn spaced(text: &str) -> String {
    text.split_whitespace().collect::<Vec<_>>().join(" ")
}

fn split(arguments: &str) -> Vec<String> {
    split_at(arguments, ',')
}

/// A text's parts outside of braces, each in one spacing.
fn split_at(text: &str, sign: char) -> Vec<String> {
    let (mut found, mut part, mut depth) = (vec![], String::new(), 0);
    for letter in text.chars().chain([sign]) {
        match letter {
            '{' => depth += 1,
            '}' => depth -= 1,
            _ => {}
        }
        if letter == sign && depth == 0 {
            found.push(spaced(&part));
            part.clear();
        } else {
            part.push(letter);
        }
    }
    found.retain(|part| !part.is_empty());
    found
}
