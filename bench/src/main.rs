//! The library beside the crate: both answer the same bytes in one process, and each is timed.

mod clock;
mod growth;
mod inputs;
mod ours;
#[path = "../../oracle/src/packet.rs"]
mod packet;
#[path = "../../oracle/src/tls_utils.rs"]
mod tls_utils;

/// The stand-in for the crate's module `nts`. What looks into the crate's values is a child of it.
#[allow(dead_code, private_interfaces)]
mod nts {
    use crate::tls_utils;

    include!(concat!(env!("OUT_DIR"), "/nts.rs"));

    pub mod theirs;
}

use clock::row;
use nts::theirs;
use std::hint::black_box;

fn main() {
    if std::env::args().nth(1).is_some_and(|asked| asked == "growth") {
        return growth::print();
    }
    println!("# the least time of many batches, in nanoseconds a call; nothing that is lent is cleared between calls");
    requests();
    findings();
    pieces();
    replies();
    records();
    names();
}

/// The sixteen bytes, 200 unknown records before them, then 150 and 2,000 denied names of 28 bytes; the last two are read by the copy with the
/// raised limit.
fn requests() {
    let mut table = vec![0; 2 * inputs::MOST_NAMES];
    let mut answers = ours::Answers::default();
    let rows = [
        ("request16", inputs::request(0), 8.0),
        ("unknown200", inputs::unknown(), 8.0),
        ("request150", inputs::request(150), 11.0),
        ("request2000", inputs::request(2000), 10.0),
    ];
    for (name, message, bar) in rows {
        let long = message.len() > inputs::CRATE_LIMIT;
        for cut in inputs::cuts(&message) {
            clock::same(name, ours::request(cut, &mut table), theirs::request(cut, long));
        }
        row(
            name,
            bar,
            || {
                black_box(ours::read_request(black_box(&message), &mut table, &mut answers));
            },
            || {
                black_box(theirs::read_request(black_box(&message), long));
            },
        );
    }
}

/// A request of 150 names in two calls, each beside the library's own reader: the walk, and the decision from what it found.
fn findings() {
    let message = inputs::request(150);
    let (mut table, mut other) = (vec![0; 2 * inputs::MOST_NAMES], vec![0; 2 * inputs::MOST_NAMES]);
    let (mut answers, mut others) = (ours::Answers::default(), ours::Answers::default());
    for cut in inputs::cuts(&message) {
        clock::same("walk150", ours::in_two(cut, table.clone()), ours::whole(cut, table.clone()));
    }
    let (mut walked, mut finding) = (ours::no_finding(), ours::no_finding());
    clock::row_whole(
        "walk150",
        "none",
        || {
            black_box(ours::walk_request(black_box(&message), black_box(&mut walked)));
        },
        || {
            black_box(ours::read_request(black_box(&message), &mut other, &mut others));
        },
    );
    ours::walk_request(&message, &mut finding);
    clock::same("decide150", ours::decide_request(&finding, &message, &mut table, &mut answers), 0);
    clock::row_whole(
        "decide150",
        "none",
        || {
            let (finding, message) = (black_box(&finding), black_box(&message));
            black_box(ours::decide_request(finding, message, &mut table, &mut answers));
        },
        || {
            black_box(ours::read_request(black_box(&message), &mut other, &mut others));
        },
    );
}

/// A request in pieces, beside the library's own reader of the whole: 150 names byte by byte, and 2,000 as a network hands
/// them over. Then what a byte costs where so many come one by one.
fn pieces() {
    let (short, long) = (inputs::request(150), inputs::request(2000));
    let (mut table, mut other) = (vec![0; 2 * inputs::MOST_NAMES], vec![0; 2 * inputs::MOST_NAMES]);
    let (mut answers, mut others) = (ours::Answers::default(), ours::Answers::default());
    let (mut line, mut buffer) = ([0; 9], vec![0; long.len()]);
    for (name, message, piece, bar) in [("pieces1", &short, 1, "none"), ("pieces1400", &long, 1400, "0.5")] {
        for cut in inputs::cuts(message) {
            clock::same(name, ours::in_pieces(cut, piece, table.clone()), ours::whole(cut, table.clone()));
        }
        clock::row_whole(
            name,
            bar,
            || {
                let message = black_box(message);
                black_box(ours::feed_request(message, piece, &mut line, &mut buffer, &mut table, &mut answers));
            },
            || {
                black_box(ours::read_request(black_box(message), &mut other, &mut others));
            },
        );
    }
    let (mut line2, mut buffer2) = ([0; 9], vec![0; short.len()]);
    clock::row_bytes(
        "bytewise",
        1.5,
        [long.len(), short.len()],
        || {
            let message = black_box(&long);
            black_box(ours::feed_request(message, 1, &mut line, &mut buffer, &mut table, &mut answers));
        },
        || {
            let message = black_box(&short);
            black_box(ours::feed_request(message, 1, &mut line2, &mut buffer2, &mut other, &mut others));
        },
    );
}

/// A reply with eight cookies of 100 bytes, read and written.
fn replies() {
    let message = inputs::reply();
    let mut table = [0; 2 * inputs::COOKIES];
    let mut answers = ours::Answers::default();
    for cut in inputs::cuts(&message) {
        clock::same("reply8", ours::reply(cut, &mut table), theirs::reply(cut));
    }
    row(
        "reply8",
        11.0,
        || {
            black_box(ours::read_reply(black_box(&message), &mut table, &mut answers));
        },
        || {
            let _ = black_box(theirs::read_reply(black_box(&message)));
        },
    );

    let (tray, cookies) = (inputs::tray(), theirs::cookies());
    let (mut mine, mut crates) = (vec![0; message.len()], Vec::new());
    let (plan, mut written) = (ours::plan(&tray), [0]);
    let refusal = ours::write_reply(&plan, &tray, &mut mine, &mut written);
    theirs::write_reply(&cookies, &mut crates);
    clock::same("write8", (refusal, written), (0, [message.len()]));
    clock::same("write8", [&mine, &mine], [&crates, &message]);
    row(
        "write8",
        3.0,
        || {
            black_box(ours::write_reply(black_box(&plan), black_box(&tray), black_box(&mut mine), &mut written));
        },
        || {
            crates.clear();
            theirs::write_reply(black_box(&cookies), &mut crates);
            black_box(&mut crates);
        },
    );
}

/// Where what is copied stands in a page. How fast a copy is depends on the low twelve bits of both addresses, by half here, and an
/// allocator gives any.
#[repr(align(4096))]
struct Page([u8; 4096]);

/// A cookie record of 1,000 bytes, read and written: from a page's front to its byte 2,560.
fn records() {
    let bytes = inputs::record();
    let mut page = Box::new(Page([0; 4096]));
    page.0[..bytes.len()].copy_from_slice(&bytes);
    let (first, second) = page.0.split_at_mut(2560);
    let (message, mine) = (&first[..bytes.len()], &mut second[..bytes.len()]);
    let mut answers = ours::Answers::default();
    let (mut crates, mut written) = (Vec::new(), [0]);
    let refusal = ours::copy_record(message, mine, &mut answers, &mut written);
    theirs::copy_record(message, &mut crates);
    clock::same("record1000", (refusal, written), (0, [message.len()]));
    clock::same("record1000", [&*mine, &*mine], [&crates[..], message]);
    row(
        "record1000",
        3.0,
        || {
            black_box(ours::copy_record(black_box(message), black_box(&mut *mine), &mut answers, &mut written));
        },
        || {
            crates.clear();
            theirs::copy_record(black_box(message), &mut crates);
            black_box(&mut crates);
        },
    );
}

/// The longest name of ASCII, of two-byte and of three-byte characters, and a thousand names as they come, against the standard library's
/// checker.
fn names() {
    let rows = [
        ("utf8ascii", vec![inputs::ascii()], 0.5),
        ("utf8mixed", vec![inputs::two_byte()], 1.0),
        ("utf8three", vec![inputs::three_byte()], 1.0),
        ("utf8names", inputs::names(1000), 1.0),
    ];
    for (name, texts, bar) in rows {
        for damaged in texts.iter().flat_map(|text| inputs::damaged(text)) {
            clock::same(name, ours::is_utf8(&damaged), std::str::from_utf8(&damaged).is_ok());
        }
        row(
            name,
            bar,
            || {
                for text in &texts {
                    black_box(ours::is_utf8(black_box(text)));
                }
            },
            || {
                for text in &texts {
                    black_box(std::str::from_utf8(black_box(text)).is_ok());
                }
            },
        );
    }
}
