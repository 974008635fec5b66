//! The library's calls, by the package bindings/rust: its layer of one function a call, over slices and arrays.

use ntske::raw::{self, ConnectionCells, Count, FindingCells, PlanCells, ReadCells, ReplyCells, RequestCells};
use ntske::{AeadAlgorithm, NextProtocol};

const LARGEST_LIMIT: u16 = ntske::LIMIT;

/// What the client offered whose reply is read: one protocol and two algorithms, of which the reply has the last.
const PROTOCOLS: [NextProtocol; 1] = [NextProtocol::NTPV4];
const ALGORITHMS: [AeadAlgorithm; 2] = [AeadAlgorithm::AES_SIV_CMAC_512, AeadAlgorithm::AES_SIV_CMAC_256];

/// The cells that each reader puts its answer into.
#[derive(Default)]
pub struct Answers {
    pub request: RequestCells,
    pub reply: ReplyCells,
    pub record: ReadCells,
}

// A call returns 0, or the word of its refusal.

pub fn read_request(message: &[u8], table: &mut [u16], answers: &mut Answers) -> u64 {
    raw::read_request(message, LARGEST_LIMIT, table, &mut answers.request)
}

/// Cells for a finding.
pub fn no_finding() -> FindingCells {
    [0; 48]
}

/// The first of the two calls that read a request.
pub fn walk_request(message: &[u8], finding: &mut FindingCells) -> u64 {
    raw::walk_request(message, LARGEST_LIMIT, finding)
}

/// The second one.
pub fn decide_request(finding: &FindingCells, message: &[u8], table: &mut [u16], answers: &mut Answers) -> u64 {
    raw::decide_request(finding, message, table, &mut answers.request)
}

/// A request in pieces of so many bytes, one call each; 65,535 where the read still waits behind the last.
pub fn feed_request(
    message: &[u8],
    piece: usize,
    line: &mut ConnectionCells,
    buffer: &mut [u8],
    table: &mut [u16],
    answers: &mut Answers,
) -> u64 {
    let mut word = raw::connection_new(LARGEST_LIMIT, line);
    for piece in message.chunks(piece) {
        word = raw::feed_request(line, piece, buffer, table, &mut answers.request);
    }
    word
}

pub fn read_reply(message: &[u8], table: &mut [u16], answers: &mut Answers) -> u64 {
    raw::read_reply(message, LARGEST_LIMIT, &PROTOCOLS, &ALGORITHMS, table, &mut answers.reply)
}

/// The plan of a reply with NTPv4, algorithm 15 and the tray's cookies alone.
pub fn plan(tray: &[u8]) -> PlanCells {
    [0, 15, 0, 0, 0, 0, 0, tray.len()]
}

pub fn write_reply(plan: &PlanCells, tray: &[u8], out: &mut [u8], written: &mut Count) -> u64 {
    raw::write_reply(plan, tray, &[], out, written)
}

/// The first record of a message, read and written: what is read is what the writer takes, and the place after it.
pub fn copy_record(message: &[u8], out: &mut [u8], answers: &mut Answers, written: &mut Count) -> u64 {
    let refusal = raw::read_record(message, 0, &mut answers.record);
    if refusal != 0 {
        return refusal;
    }
    let item = answers.record.first_chunk().expect("seven cells of eight");
    raw::write_record(item, message, out, written)
}

pub fn is_utf8(text: &[u8]) -> bool {
    raw::is_utf8(text) == 1
}

/// What comes of a request that is read whole: the word, the cells and the table.
pub fn whole(message: &[u8], mut table: Vec<u16>) -> (u64, RequestCells, Vec<u16>) {
    let mut answers = Answers::default();
    let word = read_request(message, &mut table, &mut answers);
    (word, answers.request, table)
}

/// What comes of it in two calls.
pub fn in_two(message: &[u8], mut table: Vec<u16>) -> (u64, RequestCells, Vec<u16>) {
    let (mut answers, mut finding) = (Answers::default(), no_finding());
    walk_request(message, &mut finding);
    let word = decide_request(&finding, message, &mut table, &mut answers);
    (word, answers.request, table)
}

/// What comes of it in pieces, and then the close of the line where the read still waits. The buffer begins with what was
/// gathered.
pub fn in_pieces(message: &[u8], piece: usize, mut table: Vec<u16>) -> (u64, RequestCells, Vec<u16>) {
    let (mut answers, mut buffer, mut line) = (Answers::default(), vec![0; message.len() + 1], [0; 9]);
    let mut word = raw::WAITING;
    if !message.is_empty() {
        word = feed_request(message, piece, &mut line, &mut buffer, &mut table, &mut answers);
    } else {
        raw::connection_new(LARGEST_LIMIT, &mut line);
    }
    if word == raw::WAITING {
        word = raw::close_request(&mut line, &mut buffer, &mut table, &mut answers.request);
    }
    let gathered = line[1];
    assert_eq!(buffer[..gathered], message[..gathered], "the buffer begins with the message");
    (word, answers.request, table)
}

/// What a key-exchange request or a reply holds: protocols, algorithms, and names or cookies.
pub type Contents = (Vec<u16>, Vec<u16>, Vec<Vec<u8>>);

pub fn request(message: &[u8], table: &mut [u16]) -> Option<Contents> {
    let mut answers = Answers::default();
    if read_request(message, table, &mut answers) != 0 {
        return None;
    }
    let [sort, protocols, protocols_len, algorithms, algorithms_len, denied, ..] = answers.request;
    assert_eq!(sort, 1, "a key-exchange request");
    let numbers = |start: usize, length: usize| {
        message[start..][..length].chunks(2).map(|pair| u16::from_be_bytes([pair[0], pair[1]])).collect()
    };
    let (protocols, algorithms) = (numbers(protocols, protocols_len), numbers(algorithms, algorithms_len));
    Some((protocols, algorithms, entries(message, table, denied)))
}

pub fn reply(message: &[u8], table: &mut [u16]) -> Option<Contents> {
    let mut answers = Answers::default();
    if read_reply(message, table, &mut answers) != 0 {
        return None;
    }
    let [protocol, algorithm, server, _, _, port, _, keep_alive, cookies] = answers.reply;
    assert_eq!([keep_alive, port, server], [0; 3], "a reply without options");
    Some((vec![protocol as u16], vec![algorithm as u16], entries(message, table, cookies)))
}

/// The bodies that the first cells of a table point to.
fn entries(message: &[u8], table: &[u16], count: usize) -> Vec<Vec<u8>> {
    let pairs = table.chunks(2).take(count);
    pairs.map(|pair| message[pair[0].into()..][..pair[1].into()].to_vec()).collect()
}
