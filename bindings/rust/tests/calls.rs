//! Every call of the crate on good and bad input. What is lent for writing stands between guards; what a call may not
//! change is looked at, all of it on a refusal. The expected bytes are worked out by hand from document 01, as in
//! tests/abi/calls.c.

use ntske::*;
use std::fmt::Debug;

const GUARD: usize = 32;

/// What the same library looks like from C, and messages with their listings.
const HEADER: &str = include_str!("../../../include/ntske.h");
const LISTINGS: &str = include_str!("../../../tests/listings");

/// Memory to lend, between guards.
struct Lent<T> {
    whole: Vec<T>,
    guard: T,
    was: Vec<T>,
}

impl<T: Copy + PartialEq + Debug> Lent<T> {
    fn new(content: &[T], guard: T) -> Self {
        let whole = [&[guard; GUARD], content, &[guard; GUARD]].concat();
        Lent { whole, guard, was: content.to_vec() }
    }

    fn memory(&mut self) -> &mut [T] {
        let end = self.whole.len() - GUARD;
        &mut self.whole[GUARD..end]
    }

    /// From `offset` on there is what was to be written, and all else is as it was.
    fn holds(&self, offset: usize, written: &[T]) {
        let mut want = self.was.clone();
        want[offset..][..written.len()].copy_from_slice(written);
        assert_eq!(self.whole, [&[self.guard; GUARD], &want[..], &[self.guard; GUARD]].concat());
    }
}

fn bytes(len: usize) -> Lent<u8> {
    Lent::new(&vec![0xA5; len], 0xC3)
}

fn cells(len: usize) -> Lent<u16> {
    Lent::new(&vec![0xA5A5; len], 0xC3C3)
}

/// Bytes from hexadecimal text; blanks do not count.
fn hex(text: &str) -> Vec<u8> {
    let digits: Vec<u32> = text.chars().filter(|c| *c != ' ').map(|c| c.to_digit(16).expect("a digit")).collect();
    digits.chunks(2).map(|pair| (16 * pair[0] + pair[1]) as u8).collect()
}

const M: &str = "8001 0002 0000 8004 0002 000F 8000 0000";

/// Reads a request, and once more in two calls; what is looked at is the table, and that of a refusal it is as it was.
fn request(text: &str, limit: u16, room: usize, look: impl Fn(Result<Request, Refusal>), table: &[u16]) {
    let message = hex(text);
    let message = Message::new(&message);
    let mut lent = cells(room);
    look(message.request(limit, lent.memory()));
    lent.holds(0, table);
    let mut lent = cells(room);
    look(message.decide_request(&message.walk_request(limit), lent.memory()));
    lent.holds(0, table);
}

fn request_refused(text: &str, limit: u16, room: usize, why: Refused, place: usize) {
    request(text, limit, room, |read| assert_eq!(read.unwrap_err(), Refusal { why, place }), &[]);
}

/// What most clients here offer.
const USUALLY: Offered = Offered {
    protocols: &[NextProtocol::NTPV4, NextProtocol::DRAFT_NTPV5],
    algorithms: &[AeadAlgorithm::AES_SIV_CMAC_512, AeadAlgorithm::AES_SIV_CMAC_256],
};

/// What counts in no call but the one that answers.
const WHATEVER: [Offered; 3] = [
    Offered { protocols: &[], algorithms: &[] },
    Offered { protocols: &[NextProtocol(65535)], algorithms: &[AeadAlgorithm(1), AeadAlgorithm(256)] },
    USUALLY,
];

/// Reads a reply with what was offered, whose lists are as they were afterwards.
fn reply_to(
    offered: Offered,
    text: &str,
    limit: u16,
    room: usize,
    look: impl FnOnce(Result<Reply, Refusal>),
    table: &[u16],
) {
    let message = hex(text);
    let mut lent = cells(room);
    look(Message::new(&message).reply(limit, offered, lent.memory()));
    lent.holds(0, table);
}

fn reply(text: &str, limit: u16, room: usize, look: impl FnOnce(Result<Reply, Refusal>), table: &[u16]) {
    reply_to(USUALLY, text, limit, room, look, table);
}

fn reply_refused(text: &str, limit: u16, room: usize, why: Refused, place: usize) {
    reply(text, limit, room, |read| assert_eq!(read.unwrap_err(), Refusal { why, place }), &[]);
}

/// A writer into outputs of several lengths: what it writes, 10 where that does not fit, or its refusal.
fn writes(want: Result<&str, Refused>, write: impl Fn(&mut [u8]) -> Result<&mut [u8], Refused>) {
    let want = want.map(hex);
    let length = want.as_ref().map_or(40, Vec::len);
    for size in [length, length + 5, length - 1, 0] {
        let mut lent = bytes(size);
        match &want {
            Ok(message) if message.len() <= size => {
                assert_eq!(write(lent.memory()).map(|front| front.to_vec()), Ok(message.clone()));
                lent.holds(0, message);
            }
            Ok(_) => {
                assert_eq!(write(lent.memory()), Err(Refused::OutputTooShort));
                lent.holds(0, &[]);
            }
            Err(why) => {
                assert_eq!(write(lent.memory()), Err(*why));
                lent.holds(0, &[]);
            }
        }
    }
}

#[test]
fn a_key_exchange_request_is_read() {
    let lists = |denied: &'static [&'static str]| {
        move |read: Result<Request, Refusal>| {
            let Ok(Request::KeyExchange { protocols, algorithms, denied: names }) = read else { panic!("{read:?}") };
            assert_eq!(protocols.iter().collect::<Vec<_>>(), [NextProtocol::NTPV4]);
            assert_eq!(algorithms.iter().collect::<Vec<_>>(), [AeadAlgorithm::AES_SIV_CMAC_256]);
            assert_eq!((protocols.get(1), algorithms.get(usize::MAX)), (None, None));
            assert_eq!(names.iter().map(Name::as_str).collect::<Vec<_>>(), denied);
            assert_eq!((names.len(), names.is_empty()), (denied.len(), denied.is_empty()));
            assert_eq!((names.get(denied.len()), names.get(usize::MAX)), (None, None));
        }
    };
    request(M, 65535, 4, lists(&[]), &[]);
    request(M, 16, 0, lists(&[]), &[]);
    request(&format!("000B 0000 {M} FF"), 65535, 1, lists(&[]), &[]);
    let denied = "8001 0002 0000 8004 0002 000F 000D 0003 612E62 000D 0001 63 8000 0000";
    request(denied, 65535, 4, lists(&["a.b", "c"]), &[16, 3, 23, 1]);
    request(denied, 28, 7, lists(&["a.b", "c"]), &[16, 3, 23, 1]);
    for room in 0..4 {
        request_refused(denied, 65535, room, Refused::TableFull, 24);
    }
    let empty = |read: Result<Request, Refusal>| {
        let Ok(Request::KeyExchange { protocols, algorithms, .. }) = read else { panic!("{read:?}") };
        assert!(protocols.is_empty() && algorithms.is_empty() && protocols.get(0).is_none());
    };
    request("8001 0000 8004 0000 8000 0000", 65535, 0, empty, &[]);
}

#[test]
fn other_requests_are_read() {
    let key = "5A".repeat(32);
    let rest = "000E 0002 4142 0008 0000 8000 0000";
    let fixed = |algorithm: &str, keys: &str| format!("8001 0002 1234 8004 0002 {algorithm} {keys} {rest}");
    let keys32 = format!("800C 0040 {key} {key}");
    let look = |length: usize, number: u16| {
        move |read: Result<Request, Refusal>| {
            let Ok(Request::FixedKey { authentication, c2s, s2c, algorithm, protocol, keep_alive }) = read else {
                panic!("{read:?}")
            };
            assert_eq!((authentication.as_str(), keep_alive), ("AB", true));
            assert_eq!((c2s.bytes(), s2c.bytes()), (&vec![0x5A; length][..], &vec![0x5A; length][..]));
            assert_eq!((algorithm, protocol), (AeadAlgorithm(number), NextProtocol(0x1234)));
            assert_eq!(format!("{c2s:?}"), format!("Key({length} bytes)"));
        }
    };
    request(&fixed("000F", &keys32), 65535, 3, look(32, 15), &[]);
    request(&fixed("0011", &format!("800C 0080 {}", key.repeat(4))), 65535, 3, look(64, 17), &[]);
    request_refused(&fixed("0010", &keys32), 65535, 3, Refused::AeadNotSupported(AeadAlgorithm(16)), 90);
    request_refused(&fixed("0011", &keys32), 65535, 3, Refused::IncorrectSizedKey, 90);
    let support = |want: Asked| {
        move |read: Result<Request, Refusal>| {
            let Ok(Request::Support { authentication, asked }) = read else { panic!("{read:?}") };
            assert_eq!((authentication.as_str(), asked), ("A", want));
        }
    };
    let all = Asked { algorithms: true, protocols: true, keep_alive: true };
    request("8009 0000 800A 0000 000E 0001 41 0008 0000 8000 0000", 65535, 3, support(all), &[]);
    let one = Asked { protocols: true, ..Asked::default() };
    request("8009 0000 000E 0001 41 8000 0000", 65535, 3, support(one), &[]);
    let other = Asked { algorithms: true, ..Asked::default() };
    request("000E 0001 41 800A 0000 8000 0000", 65535, 0, support(other), &[]);
}

#[test]
fn a_request_is_refused() {
    request_refused("", 65535, 4, Refused::UnexpectedEof, 0);
    request_refused("", 0, 0, Refused::UnexpectedEof, 0);
    request_refused(M, 0, 4, Refused::UnexpectedEof, 0);
    request_refused(M, 15, 4, Refused::UnexpectedEof, 12);
    request_refused("8007 0003 007B", 65535, 4, Refused::InvalidData, 0);
    request_refused("8006 0002 C3", 65535, 4, Refused::InvalidData, 0);
    request_refused("8006 0002 41", 65535, 4, Refused::UnexpectedEof, 0);
    request_refused(&format!("800B 0000 {M}"), 65535, 4, Refused::UnrecognizedCriticalRecord, 0);
    request_refused("8000 0000", 65535, 4, Refused::Invalid, 0);
    request_refused("8001 0000 8001 0000", 65535, 4, Refused::Invalid, 4);
}

#[test]
fn a_reply_is_read_or_refused() {
    let one = "8001 0002 0000 8004 0002 000F 0005 0004 DEADBEEF 8000 0000";
    let look = |read: Result<Reply, Refusal>| {
        let reply = read.unwrap();
        assert_eq!((reply.protocol, reply.algorithm), (NextProtocol(0), AeadAlgorithm(15)));
        assert_eq!((reply.server, reply.port, reply.keep_alive), (None, None, false));
        assert_eq!(reply.cookies.iter().map(Cookie::bytes).collect::<Vec<_>>(), [&hex("DEADBEEF")[..]]);
    };
    reply(one, 65535, 2, look, &[16, 4]);
    reply(one, 24, 5, look, &[16, 4]);
    let all =
        "8001 0002 0000 8004 0002 0011 8006 0003 612E62 8007 0002 007B 0008 0000 0005 0001 AA 0005 0000 8000 0000";
    let look = |read: Result<Reply, Refusal>| {
        let reply = read.unwrap();
        assert_eq!((reply.protocol, reply.algorithm), (NextProtocol(0), AeadAlgorithm(17)));
        assert_eq!((reply.server, reply.port, reply.keep_alive), (Some(Name::new("a.b")), Some(123), true));
        assert_eq!(reply.cookies.into_iter().map(Cookie::bytes).collect::<Vec<_>>(), [&[0xAA][..], &[]]);
        assert_eq!(reply.cookies.len(), 2);
        assert!(reply.cookies.get(2).is_none() && reply.cookies.get(usize::MAX).is_none());
    };
    reply(all, 65535, 4, look, &[33, 1, 38, 0]);
    reply_refused(one, 0, 2, Refused::UnexpectedEof, 0);
    reply_refused(one, 23, 2, Refused::UnexpectedEof, 20);
    reply_refused("", 65535, 0, Refused::UnexpectedEof, 0);
    reply_refused("8007 0003 007B", 65535, 2, Refused::InvalidData, 0);
    reply_refused("000B 0000 800B 0000", 65535, 2, Refused::UnrecognizedCriticalRecord, 4);
    reply_refused("8009 0000", 65535, 2, Refused::Invalid, 0);
    reply_refused(one, 65535, 1, Refused::TableFull, 20);
    reply_refused("8002 0002 0001", 65535, 2, Refused::Error(ErrorCode::BAD_REQUEST), 0);
    reply_refused("0008 0000 8002 0002 FFFF", 65535, 2, Refused::Error(ErrorCode(65535)), 4);
    reply_refused("8003 0002 0007", 65535, 2, Refused::UnknownWarning(WarningCode(7)), 0);
    reply_refused("8001 0000 8000 0000", 65535, 2, Refused::NoOverlappingProtocol, 4);
    reply_refused("8001 0002 0000 8004 0000 8000 0000", 65535, 2, Refused::NoOverlappingAlgorithm, 10);
    reply_refused(M, 65535, 2, Refused::NoCookie, 12);
}

#[test]
fn a_reply_must_answer_what_was_asked() {
    let one = "8001 0002 0000 8004 0002 000F 0005 0004 DEADBEEF 8000 0000";
    let pool = "8001 0002 0000 8004 0002 0011 0005 0004 DEADBEEF 8000 0000";
    // with the numbers of both lists: the algorithm, or the refusal
    let read = |protocols: &[u16], algorithms: &[u16], text: &str, room: usize| {
        let protocols: Vec<_> = protocols.iter().copied().map(NextProtocol).collect();
        let algorithms: Vec<_> = algorithms.iter().copied().map(AeadAlgorithm).collect();
        let offered = Offered { protocols: &protocols, algorithms: &algorithms };
        let (message, mut table) = (hex(text), cells(room));
        let answer = Message::new(&message).reply(LIMIT, offered, table.memory()).map(|reply| reply.algorithm.0);
        table.holds(0, if answer.is_ok() { &[16, 4] } else { &[] });
        answer.map_err(|refusal| (refusal.why, refusal.place))
    };
    let protocol = |number, place| Err((Refused::ProtocolNotOffered(NextProtocol(number)), place));
    let algorithm = |number, place| Err((Refused::AeadNotOffered(AeadAlgorithm(number)), place));

    assert_eq!(read(&[0], &[15], one, 2), Ok(15));
    assert_eq!(read(&[0x8001, 0], &[17, 16, 15], one, 2), Ok(15));
    assert_eq!(read(&[0, 0], &[15, 15], one, 2), Ok(15));
    assert_eq!(read(&[0], &[15], pool, 2), algorithm(17, 20));
    assert_eq!(read(&[0], &[17, 17], one, 2), algorithm(15, 20));
    assert_eq!(read(&[0x8001], &[15], one, 2), protocol(0, 20));
    assert_eq!(read(&[1, 1], &[17], one, 2), protocol(0, 20));
    assert_eq!(read(&[15], &[0], one, 2), protocol(0, 20));
    assert_eq!(read(&[], &[], one, 2), protocol(0, 20));
    assert_eq!(read(&[], &[15], one, 2), protocol(0, 20));
    assert_eq!(read(&[0], &[], one, 2), algorithm(15, 20));
    // each byte of a number counts, and their order
    let other = "8001 0002 1234 8004 0002 5678 0005 0004 DEADBEEF 8000 0000";
    assert_eq!(read(&[0x1234], &[0x5678], other, 2), Ok(0x5678));
    assert_eq!(read(&[0x3412, 0x1200, 0x34], &[0x5678], other, 2), protocol(0x1234, 20));
    assert_eq!(read(&[0x1234], &[0x7856, 0x5600, 0x78], other, 2), algorithm(0x5678, 20));
    // after 13 and 14, and before 15 and 7
    assert_eq!(read(&[], &[], "8001 0000 8000 0000", 2), Err((Refused::NoOverlappingProtocol, 4)));
    assert_eq!(read(&[], &[], "8001 0002 0000 8000 0000", 2), Err((Refused::Invalid, 6)));
    let empty = "8001 0002 0000 8004 0000 8000 0000";
    assert_eq!(read(&[], &[], empty, 2), Err((Refused::NoOverlappingAlgorithm, 10)));
    assert_eq!((read(&[], &[15], M, 2), read(&[0], &[], M, 2)), (protocol(0, 12), algorithm(15, 12)));
    assert_eq!((read(&[], &[15], one, 0), read(&[0], &[], one, 0)), (protocol(0, 20), algorithm(15, 20)));
    assert_eq!(read(&[0], &[15], M, 0), Err((Refused::NoCookie, 12)));
    assert_eq!(read(&[0], &[15], one, 0), Err((Refused::TableFull, 20)));
}

/// Requests and replies, accepted and refused.
fn messages() -> Vec<Vec<u8>> {
    let key = "5A".repeat(32);
    let texts = [
        M.to_string(),
        format!("{M} FFFFFFFFFF"),
        "8001 0002 0000 8004 0002 000F 000D 0002 C3A9 8000 0000".into(),
        "8001 0002 0000 8004 0002 000F 000D 0003 612E62 000D 0001 63 8000 0000".into(),
        format!("8001 0002 1234 8004 0002 000F 800C 0040 {key} {key} 000E 0002 4142 0008 0000 8000 0000"),
        format!("8001 0002 1234 8004 0002 0010 800C 0040 {key} {key} 000E 0002 4142 0008 0000 8000 0000"),
        "8009 0000 800A 0000 000E 0001 41 0008 0000 8000 0000".into(),
        "8001 0002 0000 8004 0002 000F 0005 0004 DEADBEEF 0005 0000 8000 0000".into(),
        "8001 0002 0000 8004 0002 0011 8006 0003 612E62 8007 0002 007B 0008 0000 0005 0001 AA 8000 0000 80".into(),
        "0008 0000 8002 0002 FFFF 8000 0000".into(),
        "8001 0000 8000 0000".into(),
        "8006 0002 C3".into(),
        "8007 0003 007B".into(),
        "800B 0004 00000000".into(),
        "7FFF 0001 AA 8001 0000 8001 0000".into(),
        String::new(),
    ];
    texts.iter().map(|text| hex(text)).collect()
}

// ---- reading and deciding

/// A finding in words, a line each.
fn found(text: &str, limit: u16) -> Vec<String> {
    Message::new(&hex(text)).walk_request(limit).to_string().lines().map(String::from).collect()
}

#[test]
fn a_walk_tells_what_a_request_held() {
    let m = ["1 end record", "1 next protocol record", "1 algorithm record", "ended at 12"];
    assert_eq!(found(M, LIMIT), m);
    assert_eq!(found(&format!("{M} 8007"), 16), m);
    assert_eq!(found(M, 15), ["1 next protocol record", "1 algorithm record", "stopped at 12: bytes are missing (1)"]);
    assert_eq!(found("", LIMIT), ["stopped at 0: bytes are missing (1)"]);
    assert_eq!(found(M, 0), ["stopped at 0: bytes are missing (1)"]);
    // a record that does not read does not count, and one that is refused does
    assert_eq!(
        found("0008 0000 8007 0003 007B", LIMIT),
        ["1 keep-alive record", "stopped at 4: a body is ill-formed (2)"]
    );
    let unknown = "7FFF 0001 AA 000B 0000 800F 0000 8000 0000";
    assert_eq!(
        found(unknown, LIMIT),
        ["3 unknown records", "stopped at 9: an unknown record has its critical bit set (3)"]
    );
    for (text, name) in [("8002 0002 0001", "error"), ("8003 0002 0001", "warning"), ("0005 0000", "cookie")] {
        assert_eq!(
            found(text, LIMIT),
            [&format!("1 {name} record"), "stopped at 0: the set of records is not allowed (4)"]
        );
    }
    let twice = ["2 next protocol records", "stopped at 4: the set of records is not allowed (4)"];
    assert_eq!(found("8001 0000 8001 0000 8000 0000", LIMIT), twice);
    // every kind that a request may hold; what is refused is decided behind the end
    let all = "8001 0000 8004 0000 8006 0001 61 8007 0002 007B 0008 0000 8009 0000 800A 0000 000B 0000 800C 0000 \
               000D 0001 62 000D 0000 000E 0000 8000 0001 FF";
    let each = [
        "1 end record",
        "1 next protocol record",
        "1 algorithm record",
        "1 server record",
        "1 port record",
        "1 keep-alive record",
        "1 supported protocols record",
        "1 supported algorithms record",
        "1 unknown record",
        "1 fixed key record",
        "2 denied server records",
        "1 authentication record",
        "ended at 52",
    ];
    assert_eq!(found(all, LIMIT), each);
    request_refused(all, LIMIT, 4, Refused::Invalid, 52);
}

#[test]
fn a_finding_is_taken_apart() {
    let message = hex("000D 0002 6162 7FFF 0001 AA 000D 0000 800B 0000");
    let finding = Message::new(&message).walk_request(4096);
    assert_eq!((finding.limit(), finding.place()), (4096, 15));
    assert_eq!(finding.reason(), Some(Refused::UnrecognizedCriticalRecord));
    assert_eq!((finding.count(Kind::NtpServerDeny), finding.count(Kind::Unknown), finding.unknown()), (2, 2, 2));
    assert_eq!(
        (finding.first_body(Kind::NtpServerDeny), finding.first_body(Kind::Unknown)),
        (Some(4..6), Some(10..11))
    );
    for kind in Kind::ALL.into_iter().filter(|kind| ![Kind::NtpServerDeny, Kind::Unknown].contains(kind)) {
        assert_eq!((finding.count(kind), finding.first_body(kind)), (0, None));
    }
    assert_eq!(
        format!("{finding:?}"),
        "Finding { limit: 4096, place: 15, reason: Some(UnrecognizedCriticalRecord), \
         found: {Unknown: (2, 10..11), NtpServerDeny: (2, 4..6)} }"
    );
    let ended = Message::new(&hex(M)).walk_request(LIMIT);
    assert_eq!((ended.reason(), ended.first_body(Kind::EndOfMessage)), (None, Some(16..16)));
    let (copy, other) = (finding, Message::new(&message).walk_request(4097));
    assert_eq!((copy == finding, other == finding), (true, false));
}

#[test]
fn a_kind_has_its_number_and_words() {
    for (at, kind) in (0..).zip(Kind::ALL) {
        assert_eq!((kind as u16, Kind::of(at)), (at, kind));
        assert_eq!(Kind::ALL.iter().filter(|other| other.words() == kind.words()).count(), 1);
    }
    assert!((15..=u16::MAX).all(|number| Kind::of(number) == Kind::Unknown));

    // the header's indices are the same
    let table = HEADER.split_once("enum ntske_found_indices {").unwrap().1.split_once('}').unwrap().0;
    let indices: Vec<_> = table.split(',').map(|entry| entry.split_whitespace().collect::<String>()).collect();
    let ours = Kind::ALL.map(|kind| {
        let name: String =
            format!("{kind:?}").chars().flat_map(|c| c.is_uppercase().then_some('_').into_iter().chain([c])).collect();
        format!("NTSKE_FOUND{}={}", name.to_uppercase(), kind as u16)
    });
    assert_eq!(indices, ours);
    assert!(HEADER.contains(&format!("#define NTSKE_FOUND_KINDS {}\n", Kind::ALL.len())));
}

#[test]
fn the_pair_answers_as_the_reader_and_refuses_any_other_finding() {
    let messages = messages();
    let limits = |message: &[u8]| [LIMIT, 64, message.len() as u16, (message.len() as u16).saturating_sub(1), 6, 0];
    let findings: Vec<_> = messages
        .iter()
        .flat_map(|message| limits(message).map(|limit| Message::new(message).walk_request(limit)))
        .collect();
    let (mut same, mut other) = (0, 0);
    for message in &messages {
        for finding in &findings {
            for room in [0, 2, 8] {
                let mut table = cells(room);
                let answer =
                    Message::new(message).decide_request(finding, table.memory()).map(|read| format!("{read:?}"));
                if Message::new(message).walk_request(finding.limit()) == *finding {
                    same += 1;
                    assert_eq!((answer, table.memory().to_vec()), whole(false, message, finding.limit(), room));
                } else {
                    other += 1;
                    assert_eq!(answer, Err(Refusal { why: Refused::InvalidValue, place: 0 }));
                    table.holds(0, &[]);
                }
            }
        }
    }
    assert!(same >= 18 * messages.len() && other > same);
}

/// The lines of records that a listing shows are those that the finding counts.
#[test]
fn what_is_counted_is_what_is_listed() {
    let mut out = vec![0; LISTING];
    let listed = LISTINGS.split("\n<").skip(1).map(|block| hex(block.split_once('\n').unwrap().0));
    for message in listed.chain(messages()) {
        for limit in [LIMIT, 20, 6] {
            let finding = Message::new(&message).walk_request(limit);
            let listing = Message::new(&message).list(limit, 0, &mut out).unwrap();
            let lines: Vec<_> = listing.lines().collect();
            let mut counts = [0; 15];
            for line in &lines[1..lines.len() - 1] {
                let kind = line.split(' ').nth(1).and_then(|kind| kind.parse().ok()).expect("a kind");
                counts[Kind::of(kind) as usize] += 1;
            }
            assert_eq!(Kind::ALL.map(|kind| finding.count(kind)), counts);
            if let Some(why) = finding.reason() {
                assert_eq!(lines[lines.len() - 1], format!("refused {} at {}", why.number(), finding.place()));
            }
        }
    }
}

// ---- in pieces

/// What a reader answers, as it is shown.
type Shown = Result<String, Refusal>;

/// A read that a host feeds, of a request or of a reply to what was offered, with what it keeps and lends.
struct Line {
    is_reply: bool,
    offered: Offered<'static>,
    connection: Connection,
    buffer: Lent<u8>,
}

impl Line {
    fn new(is_reply: bool, limit: u16, room: usize) -> Self {
        Line { is_reply, offered: USUALLY, connection: Connection::start(limit), buffer: bytes(room) }
    }

    fn strict(is_reply: bool, limit: u16, room: usize) -> Self {
        let connection = Connection::start_in(Profile::Strict, limit);
        Line { connection, ..Line::new(is_reply, limit, room) }
    }

    /// A piece, or where there is none the close. Nothing where the read waits.
    fn hand(&mut self, piece: Option<&[u8]>, table: &mut [u16]) -> Option<Shown> {
        let (line, offered, buffer) = (&mut self.connection, self.offered, self.buffer.memory());
        match (self.is_reply, piece) {
            (false, Some(piece)) => fed(line.feed_request(piece, buffer, table)),
            (false, None) => Some(line.close_request(buffer, table).map(|read| format!("{read:?}"))),
            (true, Some(piece)) => fed(line.feed_reply(piece, offered, buffer, table)),
            (true, None) => Some(line.close_reply(offered, buffer, table).map(|read| format!("{read:?}"))),
        }
    }
}

fn fed(answer: Result<Fed<impl Debug>, Refusal>) -> Option<Shown> {
    match answer {
        Ok(Fed::Waiting) => None,
        Ok(Fed::Accepted(read)) => Some(Ok(format!("{read:?}"))),
        Err(refusal) => Some(Err(refusal)),
    }
}

/// What the whole-message reader makes of a message and of the table.
fn whole(is_reply: bool, message: &[u8], limit: u16, room: usize) -> (Shown, Vec<u16>) {
    whole_to(USUALLY, is_reply, message, limit, room)
}

/// The same, of a reply with what was offered.
fn whole_to(offered: Offered, is_reply: bool, message: &[u8], limit: u16, room: usize) -> (Shown, Vec<u16>) {
    whole_in(Profile::Usual, offered, is_reply, message, limit, room)
}

/// The same in a profile.
fn whole_in(
    profile: Profile,
    offered: Offered,
    is_reply: bool,
    message: &[u8],
    limit: u16,
    room: usize,
) -> (Shown, Vec<u16>) {
    let (mut table, message) = (cells(room), Message::new(message));
    let answer = if is_reply {
        message.reply_in(profile, limit, offered, table.memory()).map(|read| format!("{read:?}"))
    } else {
        message.request_in(profile, limit, table.memory()).map(|read| format!("{read:?}"))
    };
    (answer, table.memory().to_vec())
}

/// Hands over pieces, and then the close where the read still waits; gives the answer and what is in the table. The buffer holds what was gathered
/// and is otherwise as it was, and once there is an answer, it comes again and nothing changes, whatever is lent and offered.
fn in_pieces(line: &mut Line, pieces: &[&[u8]], room: usize) -> (Shown, Vec<u16>) {
    let (joined, mut table, mut handed, mut came) = (pieces.concat(), cells(room), 0, None);
    for piece in pieces {
        table.holds(0, &[]);
        came = line.hand(Some(piece), table.memory());
        handed += piece.len();
        line.buffer.holds(0, &joined[..line.connection.gathered()]);
        if came.is_some() {
            break;
        }
        assert_eq!(line.connection.gathered(), handed);
    }
    let came = came.or_else(|| line.hand(None, table.memory())).expect("no line waits behind its close");
    let (kept, filled) = (line.connection, table.memory().to_vec());
    for (piece, offered) in [Some(&[0xFF; 5][..]), Some(&[]), None].into_iter().zip(WHATEVER) {
        line.offered = offered;
        assert_eq!(line.hand(piece, table.memory()), Some(came.clone()));
        assert_eq!(table.memory(), filled);
        let mut larger = cells(room + 8);
        let again = line.hand(piece, larger.memory()).expect("an answer");
        assert_eq!((again.is_ok(), again.err()), (came.is_ok(), came.clone().err()));
        larger.holds(0, &[]);
        assert_eq!(line.connection, kept);
        line.buffer.holds(0, &joined[..kept.gathered()]);
    }
    (came, filled)
}

/// A message cut in each way: in one piece, in two at every place, byte by byte, and with empty pieces between.
fn cut(message: &[u8]) -> Vec<Vec<&[u8]>> {
    let mut all: Vec<Vec<&[u8]>> =
        (0..=message.len()).map(|at| message.split_at(at)).map(|(front, rest)| vec![front, rest]).collect();
    all.push(vec![message]);
    all.push(message.chunks(1).collect());
    all.push(message.chunks(1).flat_map(|byte| [&[], byte, &[]]).collect());
    all.push(message.chunks(3).collect());
    all
}

#[test]
fn however_a_message_is_cut_its_answer_is_the_whole_readers() {
    for message in messages() {
        for is_reply in [false, true] {
            for limit in [LIMIT, 64, message.len() as u16, (message.len() as u16).saturating_sub(1), 6, 0] {
                for room in [0, 2, 8] {
                    for (profile, start) in
                        [(Profile::Usual, Line::new as fn(bool, u16, usize) -> Line), (Profile::Strict, Line::strict)]
                    {
                        let want = whole_in(profile, USUALLY, is_reply, &message, limit, room);
                        let mut gathered = vec![];
                        for pieces in cut(&message) {
                            let mut line = start(is_reply, limit, 256);
                            assert_eq!(
                                in_pieces(&mut line, &pieces, room),
                                want,
                                "{pieces:02X?} limit {limit} room {room} {profile:?}"
                            );
                            gathered.push(line.connection);
                        }
                        assert!(gathered.iter().all(|line| *line == gathered[0]), "{gathered:?}");
                    }
                }
            }
        }
    }
}

fn refused<T>(why: Refused, place: usize) -> Result<T, Refusal> {
    Err(Refusal { why, place })
}

fn not_allowed<T>(place: usize) -> Result<T, Refusal> {
    refused(Refused::NotAllowed, place)
}

/// What order 5 asks of the strict profile: the message, and by how many bytes it begins later, or why and where it is refused.
#[test]
fn the_strict_profile_takes_what_the_rfc_allows() {
    let end = "8000 0000";
    let lists = M.strip_suffix(end).unwrap();
    for (text, limit, want) in [
        (M.into(), LIMIT, Ok(0)),
        (M.replacen("8001", "0001", 1), LIMIT, not_allowed(0)),
        (M.replacen("8004", "0004", 1), LIMIT, Ok(0)),
        (format!("{M} 00"), LIMIT, not_allowed(16)),
        (format!("{M} 00"), 16, Ok(0)),
        (format!("{lists} 8000 0001 00"), LIMIT, not_allowed(12)),
        (format!("{lists} 0000 0000"), LIMIT, not_allowed(12)),
        (format!("8006 0002 C3A9 {M}"), LIMIT, not_allowed(0)),
        (format!("8006 0001 C3 {M}"), LIMIT, refused(Refused::InvalidData, 0)),
        (format!("000D 0001 FF {M}"), LIMIT, Ok(5)),
        (format!("800D 0001 FF {M}"), LIMIT, refused(Refused::UnrecognizedCriticalRecord, 0)),
        (format!("0008 0000 {M}"), LIMIT, Ok(4)),
        (format!("8008 0000 {M}"), LIMIT, refused(Refused::UnrecognizedCriticalRecord, 0)),
        (format!("8001 0002 0000 {end} 00"), LIMIT, not_allowed(10)),
        (format!("8001 0002 0000 {end}"), LIMIT, refused(Refused::Invalid, 6)),
        ("0002 0002 0001".into(), LIMIT, not_allowed(0)),
        ("0002 0003 0001".into(), LIMIT, refused(Refused::InvalidData, 0)),
    ] {
        let (message, mut table) = (hex(&text), cells(4));
        let read = Message::new(&message).request_in(Profile::Strict, limit, table.memory()).map(|read| match read {
            Request::KeyExchange { protocols, algorithms, denied } => {
                assert_eq!((protocols.bytes(), algorithms.bytes(), denied.len()), (&[0, 0][..], &[0, 15][..], 0));
                protocols.bytes().as_ptr() as usize - message.as_ptr() as usize - 4
            }
            other => panic!("{other:?}"),
        });
        assert_eq!(read, want, "{text}");
        table.holds(0, &[]);
    }

    let one = "8001 0002 0000 8004 0002 000F 0005 0004 DEADBEEF 8000 0000";
    for (text, want) in [
        (one.into(), Ok((1, false))),
        (format!("0008 0000 {one}"), Ok((1, false))),
        (format!("000E 0000 {one}"), Ok((1, false))),
        (format!("{one} FF"), not_allowed(24)),
        (format!("{M} FF"), not_allowed(16)),
        (M.into(), refused(Refused::NoCookie, 12)),
        ("8002 0002 0001".into(), refused(Refused::Error(ErrorCode(1)), 0)),
        ("0002 0002 0001".into(), not_allowed(0)),
        ("0003 0002 0001".into(), not_allowed(0)),
    ] {
        let (message, mut table) = (hex(&text), [0; 4]);
        let read = Message::new(&message).reply_in(Profile::Strict, LIMIT, USUALLY, &mut table);
        assert_eq!(read.map(|reply| (reply.cookies.len(), reply.keep_alive)), want, "{text}");
    }
}

/// A strict read waits behind its end record for the close, or for a byte, which is not stored and needs no room.
#[test]
fn a_strict_read_waits_behind_its_end_record() {
    let message = hex(M);
    for room in [16, 17, 64] {
        let mut line = Line::strict(false, LIMIT, room);
        assert_eq!((line.connection.profile(), Connection::start(LIMIT).profile()), (Profile::Strict, Profile::Usual));
        assert_ne!(line.connection, Connection::start(LIMIT));
        for piece in [&message[..14], &message[14..], &[], &[]] {
            assert_eq!(line.hand(Some(piece), &mut []), None);
        }
        let kept = line.connection;
        let shown = "limit: 65535, gathered: 16, begins: 12, met: 18, state: 0, number: 0, beside: 0, place: 0";
        assert_eq!(format!("{kept:?}"), format!("Connection {{ {shown}, profile: Strict }}"));
        assert!(line.hand(None, &mut []).unwrap().is_ok());
        line.connection = kept;
        let followed = Some(Err(Refusal { why: Refused::NotAllowed, place: 16 }));
        assert_eq!(line.hand(Some(&[0xFF]), &mut []), followed);
        assert_eq!((line.connection.gathered(), line.hand(None, &mut [])), (16, followed));
        line.buffer.holds(0, &message);
    }
    // at the limit it does not wait, and in the usual profile never
    assert!(Line::strict(false, 16, 16).hand(Some(&message), &mut []).unwrap().is_ok());
    assert!(Line::new(false, LIMIT, 16).hand(Some(&message), &mut []).unwrap().is_ok());
}

#[test]
fn what_was_offered_counts_in_the_call_that_answers() {
    const PROTOCOLS: [&[NextProtocol]; 3] = [&[], &[NextProtocol(0x8001)], &[NextProtocol(0), NextProtocol(0)]];
    const ALGORITHMS: [&[AeadAlgorithm]; 3] = [&[], &[AeadAlgorithm(15)], &[AeadAlgorithm(15), AeadAlgorithm(17)]];
    let message = hex("8001 0002 0000 8004 0002 0011 0005 0001 AA 8000 0000");
    let mut seen = vec![];
    for (protocols, algorithms) in PROTOCOLS.iter().flat_map(|p| ALGORITHMS.iter().map(move |a| (*p, *a))) {
        let offered = Offered { protocols, algorithms };
        for room in [0, 2] {
            let want = whole_to(offered, true, &message, LIMIT, room);
            for (at, other) in (0..message.len()).flat_map(|at| WHATEVER.map(|other| (at, other))) {
                // before the piece that decides something else is offered, and after it, too
                let (mut line, mut table) = (Line::new(true, LIMIT, 64), cells(room));
                line.offered = other;
                assert_eq!(line.hand(Some(&message[..at]), table.memory()), None);
                line.offered = offered;
                let came = (line.hand(Some(&message[at..]), table.memory()), table.memory().to_vec());
                let (kept, want) = (line.connection, (Some(want.0.clone()), want.1.clone()));
                assert_eq!(came, want, "{offered:?}, cut at {at}, before it {other:?}");
                for (piece, other) in [Some(&message[..]), Some(&[]), None].into_iter().zip(WHATEVER) {
                    line.offered = other;
                    assert_eq!((line.hand(piece, table.memory()), table.memory().to_vec()), want);
                    assert_eq!(line.connection, kept);
                }
            }
            seen.push(want.0.map(|_| 0).unwrap_or_else(|refusal| refusal.why.number()));
        }
    }
    assert_eq!(seen, [vec![17; 12], vec![17; 4], vec![7, 0]].concat());
}

#[test]
fn a_connection_holds_what_was_not_offered() {
    let (protocols, algorithms) = ([NextProtocol(0)], [AeadAlgorithm(15)]);
    let message = hex("8001 0002 0000 8004 0002 0011 0005 0001 AA 8000 0000");
    for (offered, why, cells) in [
        (
            Offered { protocols: &protocols, algorithms: &algorithms },
            Refused::AeadNotOffered(AeadAlgorithm(17)),
            "number: 529, beside: 17, place: 17",
        ),
        (
            Offered { protocols: &[], algorithms: &algorithms },
            Refused::ProtocolNotOffered(NextProtocol(0)),
            "number: 273, beside: 0, place: 17",
        ),
    ] {
        let (mut buffer, mut table) = ([0; 64], [0; 8]);
        let mut line = Connection::start(4096);
        let refusal = Refusal { why, place: 17 };
        assert_eq!(line.feed_reply(&message, offered, &mut buffer, &mut table).unwrap_err(), refusal);
        let shown = format!(
            "Connection {{ limit: 4096, gathered: 21, begins: 17, met: 50, state: 2, {cells}, profile: Usual }}"
        );
        assert_eq!(format!("{line:?}"), shown);
        // it comes again where all is offered, and from the calls of a request, too
        assert_eq!(line.feed_reply(&message, USUALLY, &mut buffer, &mut table).unwrap_err(), refusal);
        assert_eq!(line.close_reply(USUALLY, &mut buffer, &mut table).unwrap_err(), refusal);
        assert_eq!(line.feed_request(&message, &mut buffer, &mut table).unwrap_err(), refusal);
        assert_eq!((format!("{line:?}"), table), (shown, [0; 8]));
    }
}

#[test]
fn a_buffer_that_is_full_is_refused_at_the_byte_that_has_no_room() {
    let message = hex(&format!("{M} FFFF"));
    for room in 0..20 {
        for pieces in cut(&message) {
            let mut line = Line::new(false, LIMIT, room);
            let (answer, _) = in_pieces(&mut line, &pieces, 4);
            match room {
                16.. => assert_eq!((answer.is_ok(), line.connection.gathered()), (true, 16)),
                _ => {
                    let full = Refusal { why: Refused::BufferFull, place: room };
                    assert_eq!((answer, line.connection.gathered()), (Err(full), room));
                }
            }
        }
    }
    // the limit comes before it
    let mut line = Line::new(false, 12, 12);
    let missing = Refusal { why: Refused::UnexpectedEof, place: 12 };
    assert_eq!(line.hand(Some(&message), &mut []), Some(Err(missing)));
}

#[test]
fn a_read_waits_until_a_record_stands_whole() {
    let waits = |text: &str, limit: u16| Line::new(false, limit, 64).hand(Some(&hex(text)), &mut []).is_none();
    for text in ["", "80", "8007 0003 007B", "8006 0002 C3", "800B 0004 000000", "8002", "8001 0002 0000 8000 00"] {
        assert!(waits(text, LIMIT), "{text}");
        assert!(!waits(text, hex(text).len() as u16), "{text}");
    }
    assert!(!waits("800B 0004 00000000", LIMIT));
}

#[test]
fn a_connection_is_kept_and_copied() {
    let message = hex(M);
    let (mut buffer, mut table) = ([0; 64], [0; 8]);
    let mut line = Connection::start(4096);
    assert_eq!((line.limit(), line.gathered()), (4096, 0));
    assert!(matches!(line.feed_request(&message[..7], &mut buffer, &mut table), Ok(Fed::Waiting)));
    let kept = line;
    assert_eq!((kept.gathered(), kept == Connection::start(4096)), (7, false));
    let shown = "limit: 4096, gathered: 7, begins: 6, met: 2, state: 0, number: 0, beside: 0, place: 0";
    assert_eq!(format!("{kept:?}"), format!("Connection {{ {shown}, profile: Usual }}"));

    // a buffer that is shorter than what was gathered: 9, and nothing changes
    let no_value = Refusal { why: Refused::InvalidValue, place: 0 };
    assert_eq!(line.feed_request(&message[7..], &mut buffer[..6], &mut table).unwrap_err(), no_value);
    assert_eq!(line.close_request(&mut buffer[..6], &mut table).unwrap_err(), no_value);
    assert_eq!(line.feed_reply(&message[7..], USUALLY, &mut buffer[..6], &mut table).unwrap_err(), no_value);
    assert_eq!(line.close_reply(USUALLY, &mut buffer[..6], &mut table).unwrap_err(), no_value);
    assert_eq!(line, kept);

    // two ways on from one state
    let mut other = kept;
    assert!(matches!(line.feed_request(&message[7..], &mut buffer, &mut table), Ok(Fed::Accepted(_))));
    assert_eq!((line.gathered(), &buffer[..16]), (16, &message[..]));
    assert_eq!(
        other.close_request(&mut buffer, &mut table).unwrap_err(),
        Refusal { why: Refused::UnexpectedEof, place: 6 }
    );
}

/// An answer that is given again does not fill the table: what another one points to is handed out, and is empty where it is no name.
#[test]
fn an_answer_comes_again_with_whatever_table() {
    let message = hex("8001 0002 0000 8004 0002 000F 000D 0002 C3A9 000D 0001 63 8000 0000");
    let (mut buffer, mut table) = ([0; 64], [0; 4]);
    let mut line = Connection::start(LIMIT);
    let mut names = |line: &mut Connection, table: &mut [u16]| match line.feed_request(&message, &mut buffer, table) {
        Ok(Fed::Accepted(Request::KeyExchange { denied, .. })) => denied.iter().map(|name| name.to_string()).collect(),
        other => vec![format!("{other:?}")],
    };
    assert_eq!(names(&mut line, &mut table), ["\u{e9}", "c"]);
    assert_eq!(names(&mut line, &mut table), ["\u{e9}", "c"]);
    assert_eq!(names(&mut line, &mut []), ["", ""]);
    assert_eq!(names(&mut line, &mut [16, 1, 17, 1]), ["", ""]);
    assert_eq!(names(&mut line, &mut [22, 1, 65535, 65535]), ["c", ""]);
}

#[test]
fn records_are_read_and_written() {
    let (four, text) = (hex("01020304"), "A\u{80}");
    for (record, written) in [
        (Record::EndOfMessage, "8000 0000"),
        (Record::NextProtocol(List::new(&four)), "8001 0004 01020304"),
        (Record::Error(ErrorCode(258)), "8002 0002 0102"),
        (Record::Warning(WarningCode(65535)), "8003 0002 FFFF"),
        (Record::AeadAlgorithm(List::new(&four[..2])), "8004 0002 0102"),
        (Record::NewCookie(Cookie::new(&four[1..])), "0005 0003 020304"),
        (Record::NewCookie(Cookie::new(&[])), "0005 0000"),
        (Record::Server(Name::new(text)), "8006 0003 41C280"),
        (Record::Port(123), "8007 0002 007B"),
        (Record::KeepAlive, "0008 0000"),
        (Record::SupportedNextProtocolList(List::new(&[])), "8009 0000"),
        (Record::SupportedAlgorithmList(List::new(&four)), "800A 0004 01020304"),
        (Record::Unknown { kind: 11, critical: true, data: &[1] }, "800B 0001 01"),
        (Record::FixedKeyRequest(Keys::new(&four)), "800C 0004 01020304"),
        (Record::NtpServerDeny(Name::new(text)), "000D 0003 41C280"),
        (Record::Authentication(Authentication::new("")), "000E 0000"),
        (Record::Unknown { kind: 32767, critical: false, data: &four }, "7FFF 0004 01020304"),
    ] {
        writes(Ok(written), |out| record.write(out));
        let message = hex(&format!("FF {written} FF"));
        assert_eq!(record.length(), Ok(message.len() - 2));
        let read = Message::new(&message).record(1).unwrap();
        assert_eq!((format!("{:?}", read.record), read.next), (format!("{record:?}"), message.len() - 1));
        assert_eq!((read.critical, read.slip()), (message[1] > 0x7F, None));
        writes(Ok(written), |out| read.record.write(out));
    }
    let long = vec![0x61; 65536];
    let name = std::str::from_utf8(&long).unwrap();
    for (record, why) in [
        (Record::NextProtocol(List::new(&four[1..])), Refused::InvalidValue),
        (Record::AeadAlgorithm(List::new(&four[3..])), Refused::InvalidValue),
        (Record::SupportedAlgorithmList(List::new(&four[2..])), Refused::InvalidValue),
        (Record::FixedKeyRequest(Keys::new(&four[1..])), Refused::InvalidValue),
        (Record::Unknown { kind: 0, critical: false, data: &[] }, Refused::InvalidValue),
        (Record::Unknown { kind: 14, critical: true, data: &four }, Refused::InvalidValue),
        (Record::Unknown { kind: 32768, critical: false, data: &[] }, Refused::InvalidValue),
        (Record::Unknown { kind: 65535, critical: false, data: &[] }, Refused::InvalidValue),
        (Record::NewCookie(Cookie::new(&long)), Refused::InvalidInput),
        (Record::Server(Name::new(name)), Refused::InvalidInput),
        (Record::FixedKeyRequest(Keys::new(&long)), Refused::InvalidInput),
    ] {
        writes(Err(why), |out| record.write(out));
        assert_eq!(record.length(), Err(why));
    }
    let message = hex(M);
    let message = Message::new(&message);
    for place in [16, 17, usize::MAX] {
        assert_eq!(message.record(place).unwrap_err(), Refusal { why: Refused::UnexpectedEof, place });
    }
    assert_eq!(Message::new(&[]).record(0).unwrap_err(), Refusal { why: Refused::UnexpectedEof, place: 0 });
    let port = hex(&format!("{M} 8007 0003 007B"));
    assert_eq!(Message::new(&port).record(16).unwrap_err(), Refusal { why: Refused::InvalidData, place: 16 });
}

#[test]
fn the_records_of_a_message_come_one_after_the_other() {
    let walked = |text: &str| {
        let message = hex(text);
        let mut records = Message::new(&message).records();
        let mut seen = vec![];
        for placed in records.by_ref().flatten() {
            assert_eq!(placed.body.len(), usize::from(placed.size));
            assert_eq!(placed.body, &message[placed.place + 4..][..placed.body.len()]);
            assert_eq!((placed.next, placed.named), (placed.place + 4 + placed.body.len(), bit_named(placed.kind)));
            let alone = Message::new(&message).record(placed.place).unwrap();
            assert_eq!(format!("{alone:?}"), format!("{placed:?}"));
            seen.push((placed.place, placed.kind, placed.critical, placed.size));
        }
        assert!(records.next().is_none());
        (seen, Message::new(&message).records().find_map(Result::err))
    };
    let m = vec![(0, 1, true, 2), (6, 4, true, 2), (12, 0, true, 0)];
    assert_eq!(walked(M), (m.clone(), None));
    // what follows the end record is not looked at, and one may have a body
    assert_eq!(walked(&format!("{M} 8007 0003 007B")), (m, None));
    assert_eq!(walked("0000 0001 FF 8001 0000"), (vec![(0, 0, false, 1)], None));
    // the bit of each kind, known and unknown
    let bits = "0001 0002 0000 7FFF 0001 AA 800B 0000 000C 0002 0102 8000 0000";
    let all = vec![(0, 1, false, 2), (6, 32767, false, 1), (11, 11, true, 0), (15, 12, false, 2), (21, 0, true, 0)];
    assert_eq!(walked(bits), (all, None));
    // a refusal is the last that comes
    let refused = |why, place| Some(Refusal { why, place });
    assert_eq!(walked(""), (vec![], refused(Refused::UnexpectedEof, 0)));
    assert_eq!(walked("0008 0000"), (vec![(0, 8, false, 0)], refused(Refused::UnexpectedEof, 4)));
    let ill = "8001 0002 0000 8007 0003 007B00 8000 0000";
    assert_eq!(walked(ill), (vec![(0, 1, true, 2)], refused(Refused::InvalidData, 6)));
    let cut = hex("0008 0000 80");
    let mut records = Message::new(&cut).records();
    assert!(records.next().unwrap().is_ok() && records.next().unwrap().is_err());
    assert!(records.next().is_none() && records.next().is_none());
}

/// The bit that document 01 names for the kinds 0 to 14. Every other one is unknown.
const NAMED: [Option<bool>; 15] = {
    const SET: Option<bool> = Some(true);
    const CLEAR: Option<bool> = Some(false);
    [SET, SET, SET, SET, SET, CLEAR, SET, SET, CLEAR, SET, SET, None, SET, CLEAR, CLEAR]
};

#[test]
fn a_kind_has_its_bit() {
    for kind in 0..=u16::MAX {
        assert_eq!(bit_named(kind), NAMED.get(usize::from(kind)).copied().flatten(), "{kind}");
    }
}

#[test]
fn the_bit_is_kept_as_it_was_received() {
    // each known kind, those whose body is skipped with one and without; and unknown ones
    let bodies = [
        (0, ""),
        (0, "AA"),
        (1, "0000"),
        (2, "0102"),
        (3, "FFFF"),
        (4, "000F 0011"),
        (5, "AABB"),
        (6, "41C280"),
        (7, "007B"),
        (8, ""),
        (8, "8000 0000"),
        (9, ""),
        (10, "000F 0020"),
        (11, "01"),
        (12, "01020304"),
        (13, "41"),
        (14, ""),
        (15, ""),
        (16384, "FF"),
        (32767, "8000"),
    ];
    for (kind, body) in bodies {
        let (named, body) = (NAMED.get(usize::from(kind)).copied().flatten(), hex(body));
        for critical in [false, true] {
            let received = |critical: bool, body: &[u8]| {
                let word = u16::from(critical) << 15 | kind;
                [&word.to_be_bytes()[..], &(body.len() as u16).to_be_bytes(), body].concat()
            };
            let alone = received(critical, &body);
            let message = [&[0xFF], &alone[..], &[0xFF]].concat();
            let placed = Message::new(&message).record(1).unwrap();
            assert_eq!((placed.place, placed.kind, placed.critical, placed.named), (1, kind, critical, named));
            assert_eq!((usize::from(placed.size), placed.body, placed.next), (body.len(), &body[..], 1 + alone.len()));
            let slip = match (named, critical) {
                (Some(true), false) => Some(Slip::Forgotten),
                (Some(false), true) => Some(Slip::Added),
                _ => None,
            };
            assert_eq!(placed.slip(), slip);
            if let Record::Unknown { kind: number, critical: own, data } = placed.record {
                assert_eq!((number, own, data, named), (kind, critical, &body[..], None));
            }
            assert_eq!(matches!(placed.record, Record::Unknown { .. }), named.is_none());

            // what is written: the same bytes exactly if there is no slip and no body was skipped
            let skipped = [0, 8].contains(&kind);
            let canonical = received(named.unwrap_or(critical), if skipped { &[] } else { &body });
            let mut out = bytes(alone.len());
            let written = placed.record.write(out.memory()).unwrap().to_vec();
            assert_eq!((&written, placed.record.length()), (&canonical, Ok(canonical.len())));
            out.holds(0, &canonical);
            assert_eq!(written == alone, slip.is_none() && (!skipped || body.is_empty()), "kind {kind}, {critical}");
            let again = Message::new(&written).record(0).unwrap();
            assert_eq!((again.critical, again.slip()), (named.unwrap_or(critical), None));
        }
    }
}

#[test]
fn a_slip_is_told() {
    let slips = |text: &str| -> Vec<String> {
        let message = hex(text);
        let told = |placed: Placed| placed.slip().map(|slip| format!("{} {} {slip}", placed.place, placed.kind));
        Message::new(&message).records().flatten().filter_map(told).collect()
    };
    assert_eq!(slips(M), [""; 0]);
    let some = "0001 0000 8005 0000 000B 0000 800B 0000 FFFF 0000 8004 0000 800D 0000 0000 0000";
    assert_eq!(
        slips(some),
        [
            "0 1 without its critical bit",
            "4 5 with a critical bit",
            "24 13 with a critical bit",
            "28 0 without its critical bit",
        ]
    );
    // the header's loop says the same
    for slip in [Slip::Forgotten, Slip::Added] {
        assert!(HEADER.contains(&format!("{:?}", slip.words())) && slip.to_string() == slip.words());
    }
}

#[test]
fn iterators_tell_how_many_are_left() {
    fn counts<T>(mut left: impl ExactSizeIterator<Item = T>, count: usize) {
        for n in (0..count).rev() {
            assert_eq!((left.len(), left.size_hint()), (n + 1, (n + 1, Some(n + 1))));
            assert!(left.next().is_some());
        }
        assert_eq!((left.len(), left.size_hint()), (0, (0, Some(0))));
        assert!(left.next().is_none() && left.next().is_none());
        assert_eq!(left.len(), 0);
    }
    let twelve = hex("000F 0020 0011 0040 FFFF 0001");
    for len in 0..=12 {
        counts(List::<NextProtocol>::new(&twelve[..len]).iter(), len / 2);
        counts(List::<AeadAlgorithm>::new(&twelve[..len]).into_iter(), len / 2);
        counts(List::<AlgorithmDescription>::new(&twelve[..len]).iter(), len / 4);
    }
    let names = hex("8001 0000 8004 0000 000D 0003 612E62 000D 0000 000D 0001 63 8000 0000");
    let mut table = [0; 8];
    let Ok(Request::KeyExchange { denied, .. }) = Message::new(&names).request(65535, &mut table) else { panic!() };
    counts(denied.iter(), 3);
    counts(denied.into_iter(), 3);
    assert_eq!(format!("{:?}", denied.iter()), r#"["a.b", "", "c"]"#);
    let cookies = hex("8001 0002 0000 8004 0002 000F 0005 0001 AA 0005 0000 8000 0000");
    let reply = Message::new(&cookies).reply(65535, USUALLY, &mut table).unwrap();
    counts(reply.cookies.iter(), 2);
    assert_eq!(format!("{:?}", reply.cookies.iter()), "[Cookie(1 bytes), Cookie(0 bytes)]");
}

#[test]
fn a_message_is_listed() {
    let mut count = 0;
    for block in LISTINGS.split("\n<").skip(1) {
        let (message, rest) = block.split_once('\n').unwrap();
        let want: String =
            rest.lines().filter_map(|line| line.strip_prefix("> ")).flat_map(|line| [line, "\n"]).collect();
        let message = hex(message);
        for size in [want.len(), want.len() + 3, want.len() - 1, 0] {
            let mut out = bytes(size);
            let listed = Message::new(&message).list(LIMIT, 1024, out.memory());
            if size < want.len() {
                assert_eq!(listed, Err(Refused::OutputTooShort));
                out.holds(0, &[]);
            } else {
                assert_eq!(listed, Ok(&want[..]));
                out.holds(0, want.as_bytes());
            }
        }
        count += 1;
    }
    assert_eq!(count, LISTINGS.lines().filter(|line| line.starts_with('<')).count());
    let (message, mut out) = (hex("8001 0000 8004 0000 000D 0001 61 8000 0000"), vec![0; LISTING]);
    let last = |limit, room, out: &mut [u8]| {
        Message::new(&message).list(limit, room, out).unwrap().lines().last().unwrap().to_string()
    };
    assert_eq!(last(LIMIT, 1, &mut out), "request key-exchange protocols 0 algorithms 0 denied 1");
    assert_eq!(last(LIMIT, 0, &mut out), "refused 7 at 13");
    assert_eq!(last(16, 1, &mut out), "refused 1 at 13");
    // as many lines as there can be, and so the longest listing
    let most = [0x7F, 0xFF, 0, 0].repeat(16384);
    assert!(Message::new(&most).list(LIMIT, 0, &mut out).unwrap().ends_with("\n65528 32767 - 0\nrefused 1 at 65532\n"));
}

#[test]
fn parts_and_lists_are_handed_out() {
    let bytes = hex("000F 0020 0011 0040 FFFF");
    let message = Message::new(&bytes);
    assert_eq!(message.part(2, 4), &bytes[2..6]);
    assert_eq!(message.part(0, 10), message.bytes());
    for (start, len) in [(10, 0), (0, 11), (11, 0), (usize::MAX, 1), (1, usize::MAX), (usize::MAX, usize::MAX)] {
        assert_eq!(message.part(start, len), &[]);
    }
    assert_eq!(Message::new(&[]).part(0, 0), &[]);
    let pairs: List<AlgorithmDescription> = List::new(message.part(0, 8));
    let described = |algorithm, keysize| AlgorithmDescription { algorithm: AeadAlgorithm(algorithm), keysize };
    assert_eq!(pairs.iter().collect::<Vec<_>>(), [described(15, 32), described(17, 64)]);
    assert_eq!((pairs.len(), pairs.get(2), pairs.get(usize::MAX)), (2, None, None));
    let odd: List<NextProtocol> = List::new(message.part(7, 3));
    assert_eq!((odd.len(), odd.get(0), odd.get(1)), (1, Some(NextProtocol(0x40FF)), None));
}

#[test]
fn utf8_is_judged() {
    for text in ["", "41", "C280", "E0A080", "ED9FBF", "F48FBFBF", "F0908080", "41C28042"] {
        assert!(is_utf8(&hex(text)));
        assert_eq!(
            Name::from_utf8(&hex(text)).map(|name| name.as_str().to_string()),
            String::from_utf8(hex(text)).ok()
        );
    }
    for text in ["80", "C1BF", "E09FBF", "EDA080", "F4908080", "F5808080", "C2", "E0A0", "C241", "FF"] {
        assert!(!is_utf8(&hex(text)));
        assert_eq!(Name::from_utf8(&hex(text)), None);
    }
    // every lead byte with every second one, whole and broken behind it: alone, twice, and with ASCII around it
    let behind: [&[u8]; 9] = [b"", b"\x80", b"\xBF", b"\x7F", b"\xC0", b"\x80\xBF", b"\xBF\x7F", b"\x80\xC0", b"\x80\xBF\x80"];
    for first in 0..=255 {
        assert_eq!(is_utf8(&[first]), std::str::from_utf8(&[first]).is_ok());
        for second in 0..=255 {
            for rest in behind {
                let text = [&[first, second], rest].concat();
                for text in [&text[..], &[&text[..], &text].concat(), &[b"a", &text[..], b"bcdef"].concat()] {
                    assert_eq!(is_utf8(text), std::str::from_utf8(text).is_ok(), "{text:02X?}");
                }
            }
        }
    }
}

#[test]
fn one_is_chosen() {
    let (ntp, siv) = ([NextProtocol(0)], [AeadAlgorithm(15), AeadAlgorithm(17)]);
    let chosen = |protocols: &str, algorithms: &str, own: &[NextProtocol], own_algorithms: &[AeadAlgorithm]| {
        choose(List::new(&hex(protocols)), List::new(&hex(algorithms)), own, own_algorithms)
            .map(|chosen| (chosen.protocol.0, chosen.algorithm.0))
    };
    assert_eq!(chosen("8001 0000", "0011 000F", &ntp, &siv), Ok((0, 17)));
    assert_eq!(chosen("8001 0000", "0011 000F", &[NextProtocol(0), NextProtocol(0x8001)], &siv[..1]), Ok((0x8001, 15)));
    assert_eq!(chosen("8001", "0000", &ntp, &siv), Err(Refused::NoOverlappingProtocol));
    assert_eq!(chosen("", "", &[], &[]), Err(Refused::NoOverlappingProtocol));
    assert_eq!(chosen("0000", "0000", &ntp, &siv), Err(Refused::NoOverlappingAlgorithm));
    assert_eq!(chosen("0000 00", "000F", &ntp, &siv), Err(Refused::InvalidValue));
    assert_eq!(chosen("8001", "00", &ntp, &siv), Err(Refused::InvalidValue));

    let chosen = |protocols: &str, own: &[NextProtocol]| choose_protocol(List::new(&hex(protocols)), own).map(|p| p.0);
    assert_eq!(chosen("8001 0000", &ntp), Ok(0));
    assert_eq!(chosen("8001 0000", &[NextProtocol(0), NextProtocol(0x8001)]), Ok(0x8001));
    assert_eq!(chosen("8001", &ntp), Err(Refused::NoOverlappingProtocol));
    assert_eq!(chosen("", &ntp), Err(Refused::NoOverlappingProtocol));
    assert_eq!(chosen("0000", &[]), Err(Refused::NoOverlappingProtocol));
    assert_eq!(chosen("0000 00", &ntp), Err(Refused::InvalidValue));
}

#[test]
fn an_algorithm_has_keys_of_a_length() {
    assert_eq!(AeadAlgorithm::AES_SIV_CMAC_256.key_length(), Ok(32));
    assert_eq!(AeadAlgorithm::AES_SIV_CMAC_512.key_length(), Ok(64));
    for algorithm in [0, 14, 16, 18, 30, 65535].map(AeadAlgorithm) {
        assert_eq!(algorithm.key_length(), Err(Refused::AeadNotSupported(algorithm)));
    }
}

#[test]
fn what_tls_is_told() {
    let defined =
        |name: &str, value: String| assert!(HEADER.contains(&format!("#define NTSKE_{name} {value}\n")), "{name}");
    defined("ALPN", format!("{ALPN:?}"));
    defined("PORT", PORT.to_string());
    defined("EXPORTER_LABEL", format!("{EXPORTER_LABEL:?}"));
    defined("LIMIT", LIMIT.to_string());
    defined("LISTING", LISTING.to_string());
    defined("MOST_COOKIES", Plan::MOST_COOKIES.to_string());
    defined("FIELD_HEADER", Tray::field(0).to_string());
    defined("FIELD_HEADER", Names::field(0).to_string());
    let context = |s2c| exporter_context(NextProtocol(0x1234), AeadAlgorithm(0x5678), s2c);
    assert_eq!((context(false), context(true)), ([0x12, 0x34, 0x56, 0x78, 0], [0x12, 0x34, 0x56, 0x78, 1]));
    defined("CONTEXT_LEN", context(true).len().to_string());
}

#[test]
fn package_header_and_archive_are_of_one_version() {
    assert_eq!(version(), VERSION);
    assert!(HEADER.contains(&format!("#define NTSKE_VERSION {VERSION:#08x}\n")));
    let [a, b, c, d, e, major, minor, patch] = version().to_be_bytes();
    assert_eq!(([a, b, c, d, e], format!("{major}.{minor}.{patch}").as_str()), ([0; 5], env!("CARGO_PKG_VERSION")));
}

#[test]
fn a_reply_is_planned_and_written() {
    let mut tray = bytes(12);
    let mut plan = Plan::new(NextProtocol(0), AeadAlgorithm(17), Tray::new(tray.memory()));
    assert_eq!(plan.length(), 16);
    writes(Err(Refused::NoCookie), |out| plan.write(None, out));
    plan.set_port(1).set_port(123).set_name_length(3).set_keep_alive();
    plan.append(&hex("DEADBEEF")).unwrap();
    assert_eq!(plan.append(&[0; 3]).unwrap_err(), Refused::OutputTooShort);
    plan.append(&[]).unwrap();
    assert_eq!(plan.append(&[]).unwrap_err(), Refused::OutputTooShort);
    assert_eq!(plan.append(&vec![0; 65536]).unwrap_err(), Refused::InvalidInput);
    let all = "8001 0002 0000 8004 0002 0011 8006 0003 612E62 8007 0002 007B 0008 0000 0005 0004 DEADBEEF 0005 0000 8000 0000";
    writes(Ok(all), |out| plan.write(Some(Name::new("a.b")), out));
    assert_eq!(plan.length(), hex(all).len());
    writes(Err(Refused::InvalidValue), |out| plan.write(Some(Name::new("a.bc")), out));
    writes(Err(Refused::InvalidValue), |out| plan.write(None, out));
    plan.clear_port().clear_name_length().clear_keep_alive();
    let less = "8001 0002 0000 8004 0002 0011 0005 0004 DEADBEEF 0005 0000 8000 0000";
    writes(Ok(less), |out| plan.write(None, out));
    assert_eq!(plan.length(), hex(less).len());
    writes(Err(Refused::InvalidValue), |out| plan.write(Some(Name::new("a.b")), out));
    tray.holds(0, &hex("01 0004 DEADBEEF 01 0000"));

    let mut tray = bytes(40);
    let mut plan = Plan::new(NextProtocol(65535), AeadAlgorithm(65535), Tray::new(tray.memory()));
    for _ in 0..8 {
        plan.append(&[0xEE]).unwrap();
    }
    assert_eq!(plan.append(&[]).unwrap_err(), Refused::TableFull);
    assert_eq!(plan.length(), 16 + 8 * 5);
    tray.holds(0, &hex("01 0001 EE").repeat(8));
    let mut none = Plan::new(NextProtocol(0), AeadAlgorithm(15), Tray::new(&mut []));
    assert_eq!(none.append(&[]).unwrap_err(), Refused::OutputTooShort);
}

#[test]
fn other_replies_are_written() {
    writes(Ok("8001 0000 8000 0000"), write_no_protocol);
    writes(Ok("8001 0002 8001 8004 0000 8000 0000"), |out| write_no_algorithm(NextProtocol::DRAFT_NTPV5, out));
    writes(Ok("8002 0002 FFFF 8000 0000"), |out| write_error(ErrorCode(65535), out));
    let pairs =
        [15, 17].map(|n| AlgorithmDescription { algorithm: AeadAlgorithm(n), keysize: if n == 15 { 32 } else { 64 } });
    let protocols = [NextProtocol(0), NextProtocol(0x8001)];
    let many_pairs = vec![pairs[0]; 16384];
    let many = vec![protocols[0]; 32768];
    let asked =
        |number: u8| Asked { algorithms: number & 1 != 0, protocols: number & 2 != 0, keep_alive: number & 4 != 0 };
    let (a, p, k) = ("800A 0008 000F 0020 0011 0040", "8009 0004 0000 8001", "0008 0000");
    for number in 0..8 {
        let part = |bit: u8, text| if number & bit != 0 { text } else { "" };
        let want = format!("{}{}{} 8000 0000", part(1, a), part(2, p), part(4, k));
        writes(Ok(&want), |out| write_support_reply(asked(number), &pairs, &protocols, out));
        assert_eq!(support_reply_length(asked(number), &pairs, &protocols), Ok(hex(&want).len()));
        for (pairs, protocols, bit) in [(&many_pairs[..], &protocols[..], 1), (&pairs[..], &many[..], 2)] {
            if number & bit != 0 {
                writes(Err(Refused::InvalidInput), |out| write_support_reply(asked(number), pairs, protocols, out));
                assert_eq!(support_reply_length(asked(number), pairs, protocols), Err(Refused::InvalidInput));
            }
        }
    }
    writes(Ok("800A 0000 8009 0000 0008 0000 8000 0000"), |out| write_support_reply(asked(7), &[], &[], out));
}

#[test]
fn a_request_is_written() {
    let (protocols, algorithms) = ([NextProtocol(0)], [AeadAlgorithm(15)]);
    let none = Names::new(&mut []);
    writes(Ok(M), |out| write_request(&protocols, &algorithms, &none, out));
    assert_eq!(request_length(&protocols, &algorithms, &none), Ok(16));
    let mut lent = bytes(10);
    let mut names = Names::new(lent.memory());
    names.append(Name::new("a.b")).unwrap();
    assert_eq!(names.append(Name::new("cd")).unwrap_err(), Refused::OutputTooShort);
    names.append(Name::new("")).unwrap();
    assert_eq!(names.append(Name::new("")).unwrap_err(), Refused::OutputTooShort);
    assert_eq!(names.append(Name::new(&"c".repeat(65536))).unwrap_err(), Refused::InvalidInput);
    assert_eq!(format!("{names:?}"), "Names(9 bytes used)");
    let want = "8001 0002 0000 8004 0002 000F 000D 0003 612E62 000D 0000 8000 0000";
    writes(Ok(want), |out| write_request(&protocols, &algorithms, &names, out));
    assert_eq!(request_length(&protocols, &algorithms, &names), Ok(hex(want).len()));
    writes(Ok("8001 0000 8004 0000 8000 0000"), |out| write_request(&[], &[], &none, out));
    let (many, many_algorithms) = (vec![protocols[0]; 32768], vec![algorithms[0]; 32768]);
    writes(Err(Refused::InvalidInput), |out| write_request(&many, &algorithms, &names, out));
    writes(Err(Refused::InvalidInput), |out| write_request(&protocols, &many_algorithms, &none, out));
    assert_eq!(request_length(&many, &many_algorithms, &names), Err(Refused::InvalidInput));
    assert_eq!(request_length(&many[1..], &many_algorithms[1..], &none), Ok(2 * (4 + 65534) + 4));
    lent.holds(0, &hex("02 0003 612E62 02 0000"));
}

/// The refusals that the package knows, in the order of their numbers; of 17 there are two.
const REFUSALS: [Refused; 19] = [
    Refused::UnexpectedEof,
    Refused::InvalidData,
    Refused::UnrecognizedCriticalRecord,
    Refused::Invalid,
    Refused::AeadNotSupported(AeadAlgorithm(16)),
    Refused::IncorrectSizedKey,
    Refused::TableFull,
    Refused::InvalidInput,
    Refused::InvalidValue,
    Refused::OutputTooShort,
    Refused::Error(ErrorCode(16)),
    Refused::UnknownWarning(WarningCode(16)),
    Refused::NoOverlappingProtocol,
    Refused::NoOverlappingAlgorithm,
    Refused::NoCookie,
    Refused::BufferFull,
    Refused::ProtocolNotOffered(NextProtocol(16)),
    Refused::AeadNotOffered(AeadAlgorithm(16)),
    Refused::NotAllowed,
];

#[test]
fn each_refusal_has_its_number_and_words() {
    assert!(REFUSALS.iter().map(|why| why.number()).eq((1..=17).chain([17, 18])));
    let beside: Vec<_> = REFUSALS.iter().filter(|why| why.beside() == Some(16)).map(|why| why.number()).collect();
    assert_eq!((beside, REFUSALS.iter().filter_map(|why| why.beside()).count()), (vec![5, 11, 12, 17, 17], 5));

    // the header's words are the same, behind the one for what is accepted and around the one for a bare 17; those of 17 stand apart
    let table = |name: &str| -> Vec<&str> {
        let table = HEADER.split_once(&format!(" {name}[] = {{")).unwrap().1.split_once("};").unwrap().0;
        table.split('"').skip(1).step_by(2).collect()
    };
    assert_eq!(table("words")[1..17], REFUSALS[..16].iter().map(|why| why.words()).collect::<Vec<_>>());
    assert_eq!(table("not_offered"), [REFUSALS[16].words(), REFUSALS[17].words()]);
    assert_eq!(table("words")[18..], [REFUSALS[18].words()]);

    let codes: Vec<_> = REFUSALS.iter().map(|why| why.error_code().0).collect();
    assert_eq!(codes, [1, 1, 0, 1, 1, 1, 2, 2, 2, 2, 2, 2, 2, 2, 2, 2, 2, 2, 1]);

    let refusal = Refusal { why: Refused::Error(ErrorCode(0)), place: 7 };
    assert_eq!(refusal.to_string(), "refused 11 at 7: the reply has an error record, code 0");
    assert_eq!(Refused::NoCookie.to_string(), "no cookie");
    let shown: Vec<_> = REFUSALS.iter().filter(|why| why.beside().is_some()).map(|why| why.to_string()).collect();
    assert_eq!(
        shown,
        [
            "the algorithm is not 15 or 17, algorithm 16",
            "the reply has an error record, code 16",
            "the reply has a warning record, code 16",
            "the reply's protocol was not offered, protocol 16",
            "the reply's algorithm was not offered, algorithm 16",
        ]
    );
    let errors: [Box<dyn std::error::Error>; 2] = [refusal.into(), refusal.why.into()];
    assert_eq!(errors[1].to_string(), "the reply has an error record, code 0");
}

#[test]
fn a_word_is_taken_apart() {
    assert_eq!(Refusal::from_word(0), None);
    // bits 0 to 7 are the number, and bits 8 to 15 tell the two of 17 apart
    for low in 0..=u16::MAX {
        let refusal = Refusal::from_word(u64::from(low) | 16 << 16 | 0xFFFF_FFFF << 32).unwrap();
        assert_eq!((refusal.why.number(), refusal.place), (low & 0xFF, 0xFFFF_FFFF));
        match low {
            1..=16 => assert_eq!(refusal.why, REFUSALS[usize::from(low) - 1]),
            18 => assert_eq!(refusal.why, Refused::NotAllowed),
            0x0111 => assert_eq!(refusal.why, Refused::ProtocolNotOffered(NextProtocol(16))),
            0x0211 => assert_eq!(refusal.why, Refused::AeadNotOffered(AeadAlgorithm(16))),
            _ => assert_eq!(refusal.why, Refused::Unknown { number: low & 0xFF, beside: 16 }),
        }
    }
    let unknown = Refusal::from_word(0x0000_0007_0003_0063).unwrap();
    assert_eq!(unknown, Refusal { why: Refused::Unknown { number: 99, beside: 3 }, place: 7 });
    assert_eq!((unknown.why.beside(), unknown.why.error_code()), (Some(3), ErrorCode::INTERNAL_SERVER_ERROR));
    assert_eq!(unknown.why.to_string(), "a refusal that this package does not know, number 99, code 3");
}

/// Nothing that holds a secret can be compared with `==`: with PartialEq there would be two ways to read the line, and
/// it would not compile.
macro_rules! not_compared {
    ($($Type:ty)*) => {
        $(const _: fn() = || {
            trait Ambiguous<A> {
                fn asked() {}
            }
            struct Compared;
            impl<T: ?Sized> Ambiguous<()> for T {}
            impl<T: ?Sized + PartialEq> Ambiguous<Compared> for T {}
            let _ = <$Type as Ambiguous<_>>::asked;
        };)*
    };
}
not_compared!(Key Keys Cookie Authentication Record Placed Message Cookies Request Reply Tray Plan);

/// Neither form of `{:?}` shows three bytes of a secret one after the other: as text, in decimal or in hexadecimal,
/// whatever is between them.
fn hides(shown: impl Debug, secret: &[u8]) {
    let plain = |text: String| text.replace("0x", "").chars().filter(|c| c.is_alphanumeric()).collect::<String>();
    for text in [format!("{shown:?}"), format!("{shown:#?}")].map(plain) {
        for three in secret.windows(3) {
            let decimal: String = three.iter().map(|byte| byte.to_string()).collect();
            let hex: String = three.iter().map(|byte| format!("{byte:02x}")).collect();
            for form in [decimal, hex.to_uppercase(), hex, String::from_utf8(three.to_vec()).unwrap()] {
                assert!(!text.contains(&form), "{form} of the secret is in {shown:?}");
            }
        }
    }
}

#[test]
fn no_secret_is_shown() {
    // letters whose numbers have three digits, so that no number that may be shown is like them
    let secret: Vec<u8> = b"roughwizstylmnpxvk".iter().copied().cycle().take(64).collect();
    let text = std::str::from_utf8(&secret).unwrap();
    hides(secret.len(), &secret);
    let found = |shown: &dyn Debug| std::panic::catch_unwind(std::panic::AssertUnwindSafe(|| hides(shown, &secret)));
    assert!(found(&secret).is_err() && found(&text).is_err() && found(&format_args!("{secret:02X?}")).is_err());

    let mut records = vec![];
    for record in [
        Record::NewCookie(Cookie::new(&secret)),
        Record::FixedKeyRequest(Keys::new(&secret)),
        Record::Authentication(Authentication::new(text)),
        Record::Unknown { kind: 16384, critical: false, data: &secret },
    ] {
        hides(record, &secret);
        let mut out = [0; 80];
        records.extend_from_slice(record.write(&mut out).unwrap());
    }
    let lists = hex("8001 0002 0000 8004 0002 000F");
    let message = [&lists[..], &records, &[0x80, 0, 0, 0]].concat();
    let message = Message::new(&message);
    hides(message, &secret);
    assert_eq!(format!("{message:?}"), format!("Message({} bytes)", message.bytes().len()));
    hides(message.records(), &secret);
    for placed in message.records() {
        hides(placed.unwrap(), &secret);
    }
    let shown: Vec<_> = message.records().map(|placed| format!("{:?}", placed.unwrap().record)).collect();
    assert_eq!(
        shown[2..6],
        [
            "NewCookie(Cookie(64 bytes))",
            "FixedKeyRequest(Keys(64 bytes))",
            "Authentication(Authentication(64 bytes))",
            "Unknown { kind: 16384, critical: false, data: 64 bytes }",
        ]
    );

    let mut table = [0; 4];
    let (mut keys, mut known) = ([0; 80], [0; 80]);
    let keys = Record::FixedKeyRequest(Keys::new(&secret)).write(&mut keys).unwrap();
    let known = Record::Authentication(Authentication::new(text)).write(&mut known).unwrap();
    let fixed = [&lists[..], keys, known, &[0x80, 0, 0, 0]].concat();
    let request = Message::new(&fixed).request(LIMIT, &mut table).unwrap();
    assert!(matches!(request, Request::FixedKey { c2s, .. } if c2s.bytes() == &secret[..32]));
    hides(request, &secret);
    let support = [&hex("8009 0000")[..], known, &[0x80, 0, 0, 0]].concat();
    hides(Message::new(&support).request(LIMIT, &mut table).unwrap(), &secret);

    let (mut buffer, mut out) = (secret.repeat(3), [0; 512]);
    hides(Tray::new(&mut buffer), &secret);
    assert_eq!(format!("{:?}", Tray::new(&mut buffer)), "Tray(192 bytes)");
    hides(Names::new(&mut buffer), &secret);
    let mut plan = Plan::new(NextProtocol(0), AeadAlgorithm(15), Tray::new(&mut buffer));
    plan.append(&secret).unwrap().append(&secret).unwrap();
    hides(&plan, &secret);
    let written = plan.write(None, &mut out).unwrap();
    let reply = Message::new(written).reply(LIMIT, USUALLY, &mut table).unwrap();
    assert_eq!(reply.cookies.get(1).unwrap().bytes(), secret);
    hides(reply, &secret);
    hides(reply.cookies, &secret);
    hides(reply.cookies.iter(), &secret);
}
