//! Choosing, trays, plans and whole messages: ops g, n, a, p, P and k.

use std::io::{self, Write};

use super::hex;
use crate::corpus::{LARGEST_LIMIT, put};
use crate::generate::payloads::{
    ALGORITHMS, COOKIE, HAS_NAME, NAME, PROTOCOLS, Plan, append, choice, error, field, fields, no_algorithm,
    no_protocol, request, support,
};
use crate::payload::ROOM;

/// The client's protocols and algorithms, and the server's.
type Lists = (&'static str, &'static str, &'static [u16], &'static [u16]);

const CHOICES: [Lists; 34] = [
    // The first of the client's that the server has.
    ("0000", "000F", &[0], &[15]),
    ("0000 8001", "000F 0011", &[0x8001, 0], &[17, 15]),
    ("8001 0000", "0011 000F", &[0, 0x8001], &[15, 17]),
    ("0007 8001 0000", "0010 0011 000F", &[0, 0x8001], &[15, 17]),
    ("0007 0000", "0010 0011", &[0], &[17, 16]),
    ("0000 0000", "0011 0011", &[5, 0, 0], &[4, 17, 17]),
    ("FFFF", "FFFF", &[0, 0xffff], &[0, 0xffff]),
    ("0000", "0000", &[0], &[0]),
    // No common protocol, also where there is no common algorithm.
    ("", "000F", &[0], &[15]),
    ("0000", "000F", &[], &[15]),
    ("0001 8001", "000F", &[0], &[15]),
    ("0000", "0010", &[0x8001], &[15]),
    ("", "", &[], &[]),
    // A protocol is no algorithm.
    ("000F", "000F", &[0], &[15]),
    ("000F", "0000", &[0, 15], &[15]),
    // No common algorithm.
    ("0000", "", &[0], &[15]),
    ("0000", "000F", &[0], &[]),
    ("0000", "0010 0011", &[0], &[15]),
    // Where the crate's choice is another.
    ("0000", "000F", &[0], &[17]),
    ("0000", "000F 0011", &[0], &[17]),
    ("0000", "0010", &[0], &[16]),
    ("0000", "0010 000F", &[0], &[15, 16]),
    // Both bytes of a number count, at their places.
    ("0000", "0F00", &[0], &[15]),
    ("0100", "000F", &[1], &[15]),
    ("0000", "0000 0F00", &[0], &[15]),
    ("0000", "110F", &[0], &[15, 17]),
    // Lists of an odd length, whatever else there is.
    ("00", "000F", &[0], &[15]),
    ("0000 00", "000F", &[0], &[15]),
    ("0000", "0F", &[0], &[15]),
    ("0000", "000F 00", &[0], &[15]),
    ("0000", "000F 00", &[], &[]),
    ("00", "", &[0], &[]),
    ("00", "0F", &[0], &[15]),
    ("0000 00", "000F 00", &[0], &[15]),
];

/// Used parts of trays of cookies, good ones and broken ones.
const TRAYS: [&str; 6] = ["", "010000", "010001 61", "010002 6162 010000", "010003 010000", "010000 010001 02"];
const BROKEN: [&str; 14] = [
    "01",
    "0100",
    "010001",
    "010002 61",
    "010100 61",
    "010001 61 01",
    "010001 61 0100",
    "010001 61 010001",
    "000000",
    "020000",
    "030001 61",
    "810000",
    "010000 020000",
    "010001 61 62",
];

/// Names of two bytes: the last two are none.
const NAMES: [&str; 4] = ["6162", "C3A9", "C328", "61C3"];

pub fn choosing(out: &mut impl Write) -> io::Result<()> {
    for (protocols, algorithms, servers_protocols, servers_algorithms) in CHOICES {
        let client = [&hex(protocols)[..], &hex(algorithms)];
        put(out, b'g', &choice(client, [servers_protocols, servers_algorithms]))?;
    }
    replies(out)?;
    appends(out)?;
    counted_appends(out)?;
    plans(out)?;
    names_of_plans(out)?;
    trays_of_plans(out)?;
    requests(out)?;
    bad(out)
}

/// The replies that need no plan.
fn replies(out: &mut impl Write) -> io::Result<()> {
    for room in [0, 3, 7, 8, 9, ROOM] {
        put(out, b'n', &no_protocol(room))?;
    }
    for (room, number) in [(13, 0), (14, 0), (15, 0x8001), (14, 0xffff), (0, 0)] {
        put(out, b'n', &no_algorithm(room, number))?;
    }
    for (room, number) in [(9, 1), (10, 0), (10, 1), (10, 2), (11, 0xffff), (0, 0)] {
        put(out, b'n', &error(room, number))?;
    }
    let (pairs, protocols) = ([15, 32, 17, 64], [0, 0x8001]);
    for flags in 0..8 {
        let length = 4 + [12, 8, 4].iter().enumerate().map(|(bit, size)| (flags >> bit & 1) * size).sum::<usize>();
        let flags = flags as u8;
        for room in [length, length - 1] {
            put(out, b'n', &support(room, flags, &pairs, &protocols))?;
        }
        put(out, b'n', &support(40, flags, &[], &[]))?;
        // Pairs of an odd number of cells, asked for or not.
        put(out, b'n', &support(40, flags, &pairs[..3], &protocols))?;
    }
    put(out, b'n', &support(0, ALGORITHMS, &pairs[..1], &[]))?;
    put(out, b'n', &support(0, PROTOCOLS, &pairs[..1], &[]))?;
    put(out, b'n', &support(13, PROTOCOLS, &[], &[0, 1, 2]))
}

/// A cookie of two bytes appended to good trays and to broken ones.
fn appends(out: &mut impl Write) -> io::Result<()> {
    for tray in TRAYS.map(hex) {
        for free in [0, 4, 5, 6] {
            put(out, b'a', &append(tray.len(), &[0xc0, 0xc1], &with(&tray, free)))?;
        }
        put(out, b'a', &append(tray.len(), &[], &with(&tray, 3)))?;
        put(out, b'a', &append(tray.len() + 1, &[], &tray))?;
    }
    for tray in BROKEN.map(hex) {
        put(out, b'a', &append(tray.len(), &[0xc0, 0xc1], &with(&tray, 5)))?;
        put(out, b'a', &append(tray.len(), &[], &tray))?;
    }
    // What stands behind the used part is not looked at, and some of it is written over.
    put(out, b'a', &append(0, &[0xc0], &hex("020000 010005")))?;
    put(out, b'a', &append(3, &[], &hex("010000 010001 61")))?;
    for used in [1 << 16, (1 << 16) + 3, 1 << 31, u32::MAX as usize] {
        put(out, b'a', &append(used, &[], &hex("010000 A5A5A5")))?;
    }
    // As long as a field can be, and longer, where there is no room for either and eight cookies are before the longer. These
    // are the sample's long cases.
    put(out, b'a', &append(0, &vec![0; LARGEST_LIMIT], &[0xa5; 4]))?;
    put(out, b'a', &append(24, &vec![0; LARGEST_LIMIT + 1], &fields(COOKIE, &vec![vec![]; 8])))
}

/// The eighth cookie, the ninth and one behind nine, with room, with just enough and with too little.
fn counted_appends(out: &mut impl Write) -> io::Result<()> {
    for count in 6..=10 {
        let tray = fields(COOKIE, &cookies(count));
        for free in [0, 3, 4, 5] {
            put(out, b'a', &append(tray.len(), &[0xc0], &with(&tray, free)))?;
        }
    }
    Ok(())
}

/// Bytes with so many of the filler behind them.
fn with(bytes: &[u8], free: usize) -> Vec<u8> {
    [bytes, &vec![0xa5; free]].concat()
}

/// Cookies of different lengths, none first.
fn cookies(count: usize) -> Vec<Vec<u8>> {
    (0..count).map(|length| vec![0x60 + length as u8; length % 3]).collect()
}

fn plan(flags: u8, name_length: usize, name: &str) -> Plan {
    Plan { protocol: 0x8001, algorithm: 15, flags, port: 123, name_length, name: hex(name) }
}

/// Each set of options and each number of cookies, with just enough room and with a byte less.
fn plans(out: &mut impl Write) -> io::Result<()> {
    for flags in 0..8 {
        let plan = if flags & HAS_NAME == 0 { plan(flags, 0, "") } else { plan(flags, 2, "6162") };
        both(out, &plan, &cookies(3))?;
    }
    for count in [0, 1, 7, 8, 9, 10] {
        both(out, &plan(0, 0, ""), &cookies(count))?;
    }
    for flags in [0, 7] {
        let plan = plan(flags, 1, if flags == 0 { "" } else { "61" });
        put(out, b'p', &plan.by_calls(ROOM, ROOM, &cookies(1)))?;
        // No cookie comes before no room.
        put(out, b'p', &plan.by_calls(0, 0, &[]))?;
        put(out, b'P', &plan.by_hand(0, 0, &[0xa5; 3]))?;
    }
    put(out, b'p', &plan(0, 0, "").by_calls(0, 40, &cookies(1)))?;
    put(out, b'p', &plan(0, 0, "").by_calls(30, 40, &vec![vec![]; 255]))
}

/// Both ops: with just enough room, with a byte less in the output, and in the tray.
fn both(out: &mut impl Write, plan: &Plan, cookies: &[Vec<u8>]) -> io::Result<()> {
    let tray = fields(COOKIE, cookies);
    let length = plan.length(cookies);
    for room in [length, length - 1] {
        put(out, b'p', &plan.by_calls(tray.len(), room, cookies))?;
        put(out, b'P', &plan.by_hand(room, tray.len(), &tray))?;
    }
    put(out, b'p', &plan.by_calls(tray.len().saturating_sub(1), length, cookies))?;
    put(out, b'P', &plan.by_hand(length, tray.len() + 1, &tray))
}

/// Names that are planned or not, and those lent.
fn names_of_plans(out: &mut impl Write) -> io::Result<()> {
    let no_name = [0, 5].into_iter().flat_map(|flags| {
        // What a plan without a name has for its length counts for nothing.
        [(0, ""), (2, ""), (0, "61"), (1, "61"), (2, "C328")].map(|(length, name)| plan(flags, length, name))
    });
    let named = [HAS_NAME, 7].into_iter().flat_map(|flags| {
        let lengths = [(0, ""), (1, ""), (0, "61"), (2, "61"), (1, "6162"), (3, "C328"), (65_535, ""), (258, "6162")];
        let plans = lengths.map(|(length, name)| plan(flags, length, name));
        plans.into_iter().chain(NAMES.map(|name| plan(flags, 2, name)))
    });
    for plan in no_name.chain(named) {
        for cookies in [cookies(2), vec![]] {
            let tray = fields(COOKIE, &cookies);
            put(out, b'p', &plan.by_calls(8, 60, &cookies))?;
            put(out, b'P', &plan.by_hand(60, tray.len(), &tray))?;
            put(out, b'P', &plan.by_hand(0, tray.len(), &tray))?;
        }
    }
    Ok(())
}

/// Plans over good trays and over broken ones, with a name that fits and with one that does not.
fn trays_of_plans(out: &mut impl Write) -> io::Result<()> {
    for tray in TRAYS.into_iter().chain(BROKEN).map(hex) {
        put(out, b'P', &plan(1, 0, "").by_hand(60, tray.len(), &tray))?;
        put(out, b'P', &plan(0, 0, "").by_hand(60, tray.len(), &with(&tray, 3)))?;
        put(out, b'P', &plan(HAS_NAME, 1, "").by_hand(0, tray.len(), &tray))?;
        put(out, b'P', &plan(4, 0, "").by_hand(60, tray.len() + 1, &tray))?;
    }
    for used in [1 << 16, (1 << 16) + 3, 1 << 31, u32::MAX as usize] {
        put(out, b'P', &plan(0, 0, "").by_hand(60, used, &hex("010000 A5A5A5")))?;
    }
    put(out, b'P', &plan(0, 0, "").by_hand(60, 3, &hex("010000 020000")))?;
    let long = field(COOKIE, &[0x61; 257]);
    put(out, b'P', &plan(0, 0, "").by_hand(277, long.len(), &long))?;
    put(out, b'P', &plan(0, 0, "").by_hand(277, 4, &long))
}

/// Requests: lists, names of any number, broken trays.
fn requests(out: &mut impl Write) -> io::Result<()> {
    let lists: [(&[u16], &[u16]); 4] = [(&[], &[]), (&[0], &[15]), (&[0x8001, 0], &[17, 15, 16]), (&[0xffff], &[])];
    for (protocols, algorithms) in lists {
        for names in [vec![], vec![b"a".to_vec()], vec![hex("C3A9"), vec![], b"b".to_vec()], vec![vec![]; 9]] {
            let tray = fields(NAME, &names);
            let length = 12 + 2 * (protocols.len() + algorithms.len()) + tray.len() + names.len();
            for room in [length, length - 1] {
                put(out, b'k', &request(protocols, algorithms, room, tray.len(), &tray))?;
            }
            put(out, b'k', &request(protocols, algorithms, ROOM, tray.len(), &with(&tray, 2)))?;
            put(out, b'k', &request(protocols, algorithms, 0, tray.len() + 1, &tray))?;
        }
    }
    for tray in TRAYS.into_iter().chain(BROKEN).map(hex) {
        let turned: Vec<u8> = tray.iter().map(|&byte| if byte == 1 || byte == 2 { 3 - byte } else { byte }).collect();
        for tray in [tray, turned] {
            put(out, b'k', &request(&[0], &[15], 60, tray.len(), &tray))?;
            put(out, b'k', &request(&[0], &[15], 0, tray.len(), &tray))?;
        }
    }
    for name in NAMES.map(hex) {
        let [first, second] = [field(NAME, &name), field(NAME, b"z")];
        for tray in [first.clone(), [&first[..], &second].concat(), [second, first].concat()] {
            put(out, b'k', &request(&[0], &[15], 60, tray.len(), &tray))?;
            put(out, b'k', &request(&[0], &[15], 0, tray.len(), &tray))?;
        }
    }
    // One letter in two names.
    put(out, b'k', &request(&[0], &[15], 60, 8, &hex("020001 C3 020001 A9")))?;
    put(out, b'k', &request(&[0], &[15], 60, 4, &hex("020001 61 020001 FF")))?;
    put(out, b'k', &request(&[0], &[15], 60, u32::MAX as usize, &hex("020001 61")))
}

/// Payloads that fit no op.
fn bad(out: &mut impl Write) -> io::Result<()> {
    let good = [
        (b'g', choice([&[0, 0], &[0, 15]], [&[0], &[15]])),
        (b'n', no_protocol(8)),
        (b'n', no_algorithm(14, 0)),
        (b'n', support(40, 7, &[15, 32], &[0])),
        (b'p', plan(7, 1, "61").by_calls(8, 60, &cookies(2))),
    ];
    for (op, payload) in good {
        put(out, op, &payload[..payload.len() - 1])?;
        put(out, op, &with(&payload, 1))?;
        put(out, op, &[])?;
    }
    for (op, least) in [(b'a', append(0, &[], &[])), (b'P', plan(0, 0, "").by_hand(0, 0, &[]))] {
        put(out, op, &least)?;
        put(out, op, &least[..least.len() - 1])?;
    }
    let least = request(&[], &[], 12, 0, &[]);
    put(out, b'k', &least)?;
    put(out, b'k', &least[..least.len() - 1])?;
    put(out, b'a', &hex("00000000 00000002 61"))?;
    put(out, b'a', &hex("00000000 FFFFFFFF 61"))?;
    put(out, b'n', &no_protocol(ROOM + 1))?;
    put(out, b'n', &hex("00000028 04"))?;
    put(out, b'n', &support(40, 8, &[], &[]))?;
    put(out, b'p', &plan(8, 0, "").by_calls(8, 60, &cookies(1)))?;
    put(out, b'p', &plan(0, 0, "").by_calls(ROOM + 1, 60, &cookies(1)))?;
    put(out, b'p', &plan(0, 0, "").by_calls(8, ROOM + 1, &cookies(1)))?;
    put(out, b'P', &plan(0xff, 0, "").by_hand(60, 0, &[]))?;
    put(out, b'P', &plan(0, 0, "").by_hand(ROOM + 1, 0, &[]))?;
    put(out, b'k', &request(&[], &[], ROOM + 1, 0, &[]))
}
