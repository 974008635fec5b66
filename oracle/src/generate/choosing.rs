//! Choosing, trays, plans and whole messages: ops g, n, a, p, P and k.

use std::io::{self, Write};

use super::payloads::{Plan, append, choice, error, no_algorithm, no_protocol, request, support};
use super::{choices, names, plans, sends, trays};
use crate::corpus::put;
use crate::payload::ROOM;
use crate::random::Random;

pub fn choosing(seed: u64, count: u64, out: &mut impl Write) -> io::Result<()> {
    let mut random = Random::new(seed, "choosing");
    choices::every(out)?;
    choices::long(&mut random, out)?;
    trays::every(out)?;
    trays::counts(&mut random, out)?;
    trays::long(&mut random, out)?;
    plans::rooms(&mut random, out)?;
    plans::long(&mut random, out)?;
    sends::rooms(&mut random, out)?;
    sends::long(&mut random, out)?;
    every_name(out)?;
    bad(&mut random, out)?;
    for _ in 0..count {
        let (op, mut payload) = one(&mut random);
        if random.once_in(200) {
            payload.truncate(random.below(payload.len()));
        }
        if random.once_in(200) {
            payload.push(random.below(256) as u8);
        }
        put(out, op, &payload)?;
    }
    Ok(())
}

/// A random case of one of the ops.
fn one(random: &mut Random) -> (u8, Vec<u8>) {
    match random.below(16) {
        0..3 => (b'g', choices::one(random)),
        3..5 => (b'n', sends::reply(random)),
        5..8 => (b'a', trays::one(random)),
        8..11 => (b'p', plans::by_calls(random)),
        11..14 => (b'P', plans::by_hand(random)),
        _ => (b'k', sends::one_request(random)),
    }
}

/// Names around the boundaries of RFC 3629's table: a server's and a denied one's in turn.
fn every_name(out: &mut impl Write) -> io::Result<()> {
    let mut turn = 0;
    names::around(&mut |body| {
        turn += 1;
        let (op, payload) = if turn % 3 == 0 { sends::named(turn / 3, body) } else { plans::named(turn, body) };
        put(out, op, &payload)
    })
}

/// Payloads that fit no op: each beginning of a good one, a byte too many, and values out of their range.
fn bad(random: &mut Random, out: &mut impl Write) -> io::Result<()> {
    let plan = Plan { algorithm: 15, flags: 7, port: 123, name_length: 1, name: vec![0x61], ..Plan::default() };
    let cookies = [vec![1, 2], vec![]];
    let good = [
        (b'g', choice([&[0, 0], &[0, 15]], [&[0, 1], &[15]])),
        (b'n', no_protocol(8)),
        (b'n', no_algorithm(14, 0)),
        (b'n', error(10, 1)),
        (b'n', support(40, 7, &[15, 32], &[0])),
        (b'a', append(4, &[7, 8], &[1, 0, 1, 9, 0xa5, 0xa5, 0xa5, 0xa5, 0xa5])),
        (b'p', plan.by_calls(8, 60, &cookies)),
        (b'P', plan.by_hand(60, 4, &[1, 0, 1, 9])),
        (b'k', request(&[0], &[15], 30, 4, &[2, 0, 1, 0x61])),
    ];
    for (op, payload) in good {
        for length in 0..=payload.len() {
            put(out, op, &payload[..length])?;
        }
        put(out, op, &[&payload[..], &[0]].concat())?;
    }
    for room in [ROOM, ROOM + 1, 1 << 31, u32::MAX as usize] {
        put(out, b'n', &no_protocol(room))?;
        put(out, b'n', &support(room, 0, &[], &[]))?;
        put(out, b'p', &plan.by_calls(room, 60, &cookies))?;
        put(out, b'p', &plan.by_calls(8, room, &cookies))?;
        put(out, b'P', &plan.by_hand(room, 0, &[]))?;
        put(out, b'k', &request(&[], &[], room, 0, &[]))?;
    }
    for flags in [8, 9, 15, 16, 0x80, 0xff] {
        let plan = Plan { flags, ..plan.clone() };
        put(out, b'n', &support(40, flags, &[], &[]))?;
        put(out, b'p', &plan.by_calls(8, 60, &cookies))?;
        put(out, b'P', &plan.by_hand(60, 0, &[]))?;
    }
    for sort in [4, 5, 128, 255] {
        let rest = random.below(5);
        put(out, b'n', &[&[0, 0, 0, 40, sort][..], &random.bytes(rest)].concat())?;
    }
    Ok(())
}
