//! Client and server of a key exchange in Rust. Each side has one end of a pair of sockets, where a gateway has a TLS connection; the keys that TLS
//! would export (exporter_context and key_length say which), and what a server seals into its cookies, are left out. What it prints is in host.out.
//!
//!     ./archive && cargo run --manifest-path bindings/rust/Cargo.toml --example host [-- BYTES]
//!
//! A message is read as it comes: a side hands over what it takes off its socket, at most so many BYTES at once, until there is an answer. Of a request
//! that it refuses the server logs which records it held. The client reads a reply with what it offered, so that one which names anything else is refused.

use ntske::{
    choose, choose_protocol, write_error, write_no_algorithm, write_no_protocol, write_request,
    AeadAlgorithm, Chosen, Connection, Denied, ErrorCode, Fed, List, Message, Name, Names,
    NextProtocol, Offered, Plan, Record, Refused, Request, Tray,
};
use std::io::{Read, Write};
use std::net::Shutdown;
use std::os::unix::net::UnixStream;

type Outcome<T> = Result<T, Box<dyn std::error::Error>>;

const SIZE: usize = 4096;
const LIMIT: u16 = 4096;
const ENTRIES: usize = 16;

/// The reply to a key-exchange request. Where a choice is given, it is taken whatever the client offers.
fn answer_request<'o>(
    protocols: List<NextProtocol>,
    algorithms: List<AeadAlgorithm>,
    denied: Denied,
    given: Option<Chosen>,
    out: &'o mut [u8],
) -> Outcome<&'o mut [u8]> {
    let (own_protocols, own_algorithms) =
        ([NextProtocol::NTPV4], [AeadAlgorithm::AES_SIV_CMAC_256]);
    let server = Name::new("time.example");
    let mut tray = [0; 64];

    print!(
        "server: protocols {}, algorithms {}, denied {}",
        protocols.len(),
        algorithms.len(),
        denied.len()
    );
    for name in denied {
        print!(" {name}");
    }
    println!();

    let choice = match given {
        Some(chosen) => Ok(chosen),
        None => choose(protocols, algorithms, &own_protocols, &own_algorithms),
    };
    let chosen = match choice {
        Ok(chosen) => chosen,
        Err(why) => {
            println!("server: refused {}: {why}", why.number());
            return Ok(match why {
                Refused::NoOverlappingProtocol => write_no_protocol(out)?,
                _ => write_no_algorithm(choose_protocol(protocols, &own_protocols)?, out)?,
            });
        }
    };
    let mut plan = Plan::new(chosen.protocol, chosen.algorithm, Tray::new(&mut tray));
    plan.set_name_length(server.bytes().len().try_into()?)
        .set_port(4123);
    plan.append(b"first cookie")?.append(b"second cookie")?;
    let reply = plan.write(Some(server), out)?;
    let (protocol, algorithm) = (chosen.protocol.0, chosen.algorithm.0);
    println!(
        "server: protocol {protocol}, algorithm {algorithm} and two cookies in {} bytes",
        reply.len()
    );
    Ok(reply)
}

/// What a request that is refused held: a line for each kind of records, and one for why the walk over them stopped.
fn log_request(message: Message) {
    for line in message.walk_request(LIMIT).to_string().lines() {
        println!("log: {line}");
    }
}

fn server(stream: &mut UnixStream, piece: &mut [u8], given: Option<Chosen>) -> Outcome<()> {
    let (mut buffer, mut out, mut table) = ([0; SIZE], [0; SIZE], [0; 2 * ENTRIES]);
    let mut line = Connection::start(LIMIT);
    let request = loop {
        let len = stream.read(piece)?;
        if len == 0 {
            break line.close_request(&mut buffer, &mut table);
        }
        match line.feed_request(&piece[..len], &mut buffer, &mut table) {
            Ok(Fed::Waiting) => {}
            Ok(Fed::Accepted(request)) => break Ok(request),
            Err(refusal) => break Err(refusal),
        }
    };
    let reply = match request {
        Ok(Request::KeyExchange {
            protocols,
            algorithms,
            denied,
        }) => answer_request(protocols, algorithms, denied, given, &mut out)?,
        Ok(_) => {
            println!("server: no key exchange");
            write_error(ErrorCode::BAD_REQUEST, &mut out)?
        }
        Err(refusal) => {
            println!("server: {refusal}");
            log_request(Message::new(&buffer[..line.gathered()]));
            write_error(refusal.why.error_code(), &mut out)?
        }
    };
    stream.write_all(reply)?;
    Ok(stream.shutdown(Shutdown::Write)?)
}

fn client(stream: &mut UnixStream, piece: &mut [u8], offered: Offered) -> Outcome<()> {
    let (mut buffer, mut table) = ([0; SIZE], [0; 2 * ENTRIES]);
    let mut line = Connection::start(LIMIT);
    let reply = loop {
        let len = stream.read(piece)?;
        if len == 0 {
            break line.close_reply(offered, &mut buffer, &mut table);
        }
        match line.feed_reply(&piece[..len], offered, &mut buffer, &mut table) {
            Ok(Fed::Waiting) => {}
            Ok(Fed::Accepted(reply)) => break Ok(reply),
            Err(refusal) => break Err(refusal),
        }
    };
    let reply = match reply {
        Ok(reply) => reply,
        Err(refusal) => {
            println!("client: {refusal}");
            return Ok(());
        }
    };
    print!(
        "client: protocol {}, algorithm {}",
        reply.protocol.0, reply.algorithm.0
    );
    if let Some(name) = reply.server {
        print!(", server {name}");
    }
    if let Some(port) = reply.port {
        print!(", port {port}");
    }
    println!();
    for cookie in reply.cookies {
        let bytes = cookie.bytes();
        println!(
            "client: a cookie of {} bytes: {}",
            bytes.len(),
            String::from_utf8_lossy(bytes)
        );
    }
    Ok(())
}

/// What the client does once it has sent its request: it waits for the reply with its end open, or closes its half of the connection.
#[derive(PartialEq)]
enum Then {
    Waits,
    Closes,
}

/// One exchange: what the client sends and offers by it, what the server makes of it, and what the client makes of the reply. Each takes as many bytes off
/// its socket at once as a piece has room for.
fn exchange(
    title: &str,
    request: &[u8],
    offered: Offered,
    then: Then,
    given: Option<Chosen>,
    piece: &mut [u8],
) -> Outcome<()> {
    let (mut ours, mut theirs) = UnixStream::pair()?;
    println!("== {title}");
    println!("client: sends {} bytes", request.len());
    ours.write_all(request)?;
    if then == Then::Closes {
        ours.shutdown(Shutdown::Write)?;
    }
    server(&mut theirs, piece, given)?;
    client(&mut ours, piece, offered)
}

/// The request by which a client offers this and denies those names.
fn ask<'o>(offered: Offered, denied: &Names, out: &'o mut [u8]) -> Result<&'o mut [u8], Refused> {
    write_request(offered.protocols, offered.algorithms, denied, out)
}

fn main() -> Outcome<()> {
    let protocols = [NextProtocol::NTPV4];
    let algorithms = [
        AeadAlgorithm::AES_SIV_CMAC_512,
        AeadAlgorithm::AES_SIV_CMAC_256,
    ];
    // both algorithms, and each by itself
    let offered = |algorithms| Offered {
        protocols: &protocols,
        algorithms,
    };
    let (both, longer, shorter) = (
        offered(&algorithms),
        offered(&algorithms[..1]),
        offered(&algorithms[1..]),
    );
    // what a machine of a pool answers, whatever it is asked
    let pool = Chosen {
        protocol: NextProtocol::NTPV4,
        algorithm: AeadAlgorithm::AES_SIV_CMAC_512,
    };
    let (mut out, mut buffer, mut other) = ([0; SIZE], [0; 64], [0; 64]);
    let nobody = Names::new(&mut []);
    let most = std::env::args()
        .nth(1)
        .map_or(Ok(SIZE), |bytes| bytes.parse())?;
    let piece = &mut vec![0; most][..];

    let mut denied = Names::new(&mut buffer);
    denied.append(Name::new("old.example"))?;
    let request = ask(both, &denied, &mut out)?;
    exchange("a key exchange", request, both, Then::Waits, None, piece)?;

    let cut = &request[..10];
    exchange(
        "a request that is cut",
        cut,
        both,
        Then::Closes,
        None,
        piece,
    )?;

    let mut denied = Names::new(&mut other);
    denied.append(Name::new("\u{e9}"))?;
    let request = ask(shorter, &denied, &mut out)?;
    exchange(
        "a name of one character in two bytes",
        request,
        shorter,
        Then::Waits,
        None,
        piece,
    )?;

    // three bytes of algorithms: bytes are missing in that record, and none in the message
    let ill_formed = [
        0x80, 1, 0, 2, 0, 0, 0x80, 4, 0, 3, 0, 0x0F, 0, 0x80, 0, 0, 0,
    ];
    exchange(
        "a record that is ill-formed",
        &ill_formed,
        shorter,
        Then::Waits,
        None,
        piece,
    )?;

    let request = ask(longer, &nobody, &mut out)?;
    exchange(
        "no algorithm in common",
        request,
        longer,
        Then::Waits,
        None,
        piece,
    )?;

    let request = ask(shorter, &nobody, &mut out)?;
    exchange(
        "an algorithm that was not offered",
        request,
        shorter,
        Then::Waits,
        Some(pool),
        piece,
    )?;

    let first = Record::Unknown {
        kind: 16385,
        critical: true,
        data: &[],
    }
    .write(&mut out)?
    .len();
    let rest = ask(both, &nobody, &mut out[first..])?.len();
    exchange(
        "an unknown record with its critical bit set",
        &out[..first + rest],
        both,
        Then::Waits,
        None,
        piece,
    )?;

    // what the writers refuse
    let plan = Plan::new(
        NextProtocol::NTPV4,
        AeadAlgorithm::AES_SIV_CMAC_256,
        Tray::new(&mut []),
    );
    if let Err(why) = plan.write(None, &mut out) {
        println!(
            "== a reply without a cookie\nserver: refused {}: {why}",
            why.number()
        );
    }
    if let Err(why) = ask(both, &nobody, &mut out[..17]) {
        println!(
            "== a request of 18 bytes into 17\nclient: refused {}: {why}",
            why.number()
        );
    }
    Ok(())
}
