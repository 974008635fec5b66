//! The key exchange of Network Time Security (RFC 8915) for a host in Rust: the calls of crates/reading, deciding,
//! feeding, handing, planning, writing and showing, which are proved to meet their contracts, under types that keep a
//! message, its parts and its tables together. Nothing is allocated, and no call reads or keeps anything but what is
//! lent to it. TLS, keys and ciphers are the host's.
//!
//! A call that is refused changes nothing that was lent to it, but for a [`Connection`] and its buffer. Its [`Refused`]
//! has a number, words, and the code that a server answers with ([`Refused::error_code`]); a reader's [`Refusal`] has a
//! place besides. `{:?}` shows no key, no cookie and no authentication.
//!
//! A host that takes a message off a line feeds a [`Connection`] with what comes, as it comes. One that logs which
//! records a request held, also where it is refused, looks at a [`Finding`]. One that shows a message record by record,
//! and where its sender forgot or added a critical bit, walks over [`Message::records`]. One that may take only what RFC
//! 8915 allows reads in the strict [`Profile`]. A server, once a whole request is there:
//!
//! ```
//! use ntske::*;
//!
//! fn reply<'o>(request: &[u8], cookie: &[u8], out: &'o mut [u8]) -> Result<&'o mut [u8], Refused> {
//!     let own_protocols = [NextProtocol::NTPV4];
//!     let own_algorithms = [AeadAlgorithm::AES_SIV_CMAC_512, AeadAlgorithm::AES_SIV_CMAC_256];
//!     let (mut table, mut tray) = ([0; 64], [0; 1024]);
//!     match Message::new(request).request(LIMIT, &mut table) {
//!         Ok(Request::KeyExchange { protocols, algorithms, .. }) => {
//!             match choose(protocols, algorithms, &own_protocols, &own_algorithms) {
//!                 Ok(chosen) => {
//!                     let mut plan = Plan::new(chosen.protocol, chosen.algorithm, Tray::new(&mut tray));
//!                     plan.append(cookie)?.write(None, out)
//!                 }
//!                 Err(Refused::NoOverlappingProtocol) => write_no_protocol(out),
//!                 Err(_) => write_no_algorithm(choose_protocol(protocols, &own_protocols)?, out),
//!             }
//!         }
//!         Ok(_) => write_error(ErrorCode::BAD_REQUEST, out),
//!         Err(refusal) => write_error(refusal.why.error_code(), out),
//!     }
//! }
//!
//! // A client, which reads the reply with what it offered.
//! let (mut out, mut message, mut table) = ([0; 1024], [0; 1024], [0; 16]);
//! let (protocols, algorithms) = ([NextProtocol::NTPV4], [AeadAlgorithm::AES_SIV_CMAC_256]);
//! let request = write_request(&protocols, &algorithms, &Names::new(&mut []), &mut out)?;
//! let message = reply(request, b"a cookie", &mut message)?;
//! let offered = Offered { protocols: &protocols, algorithms: &algorithms };
//! let reply = Message::new(message).reply(LIMIT, offered, &mut table)?;
//! assert_eq!((reply.protocol, reply.algorithm), (NextProtocol::NTPV4, AeadAlgorithm::AES_SIV_CMAC_256));
//! assert!(reply.cookies.iter().map(Cookie::bytes).eq([b"a cookie"]));
//! # Ok::<(), Box<dyn std::error::Error>>(())
//! ```
//!
//! The package links libntske.a, which `./archive` makes for this machine in target/lib and `./archive aarch64` for
//! another in target/lib/aarch64. The variable NTSKE_LIB names another folder, by its whole path. Without an archive
//! `cargo check` and `cargo doc` do; a program is not linked.
#![no_std]
#![deny(missing_docs, unsafe_code)]

mod deciding;
mod feeding;
mod numbers;
mod planning;
#[cfg(not(feature = "raw"))]
mod raw;
#[cfg(feature = "raw")]
#[doc(hidden)]
pub mod raw;
mod reading;
mod record;
mod refusal;
mod views;
mod writing;

pub use deciding::{Finding, Kind};
pub use feeding::{Connection, Fed};
pub use numbers::{
    exporter_context, version, AeadAlgorithm, AlgorithmDescription, ErrorCode, NextProtocol, WarningCode, ALPN,
    EXPORTER_LABEL, LIMIT, LISTING, PORT, VERSION,
};
pub use planning::{Plan, Tray};
pub use reading::{choose, choose_protocol, is_utf8, Chosen, Message, Offered, Profile, Reply, Request};
pub use record::{bit_named, Placed, Record, Records, Slip};
pub use refusal::{Refusal, Refused};
pub use views::{
    Authentication, Cookie, Cookies, Denied, EachCookie, EachName, Key, Keys, List, Listed, Name, Numbers,
};
pub use writing::{
    request_length, support_reply_length, write_error, write_no_algorithm, write_no_protocol, write_request,
    write_support_reply, Asked, Names,
};
