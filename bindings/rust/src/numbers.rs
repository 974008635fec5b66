//! The numbers of the key exchange, each sort under its own type, and what TLS needs to be told.

use crate::refusal::accepted;
use crate::{raw, Refused};

/// The name of the application protocol that client and server agree on in TLS (RFC 8915, section 4).
pub const ALPN: &str = "ntske/1";

/// The port that a server listens on (RFC 8915, section 4).
pub const PORT: u16 = 4460;

/// The label with which TLS exports the keys (RFC 8915, section 4.3).
pub const EXPORTER_LABEL: &str = "EXPORTER-network-time-security";

/// The largest limit of a reader.
pub const LIMIT: u16 = 65_535;

/// The length of an output that holds every listing: see [`Message::list`](crate::Message::list). That none is longer is
/// proved: `listing-longest`, in crates/listing/proofs/Longest.antt.
pub const LISTING: usize = 262_272;

/// This package's version, a byte each: 0x000500 for 0.5.0. [`version`] tells the archive's.
pub const VERSION: u64 = {
    const fn number(text: &str) -> u64 {
        let (text, mut number, mut at) = (text.as_bytes(), 0, 0);
        while at < text.len() {
            number = 10 * number + (text[at] - b'0') as u64;
            at += 1;
        }
        number
    }
    let (major, minor) = (number(env!("CARGO_PKG_VERSION_MAJOR")), number(env!("CARGO_PKG_VERSION_MINOR")));
    major << 16 | minor << 8 | number(env!("CARGO_PKG_VERSION_PATCH"))
};

/// The version of the archive that was linked, as [`VERSION`].
pub fn version() -> u64 {
    raw::version()
}

/// The context with which TLS exports a key (RFC 8915, section 5.1): that from server to client where `s2c` is true,
/// otherwise that from client to server. With it and [`EXPORTER_LABEL`], TLS exports as many bytes as
/// [`AeadAlgorithm::key_length`] tells.
///
/// ```
/// # use ntske::{exporter_context, AeadAlgorithm, NextProtocol};
/// let context = exporter_context(NextProtocol::NTPV4, AeadAlgorithm::AES_SIV_CMAC_256, true);
/// assert_eq!(context, [0, 0, 0, 15, 1]);
/// ```
pub const fn exporter_context(protocol: NextProtocol, algorithm: AeadAlgorithm, s2c: bool) -> [u8; 5] {
    let ([a, b], [c, d]) = (protocol.0.to_be_bytes(), algorithm.0.to_be_bytes());
    [a, b, c, d, s2c as u8]
}

/// A protocol's number (RFC 8915, section 4.1.2).
#[derive(Clone, Copy, Debug, PartialEq, Eq, PartialOrd, Ord, Hash)]
#[repr(transparent)]
pub struct NextProtocol(pub u16);

impl NextProtocol {
    /// NTP, version 4.
    pub const NTPV4: Self = Self(0);
    /// NTP, version 5, as its drafts number it.
    pub const DRAFT_NTPV5: Self = Self(0x8001);
}

/// An algorithm's number (RFC 8915, section 4.1.5).
#[derive(Clone, Copy, Debug, PartialEq, Eq, PartialOrd, Ord, Hash)]
#[repr(transparent)]
pub struct AeadAlgorithm(pub u16);

impl AeadAlgorithm {
    /// AEAD_AES_SIV_CMAC_256, whose keys are 32 bytes long.
    pub const AES_SIV_CMAC_256: Self = Self(15);
    /// AEAD_AES_SIV_CMAC_512, whose keys are 64 bytes long.
    pub const AES_SIV_CMAC_512: Self = Self(17);

    /// The length of its key in bytes. Refusals: 5 but for 15 and 17.
    pub fn key_length(self) -> Result<usize, Refused> {
        let mut length = [0];
        accepted(raw::key_length(self.0, &mut length))?;
        Ok(length[0])
    }
}

/// An algorithm with the length of its key in bytes.
#[derive(Clone, Copy, Debug, PartialEq, Eq, PartialOrd, Ord, Hash)]
#[repr(C)]
pub struct AlgorithmDescription {
    /// The algorithm.
    pub algorithm: AeadAlgorithm,
    /// The length of its key.
    pub keysize: u16,
}

/// The code of an error record (RFC 8915, section 4.1.3).
#[derive(Clone, Copy, Debug, PartialEq, Eq, PartialOrd, Ord, Hash)]
#[repr(transparent)]
pub struct ErrorCode(pub u16);

impl ErrorCode {
    /// The request has an unknown record whose critical bit is set.
    pub const UNRECOGNIZED_CRITICAL_RECORD: Self = Self(0);
    /// The request is not allowed.
    pub const BAD_REQUEST: Self = Self(1);
    /// The server cannot answer.
    pub const INTERNAL_SERVER_ERROR: Self = Self(2);
}

/// The code of a warning record (RFC 8915, section 4.1.4, which names none).
#[derive(Clone, Copy, Debug, PartialEq, Eq, PartialOrd, Ord, Hash)]
#[repr(transparent)]
pub struct WarningCode(pub u16);
