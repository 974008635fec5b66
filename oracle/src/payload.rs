//! Takes a payload apart, field by field. An answer is none where the payload ends too soon or a value is out of its range.

use crate::corpus::{CELLS, LARGEST_LIMIT};

/// The largest room that can be asked for.
pub const ROOM: usize = 66_000;
/// The flags of ops n, p and P; each of the three bits may be set.
const FLAGS: [u8; 3] = [1, 2, 4];

/// What is left of a payload.
pub struct Payload<'a>(pub &'a [u8]);

impl<'a> Payload<'a> {
    pub fn bytes(&mut self, count: usize) -> Option<&'a [u8]> {
        let (bytes, rest) = self.0.split_at_checked(count)?;
        self.0 = rest;
        Some(bytes)
    }

    fn chunk<const N: usize>(&mut self) -> Option<[u8; N]> {
        self.bytes(N)?.try_into().ok()
    }

    pub fn byte(&mut self) -> Option<u8> {
        Some(u8::from_be_bytes(self.chunk()?))
    }

    /// A two-byte number.
    pub fn number(&mut self) -> Option<u16> {
        Some(u16::from_be_bytes(self.chunk()?))
    }

    /// A four-byte length, however large.
    pub fn length(&mut self) -> Option<usize> {
        usize::try_from(u32::from_be_bytes(self.chunk()?)).ok()
    }

    /// An eight-byte number.
    pub fn long(&mut self) -> Option<u64> {
        Some(u64::from_be_bytes(self.chunk()?))
    }

    /// A four-byte length that an output or a tray may have.
    pub fn room(&mut self) -> Option<usize> {
        self.length().filter(|&room| room <= ROOM)
    }

    /// A four-byte limit that a reader may have.
    pub fn limit(&mut self) -> Option<usize> {
        self.length().filter(|&limit| limit <= LARGEST_LIMIT)
    }

    /// The two-byte number of a table's cells.
    pub fn table(&mut self) -> Option<usize> {
        Some(usize::from(self.number()?)).filter(|&cells| cells <= CELLS)
    }

    /// A byte that says yes or no.
    pub fn yes(&mut self) -> Option<bool> {
        match self.byte()? {
            0 => Some(false),
            1 => Some(true),
            _ => None,
        }
    }

    /// Which of the three flags are set.
    pub fn flags(&mut self) -> Option<[bool; 3]> {
        let flags = self.byte()?;
        (flags <= FLAGS.iter().sum()).then(|| FLAGS.map(|bit| flags & bit != 0))
    }

    /// A two-byte length and that many bytes.
    pub fn lent(&mut self) -> Option<&'a [u8]> {
        let count = self.number()?;
        self.bytes(count.into())
    }

    /// A two-byte count and the bytes of that many numbers.
    pub fn cells(&mut self) -> Option<&'a [u8]> {
        let count = usize::from(self.number()?);
        self.bytes(2 * count)
    }

    /// A two-byte count and that many numbers.
    pub fn numbers<T: From<u16>>(&mut self) -> Option<Vec<T>> {
        Some(numbers(self.cells()?))
    }

    /// A one-byte count and that many numbers.
    pub fn listed<T: From<u16>>(&mut self) -> Option<Vec<T>> {
        let count = usize::from(self.byte()?);
        Some(numbers(self.bytes(2 * count)?))
    }

    /// Whether nothing is left over.
    pub fn end(&self) -> Option<()> {
        self.0.is_empty().then_some(())
    }
}

/// The numbers of so many bytes.
fn numbers<T: From<u16>>(bytes: &[u8]) -> Vec<T> {
    let (numbers, _) = bytes.as_chunks();
    numbers.iter().map(|&number| u16::from_be_bytes(number).into()).collect()
}
