//! Parts of a message under the types of what they hold. A part borrows its message, and what stands in a table borrows
//! message and table.
//!
//! `{:?}` shows of what is secret, a key, a cookie or an authentication, only how long it is, and two of them cannot be
//! compared with `==`, which would take a time that tells how much of them is the same.

use crate::{raw, AeadAlgorithm, AlgorithmDescription, NextProtocol};
use core::fmt;
use core::iter::FusedIterator;
use core::marker::PhantomData;

mod sealed {
    pub trait Sealed {}
}

/// The bytes of a part as the library hands them out: empty where the part is not inside the message.
pub(crate) fn part(message: &[u8], start: usize, len: usize) -> &[u8] {
    let mut answer = [0; 2];
    raw::part(message, start, len, &mut answer);
    inside(message, answer)
}

fn inside(message: &[u8], [start, len]: [usize; 2]) -> &[u8] {
    &message[start..][..len]
}

/// Bytes that `{:?}` shows only the number of.
pub(crate) struct Hidden<'b>(pub &'b [u8]);

impl fmt::Debug for Hidden<'_> {
    fn fmt(&self, f: &mut fmt::Formatter<'_>) -> fmt::Result {
        write!(f, "{} bytes", self.0.len())
    }
}

/// `{:?}` of a type over bytes shows only how many there are.
macro_rules! hides {
    ($($Type:ident)*) => {
        $(impl core::fmt::Debug for $Type<'_> {
            fn fmt(&self, f: &mut core::fmt::Formatter<'_>) -> core::fmt::Result {
                write!(f, concat!(stringify!($Type), "({:?})"), crate::views::Hidden(self.0))
            }
        })*
    };
}
pub(crate) use hides;

/// What a [`List`] holds: protocols, algorithms, or algorithms with their key sizes.
pub trait Listed: Copy + sealed::Sealed {
    /// How many bytes one takes.
    const SIZE: usize;
    #[doc(hidden)]
    fn at(list: &[u8], index: usize) -> Option<Self>;
}

fn number_at(list: &[u8], index: usize) -> Option<u16> {
    let mut answer = [0; 3];
    raw::number(list, 0, list.len(), index, &mut answer);
    (answer[0] == 1).then_some(answer[1] as u16)
}

impl sealed::Sealed for NextProtocol {}
impl Listed for NextProtocol {
    const SIZE: usize = 2;
    fn at(list: &[u8], index: usize) -> Option<Self> {
        number_at(list, index).map(NextProtocol)
    }
}

impl sealed::Sealed for AeadAlgorithm {}
impl Listed for AeadAlgorithm {
    const SIZE: usize = 2;
    fn at(list: &[u8], index: usize) -> Option<Self> {
        number_at(list, index).map(AeadAlgorithm)
    }
}

impl sealed::Sealed for AlgorithmDescription {}
impl Listed for AlgorithmDescription {
    const SIZE: usize = 4;
    fn at(list: &[u8], index: usize) -> Option<Self> {
        let mut answer = [0; 3];
        raw::pair(list, 0, list.len(), index, &mut answer);
        let [there, algorithm, keysize] = answer;
        (there == 1)
            .then_some(AlgorithmDescription { algorithm: AeadAlgorithm(algorithm as u16), keysize: keysize as u16 })
    }
}

/// A list in a message, each number in two bytes, the high one first.
#[derive(Clone, Copy, PartialEq, Eq)]
pub struct List<'m, T> {
    bytes: &'m [u8],
    of: PhantomData<T>,
}

impl<'m, T: Listed> List<'m, T> {
    /// The list that bytes are. Whether their number is right is judged by the call that the list is given to.
    pub const fn new(bytes: &'m [u8]) -> Self {
        List { bytes, of: PhantomData }
    }

    /// The list's bytes.
    pub const fn bytes(self) -> &'m [u8] {
        self.bytes
    }

    /// How many the list holds.
    pub const fn len(self) -> usize {
        self.bytes.len() / T::SIZE
    }

    /// Whether it holds none.
    pub const fn is_empty(self) -> bool {
        self.len() == 0
    }

    /// The one at an index.
    pub fn get(self, index: usize) -> Option<T> {
        T::at(self.bytes, index)
    }

    /// All of them in their order.
    pub const fn iter(self) -> Numbers<'m, T> {
        Numbers { list: self, next: 0 }
    }
}

impl<'m, T: Listed> IntoIterator for List<'m, T> {
    type Item = T;
    type IntoIter = Numbers<'m, T>;
    fn into_iter(self) -> Numbers<'m, T> {
        self.iter()
    }
}

impl<T: Listed + fmt::Debug> fmt::Debug for List<'_, T> {
    fn fmt(&self, f: &mut fmt::Formatter<'_>) -> fmt::Result {
        f.debug_list().entries(self.iter()).finish()
    }
}

/// The numbers or pairs of a [`List`], one after the other.
#[derive(Clone)]
pub struct Numbers<'m, T> {
    list: List<'m, T>,
    next: usize,
}

impl<T: Listed> Iterator for Numbers<'_, T> {
    type Item = T;

    fn next(&mut self) -> Option<T> {
        let number = self.list.get(self.next)?;
        self.next += 1;
        Some(number)
    }

    fn size_hint(&self) -> (usize, Option<usize>) {
        let left = self.list.len() - self.next;
        (left, Some(left))
    }
}

impl<T: Listed> ExactSizeIterator for Numbers<'_, T> {}
impl<T: Listed> FusedIterator for Numbers<'_, T> {}

impl<T: Listed + fmt::Debug> fmt::Debug for Numbers<'_, T> {
    fn fmt(&self, f: &mut fmt::Formatter<'_>) -> fmt::Result {
        f.debug_list().entries(self.clone()).finish()
    }
}

/// A name in a message, or of the host: UTF-8.
#[derive(Clone, Copy, PartialEq, Eq, Hash)]
pub struct Name<'m>(&'m [u8]);

impl<'m> Name<'m> {
    /// The name that a text is.
    pub const fn new(text: &'m str) -> Self {
        Name(text.as_bytes())
    }

    /// The name that bytes are, where they are UTF-8.
    pub fn from_utf8(bytes: &'m [u8]) -> Option<Self> {
        crate::is_utf8(bytes).then_some(Name(bytes))
    }

    /// A part that a reader found to be a name.
    pub(crate) const fn of(part: &'m [u8]) -> Self {
        Name(part)
    }

    /// Its bytes.
    pub const fn bytes(self) -> &'m [u8] {
        self.0
    }

    /// Its text. The standard library goes over the bytes again.
    pub fn as_str(self) -> &'m str {
        text(self.0)
    }
}

impl fmt::Debug for Name<'_> {
    fn fmt(&self, f: &mut fmt::Formatter<'_>) -> fmt::Result {
        fmt::Debug::fmt(self.as_str(), f)
    }
}

impl fmt::Display for Name<'_> {
    fn fmt(&self, f: &mut fmt::Formatter<'_>) -> fmt::Result {
        f.pad(self.as_str())
    }
}

/// The text of bytes that the library found or wrote as UTF-8.
pub(crate) fn text(bytes: &[u8]) -> &str {
    core::str::from_utf8(bytes).expect("libntske.a takes this for UTF-8")
}

/// By what a client is known to the server: UTF-8, and a secret of the two.
#[derive(Clone, Copy)]
pub struct Authentication<'m>(&'m [u8]);

impl<'m> Authentication<'m> {
    /// The authentication that a text is.
    pub const fn new(text: &'m str) -> Self {
        Authentication(text.as_bytes())
    }

    /// A part that a reader found to be one.
    pub(crate) const fn of(part: &'m [u8]) -> Self {
        Authentication(part)
    }

    /// Its bytes.
    pub const fn bytes(self) -> &'m [u8] {
        self.0
    }

    /// Its text. The standard library goes over the bytes again.
    pub fn as_str(self) -> &'m str {
        text(self.0)
    }
}

/// A cookie in a message.
#[derive(Clone, Copy)]
pub struct Cookie<'m>(&'m [u8]);

impl<'m> Cookie<'m> {
    /// The cookie that bytes are.
    pub const fn new(bytes: &'m [u8]) -> Self {
        Cookie(bytes)
    }

    /// Its bytes.
    pub const fn bytes(self) -> &'m [u8] {
        self.0
    }
}

/// A key in a message. It cannot be compared with another:
///
/// ```compile_fail,E0369
/// # fn host(one: ntske::Key<'_>, other: ntske::Key<'_>) -> bool {
/// one == other
/// # }
/// ```
#[derive(Clone, Copy)]
pub struct Key<'m>(&'m [u8]);

impl<'m> Key<'m> {
    pub(crate) const fn new(bytes: &'m [u8]) -> Self {
        Key(bytes)
    }

    /// Its bytes.
    pub const fn bytes(self) -> &'m [u8] {
        self.0
    }
}

/// The two keys of a record, one behind the other: from client to server, then from server to client.
#[derive(Clone, Copy)]
pub struct Keys<'m>(&'m [u8]);

impl<'m> Keys<'m> {
    /// The two halves of these bytes. Whether they are of one length is judged by the call that the keys are given to.
    pub const fn new(both: &'m [u8]) -> Self {
        Keys(both)
    }

    /// The bytes of both.
    pub const fn bytes(self) -> &'m [u8] {
        self.0
    }

    /// The key from client to server.
    pub fn c2s(self) -> Key<'m> {
        Key(&self.0[..self.0.len() / 2])
    }

    /// The key from server to client.
    pub fn s2c(self) -> Key<'m> {
        Key(&self.0[self.0.len() / 2..])
    }
}

hides!(Authentication Cookie Key Keys);

/// What a reader found and noted in the table that was lent to it: both stay borrowed. Where an answer is given again,
/// the table may be another, and what is no text in it is empty.
#[derive(Clone, Copy)]
struct Noted<'m, 't> {
    message: &'m [u8],
    table: &'t [u16],
    count: usize,
    again: bool,
}

impl<'m> Noted<'m, '_> {
    fn get(&self, index: usize) -> Option<&'m [u8]> {
        if index >= self.count {
            return None;
        }
        let mut answer = [0; 2];
        raw::entry(self.message, self.table, index, &mut answer);
        let entry = inside(self.message, answer);
        Some(if self.again && !crate::is_utf8(entry) { &[] } else { entry })
    }
}

/// The view of a filled table, and its iterator, for one sort of entry.
macro_rules! entries {
    ($(#[$about:meta])* $Entries:ident, $(#[$each:meta])* $Each:ident, $Entry:ident) => {
        $(#[$about])*
        #[derive(Clone, Copy)]
        pub struct $Entries<'m, 't>(Noted<'m, 't>);

        impl<'m, 't> $Entries<'m, 't> {
            pub(crate) fn new(message: &'m [u8], table: &'t [u16], count: usize) -> Self {
                $Entries(Noted { message, table, count, again: false })
            }

            /// How many there are.
            pub const fn len(&self) -> usize {
                self.0.count
            }

            /// Whether there is none.
            pub const fn is_empty(&self) -> bool {
                self.0.count == 0
            }

            /// The one at an index.
            pub fn get(&self, index: usize) -> Option<$Entry<'m>> {
                self.0.get(index).map($Entry)
            }

            /// All of them in the message's order.
            pub const fn iter(&self) -> $Each<'m, 't> {
                $Each { entries: *self, next: 0 }
            }
        }

        impl<'m, 't> IntoIterator for $Entries<'m, 't> {
            type Item = $Entry<'m>;
            type IntoIter = $Each<'m, 't>;
            fn into_iter(self) -> $Each<'m, 't> {
                self.iter()
            }
        }

        impl fmt::Debug for $Entries<'_, '_> {
            fn fmt(&self, f: &mut fmt::Formatter<'_>) -> fmt::Result {
                f.debug_list().entries(self.iter()).finish()
            }
        }

        $(#[$each])*
        #[derive(Clone)]
        pub struct $Each<'m, 't> {
            entries: $Entries<'m, 't>,
            next: usize,
        }

        impl<'m> Iterator for $Each<'m, '_> {
            type Item = $Entry<'m>;

            fn next(&mut self) -> Option<$Entry<'m>> {
                let entry = self.entries.get(self.next)?;
                self.next += 1;
                Some(entry)
            }

            fn size_hint(&self) -> (usize, Option<usize>) {
                let left = self.entries.len() - self.next;
                (left, Some(left))
            }
        }

        impl ExactSizeIterator for $Each<'_, '_> {}
        impl FusedIterator for $Each<'_, '_> {}

        impl fmt::Debug for $Each<'_, '_> {
            fn fmt(&self, f: &mut fmt::Formatter<'_>) -> fmt::Result {
                f.debug_list().entries(self.clone()).finish()
            }
        }
    };
}

entries! {
    /// The names that a client denies, in its message and the table that was lent to the reader.
    Denied,
    /// The names of [`Denied`], one after the other.
    EachName,
    Name
}

impl<'m, 't> Denied<'m, 't> {
    /// Those of an answer that is given again, in whatever table is lent then.
    pub(crate) fn again(message: &'m [u8], table: &'t [u16], count: usize) -> Self {
        Denied(Noted { message, table, count, again: true })
    }
}

entries! {
    /// The cookies of a reply, in its message and the table that was lent to the reader.
    Cookies,
    /// The cookies of [`Cookies`], one after the other.
    EachCookie,
    Cookie
}
