//! What is read and written.

pub const MOST_NAMES: usize = 2000;
pub const COOKIES: usize = 8;
/// The longest message that the crate's files read as they stand.
pub const CRATE_LIMIT: usize = 4096;
const COOKIE: usize = 100;
const UNKNOWN: usize = 200;
const LISTS: [u8; 12] = [0x80, 1, 0, 2, 0, 0, 0x80, 4, 0, 2, 0, 15];
const END: [u8; 4] = [0x80, 0, 0, 0];

/// A key-exchange request that denies so many names of 28 bytes; without a name it is document 01's sixteen bytes.
pub fn request(names: usize) -> Vec<u8> {
    let mut message = LISTS.to_vec();
    for index in 0..names {
        message.extend([0, 13, 0, 28]);
        message.extend(name(index));
    }
    message.extend(END);
    assert_eq!(message.len(), 16 + 32 * names);
    message
}

/// A name of 28 bytes.
fn name(index: usize) -> Vec<u8> {
    format!("server-{index:09}.ntp.example").into_bytes()
}

/// So many of them.
pub fn names(count: usize) -> Vec<Vec<u8>> {
    (0..count).map(name).collect()
}

/// A key-exchange request behind two hundred records of unknown kind, each of 16 bytes and with its bit clear.
pub fn unknown() -> Vec<u8> {
    let records = (0..UNKNOWN).flat_map(|index| [vec![0, 15, 0, 16], vec![index as u8; 16]].concat());
    records.chain(LISTS).chain(END).collect()
}

pub fn cookie(index: usize) -> Vec<u8> {
    (0..COOKIE).map(|place| (index * 31 + place * 7) as u8).collect()
}

/// A reply with eight cookies.
pub fn reply() -> Vec<u8> {
    let cookies = (0..COOKIES).flat_map(|index| [vec![0, 5, 0, COOKIE as u8], cookie(index)].concat());
    LISTS.into_iter().chain(cookies).chain(END).collect()
}

/// The tray of those cookies.
pub fn tray() -> Vec<u8> {
    (0..COOKIES).flat_map(|index| [vec![1, 0, COOKIE as u8], cookie(index)].concat()).collect()
}

/// A cookie record of 1,000 bytes.
pub fn record() -> Vec<u8> {
    cookie_record(1000)
}

/// One of that many.
pub fn cookie_record(size: u16) -> Vec<u8> {
    let [high, low] = size.to_be_bytes();
    [0, 5, high, low].into_iter().chain((0..size).map(|place| place.wrapping_mul(13) as u8)).collect()
}

pub fn ascii() -> Vec<u8> {
    (0..65535).map(|place| b' ' + (place % 95) as u8).collect()
}

/// Characters of two bytes each.
pub fn two_byte() -> Vec<u8> {
    ('\u{0400}'..='\u{04ff}').cycle().take(32767).collect::<String>().into_bytes()
}

/// The euro sign, three bytes, as often as a name can hold it.
pub fn three_byte() -> Vec<u8> {
    "\u{20ac}".repeat(21845).into_bytes()
}

/// A message, and it cut at some places.
pub fn cuts(message: &[u8]) -> Vec<&[u8]> {
    let step = message.len() / 200 + 1;
    (0..message.len()).step_by(step).chain([message.len()]).map(|end| &message[..end]).collect()
}

/// A text, and it with a byte changed at some places.
pub fn damaged(text: &[u8]) -> Vec<Vec<u8>> {
    let places = (0..text.len()).filter(|place| *place < 40 || text.len() - place <= 40 || place % 997 == 40);
    let changed = places.flat_map(|place| [0x41, 0x80, 0xc3, 0xe2, 0xff].map(|byte| (place, byte)));
    let mut all: Vec<Vec<u8>> = changed
        .map(|(place, byte)| {
            let mut copy = text.to_vec();
            copy[place] = byte;
            copy
        })
        .collect();
    all.push(text.to_vec());
    all
}
