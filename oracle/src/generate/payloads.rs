//! The payloads of ops g, n, a, p, P and k, of f, F, t and T, of v and V, and of s and S, and the lists in front of those of
//! y, l, F, S and T.

/// The tags of a tray's fields.
pub const COOKIE: u8 = 1;
pub const NAME: u8 = 2;

/// The flags of a plan.
pub const HAS_PORT: u8 = 1;
pub const HAS_NAME: u8 = 2;
pub const KEEP_ALIVE: u8 = 4;

/// The flags of a support reply; keep-alive's is the same.
pub const ALGORITHMS: u8 = 1;
pub const PROTOCOLS: u8 = 2;

fn half(number: usize) -> [u8; 2] {
    u16::try_from(number).expect("a number of two bytes").to_be_bytes()
}

fn long(number: usize) -> [u8; 4] {
    u32::try_from(number).expect("a number of four bytes").to_be_bytes()
}

/// A length and that many bytes.
fn lent(bytes: &[u8]) -> Vec<u8> {
    [&half(bytes.len())[..], bytes].concat()
}

/// A count and that many numbers.
fn counted(list: &[u16]) -> Vec<u8> {
    [half(list.len()).to_vec(), numbers(list)].concat()
}

/// The bytes of numbers.
pub fn numbers(list: &[u16]) -> Vec<u8> {
    list.iter().flat_map(|number| number.to_be_bytes()).collect()
}

/// Ops y, l, F, S and T: the lists that were offered, protocols first.
pub fn offered(lists: [&[u16]; 2]) -> Vec<u8> {
    let listed = |list: &[u16]| [vec![u8::try_from(list.len()).expect("a list's length")], numbers(list)].concat();
    lists.map(listed).concat()
}

/// Op g: the client's two lists, as bytes, and the server's; protocols first.
pub fn choice(client: [&[u8]; 2], server: [&[u16]; 2]) -> Vec<u8> {
    [client.map(lent).concat(), server.map(counted).concat()].concat()
}

/// Op n: no protocol.
pub fn no_protocol(room: usize) -> Vec<u8> {
    [&long(room)[..], &[0]].concat()
}

/// Op n: no algorithm.
pub fn no_algorithm(room: usize, protocol: u16) -> Vec<u8> {
    [&long(room)[..], &[1], &protocol.to_be_bytes()].concat()
}

/// Op n: an error.
pub fn error(room: usize, code: u16) -> Vec<u8> {
    [&long(room)[..], &[2], &code.to_be_bytes()].concat()
}

/// Op n: what is supported. Two numbers are a pair.
pub fn support(room: usize, flags: u8, pairs: &[u16], protocols: &[u16]) -> Vec<u8> {
    [&long(room)[..], &[3, flags], &counted(pairs), &counted(protocols)].concat()
}

/// Op a.
pub fn append(used: usize, cookie: &[u8], tray: &[u8]) -> Vec<u8> {
    [&long(used)[..], &long(cookie.len()), cookie, tray].concat()
}

/// Op k.
pub fn request(protocols: &[u16], algorithms: &[u16], room: usize, used: usize, tray: &[u8]) -> Vec<u8> {
    [&counted(protocols)[..], &counted(algorithms), &long(room), &long(used), tray].concat()
}

/// Ops f, F, t and T: what a read is fed under, and whether the line is closed behind the pieces.
#[derive(Clone, Copy)]
pub struct Feed {
    pub limit: usize,
    pub cells: usize,
    pub buffer: usize,
    pub close: bool,
}

impl Feed {
    pub fn payload<'a>(&self, pieces: impl IntoIterator<Item = &'a [u8]>) -> Vec<u8> {
        let pieces: Vec<Vec<u8>> = pieces.into_iter().map(lent).collect();
        let head = [&long(self.limit)[..], &half(self.cells), &long(self.buffer), &[u8::from(self.close)]].concat();
        [head, half(pieces.len()).to_vec(), pieces.concat()].concat()
    }
}

/// Op s and, with the lists in front of the message, op S.
pub fn under(limit: usize, cells: usize, message: &[u8]) -> Vec<u8> {
    [&long(limit)[..], &half(cells), message].concat()
}

/// Op v.
pub fn walk(limit: usize, message: &[u8]) -> Vec<u8> {
    [&long(limit)[..], message].concat()
}

/// Op V: what is decided under, and which number of the finding is replaced by what; 0 is none.
#[derive(Clone, Copy)]
pub struct Decide {
    pub limit: usize,
    pub cells: usize,
    pub which: u8,
    pub value: u64,
}

impl Decide {
    pub fn payload(&self, walked: &[u8], message: &[u8]) -> Vec<u8> {
        let value = self.value.to_be_bytes();
        [&long(self.limit)[..], &half(self.cells), &[self.which], &value, &lent(walked), message].concat()
    }
}

/// A plan, and the name that is lent with it.
#[derive(Clone, Default)]
pub struct Plan {
    pub protocol: u16,
    pub algorithm: u16,
    pub flags: u8,
    pub port: u16,
    pub name_length: usize,
    pub name: Vec<u8>,
}

impl Plan {
    fn head(&self) -> Vec<u8> {
        let numbers = numbers(&[self.protocol, self.algorithm]);
        let port = self.port.to_be_bytes();
        [&numbers[..], &[self.flags], &port, &half(self.name_length), &lent(&self.name)].concat()
    }

    /// Op p.
    pub fn by_calls(&self, tray_room: usize, room: usize, cookies: &[Vec<u8>]) -> Vec<u8> {
        let count = u8::try_from(cookies.len()).expect("a number of cookies");
        let cookies: Vec<u8> = cookies.iter().flat_map(|cookie| lent(cookie)).collect();
        [&self.head()[..], &long(tray_room), &long(room), &[count], &cookies].concat()
    }

    /// Op P.
    pub fn by_hand(&self, room: usize, used: usize, tray: &[u8]) -> Vec<u8> {
        [&self.head()[..], &long(room), &long(used), tray].concat()
    }

    /// The length of its reply with these cookies.
    pub fn length(&self, cookies: &[Vec<u8>]) -> usize {
        let options = [(HAS_PORT, 6), (HAS_NAME, 4 + self.name_length), (KEEP_ALIVE, 4)];
        let options = options.into_iter().filter(|(flag, _)| self.flags & flag != 0).map(|(_, length)| length);
        16 + options.sum::<usize>() + cookies.iter().map(|cookie| 4 + cookie.len()).sum::<usize>()
    }
}

/// A field of a tray.
pub fn field(tag: u8, body: &[u8]) -> Vec<u8> {
    [&[tag][..], &lent(body)].concat()
}

/// Fields of one tag.
pub fn fields(tag: u8, bodies: &[Vec<u8>]) -> Vec<u8> {
    bodies.iter().flat_map(|body| field(tag, body)).collect()
}
