//! The plan of a reply.

use crate::refusal::accepted;
use crate::views::hides;
use crate::writing::{count, front};
use crate::{raw, AeadAlgorithm, Name, NextProtocol, Refused};
use core::fmt;

/// A buffer for the cookies of a plan, to which it belongs from then on: nothing else can be written into it. `{:?}`
/// shows only how long it is.
///
/// ```compile_fail,E0506
/// # use ntske::{AeadAlgorithm, NextProtocol, Plan, Refused, Tray};
/// # fn host() -> Result<(), Refused> {
/// let mut buffer = [0; 64];
/// let mut plan = Plan::new(NextProtocol(0), AeadAlgorithm(15), Tray::new(&mut buffer));
/// buffer[0] = 1;
/// plan.append(b"a cookie")?;
/// # Ok(())
/// # }
/// ```
pub struct Tray<'b>(&'b mut [u8]);

hides!(Tray);

impl<'b> Tray<'b> {
    /// An empty tray over a buffer; what that holds does not matter.
    pub fn new(buffer: &'b mut [u8]) -> Self {
        Tray(buffer)
    }

    /// How many bytes of a tray a cookie takes.
    pub const fn field(cookie: usize) -> usize {
        cookie + 3
    }
}

/// What a reply is to hold, with the tray of its cookies.
pub struct Plan<'b> {
    cells: raw::PlanCells,
    tray: Tray<'b>,
}

impl<'b> Plan<'b> {
    /// The most cookies that a plan takes.
    pub const MOST_COOKIES: usize = 8;

    /// A plan with a protocol and an algorithm, and nothing else.
    pub fn new(protocol: NextProtocol, algorithm: AeadAlgorithm, tray: Tray<'b>) -> Self {
        let mut cells = [0; 8];
        sure(raw::plan_new(protocol.0, algorithm.0, &mut cells));
        Plan { cells, tray }
    }

    /// With a port.
    pub fn set_port(&mut self, port: u16) -> &mut Self {
        sure(raw::plan_set_port(&mut self.cells, port));
        self
    }

    /// Without a port.
    pub fn clear_port(&mut self) -> &mut Self {
        sure(raw::plan_clear_port(&mut self.cells));
        self
    }

    /// With a server's name of a length in bytes; the name itself is given to [`Plan::write`].
    pub fn set_name_length(&mut self, length: u16) -> &mut Self {
        sure(raw::plan_set_name_length(&mut self.cells, length));
        self
    }

    /// Without a server's name.
    pub fn clear_name_length(&mut self) -> &mut Self {
        sure(raw::plan_clear_name_length(&mut self.cells));
        self
    }

    /// With keep-alive.
    pub fn set_keep_alive(&mut self) -> &mut Self {
        sure(raw::plan_set_keep_alive(&mut self.cells));
        self
    }

    /// Without keep-alive.
    pub fn clear_keep_alive(&mut self) -> &mut Self {
        sure(raw::plan_clear_keep_alive(&mut self.cells));
        self
    }

    /// One cookie more. Refusals: 8; 7 for the ninth; 10 where the tray has no room.
    pub fn append(&mut self, cookie: &[u8]) -> Result<&mut Self, Refused> {
        accepted(raw::plan_append(&mut self.cells, cookie, self.tray.0))?;
        Ok(self)
    }

    /// How long the reply will be.
    pub fn length(&self) -> usize {
        let mut length = [0];
        sure(raw::plan_length(&self.cells, self.tray.0, &mut length));
        length[0]
    }

    /// Writes the reply to the front of `out` and gives that part of it.
    /// Refusals: 9 for a name of another length than planned; then 15; then 10.
    pub fn write<'o>(&self, server: Option<Name<'_>>, out: &'o mut [u8]) -> Result<&'o mut [u8], Refused> {
        let mut written = [0];
        let server = server.map_or(&[][..], Name::bytes);
        let word = raw::write_reply(&self.cells, self.tray.0, server, out, &mut written);
        front(count(word, written), out)
    }
}

impl fmt::Debug for Plan<'_> {
    fn fmt(&self, f: &mut fmt::Formatter<'_>) -> fmt::Result {
        let [protocol, algorithm, ported, port, named, name_length, keep_alive, used] = self.cells;
        f.debug_struct("Plan")
            .field("protocol", &protocol)
            .field("algorithm", &algorithm)
            .field("port", &(ported == 1).then_some(port))
            .field("name_length", &(named == 1).then_some(name_length))
            .field("keep_alive", &(keep_alive == 1))
            .field("used", &used)
            .finish()
    }
}

/// What a call answers that has nothing to refuse: the cells are a plan, and the tray is its own.
fn sure(word: u64) {
    if let Err(why) = accepted(word) {
        panic!("libntske.a refuses a plan that it made: {why}");
    }
}
