//! Calls, alike for both sides.

/// What a tablet or the application asks.
#[derive(Clone)]
pub enum Call {
    Request(Request),
    Get {
        handle: u16,
    },
    Set {
        handle: u16,
        value: Vec<u8>,
    },
    CanRead {
        handle: u16,
    },
    ShouldNotify {
        handle: u16,
    },
    ShouldIndicate {
        handle: u16,
    },
    Connect,
    /// The tablet is bonded, so its slot keeps its values.
    Disconnect,
    SaveTable,
    RestoreTable {
        saved: Vec<u8>,
    },
}

/// A request: its opcode, what its fields hold, and the bytes that it brings. Fields that the opcode lacks are 0.
#[derive(Clone, Default)]
pub struct Request {
    pub op: u8,
    /// The handle, or the start of a range.
    pub handle: u16,
    /// The end of a range, an offset, or the flags.
    pub other: u16,
    /// The type, for Find By Type Value.
    pub uuid: u16,
    pub data: Vec<u8>,
}

pub const EXCHANGE_MTU: u8 = 0x02;
pub const FIND_INFORMATION: u8 = 0x04;
pub const FIND_BY_TYPE_VALUE: u8 = 0x06;
pub const READ_BY_TYPE: u8 = 0x08;
pub const READ: u8 = 0x0A;
pub const READ_BLOB: u8 = 0x0C;
pub const READ_BY_GROUP_TYPE: u8 = 0x10;
pub const WRITE: u8 = 0x12;
pub const PREPARE_WRITE: u8 = 0x16;
pub const EXECUTE_WRITE: u8 = 0x18;
pub const CONFIRMATION: u8 = 0x1E;
pub const WRITE_COMMAND: u8 = 0x52;

/// What is put into a link's prepared record before a call: a handle and the bytes from offset 0. `None`: it stays.
pub type Waiting = Option<(u16, Vec<u8>)>;

/// A call of one of the tablets.
#[derive(Clone)]
pub struct Step {
    pub who: usize,
    pub call: Call,
    pub waiting: Waiting,
}

/// The length of every response buffer: the longest, so that nothing is cut.
pub const ROOM: usize = 517;

/// One of the two sides, with a hub that is open and has eight connected tablets.
pub trait Side {
    /// The set-up is over: what follows is counted.
    fn begin(&mut self) {}

    /// Puts a prepared record on a tablet's link. Handle 0 and no bytes: the empty one.
    fn put_waiting(&mut self, who: usize, handle: u16, data: &[u8]);

    /// Makes a call and gives the bytes of its answer: a response, a value, or 1 for done and yes and 0 for the rest.
    fn make(&mut self, who: usize, call: &Call) -> Vec<u8>;
}

/// The address of a tablet, low byte first; its kind is 1.
pub fn address(who: usize) -> [u8; 6] {
    [who as u8 + 1, 0x21, 0x32, 0x43, 0x54, 0xC5]
}
