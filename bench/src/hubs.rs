//! The hubs that are measured. Handles go 1, 2, 3 and so on, as the original's own list has them.

/// How many tablets each hub has, all of them connected.
pub const TABLETS: usize = 8;

pub const SERVICE: u16 = 0x2800;
pub const CHARACTERISTIC: u16 = 0x2803;
pub const SUBSCRIPTION: u16 = 0x2902;

/// The type of the many in a list of one service.
pub const ALIKE: u16 = 0xFE09;

/// An attribute, and the value that it is given before anything is measured: for a client value, each tablet's.
#[derive(Clone)]
pub struct Entry {
    pub uuid: u16,
    pub is_client: bool,
    pub is_variable: bool,
    pub read: u8,
    pub write: u8,
    pub capacity: u16,
    pub value: Vec<u8>,
}

/// The hub of a name. A number is a list of so many attributes, eight a service; after `alike` all in one service. After
/// `keys` it is how many client values there are.
pub fn named(name: &str) -> Option<Vec<Entry>> {
    if let Some(count) = name.strip_prefix("keys") {
        return count.parse().ok().filter(|count| (1..=32).contains(count)).map(keys);
    }
    if let Some(count) = name.strip_prefix("alike") {
        return count.parse().ok().filter(|count| (8..=64).contains(count)).map(alike);
    }
    match name {
        "classroom" => Some(classroom(8, 20)),
        "large" => Some(services(8)),
        // A table has 4 bytes, 4 for each of 6 entries, 2 for each of 4 subscriptions, and 2 with the values of these two.
        "full" => Some(classroom(300, 300)),
        _ => match name.parse() {
            Ok(count @ (8 | 16 | 32 | 64)) => Some(services(count / 8)),
            _ => None,
        },
    }
}

/// 24 attributes, 6 of them client values: the pupil's code and the pupil's answer of these capacities, and subscriptions.
fn classroom(code: u16, answer: u16) -> Vec<Entry> {
    vec![
        service(0x1800),
        characteristic(0x02, 3, 0x2A00),
        shared(0x2A00, true, 32, b"Room 12"),
        characteristic(0x02, 5, 0x2A01),
        shared(0x2A01, false, 2, &[0x40, 0]),
        service(0xFF00),
        characteristic(0x0A, 8, 0xFF01),
        client(0xFF01, code),
        characteristic(0x12, 10, 0xFF02),
        shared(0xFF02, true, 64, b"Which river flows through Vienna?"),
        subscription(),
        characteristic(0x0A, 13, 0xFF03),
        client(0xFF03, answer),
        characteristic(0x1A, 15, 0xFF04),
        shared(0xFF04, false, 8, &[0, 1, 2, 3, 4, 5, 6, 7]),
        subscription(),
        service(0x180F),
        characteristic(0x12, 19, 0x2A19),
        shared(0x2A19, false, 1, &[93]),
        subscription(),
        service(0xFF10),
        characteristic(0x1A, 23, 0xFF11),
        shared(0xFF11, true, 512, &[b'w'; 300]),
        subscription(),
    ]
}

/// So many services of eight attributes, four of them client values.
fn services(count: u16) -> Vec<Entry> {
    let one = |i: u16| {
        let first = 8 * i + 1;
        [
            service(0xFF00 + i),
            characteristic(0x1A, first + 2, 0xFE01),
            shared(0xFE01, true, 320, &[b'w'; 300]),
            subscription(),
            characteristic(0x1A, first + 5, 0xFE02),
            client(0xFE02, 8),
            subscription(),
            client(0xFE03, 4),
        ]
    };
    (0..count).flat_map(one).collect()
}

/// One service: one value of each sort, and shared values of one type and content for the rest. Each of them has the whole
/// rest of the list as its group, which is the most work for a handler that tells groups.
fn alike(count: usize) -> Vec<Entry> {
    let mut list = vec![
        service(0xFF00),
        shared(0xFE01, true, 320, &[b'w'; 300]),
        client(0xFE02, 8),
        subscription(),
    ];
    list.resize(count, shared(ALIKE, false, 1, &[7]));
    list
}

/// 64 attributes, the last of them so many client values: looking a handle up in the list costs the same for any number of
/// these, so that what grows is the lookup in a table.
fn keys(count: usize) -> Vec<Entry> {
    let mut list = vec![service(0xFF00)];
    list.resize(64 - count, shared(0xFE01, false, 1, &[7]));
    list.resize(64, client(0xFE02, 8));
    list
}

fn service(uuid: u16) -> Entry {
    declaration(SERVICE, &uuid.to_le_bytes())
}

fn characteristic(properties: u8, handle: u16, uuid: u16) -> Entry {
    let ([h0, h1], [u0, u1]) = (handle.to_le_bytes(), uuid.to_le_bytes());
    declaration(CHARACTERISTIC, &[properties, h0, h1, u0, u1])
}

fn declaration(uuid: u16, value: &[u8]) -> Entry {
    let write = 0;
    Entry {
        write,
        ..shared(uuid, false, value.len() as u16, value)
    }
}

fn shared(uuid: u16, is_variable: bool, capacity: u16, value: &[u8]) -> Entry {
    Entry {
        uuid,
        is_client: false,
        is_variable,
        read: 1,
        write: 2,
        capacity,
        value: value.to_vec(),
    }
}

/// A variable client value, full.
fn client(uuid: u16, capacity: u16) -> Entry {
    Entry {
        uuid,
        is_client: true,
        is_variable: true,
        read: 2,
        write: 2,
        capacity,
        value: vec![b'7'; usize::from(capacity)],
    }
}

fn subscription() -> Entry {
    Entry {
        uuid: SUBSCRIPTION,
        is_client: true,
        is_variable: false,
        read: 1,
        write: 1,
        capacity: 2,
        value: vec![1, 0],
    }
}
