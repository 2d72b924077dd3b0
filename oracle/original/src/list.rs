//! The attribute list as the requirements describe it. The original has no list of this form.

/// One attribute.
#[derive(Clone, Debug, Default, PartialEq, Eq)]
pub struct Entry {
    pub handle: u16,
    /// As it stands on air, low byte first.
    pub uuid: Vec<u8>,
    pub read: u8,
    pub write: u8,
    pub shared: bool,
    pub variable: bool,
    pub capacity: u16,
    /// A shared value's place in the store.
    pub start: u16,
    /// A shared value's present length.
    pub len: u16,
}

/// Whether refusal 1 holds for a list and its store.
pub fn is_refused(list: &[Entry], store: &[u8]) -> bool {
    let ascending = list.windows(2).all(|pair| pair[0].handle < pair[1].handle);
    list.len() > 64 || store.len() > 4096 || !ascending || !list.iter().all(entry_holds) || !apart(list, store.len())
}

fn entry_holds(entry: &Entry) -> bool {
    let length_holds = if entry.variable {
        entry.len <= entry.capacity
    } else {
        entry.len == entry.capacity
    };
    (1..=0x7FFF).contains(&entry.handle)
        && entry.capacity <= 512
        && (length_holds || !entry.shared)
        && entry.read <= 3
        && entry.write <= 3
        && matches!(entry.uuid.len(), 2 | 16)
}

/// Shared ranges stand in the list's order, apart and within the store.
fn apart(list: &[Entry], store: usize) -> bool {
    let mut end = 0;
    for entry in list.iter().filter(|entry| entry.shared) {
        let start = usize::from(entry.start);
        if start < end {
            return false;
        }
        end = start + usize::from(entry.capacity);
    }
    end <= store
}

/// The short form of a UUID that has one, so that equal UUIDs have equal bytes.
pub fn shortest(uuid: &[u8]) -> &[u8] {
    const BASE: [u8; 12] = [0xFB, 0x34, 0x9B, 0x5F, 0x80, 0, 0, 0x80, 0, 0x10, 0, 0];
    if uuid.len() == 16 && uuid[..12] == BASE && uuid[14..] == [0, 0] {
        &uuid[12..14]
    } else {
        uuid
    }
}

/// The 16 bytes of a UUID of 16 bits.
pub fn widened(short: u16) -> Vec<u8> {
    let mut uuid = vec![0xFB, 0x34, 0x9B, 0x5F, 0x80, 0, 0, 0x80, 0, 0x10, 0, 0];
    uuid.extend(short.to_le_bytes());
    uuid.extend([0, 0]);
    uuid
}
