//! Random attribute lists: sound ones around every limit, and spoiled ones.

use crate::random::Random;
use original::list::widened;
use original::Entry;

/// Types that lists and requests draw from. The first two open groups.
pub const TYPES: [u16; 6] = [0x2800, 0x2801, 0x2803, 0x2902, 0x2A00, 0xFF01];

const CAPACITIES: [usize; 12] = [0, 1, 2, 4, 8, 19, 20, 21, 22, 251, 253, 511];

#[derive(Clone)]
pub struct List {
    pub entries: Vec<Entry>,
    pub store: Vec<u8>,
}

/// How the lists of one hub are drawn.
struct Style {
    /// Long forms of short UUIDs occur.
    mixed: bool,
    /// Most values have this capacity, so that rows of equal length are common.
    common: usize,
    /// One client value in so many entries.
    clients: usize,
    /// Needs other than "any link" occur.
    guarded: bool,
}

/// Lists for what is enumerated: one with every kind of value and capacities around limits; a small one; one without client
/// values; one without entries; one whose table takes all of its 640 bytes.
pub fn sample_lists() -> Vec<List> {
    vec![
        written(&[
            ("sf", 0x2800, 2),
            ("sv", 0x2A00, 8),
            ("cv", 0xFF01, 8),
            ("cf", 0x2902, 2),
            ("cv", 0xFF01, 0),
            ("cf", 0xFF01, 0),
            ("sv", 0x2A00, 0),
            ("cv", 0xFF01, 1),
            ("cv", 0x2A00, 300),
            ("sv", 0x2A00, 1),
            ("sf", 0x2801, 2),
            ("sf", 0x2A00, 8),
            ("sv", 0x2A00, 512),
        ]),
        written(&[("sv", 0x2A00, 4), ("cf", 0x2902, 2), ("cv", 0xFF01, 4)]),
        written(&[("sf", 0x2800, 2), ("sv", 0xFF01, 512)]),
        written(&[]),
        written(&[("cv", 0xFF01, 512), ("cf", 0xFF01, 114)]),
    ]
}

/// A list of values by kind, type and capacity, at every second handle, for any link. Variable ones have half their capacity.
pub fn written(values: &[(&str, u16, u16)]) -> List {
    let mut end = 0;
    let entry = |(i, (kind, uuid, capacity)): (usize, &(&str, u16, u16))| {
        let (shared, variable) = (kind.starts_with('s'), kind.ends_with('v'));
        let start = end;
        end += if shared { *capacity } else { 0 };
        Entry {
            handle: 1 + 2 * i as u16,
            uuid: uuid.to_le_bytes().to_vec(),
            read: 1,
            write: 1,
            shared,
            variable,
            capacity: *capacity,
            start,
            len: if variable { *capacity / 2 } else { *capacity },
        }
    };
    let entries = values.iter().enumerate().map(entry).collect();
    let store = vec![0x5A; end.into()];
    List { entries, store }
}

/// A list of which most pass rule 1, and some have too many client values.
pub fn list(random: &mut Random) -> List {
    let style = Style {
        mixed: random.once_in(3),
        common: random.pick(&[0, 1, 2, 2, 3, 5, 8, 18, 20, 100, 252, 254]),
        clients: random.within(1, 5),
        guarded: !random.once_in(3),
    };
    let count = match random.below(8) {
        0 => random.below(3),
        1 => random.within(40, 64),
        2 => 64,
        _ => random.within(3, 16),
    };
    let mut list = sound(random, &style, count);
    if random.once_in(12) {
        spoil(random, &mut list);
    }
    list
}

/// A list that breaks a rule, most of the time.
pub fn spoiled(random: &mut Random) -> List {
    let mut list = list(random);
    spoil(random, &mut list);
    list
}

fn sound(random: &mut Random, style: &Style, count: usize) -> List {
    // What is left of a client table: most lists stay within, some fill it or pass it by a byte or two.
    let full = random.once_in(5);
    let mut room = if full { 636 + random.pick(&[0, 0, 1, 2]) } else { 636 };
    let mut handle = random.pick(&[1, 1, 1, 2, 0x10, 0x7FFF - count.max(1) as u16 + 1]);
    let mut end = 0;
    let mut entries: Vec<Entry> = Vec::new();
    for i in 0..count {
        let mut entry = entry(random, style, handle);
        let steps = usize::from(0x7FFF - handle) > 20 * (count - i);
        handle = handle.wrapping_add(if steps && random.once_in(4) {
            random.within(2, 9) as u16
        } else {
            1
        });
        if !entry.shared {
            fit(&mut entry, &mut room, full && i + 2 >= count);
        }
        if entry.shared {
            place(random, &mut entry, &mut end);
        }
        entries.push(entry);
    }
    let spare = random.pick(&[0, 0, 0, 1, 7]);
    let store = random.bytes((end + spare).min(4096));
    List { entries, store }
}

fn entry(random: &mut Random, style: &Style, handle: u16) -> Entry {
    let capacity = match random.below(4) {
        0 => random.near(&CAPACITIES),
        1 => random.below(24),
        _ => style.common,
    };
    let (shared, variable) = (!random.once_in(style.clients + 1), random.once_in(2));
    // Subscriptions are client values of 2 bytes.
    let capacity = if !shared && random.once_in(2) { 2 } else { capacity };
    Entry {
        handle,
        uuid: uuid(random, style.mixed),
        read: need(random, style.guarded),
        write: need(random, style.guarded),
        shared,
        variable,
        capacity: capacity as u16,
        start: 0,
        len: capacity as u16,
    }
}

fn need(random: &mut Random, guarded: bool) -> u8 {
    if guarded && random.once_in(3) {
        random.below(4) as u8
    } else {
        1
    }
}

/// A UUID of 2 or 16 bytes; where `mixed`, also the long forms of short ones, and one that is nearly such a form.
pub fn uuid(random: &mut Random, mixed: bool) -> Vec<u8> {
    let short = random.pick(&TYPES);
    match random.below(8) {
        0 => [0xA0 + random.below(2) as u8; 16].to_vec(),
        1 | 2 if mixed => widened(short),
        3 if mixed => {
            let mut near = widened(short);
            near[random.below(16)] ^= 1;
            near
        }
        _ => short.to_le_bytes().to_vec(),
    }
}

/// Gives a shared value its range after the ones before, and a length.
fn place(random: &mut Random, entry: &mut Entry, end: &mut usize) {
    let gap = if random.once_in(10) { random.below(4) } else { 0 };
    let start = (*end + gap).min(4096);
    entry.capacity = entry.capacity.min((4096 - start) as u16);
    entry.start = start as u16;
    entry.len = entry.capacity;
    if entry.variable {
        entry.len = (random.near(&[0, 2, entry.capacity.into()]) as u16).min(entry.capacity);
    }
    *end = start + usize::from(entry.capacity);
}

/// Makes a client value fit what is left of the table, or turns it into a shared one. Where `fill`, it takes all that is left.
fn fit(entry: &mut Entry, room: &mut usize, fill: bool) {
    let head = if entry.variable { 6 } else { 4 };
    let Some(left) = room.checked_sub(head) else {
        entry.shared = true;
        return;
    };
    let wanted = if fill { 512 } else { usize::from(entry.capacity) };
    entry.capacity = wanted.min(left) as u16;
    entry.len = entry.capacity;
    *room = left - usize::from(entry.capacity);
}

/// Breaks one rule, most of the time.
fn spoil(random: &mut Random, list: &mut List) {
    let count = list.entries.len();
    if count == 0 || random.once_in(12) {
        let len = random.pick(&[4096, 4097]);
        list.store = random.bytes(len);
        return;
    }
    let last = list.entries[count - 1].clone();
    // In the last entry half the time: there, nothing that follows breaks a rule too.
    let place = if random.once_in(2) {
        count - 1
    } else {
        random.below(count)
    };
    let before = place.checked_sub(1).map_or(0, |i| list.entries[i].handle);
    let entry = &mut list.entries[place];
    match random.below(10) {
        0 => entry.handle = random.pick(&[0, 0x8000, 0x8000, 0xFFFF]),
        1 => entry.handle = before,
        2 => entry.capacity = random.pick(&[512, 513, 0xFFFF]),
        3 => entry.len = entry.capacity.wrapping_add(random.pick(&[1, 0xFFFF])),
        4 => entry.start = entry.start.wrapping_add(random.pick(&[1, 0xFFFF, 4096])),
        5 => entry.read = random.pick(&[3, 4, 255]),
        6 => entry.write = random.pick(&[3, 4, 255]),
        7 => {
            let len = random.pick(&[0, 1, 3, 4, 15, 17, 255]);
            entry.uuid = random.bytes(len);
        }
        8 => {
            list.store.pop();
        }
        _ => {
            while list.entries.len() < 65 {
                let next = Entry {
                    handle: list.entries.len() as u16 + last.handle,
                    shared: false,
                    capacity: 0,
                    ..last.clone()
                };
                list.entries.push(next);
            }
        }
    }
}
