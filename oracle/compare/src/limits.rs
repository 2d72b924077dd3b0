//! Every offset and length around each limit of a value, of what is prepared, and of the response buffer.

use crate::lists::{written, List};
use crate::pair::Step;
use crate::pokes::Poke;
use crate::rows::{clients, row, tablet};
use crate::systematic::case;
use crate::{Fault, Totals};
use original::connection::{PrepareWriteState, SecurityLevel};
use original::{Call, Entry, Hub, Request};

const KINDS: [&str; 4] = ["sf", "sv", "cf", "cv"];
const CAPACITIES: [u16; 8] = [0, 1, 2, 20, 22, 23, 511, 512];
/// The value's own type, and its place and handle in the list: others stand before and after it.
const TYPE: u16 = 0xFF01;
const PLACE: usize = 1;
const HANDLE: u16 = 3;

pub fn run(totals: &mut Totals) -> Result<(), Fault> {
    for kind in KINDS {
        for capacity in CAPACITIES {
            let list = written(&[(kind, 0x2800, 1), (kind, TYPE, capacity), (kind, 0x2800, 1)]);
            let hub = Hub::open(&list.entries, &list.store).expect("a sound list");
            for len in lengths(&list.entries[PLACE]) {
                let fresh = value_of(&hub, len);
                let marks = marks(len, capacity);
                case("the limits of a value", &list, &on_value(&fresh, &marks), totals)?;
                case(
                    "the limits of a prepared value",
                    &list,
                    &on_prepared(&fresh, &marks),
                    totals,
                )?;
                case("the limits of the buffer", &list, &on_buffer(&fresh, capacity), totals)?;
            }
        }
    }
    let list = written(&[("sv", TYPE, 512), ("cv", TYPE, 512)]);
    case("the limits of what is prepared", &list, &on_record(&list), totals)?;
    let (list, steps) = on_rows();
    case("the limits of rows", &list, &steps, totals)
}

/// Many rows alike, and buffers that leave every room behind the last that fits.
pub fn on_rows() -> (List, Vec<Step>) {
    let list = written(&[("sf", TYPE, 1); 20]);
    let at = |room| listing(1).map(|request| Step::from(asked(room, request)));
    (list, (22..=70).flat_map(at).collect())
}

/// The requests that are answered by a list, over all handles.
fn listing(capacity: u16) -> [Request; 4] {
    let (start, end, uuid) = (1, 0xFFFF, TYPE.to_le_bytes().to_vec());
    [
        Request::ReadByType {
            start,
            end,
            uuid: uuid.clone(),
        },
        Request::ReadByGroupType { start, end, uuid },
        Request::FindInformation { start, end },
        Request::FindByTypeValue {
            start,
            end,
            uuid: TYPE,
            value: vec![0x5A; capacity.into()],
        },
    ]
}

/// Present lengths.
fn lengths(entry: &Entry) -> Vec<u16> {
    let capacity = entry.capacity;
    if !entry.variable {
        return vec![capacity];
    }
    sorted(vec![0, 1.min(capacity), capacity.saturating_sub(1), capacity])
}

/// Offsets and lengths that matter.
fn marks(len: u16, capacity: u16) -> Vec<u16> {
    let around = |mark: u16| [mark.saturating_sub(1), mark, mark + 1];
    sorted([[0, 1, 0xFFFF], around(len), around(capacity), around(512)].concat())
}

fn sorted(mut numbers: Vec<u16>) -> Vec<u16> {
    numbers.sort_unstable();
    numbers.dedup();
    numbers
}

/// Gives the value this length, with the tablet in its slot and nothing prepared.
fn value_of(hub: &Hub, len: u16) -> Poke {
    let entry = &hub.list()[PLACE];
    let mut pokes = vec![row(hub, ".A......"), Poke::Record(0, Box::default())];
    if entry.shared {
        pokes.push(Poke::Store(entry.start.into(), vec![0x5A; entry.capacity.into()]));
        pokes.push(Poke::Length(HANDLE, len));
    } else if let (true, Poke::Several(slots)) = (entry.variable, &mut pokes[0]) {
        let (_, at) = clients(hub.list())[PLACE];
        if let Poke::Slot(_, slot) = &mut slots[1] {
            slot.table[at..at + 2].copy_from_slice(&len.to_le_bytes());
        }
    }
    Poke::Several(pokes)
}

fn asked(room: usize, request: Request) -> Call {
    Call::Process {
        who: tablet('a'),
        link: Some(SecurityLevel::NoEncryption),
        record: 0,
        room,
        request,
    }
}

fn after(fresh: &Poke, call: Call) -> Step {
    Step {
        poke: Some(fresh.clone()),
        ..Step::from(call)
    }
}

fn bytes(len: u16) -> Vec<u8> {
    (0..len).map(|i| i as u8 | 1).collect()
}

fn on_value(fresh: &Poke, marks: &[u16]) -> Vec<Step> {
    let (who, handle) = (tablet('a'), HANDLE);
    let mut steps = Vec::new();
    for &mark in marks.iter().filter(|mark| **mark < 0xFFFF) {
        let value = bytes(mark);
        let calls = [
            asked(
                23,
                Request::Write {
                    handle,
                    value: value.clone(),
                },
            ),
            asked(
                23,
                Request::WriteCommand {
                    handle,
                    value: value.clone(),
                },
            ),
            Call::Set { who, handle, value },
            Call::Get {
                who,
                handle,
                room: mark.into(),
            },
        ];
        steps.extend(calls.map(|call| after(fresh, call)));
    }
    for &offset in marks {
        let blob = |room| asked(room, Request::ReadBlob { handle, offset });
        steps.extend([23, 24, 25, 516, 517].map(|room| after(fresh, blob(room))));
    }
    steps
}

/// Each part of each length at each offset, then written.
fn on_prepared(fresh: &Poke, marks: &[u16]) -> Vec<Step> {
    let mut steps = Vec::new();
    for &offset in marks {
        for &len in marks.iter().filter(|len| **len < 0xFFFF) {
            let room = (usize::from(len) + 5).clamp(23, 517);
            let prepare = Request::PrepareWrite {
                handle: HANDLE,
                offset,
                value: bytes(len),
            };
            steps.push(after(fresh, asked(room, prepare)));
            steps.push(Step::from(asked(23, Request::ExecuteWrite { flags: 1 })));
        }
    }
    steps
}

/// Every length of the buffer, those that are refused included.
fn on_buffer(fresh: &Poke, capacity: u16) -> Vec<Step> {
    let handle = HANDLE;
    let mut requests = vec![Request::Read { handle }, Request::ReadBlob { handle, offset: 1 }];
    requests.extend(listing(capacity));
    let at = |room| {
        requests
            .iter()
            .map(move |request| after(fresh, asked(room, request.clone())))
    };
    (22..=518).flat_map(at).collect()
}

/// A part after what is prepared: around its end, around 512 bytes, under the same handle and others.
fn on_record(list: &List) -> Vec<Step> {
    let handle = list.entries[0].handle;
    let mut steps = Vec::new();
    for len in [0, 1, 2, 510, 511, 512] {
        for offset in [0, 1, 0xFFFF - len, 0xFFFF] {
            for under in [handle, list.entries[1].handle, 0, 0x7FFF] {
                let record = PrepareWriteState {
                    handle,
                    offset,
                    len,
                    buf: [0x77; 512],
                };
                steps.extend(parts(&record, under));
            }
        }
    }
    steps
}

fn parts(record: &PrepareWriteState, handle: u16) -> Vec<Step> {
    let end = record.offset.wrapping_add(record.len);
    let left = 512 - record.len;
    let mut steps = Vec::new();
    for offset in [end.wrapping_sub(1), end, end.wrapping_add(1)] {
        for len in sorted(vec![0, 1, left.saturating_sub(1), left, (left + 1).min(512)]) {
            let request = Request::PrepareWrite {
                handle,
                offset,
                value: bytes(len),
            };
            let poke = Poke::Record(0, Box::new(record.clone()));
            steps.push(after(&poke, asked(517, request)));
        }
    }
    steps
}
