//! Every corner of the state, and one step beyond each, under every call.

use crate::lists::{sample_lists, List};
use crate::pair::Step;
use crate::pokes::Poke;
use crate::rows::{clients, row, size, tablet};
use crate::systematic::case;
use crate::{Fault, Totals};
use original::connection::{PrepareWriteState, SecurityLevel};
use original::list::shortest;
use original::{Call, Entry, Hub, Identity, Request};

const ROWS: [&str; 20] = [
    "........", ",,,,,,,,", "ABCDEFGH", "abcdefgh", "A.......", ".A......", "a,......", ",a......", "aA......",
    "Aa......", "A......a", "ABCDEFG.", ".BCDEFGH", "ABCDEFG,", "ABCDEFGh", "bCDEFGHA", "bcdefghA", "XABCDEFG",
    "xbcdefgh", "AbCdEfGa",
];

/// The row under the other corners.
const USUAL: &str = "AbC.eF,h";

pub fn run(totals: &mut Totals) -> Result<(), Fault> {
    for list in sample_lists() {
        let hub = Hub::open(&list.entries, &list.store).expect("a sound list");
        let calls = calls(&list.entries);
        for poke in rows(&hub).into_iter().chain(tables(&hub)).chain(lengths(&hub)) {
            try_all(&list, &poke, &calls, totals)?;
        }
        let requests: Vec<Call> = calls
            .into_iter()
            .filter(|call| matches!(call, Call::Process { .. }))
            .collect();
        for poke in records(&hub) {
            try_all(&list, &poke, &requests, totals)?;
        }
    }
    Ok(())
}

/// Each call on its own, on a hub that is in this state.
fn try_all(list: &List, poke: &Poke, calls: &[Call], totals: &mut Totals) -> Result<(), Fault> {
    for call in calls {
        let step = Step {
            poke: Some(poke.clone()),
            ..Step::from(call.clone())
        };
        case("the corners of the state", list, &[step], totals)?;
    }
    Ok(())
}

fn rows(hub: &Hub) -> Vec<Poke> {
    ROWS.iter().map(|word| row(hub, word)).collect()
}

/// Puts a table into a slot of the usual row: a tablet's or an empty one.
fn table_in(hub: &Hub, i: usize, change: impl Fn(&mut [u8; 640])) -> Poke {
    let mut pokes = vec![row(hub, USUAL)];
    if let Poke::Several(slots) = &mut pokes[0] {
        if let Poke::Slot(_, slot) = &mut slots[i] {
            change(&mut slot.table);
        }
    }
    Poke::Several(pokes)
}

/// Lengths of client values; each byte of a header and an index; bytes past the end; an empty slot that is not clear.
fn tables(hub: &Hub) -> Vec<Poke> {
    let (first, last, empty) = (0, 7, 3);
    let places = clients(hub.list());
    let values = 4 + 4 * places.len();
    let end = places.last().map_or(4, |(entry, at)| at + size(entry));
    let mut pokes = Vec::new();
    for (entry, at) in &places {
        if entry.variable {
            for len in [0, 1, entry.capacity, entry.capacity + 1, 0xFFFF] {
                pokes.push(table_in(hub, first, |table| {
                    table[*at..at + 2].copy_from_slice(&len.to_le_bytes())
                }));
            }
        }
    }
    for at in 0..values {
        pokes.push(table_in(hub, last, |table| table[at] ^= 1));
        pokes.push(table_in(hub, empty, |table| table[at] ^= 0x80));
    }
    for at in [end, 639] {
        pokes.push(table_in(hub, first, |table| table[at.min(639)] ^= 1));
        pokes.push(table_in(hub, empty, |table| table[at.min(639)] ^= 1));
    }
    for at in [values, end - 1] {
        pokes.push(table_in(hub, empty, |table| table[at.min(639)] ^= 1));
    }
    pokes
}

/// Lengths of shared values, with old bytes behind them.
fn lengths(hub: &Hub) -> Vec<Poke> {
    let mut pokes = Vec::new();
    for entry in hub.list().iter().filter(|entry| entry.shared) {
        let room = Poke::Store(entry.start.into(), vec![0x5A; entry.capacity.into()]);
        let capacity = entry.capacity;
        for len in [0, 1, capacity.saturating_sub(1), capacity, capacity + 1, 0xFFFF] {
            let length = Poke::Length(entry.handle, len);
            pokes.push(Poke::Several(vec![row(hub, USUAL), room.clone(), length]));
        }
    }
    pokes
}

fn records(hub: &Hub) -> Vec<Poke> {
    let listed = hub.list().iter().map(|entry| entry.handle);
    let handles: Vec<u16> = listed.chain([0, 0x7FFF, 0x8000, 0xFFFF]).collect();
    let mut pokes = Vec::new();
    for handle in handles {
        for offset in [0, 1, 0xFFFF] {
            for len in [0, 1, 511, 512, 513, 0xFFFF] {
                let record = PrepareWriteState {
                    handle,
                    offset,
                    len,
                    buf: [0x77; 512],
                };
                pokes.push(Poke::Several(vec![row(hub, USUAL), Poke::Record(0, Box::new(record))]));
            }
        }
    }
    pokes
}

/// Every call, by a tablet of the usual row and, where it matters, by one that is not in it. What names a handle is made for
/// one value of each kind and for a handle that is not listed.
pub fn calls(list: &[Entry]) -> Vec<Call> {
    let (here, new) = (tablet('a'), tablet('i'));
    let mut calls = vec![
        Call::Connect(here),
        Call::Connect(new),
        Call::GetTable(here),
        Call::GetTable(new),
    ];
    for who in [here, tablet('h'), new] {
        calls.extend([true, false].map(|bonded| Call::Disconnect { who, bonded }));
    }
    for saved in [vec![0; 4], vec![0; 3], vec![1, 0, 2, 0, 5, 0, 0, 0, 1, 2]] {
        calls.push(Call::SetTable { who: here, saved });
    }
    calls.extend(plain_requests(list).into_iter().map(|request| asked(here, request)));
    for handle in handles(list) {
        calls.extend(calls_on(here, handle));
    }
    calls
}

fn handles(list: &[Entry]) -> Vec<u16> {
    let kinds = [(true, false), (true, true), (false, false), (false, true)];
    let of_kind = |kind| list.iter().rfind(|entry| (entry.shared, entry.variable) == kind);
    let listed = kinds.into_iter().filter_map(of_kind).map(|entry| entry.handle);
    listed.chain([0x7FFF]).collect()
}

fn asked(who: Identity, request: Request) -> Call {
    Call::Process {
        who,
        link: Some(SecurityLevel::EncryptedAuthenticated),
        record: 0,
        room: 64,
        request,
    }
}

fn plain_requests(list: &[Entry]) -> Vec<Request> {
    let (start, end) = (1, 0xFFFF);
    let mut requests = vec![
        Request::ExchangeMtu(23),
        Request::Confirmation,
        Request::FindInformation { start, end },
        Request::ReadMultiple { handles: vec![5, 0] },
        Request::ExecuteWrite { flags: 0 },
        Request::ExecuteWrite { flags: 1 },
    ];
    for entry in list.iter().take(2) {
        let uuid = entry.uuid.clone();
        requests.push(Request::ReadByGroupType { start, end, uuid });
        if let &[low, high] = shortest(&entry.uuid) {
            let (uuid, value) = (u16::from_le_bytes([low, high]), vec![0x5A; entry.capacity.into()]);
            requests.push(Request::FindByTypeValue {
                start,
                end,
                uuid,
                value,
            });
        }
    }
    let types = list.iter().map(|entry| entry.uuid.clone());
    requests.extend(types.map(|uuid| Request::ReadByType { start, end, uuid }));
    requests
}

fn calls_on(who: Identity, handle: u16) -> Vec<Call> {
    let link = Some(SecurityLevel::EncryptedAuthenticated);
    let value = vec![1, 2];
    let requests = [
        Request::Read { handle },
        Request::ReadBlob { handle, offset: 1 },
        Request::Write {
            handle,
            value: value.clone(),
        },
        Request::WriteCommand {
            handle,
            value: value.clone(),
        },
        Request::PrepareWrite {
            handle,
            offset: 1,
            value: value.clone(),
        },
    ];
    let mut calls = vec![
        Call::Get { who, handle, room: 512 },
        Call::Set { who, handle, value },
        Call::CanRead { who, link, handle },
        Call::CanWrite { who, link, handle },
        Call::ShouldNotify { who, handle },
        Call::ShouldIndicate { who, handle },
    ];
    calls.extend(requests.map(|request| asked(who, request)));
    calls
}
