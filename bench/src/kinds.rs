//! The kinds of calls that are counted, and the classroom's mix of them.

use crate::calls::*;
use crate::hubs::{Entry, ALIKE, CHARACTERISTIC, SERVICE, SUBSCRIPTION, TABLETS};

/// Calls as one tablet makes them.
type Calls = Vec<(Call, Waiting)>;

/// A kind: its name and its calls.
type Kind = (&'static str, Calls);

/// A kind's name and its steps, one run for each tablet. A list without subscriptions is there for the lookup in a table.
pub fn all(list: &[Entry]) -> Vec<(&'static str, Vec<Step>)> {
    let has = |uuid| list.iter().any(|entry| entry.uuid == uuid);
    let mut kinds = Vec::new();
    if has(SUBSCRIPTION) {
        kinds.extend(discovery());
        if has(ALIKE) {
            kinds.extend(one_group());
        }
        kinds.extend(values(list));
        kinds.extend(application(list));
        kinds.push(("mix", mix(list)));
    } else {
        kinds.extend(lookups(list));
    }
    let steps = |(name, calls): &Kind| (*name, for_each_tablet(calls));
    kinds.iter().map(steps).collect()
}

fn for_each_tablet(calls: &Calls) -> Vec<Step> {
    let step = |who| {
        calls.iter().map(move |(call, waiting)| Step {
            who,
            call: call.clone(),
            waiting: waiting.clone(),
        })
    };
    (0..TABLETS).flat_map(step).collect()
}

fn kind(name: &'static str, call: Call) -> Kind {
    (name, vec![(call, None)])
}

/// Over the whole list.
fn discovery() -> Vec<Kind> {
    let absent = [0x12, 0x34, 0x56, 0x78, 0x9A, 0xBC, 0xDE, 0xF0, 1, 2, 3, 4, 5, 6, 7, 8];
    vec![
        kind("Exchange MTU", request(EXCHANGE_MTU, 0, 517)),
        kind("Confirmation", request(CONFIRMATION, 0, 0)),
        kind("Read By Group Type", by(READ_BY_GROUP_TYPE, 1, 0xFFFF, SERVICE)),
        kind("Read By Type", by(READ_BY_TYPE, 1, 0xFFFF, CHARACTERISTIC)),
        kind("Read By Type, client values", by(READ_BY_TYPE, 1, 0xFFFF, SUBSCRIPTION)),
        kind("Read By Type, long UUID", bringing(READ_BY_TYPE, 1, 0xFFFF, &absent)),
        kind("Find Information", request(FIND_INFORMATION, 1, 0xFFFF)),
        kind("Find By Type Value", find(SERVICE, &[0, 0xFF])),
    ]
}

/// The most work for the handlers that tell groups: many rows, each of whose groups is the rest of the list.
fn one_group() -> Vec<Kind> {
    vec![
        kind(
            "Read By Group Type, one group",
            by(READ_BY_GROUP_TYPE, 1, 0xFFFF, ALIKE),
        ),
        kind("Read By Type, one group", by(READ_BY_TYPE, 1, 0xFFFF, ALIKE)),
        kind("Find By Type Value, one group", find(ALIKE, &[7])),
    ]
}

/// One value at a time: the last of its sort in the list.
fn values(list: &[Entry]) -> Vec<Kind> {
    let (shared, client, subscription) = (last_shared(list), last_client(list), last_subscription(list));
    let absent = list.len() as u16 + 1;
    let long = vec![b'p'; 100];
    let code = value_of(list, client);
    vec![
        kind("Read shared", request(READ, shared, 0)),
        kind("Read client", request(READ, client, 0)),
        kind("Read absent", request(READ, absent, 0)),
        kind("Read Blob", request(READ_BLOB, shared, 200)),
        kind("Write shared", bringing(WRITE, shared, 0, &[b's'; 300])),
        kind("Write client", bringing(WRITE, client, 0, &code)),
        kind("Write subscription", bringing(WRITE, subscription, 0, &[1, 0])),
        kind("Write Command", bringing(WRITE_COMMAND, client, 0, &code)),
        (
            "Prepare Write",
            vec![(bringing(PREPARE_WRITE, shared, 0, &long), Some((0, Vec::new())))],
        ),
        (
            "Execute Write",
            vec![(request(EXECUTE_WRITE, 0, 1), Some((shared, vec![b'p'; 300])))],
        ),
    ]
}

fn application(list: &[Entry]) -> Vec<Kind> {
    let (shared, client, subscription) = (last_shared(list), last_client(list), last_subscription(list));
    vec![
        kind("should_notify", Call::ShouldNotify { handle: subscription }),
        kind("get shared", Call::Get { handle: shared }),
        kind("get client", Call::Get { handle: client }),
        kind("set shared", set(shared, vec![b's'; 300])),
        kind("set client", set(client, value_of(list, client))),
        kind("can_read", Call::CanRead { handle: shared }),
        ("leave, return", vec![(Call::Disconnect, None), (Call::Connect, None)]),
        kind("get_client_att_table", Call::SaveTable),
        kind("set_client_att_table", Call::RestoreTable { saved: saved(list) }),
    ]
}

/// What looks for a key in the index of a table: for the last one, which a walk comes to last, and for all.
fn lookups(list: &[Entry]) -> Vec<Kind> {
    let client = last_client(list);
    vec![
        kind("Read client", request(READ, client, 0)),
        kind("Write client", bringing(WRITE, client, 0, &value_of(list, client))),
        kind("set_client_att_table", Call::RestoreTable { saved: saved(list) }),
    ]
}

/// What one tablet's lesson asks of the hub, in this order: the MTU; the services and each service's characteristics, each walk
/// up to its "not found", the whole list once and each subscription's descriptor; every subscription written; every value read,
/// long ones by parts; every variable client value written by request and by command; a long value written by parts; a handle
/// that is not there; and the application's share: a value set, the tablet's values fetched, its subscriptions asked.
fn mix(list: &[Entry]) -> Calls {
    let mut calls = vec![request(EXCHANGE_MTU, 0, 517)];
    calls.extend(walk(list));
    calls.extend(visit(list));
    calls.extend(long_write(last_shared(list)));
    calls.push(request(READ, list.len() as u16 + 1, 0));
    calls.push(set(last_shared(list), vec![b'w'; 300]));
    for handle in handles(list, |entry| entry.is_client) {
        calls.push(Call::Get { handle });
    }
    for handle in handles(list, |entry| entry.uuid == SUBSCRIPTION) {
        calls.push(Call::ShouldNotify { handle });
        calls.push(Call::ShouldIndicate { handle });
    }
    calls.push(request(CONFIRMATION, 0, 0));
    calls.into_iter().map(|call| (call, None)).collect()
}

/// Discovery as a tablet does it.
fn walk(list: &[Entry]) -> Vec<Call> {
    let end = list.len() as u16;
    let starts = handles(list, |entry| entry.uuid == SERVICE);
    let mut calls = vec![
        by(READ_BY_GROUP_TYPE, 1, 0xFFFF, SERVICE),
        by(READ_BY_GROUP_TYPE, end + 1, 0xFFFF, SERVICE),
        find(SERVICE, &[0, 0xFF]),
        request(FIND_INFORMATION, 1, 0xFFFF),
    ];
    for (i, start) in starts.iter().enumerate() {
        let end = starts.get(i + 1).map_or(end, |next| next - 1);
        calls.push(by(READ_BY_TYPE, *start, end, CHARACTERISTIC));
        calls.push(by(READ_BY_TYPE, end, end, CHARACTERISTIC));
    }
    for handle in handles(list, |entry| entry.uuid == SUBSCRIPTION) {
        calls.push(request(FIND_INFORMATION, handle, handle));
    }
    calls
}

/// Subscriptions written, values read and written.
fn visit(list: &[Entry]) -> Vec<Call> {
    let mut calls = Vec::new();
    for handle in handles(list, |entry| entry.uuid == SUBSCRIPTION) {
        calls.push(bringing(WRITE, handle, 0, &[1, 0]));
    }
    for handle in handles(list, |entry| !matches!(entry.uuid, SERVICE | CHARACTERISTIC)) {
        calls.push(request(READ, handle, 0));
        if value_of(list, handle).len() > 100 {
            calls.push(request(READ_BLOB, handle, 100));
            calls.push(request(READ_BLOB, handle, 200));
        }
    }
    for handle in handles(list, |entry| entry.is_client && entry.is_variable) {
        calls.push(bringing(WRITE, handle, 0, &value_of(list, handle)));
        calls.push(bringing(WRITE_COMMAND, handle, 0, &value_of(list, handle)));
    }
    calls
}

fn long_write(handle: u16) -> Vec<Call> {
    vec![
        bringing(PREPARE_WRITE, handle, 0, &[b'w'; 100]),
        bringing(PREPARE_WRITE, handle, 100, &[b'w'; 100]),
        bringing(PREPARE_WRITE, handle, 200, &[b'w'; 100]),
        request(EXECUTE_WRITE, 0, 1),
    ]
}

fn request(op: u8, handle: u16, other: u16) -> Call {
    bringing(op, handle, other, &[])
}

fn by(op: u8, start: u16, end: u16, uuid: u16) -> Call {
    bringing(op, start, end, &uuid.to_le_bytes())
}

fn bringing(op: u8, handle: u16, other: u16, data: &[u8]) -> Call {
    let (uuid, data) = (0, data.to_vec());
    Call::Request(Request {
        op,
        handle,
        other,
        uuid,
        data,
    })
}

fn find(uuid: u16, value: &[u8]) -> Call {
    Call::Request(Request {
        op: FIND_BY_TYPE_VALUE,
        handle: 1,
        other: 0xFFFF,
        uuid,
        data: value.to_vec(),
    })
}

fn set(handle: u16, value: Vec<u8>) -> Call {
    Call::Set { handle, value }
}

fn handles(list: &[Entry], wanted: impl Fn(&Entry) -> bool) -> Vec<u16> {
    let numbered = (1..).zip(list);
    numbered
        .filter(|(_, entry)| wanted(entry))
        .map(|(handle, _)| handle)
        .collect()
}

fn last(list: &[Entry], wanted: impl Fn(&Entry) -> bool) -> u16 {
    *handles(list, wanted).last().expect("every hub has one")
}

/// The last shared value that is long.
fn last_shared(list: &[Entry]) -> u16 {
    last(list, |entry| !entry.is_client && entry.capacity >= 300)
}

fn last_client(list: &[Entry]) -> u16 {
    last(list, |entry| entry.is_client && entry.is_variable)
}

fn last_subscription(list: &[Entry]) -> u16 {
    last(list, |entry| entry.uuid == SUBSCRIPTION)
}

fn value_of(list: &[Entry], handle: u16) -> Vec<u8> {
    list[usize::from(handle) - 1].value.clone()
}

/// A tablet's table as it is saved: header, index, values.
fn saved(list: &[Entry]) -> Vec<u8> {
    let (mut index, mut values) = (Vec::new(), Vec::new());
    for (handle, entry) in (1u16..).zip(list).filter(|(_, entry)| entry.is_client) {
        let flag = if entry.is_variable { 0x8000 } else { 0 };
        index.extend((handle | flag).to_le_bytes());
        index.extend((values.len() as u16).to_le_bytes());
        if entry.is_variable {
            values.extend((entry.value.len() as u16).to_le_bytes());
        }
        values.extend(&entry.value);
    }
    let count = (index.len() / 4) as u16;
    let header = [count.to_le_bytes(), (values.len() as u16).to_le_bytes()];
    [header.concat(), index, values].concat()
}
