//! Every request, answered as the requirements say.

mod common;

use common::{
    ask, ask_over, bytes, error, hub, join, ABSENT, CODE, DECLARATION, NAME, NOTES, NOTES_TYPE, OTHER_SERVICE, SEAT,
    SERVICE, SUBSCRIPTION,
};
use ropethatch::{Link, Request, Uuid};

const PRIMARY_SERVICE: Uuid = Uuid::short(0x2800);
const ALL: (u16, u16) = (1, 0xFFFF);

fn by_type(range: (u16, u16), uuid: &[u8]) -> Request<'_> {
    let (start, end) = range;
    Request::ReadByType { start, end, uuid }
}

fn by_group(range: (u16, u16), uuid: &[u8]) -> Request<'_> {
    let (start, end) = range;
    Request::ReadByGroupType { start, end, uuid }
}

fn by_value(range: (u16, u16), uuid: u16, value: &[u8]) -> Request<'_> {
    let (start, end) = range;
    Request::FindByTypeValue {
        start,
        end,
        uuid,
        value,
    }
}

/// The long form of a 16-bit UUID, low byte first.
fn widened(uuid: u16) -> [u8; 16] {
    let mut long = *b"\xFB\x34\x9B\x5F\x80\x00\x00\x80\x00\x10\x00\x00\x00\x00\x00\x00";
    long[12..14].copy_from_slice(&uuid.to_le_bytes());
    long
}

#[test]
fn find_information() {
    let mut hub = hub();
    let mut ada = join(&mut hub, 1);
    let (start, end) = ALL;
    let rows = |handles: &[(u16, u16)]| {
        let row = |&(handle, uuid): &(u16, u16)| [handle.to_le_bytes(), uuid.to_le_bytes()].concat();
        [vec![0x05, 1], handles.iter().flat_map(row).collect()].concat()
    };
    let five = [
        (SERVICE, 0x2800),
        (DECLARATION, 0x2803),
        (SUBSCRIPTION, 0x2902),
        (CODE, 0xFF01),
        (NAME, 0x2A00),
    ];
    let find = Request::FindInformation { start, end };
    assert_eq!(ask(&mut hub, &mut ada, find), Some(rows(&five)), "no room for a sixth");

    let all = [&five[..], &[(SEAT, 0xFF02), (OTHER_SERVICE, 0x2800)]].concat();
    let longer = ask_over(&mut hub, &mut ada, Link::Plain, find, 517);
    assert_eq!(longer, Some(rows(&all)), "it ends at another format");

    let long = Request::FindInformation { start: ABSENT, end };
    let row = [&[0x05, 2, 0x10, 0x02], &NOTES_TYPE[..]].concat();
    assert_eq!(ask(&mut hub, &mut ada, long), Some(row));

    let none = Request::FindInformation {
        start: ABSENT,
        end: ABSENT,
    };
    assert_eq!(ask(&mut hub, &mut ada, none), error(0x04, ABSENT, 0x0A));
}

#[test]
fn find_by_type_value() {
    let mut hub = hub();
    let mut ada = join(&mut hub, 1);
    let found = ask(&mut hub, &mut ada, by_value(ALL, 0x2800, &[0x00, 0xFF]));
    assert_eq!(found, bytes(&[0x07, 1, 0, 7, 0]));
    let found = ask(&mut hub, &mut ada, by_value(ALL, 0x2800, &[0x0F, 0x18]));
    assert_eq!(found, bytes(&[0x07, 8, 0, 0x10, 0x02]));

    // no permission is asked, values are compared whole, and client values never match
    let found = ask(&mut hub, &mut ada, by_value(ALL, 0xFF02, b"SEAT"));
    assert_eq!(found, bytes(&[0x07, 7, 0, 7, 0]));
    let found = ask(&mut hub, &mut ada, by_value(ALL, 0xFF02, b"SEA"));
    assert_eq!(found, error(0x06, 1, 0x0A));
    let found = ask(&mut hub, &mut ada, by_value((2, 0xFFFF), 0x2902, &[0, 0]));
    assert_eq!(found, error(0x06, 2, 0x0A));
}

#[test]
fn read_by_type() {
    let mut hub = hub();
    let mut ada = join(&mut hub, 1);
    let services = bytes(&[0x09, 4, 1, 0, 0x00, 0xFF, 8, 0, 0x0F, 0x18]);
    assert_eq!(
        ask(&mut hub, &mut ada, by_type(ALL, PRIMARY_SERVICE.as_bytes())),
        services
    );
    assert_eq!(ask(&mut hub, &mut ada, by_type(ALL, &widened(0x2800))), services);

    let second = bytes(&[0x09, 4, 8, 0, 0x0F, 0x18]);
    assert_eq!(
        ask(&mut hub, &mut ada, by_type((2, 8), PRIMARY_SERVICE.as_bytes())),
        second
    );

    hub.set(ada.who(), CODE, b"3E10").unwrap();
    let code = Uuid::short(0xFF01);
    assert_eq!(
        ask(&mut hub, &mut ada, by_type(ALL, code.as_bytes())),
        bytes(b"\x09\x06\x05\x003E10")
    );

    let none = by_type((2, 7), PRIMARY_SERVICE.as_bytes());
    assert_eq!(ask(&mut hub, &mut ada, none), error(0x08, 2, 0x0A));
    assert_eq!(
        ask(&mut hub, &mut ada, by_type(ALL, &[0x00, 0x28, 0, 0])),
        error(0x08, 1, 0x0A)
    );

    let seat = Uuid::short(0xFF02);
    let by_seat = by_type(ALL, seat.as_bytes());
    assert_eq!(ask(&mut hub, &mut ada, by_seat), error(0x08, SEAT, 0x05));
    let answer = ask_over(&mut hub, &mut ada, Link::Authenticated, by_seat, 23);
    assert_eq!(answer, bytes(b"\x09\x06\x07\x00SEAT"));
}

#[test]
fn read_by_group_type() {
    let mut hub = hub();
    let mut ada = join(&mut hub, 1);
    let services = bytes(&[0x11, 6, 1, 0, 7, 0, 0x00, 0xFF, 8, 0, 0x10, 0x02, 0x0F, 0x18]);
    assert_eq!(
        ask(&mut hub, &mut ada, by_group(ALL, PRIMARY_SERVICE.as_bytes())),
        services
    );

    let name = Uuid::short(0x2A00);
    let group = by_group(ALL, name.as_bytes());
    assert_eq!(ask(&mut hub, &mut ada, group), bytes(b"\x11\x07\x06\x00\x07\x00Hub"));

    let none = by_group((2, 7), PRIMARY_SERVICE.as_bytes());
    assert_eq!(ask(&mut hub, &mut ada, none), error(0x10, 2, 0x0A));
    let group = by_group(ALL, &NOTES_TYPE);
    assert_eq!(ask(&mut hub, &mut ada, group), error(0x10, NOTES, 0x02));
}

#[test]
fn a_bad_range_is_told_under_one_opcode() {
    let mut hub = hub();
    let mut ada = join(&mut hub, 1);
    for (start, end) in [(0, 5), (5, 4), (0, 0)] {
        let range = (start, end);
        for request in [
            Request::FindInformation { start, end },
            by_value(range, 0x2800, &[]),
            by_type(range, PRIMARY_SERVICE.as_bytes()),
            by_group(range, PRIMARY_SERVICE.as_bytes()),
        ] {
            assert_eq!(ask(&mut hub, &mut ada, request), error(0x08, start, 0x01));
        }
    }
}

#[test]
fn read() {
    let mut hub = hub();
    let mut ada = join(&mut hub, 1);
    let read = |handle| Request::Read { handle };
    assert_eq!(ask(&mut hub, &mut ada, read(NAME)), bytes(b"\x0BHub"));
    assert_eq!(ask(&mut hub, &mut ada, read(CODE)), bytes(b"\x0B"));
    assert_eq!(ask(&mut hub, &mut ada, read(ABSENT)), error(0x0A, ABSENT, 0x0A));
    assert_eq!(ask(&mut hub, &mut ada, read(SEAT)), error(0x0A, SEAT, 0x05));
    assert_eq!(ask(&mut hub, &mut ada, read(NOTES)), error(0x0A, NOTES, 0x02));
    let gone = ask_over(&mut hub, &mut ada, Link::Gone, read(NAME), 23);
    assert_eq!(gone, error(0x0A, NAME, 0x01));
    let seat = ask_over(&mut hub, &mut ada, Link::Authenticated, read(SEAT), 23);
    assert_eq!(seat, bytes(b"\x0BSEAT"));
}

#[test]
fn read_blob() {
    let mut hub = hub();
    let mut ada = join(&mut hub, 1);
    let blob = |handle, offset| Request::ReadBlob { handle, offset };
    assert_eq!(ask(&mut hub, &mut ada, blob(NAME, 0)), bytes(b"\x0DHub"));
    assert_eq!(ask(&mut hub, &mut ada, blob(NAME, 1)), bytes(b"\x0Dub"));
    assert_eq!(ask(&mut hub, &mut ada, blob(NAME, 3)), bytes(b"\x0D"));
    assert_eq!(ask(&mut hub, &mut ada, blob(NAME, 4)), error(0x0C, NAME, 0x07));
    assert_eq!(ask(&mut hub, &mut ada, blob(ABSENT, 4)), error(0x0C, ABSENT, 0x0A));
    // permission before offset: no length is told
    assert_eq!(ask(&mut hub, &mut ada, blob(SEAT, 0xFFFF)), error(0x0C, SEAT, 0x05));
}

#[test]
fn a_response_is_cut_to_the_buffer() {
    let mut hub = ropethatch::ListBuilder::new()
        .shared_fixed(1, Uuid::short(1), ropethatch::Needs::OPEN, &[7; 512])
        .build()
        .unwrap();
    let mut ada = join(&mut hub, 1);
    for mtu in [23, 100, 512, 513, 517] {
        let answer = ask_over(&mut hub, &mut ada, Link::Plain, Request::Read { handle: 1 }, mtu).unwrap();
        assert_eq!(answer.len(), mtu.min(513));
        assert_eq!(answer[0], 0x0B);
        assert!(answer[1..].iter().all(|&byte| byte == 7));
    }
}

#[test]
fn read_multiple_is_not_served() {
    let mut hub = hub();
    let mut ada = join(&mut hub, 1);
    let multiple = |handles| Request::ReadMultiple { handles };
    assert_eq!(ask(&mut hub, &mut ada, multiple(&[5, 0, 6, 0])), error(0x0E, 5, 0x0A));
    assert_eq!(ask(&mut hub, &mut ada, multiple(&[5])), error(0x0E, 0, 0x04));
    assert_eq!(ask(&mut hub, &mut ada, multiple(&[])), error(0x0E, 0, 0x04));
}

#[test]
fn write() {
    let mut hub = hub();
    let mut ada = join(&mut hub, 1);
    let before = hub.clone();
    let write = |handle, value| Request::Write { handle, value };
    assert_eq!(ask(&mut hub, &mut ada, write(NAME, b"A")), error(0x12, NAME, 0x0F));
    assert_eq!(
        ask(&mut hub, &mut ada, write(SERVICE, b"A")),
        error(0x12, SERVICE, 0x03)
    );
    assert_eq!(ask(&mut hub, &mut ada, write(ABSENT, b"A")), error(0x12, ABSENT, 0x0A));
    assert_eq!(
        ask(&mut hub, &mut ada, write(CODE, b"123456789")),
        error(0x12, CODE, 0x0D)
    );
    assert_eq!(
        ask(&mut hub, &mut ada, write(SUBSCRIPTION, b"123")),
        error(0x12, SUBSCRIPTION, 0x0D)
    );
    assert_eq!(hub, before);

    let stored = ask_over(&mut hub, &mut ada, Link::Encrypted, write(NAME, b"A"), 23);
    assert_eq!(stored, bytes(&[0x13]));
    assert_eq!(hub.get_to_vec(ada.who(), NAME), Ok(b"A".to_vec()));

    // a fixed value keeps its length
    assert_eq!(ask(&mut hub, &mut ada, write(SUBSCRIPTION, &[3, 4])), bytes(&[0x13]));
    assert_eq!(ask(&mut hub, &mut ada, write(SUBSCRIPTION, &[1])), bytes(&[0x13]));
    assert_eq!(hub.get_to_vec(ada.who(), SUBSCRIPTION), Ok(vec![1, 4]));
}

#[test]
fn write_command_never_answers() {
    let mut hub = hub();
    let mut ada = join(&mut hub, 1);
    let before = hub.clone();
    let command = |handle, value| Request::WriteCommand { handle, value };
    assert_eq!(ask(&mut hub, &mut ada, command(NAME, b"A")), None);
    assert_eq!(ask(&mut hub, &mut ada, command(ABSENT, b"A")), None);
    assert_eq!(ask(&mut hub, &mut ada, command(CODE, b"123456789")), None);
    assert_eq!(hub, before);
    assert_eq!(ask(&mut hub, &mut ada, command(CODE, b"3E10")), None);
    assert_eq!(hub.get_to_vec(ada.who(), CODE), Ok(b"3E10".to_vec()));
}

#[test]
fn two_requests_change_nothing_and_have_no_answer() {
    let mut hub = hub();
    let mut ada = join(&mut hub, 1);
    let (before, waiting) = (hub.clone(), ada.prepared().clone());
    assert_eq!(ask(&mut hub, &mut ada, Request::ExchangeMtu { mtu: 185 }), None);
    assert_eq!(ask(&mut hub, &mut ada, Request::Confirmation), None);
    assert_eq!(hub, before);
    assert_eq!(*ada.prepared(), waiting);
}

#[test]
fn prepare_keeps_what_follows_and_nothing_else() {
    let mut hub = hub();
    let mut ada = join(&mut hub, 1);
    let prepare = |handle, offset, value| Request::PrepareWrite { handle, offset, value };
    assert_eq!(ask(&mut hub, &mut ada, prepare(0, 0, b"A")), error(0x16, 0, 0x01));
    assert_eq!(ada.prepared().handle(), None);

    // an empty record takes any handle and offset
    assert_eq!(
        ask(&mut hub, &mut ada, prepare(CODE, 2, b"AB")),
        bytes(b"\x17\x05\x00\x02\x00AB")
    );
    let (before, waiting) = (hub.clone(), ada.prepared().clone());
    assert_eq!(ask(&mut hub, &mut ada, prepare(0, 4, b"C")), error(0x16, 0, 0x01));
    assert_eq!(ask(&mut hub, &mut ada, prepare(NAME, 4, b"C")), error(0x16, NAME, 0x09));
    for offset in [0, 2, 3, 5, 0xFFFF] {
        assert_eq!(
            ask(&mut hub, &mut ada, prepare(CODE, offset, b"C")),
            error(0x16, CODE, 0x07)
        );
    }
    assert_eq!(*ada.prepared(), waiting);
    assert_eq!(hub, before);

    assert_eq!(
        ask(&mut hub, &mut ada, prepare(CODE, 4, b"C")),
        bytes(b"\x17\x05\x00\x04\x00C")
    );
    assert_eq!(ada.prepared().handle(), Some(CODE));
    assert_eq!(ada.prepared().offset(), 2);
    assert_eq!(ada.prepared().bytes(), b"ABC");
    assert_eq!(hub, before);
}

#[test]
fn at_most_512_bytes_wait() {
    let mut hub = hub();
    let mut ada = join(&mut hub, 1);
    let text: Vec<u8> = (0..512).map(|i| i as u8).collect();
    let prepare = |offset, value| Request::PrepareWrite {
        handle: NOTES,
        offset,
        value,
    };
    let echo = ask_over(&mut hub, &mut ada, Link::Plain, prepare(0, &text), 517);
    assert_eq!(echo, Some([&[0x17, 0x10, 0x02, 0, 0], &text[..]].concat()));
    let waiting = ada.prepared().clone();
    assert_eq!(ask(&mut hub, &mut ada, prepare(512, b"!")), error(0x16, NOTES, 0x09));
    assert_eq!(*ada.prepared(), waiting);
    assert_eq!(
        ask(&mut hub, &mut ada, prepare(512, b"")),
        bytes(&[0x17, 0x10, 0x02, 0, 2])
    );

    assert_eq!(
        ask(&mut hub, &mut ada, Request::ExecuteWrite { flags: 1 }),
        bytes(&[0x19])
    );
    assert_eq!(hub.get_to_vec(ada.who(), NOTES), Ok(text));
}

#[test]
fn execute_writes_or_drops() {
    let mut hub = hub();
    let mut ada = join(&mut hub, 1);
    let before = hub.clone();
    let prepare = |handle, value| Request::PrepareWrite {
        handle,
        offset: 0,
        value,
    };
    let execute = |flags| Request::ExecuteWrite { flags };

    for flags in [0, 1, 2, 255] {
        assert_eq!(ask(&mut hub, &mut ada, execute(flags)), bytes(&[0x19]), "nothing waits");
    }
    for flags in [0, 2, 255] {
        ask(&mut hub, &mut ada, prepare(CODE, b"3E10"));
        assert_eq!(ask(&mut hub, &mut ada, execute(flags)), bytes(&[0x19]));
        assert_eq!(ada.prepared().handle(), None);
        assert_eq!(hub, before);
    }
    // an error names handle 0 and drops the record
    for (handle, code) in [(ABSENT, 0x0A), (NAME, 0x0F), (SERVICE, 0x03), (SEAT, 0x05)] {
        ask(&mut hub, &mut ada, prepare(handle, b"3E10"));
        assert_eq!(ada.prepared().handle(), Some(handle));
        assert_eq!(ask(&mut hub, &mut ada, execute(1)), error(0x18, 0, code));
        assert_eq!(ada.prepared().handle(), None);
        assert_eq!(hub, before);
    }
    ask(&mut hub, &mut ada, prepare(CODE, b"3E10"));
    assert_eq!(ask(&mut hub, &mut ada, execute(1)), bytes(&[0x19]));
    assert_eq!(hub.get_to_vec(ada.who(), CODE), Ok(b"3E10".to_vec()));
}
