//! The story of a classroom: tablets come, write a pupil's code, subscribe, leave, and come back.

mod common;

use common::{ask, bytes, error, hub, join, list, tablet, CODE, NAME, SUBSCRIPTION};
use ropethatch::{AttError, Bond, CallError, Connection, Hub, Link, Refusal, Request, SavedTable};

fn write(hub: &mut Hub, from: &mut Connection, handle: u16, value: &[u8]) {
    assert_eq!(ask(hub, from, Request::Write { handle, value }), bytes(&[0x13]));
}

fn code_of(hub: &Hub, n: u8) -> Vec<u8> {
    hub.get_to_vec(tablet(n), CODE).expect("the tablet has a slot")
}

#[test]
fn a_shorter_code_stands_alone() {
    let mut hub = hub();
    let mut ada = join(&mut hub, 1);
    let mut ben = join(&mut hub, 2);

    write(&mut hub, &mut ada, CODE, b"3E1047");
    write(&mut hub, &mut ben, CODE, b"7B22");
    write(&mut hub, &mut ada, CODE, b"3E10");

    assert_eq!(
        ask(&mut hub, &mut ada, Request::Read { handle: CODE }),
        bytes(b"\x0B3E10")
    );
    assert_eq!(
        ask(&mut hub, &mut ben, Request::Read { handle: CODE }),
        bytes(b"\x0B7B22")
    );
    assert_eq!(code_of(&hub, 1), b"3E10");
    assert_eq!(code_of(&hub, 2), b"7B22");
}

#[test]
fn the_name_is_one_for_all() {
    let mut hub = hub();
    let mut ada = join(&mut hub, 1);
    let mut ben = join(&mut hub, 2);
    assert_eq!(
        ask(&mut hub, &mut ada, Request::Read { handle: NAME }),
        bytes(b"\x0BHub")
    );

    hub.set(ada.who(), NAME, b"Room 12").unwrap();
    assert_eq!(
        ask(&mut hub, &mut ben, Request::Read { handle: NAME }),
        bytes(b"\x0BRoom 12")
    );
    hub.set(ada.who(), NAME, b"R1").unwrap();
    assert_eq!(
        ask(&mut hub, &mut ben, Request::Read { handle: NAME }),
        bytes(b"\x0BR1")
    );
}

#[test]
fn a_ninth_tablet_waits() {
    let mut hub = hub();
    let mut desks: Vec<Connection> = (1..=8).map(|n| join(&mut hub, n)).collect();
    let full = hub.clone();
    assert_eq!(hub.connect(tablet(9)), Err(Refusal::NoSlot));
    assert_eq!(hub, full);

    // one of eight is gone and bonded: its slot is taken, and its values are cleared
    write(&mut hub, &mut desks[3], CODE, b"4444");
    hub.disconnect(desks.remove(3), Bond::Bonded);
    assert_eq!(code_of(&hub, 4), b"4444");
    join(&mut hub, 9);
    assert_eq!(code_of(&hub, 9), b"");
    let not_found = Err(CallError::Att(AttError(0x0A)));
    assert_eq!(hub.get_to_vec(tablet(4), CODE), not_found);
    assert_eq!(hub.connect(tablet(4)), Err(Refusal::NoSlot));
}

#[test]
fn a_tablet_that_is_connected_keeps_its_slot() {
    let mut hub = hub();
    for n in 1..=8 {
        join(&mut hub, n);
    }
    hub.set(tablet(8), CODE, b"8888").unwrap();
    join(&mut hub, 8);
    assert_eq!(code_of(&hub, 8), b"8888");
}

#[test]
fn a_bonded_tablet_finds_its_values_again() {
    let mut hub = hub();
    let mut ada = join(&mut hub, 1);
    write(&mut hub, &mut ada, CODE, b"3E10");
    write(&mut hub, &mut ada, SUBSCRIPTION, &[1, 0]);
    hub.disconnect(ada, Bond::Bonded);
    assert_eq!(code_of(&hub, 1), b"3E10");
    assert!(hub.should_notify(tablet(1), SUBSCRIPTION));

    let mut ada = join(&mut hub, 1);
    assert_eq!(
        ask(&mut hub, &mut ada, Request::Read { handle: CODE }),
        bytes(b"\x0B3E10")
    );
}

#[test]
fn an_unbonded_tablet_leaves_nothing() {
    let mut hub = hub();
    let empty = hub.clone();
    let mut ada = join(&mut hub, 1);
    write(&mut hub, &mut ada, CODE, b"3E10");
    write(&mut hub, &mut ada, SUBSCRIPTION, &[1, 0]);
    hub.disconnect(ada, Bond::Unbonded);
    assert_eq!(hub, empty);
    assert_eq!(hub.client_table(tablet(1)), None);
    assert!(!hub.should_notify(tablet(1), SUBSCRIPTION));

    join(&mut hub, 1);
    assert_eq!(code_of(&hub, 1), b"");
}

#[test]
fn who_has_no_slot_can_leave_and_changes_nothing() {
    let mut hub = hub();
    join(&mut hub, 1);
    let before = hub.clone();
    hub.disconnect(Connection::new(tablet(2)), Bond::Unbonded);
    assert_eq!(hub, before);
}

#[test]
fn who_has_no_slot_has_no_client_values() {
    let mut hub = hub();
    let mut stranger = Connection::new(tablet(7));
    assert_eq!(
        ask(&mut hub, &mut stranger, Request::Read { handle: CODE }),
        error(0x0A, CODE, 0x0A)
    );
    assert_eq!(
        ask(&mut hub, &mut stranger, Request::Read { handle: NAME }),
        bytes(b"\x0BHub")
    );
    let write = Request::Write {
        handle: CODE,
        value: b"1",
    };
    assert_eq!(ask(&mut hub, &mut stranger, write), error(0x12, CODE, 0x0A));
}

#[test]
fn subscriptions_are_two_bits() {
    let mut hub = hub();
    let mut ada = join(&mut hub, 1);
    for (value, notify, indicate) in [
        ([0, 0], false, false),
        ([1, 0], true, false),
        ([2, 0], false, true),
        ([3, 0xFF], true, true),
        ([0xFC, 3], false, false),
    ] {
        write(&mut hub, &mut ada, SUBSCRIPTION, &value);
        assert_eq!(hub.should_notify(ada.who(), SUBSCRIPTION), notify);
        assert_eq!(hub.should_indicate(ada.who(), SUBSCRIPTION), indicate);
    }
}

#[test]
fn only_a_client_value_of_two_bytes_subscribes() {
    let mut hub = hub();
    let mut ada = join(&mut hub, 1);
    for (value, wants) in [(&[3][..], false), (&[3, 0], true), (&[3, 0, 0], false)] {
        write(&mut hub, &mut ada, CODE, value);
        assert_eq!(hub.should_notify(ada.who(), CODE), wants);
        assert_eq!(hub.should_indicate(ada.who(), CODE), wants);
    }
    // a shared value of two bytes, both bits set
    assert_eq!(hub.get_to_vec(ada.who(), common::OTHER_SERVICE), Ok(vec![0x0F, 0x18]));
    assert!(!hub.should_notify(ada.who(), common::OTHER_SERVICE));
    assert!(!hub.should_notify(ada.who(), common::ABSENT));
}

#[test]
fn a_code_can_be_written_in_parts() {
    let mut hub = hub();
    let mut ada = join(&mut hub, 1);
    let mut ben = join(&mut hub, 2);
    for (offset, value) in [(0, &b"3E1"[..]), (3, b"047")] {
        let part = Request::PrepareWrite {
            handle: CODE,
            offset,
            value,
        };
        let [low, high] = offset.to_le_bytes();
        let echo = [&[0x17, CODE as u8, 0, low, high], value].concat();
        assert_eq!(ask(&mut hub, &mut ada, part), Some(echo));
    }
    assert_eq!(ada.prepared().handle(), Some(CODE));
    assert_eq!(ada.prepared().offset(), 0);
    assert_eq!(ada.prepared().bytes(), b"3E1047");
    assert_eq!(code_of(&hub, 1), b"");

    // what waits on one link is not written by another
    assert_eq!(
        ask(&mut hub, &mut ben, Request::ExecuteWrite { flags: 1 }),
        bytes(&[0x19])
    );
    assert_eq!(code_of(&hub, 1), b"");
    assert_eq!(code_of(&hub, 2), b"");

    assert_eq!(
        ask(&mut hub, &mut ada, Request::ExecuteWrite { flags: 1 }),
        bytes(&[0x19])
    );
    assert_eq!(code_of(&hub, 1), b"3E1047");
    assert_eq!(ada.prepared().handle(), None);
    assert_eq!(ada.prepared().bytes(), b"");
}

#[test]
fn values_are_kept_over_a_restart() {
    let mut hub = hub();
    let mut ada = join(&mut hub, 1);
    write(&mut hub, &mut ada, CODE, b"3E1047");
    write(&mut hub, &mut ada, CODE, b"3E10");
    write(&mut hub, &mut ada, SUBSCRIPTION, &[2, 0]);
    let saved = hub.client_table(ada.who()).expect("ada has a slot");
    let kept = saved.as_bytes().to_vec();
    // where the longer code stood, the export has zeros
    assert_eq!(&kept[12..], b"\x02\x00\x04\x003E10\0\0\0\0");

    let mut hub = list().build().unwrap();
    let saved = SavedTable::from_bytes(kept);
    let before = hub.clone();
    hub.restore(tablet(1), &saved).unwrap();
    assert_eq!(hub, before, "no slot, no change");

    join(&mut hub, 1);
    hub.set(tablet(1), CODE, b"ABCDEFGH").unwrap();
    hub.restore(tablet(1), &saved).unwrap();
    assert_eq!(code_of(&hub, 1), b"3E10");
    assert!(hub.should_indicate(tablet(1), SUBSCRIPTION));
    let again = hub.client_table(tablet(1)).unwrap();
    // no old code's tail: neither the saved one's nor the one that stood here
    assert_eq!(&again.as_bytes()[12..], b"\x02\x00\x04\x003E10\0\0\0\0");
}

#[test]
fn the_link_decides_what_may_be_done() {
    let hub = hub();
    let who = tablet(1);
    let code = |code| Err(AttError(code));
    let links = [Link::Gone, Link::Plain, Link::Encrypted, Link::Authenticated];

    let read = |handle| links.map(|link| hub.can_read(who, link, handle));
    assert_eq!(read(NAME), [code(0x01), Ok(()), Ok(()), Ok(())]);
    assert_eq!(read(common::SEAT), [code(0x01), code(0x05), code(0x05), Ok(())]);
    assert_eq!(read(common::NOTES), [code(0x01), code(0x02), code(0x02), code(0x02)]);
    assert_eq!(read(common::ABSENT), [code(0x01); 4]);

    let write = |handle| links.map(|link| hub.can_write(who, link, handle));
    assert_eq!(write(NAME), [code(0x01), code(0x0F), Ok(()), Ok(())]);
    assert_eq!(write(common::SEAT), [code(0x01), code(0x05), code(0x05), Ok(())]);
    assert_eq!(write(common::SERVICE), [code(0x01), code(0x03), code(0x03), code(0x03)]);
    assert_eq!(write(common::NOTES), [code(0x01), Ok(()), Ok(()), Ok(())]);
    assert_eq!(write(common::ABSENT), [code(0x01); 4]);
}

#[test]
fn get_copies_what_its_buffer_can_take() {
    let mut hub = hub();
    let ada = join(&mut hub, 1).who();
    hub.set(ada, CODE, b"3E1047").unwrap();
    for len in 0..10 {
        let mut out = vec![0xEE; len];
        let fitting = len.min(6);
        assert_eq!(hub.get(ada, CODE, &mut out), Ok(&b"3E1047"[..fitting]));
        assert!(out[fitting..].iter().all(|&byte| byte == 0xEE));
    }
    let mut out = [0xEE; 2];
    assert_eq!(hub.get(ada, NAME, &mut out), Ok(&b"Hu"[..]));
}

#[test]
fn set_writes_from_the_start_and_asks_nobody() {
    let mut hub = hub();
    let ada = join(&mut hub, 1).who();
    hub.set(ada, common::SEAT, b"12-A").unwrap();
    assert_eq!(hub.get_to_vec(ada, common::SEAT), Ok(b"12-A".to_vec()));
    hub.set(ada, SUBSCRIPTION, &[1, 0]).unwrap();
    assert!(hub.should_notify(ada, SUBSCRIPTION));

    let before = hub.clone();
    let too_long = Err(CallError::Att(AttError(0x0D)));
    assert_eq!(hub.set(ada, CODE, b"123456789"), too_long);
    assert_eq!(hub.set(ada, NAME, b"123456789"), too_long);
    assert_eq!(hub.set(tablet(2), CODE, b"1"), Err(CallError::Att(AttError(0x0A))));
    assert_eq!(hub, before);
}
