//! The worked facts of the requirements, over the hub's own calls.

mod common;

use common::{ask, ask_over, bytes, error, join, tablet};
use ropethatch::{Connection, Hub, Link, ListBuilder, Needs, Refusal, Request, SavedTable, Uuid};

const TYPE: Uuid = Uuid::short(0xFF01);

/// A hub whose tables are the facts' T: key 3 fixed 2, key 5 variable 8.
fn t() -> (Hub, Connection) {
    let mut hub = ListBuilder::new()
        .client_fixed(3, TYPE, Needs::OPEN, 2)
        .client_variable(5, TYPE, Needs::OPEN, 8)
        .build()
        .unwrap();
    let ada = join(&mut hub, 1);
    (hub, ada)
}

/// T after the second fact.
fn t_with_code() -> (Hub, Connection) {
    let (mut hub, mut ada) = t();
    for value in [&b"3E1047"[..], b"3E10"] {
        assert_eq!(
            ask(&mut hub, &mut ada, Request::Write { handle: 5, value }),
            bytes(&[0x13])
        );
    }
    (hub, ada)
}

fn table(hub: &Hub) -> Vec<u8> {
    hub.client_table(tablet(1)).unwrap().into_bytes()
}

fn five(hub: &Hub) -> Vec<u8> {
    hub.get_to_vec(tablet(1), 5).unwrap()
}

/// Writes to handle 5 at an offset: a prepared write, executed.
fn write_at(hub: &mut Hub, from: &mut Connection, offset: u16, value: &[u8]) -> Option<Vec<u8>> {
    let prepare = Request::PrepareWrite {
        handle: 5,
        offset,
        value,
    };
    assert_eq!(ask(hub, from, prepare).unwrap()[0], 0x17);
    let answer = ask(hub, from, Request::ExecuteWrite { flags: 1 });
    assert_eq!(from.prepared().handle(), None);
    answer
}

#[test]
fn a_fresh_table() {
    let (hub, _) = t();
    let head = [0x02, 0, 0x0C, 0, 0x03, 0, 0, 0, 0x05, 0x80, 0x02, 0];
    assert_eq!(table(&hub), [head, [0; 12]].concat());
}

#[test]
fn the_dropped_tail_is_zeros_in_the_table() {
    let (hub, _) = t_with_code();
    assert_eq!(table(&hub)[12..], [0, 0, 4, 0, 0x33, 0x45, 0x31, 0x30, 0, 0, 0, 0]);
    assert_eq!(five(&hub), b"3E10");
}

#[test]
fn an_offset_above_the_length_is_told_before_the_capacity() {
    let (mut hub, mut ada) = t_with_code();
    assert_eq!(write_at(&mut hub, &mut ada, 5, b"123456789"), error(0x18, 0, 0x07));
    assert_eq!(five(&hub), b"3E10");
}

#[test]
fn offset_and_data_must_fit_the_capacity() {
    let (mut hub, mut ada) = t_with_code();
    assert_eq!(write_at(&mut hub, &mut ada, 4, b"abcde"), error(0x18, 0, 0x0D));
    assert_eq!(five(&hub), b"3E10");
    assert_eq!(write_at(&mut hub, &mut ada, 4, b"abcd"), bytes(&[0x19]));
    assert_eq!(five(&hub), b"3E10abcd");
}

#[test]
fn no_bytes_at_an_offset_shorten_the_value() {
    let (mut hub, mut ada) = t_with_code();
    assert_eq!(write_at(&mut hub, &mut ada, 2, b""), bytes(&[0x19]));
    assert_eq!(five(&hub), b"3E");
}

#[test]
fn saved_tables_are_accepted_by_the_reading_rules() {
    let (mut hub, ada) = t_with_code();
    let mut restore = |saved: &[u8]| hub.restore(ada.who(), &SavedTable::from_bytes(saved));
    assert_eq!(restore(&[0, 0, 0]), Err(Refusal::BadTable));
    assert_eq!(restore(&[1, 0, 1, 0, 1, 0x80, 0, 0, 0]), Err(Refusal::BadTable));
    assert_eq!(restore(&[0, 0, 0, 0]), Ok(()));
    assert_eq!(five(&hub), b"", "the empty table has nothing for 5");
}

#[test]
fn loose_bytes_before_the_first_value_are_passed_over() {
    let mut hub = ListBuilder::new()
        .client_variable(1, TYPE, Needs::OPEN, 4)
        .build()
        .unwrap();
    let ada = join(&mut hub, 1).who();
    let saved = [1, 0, 3, 0, 1, 0, 2, 0, 0xAA, 0xBB, 0xCC];
    hub.restore(ada, &SavedTable::from_bytes(saved)).unwrap();
    assert_eq!(hub.get_to_vec(ada, 1), Ok(vec![0xCC]));
}

#[test]
fn an_absent_handle_and_a_bad_range() {
    let (mut hub, mut ada) = t();
    let read = Request::Read { handle: 9 };
    assert_eq!(ask(&mut hub, &mut ada, read), bytes(&[0x01, 0x0A, 0x09, 0x00, 0x0A]));
    let find = Request::FindInformation { start: 5, end: 4 };
    assert_eq!(ask(&mut hub, &mut ada, find), bytes(&[0x01, 0x08, 0x05, 0x00, 0x01]));
}

#[test]
fn the_last_row_is_cut_before_its_length_is_tested() {
    let mut hub = ListBuilder::new()
        .shared_fixed(1, TYPE, Needs::OPEN, b"aaaaa")
        .shared_fixed(2, TYPE, Needs::OPEN, b"bbbbb")
        .shared_fixed(3, TYPE, Needs::OPEN, b"cccccc")
        .build()
        .unwrap();
    let mut ada = join(&mut hub, 1);
    let read = Request::ReadByType {
        start: 1,
        end: 0xFFFF,
        uuid: TYPE.as_bytes(),
    };
    let two = b"\x09\x07\x01\x00aaaaa\x02\x00bbbbb";
    let three = [&two[..], b"\x03\x00ccccc"].concat();
    assert_eq!(ask_over(&mut hub, &mut ada, Link::Plain, read, 23), Some(three));
    assert_eq!(ask_over(&mut hub, &mut ada, Link::Plain, read, 24), bytes(two));
}
