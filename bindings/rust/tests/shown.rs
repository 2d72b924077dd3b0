//! What `{:?}` shows: counts and lengths. A pupil's code must not land in a log.

mod common;

use common::{ask, hub, join, list, tablet, CODE, NAME};
use ropethatch::raw::{Identity, Slot, State};
use ropethatch::{Needs, Request, SavedTable, Uuid};
use std::fmt::Debug;

const SECRET: &[u8] = b"3E1047";

/// Nothing of the code may stand in what is shown, neither as text nor as numbers, on one line or on many.
fn shown(what: &dyn Debug) -> String {
    for text in [format!("{what:?}"), format!("{what:#?}"), format!("{what:x?}")] {
        let words: String = text.split_whitespace().collect();
        for bytes in SECRET.windows(2) {
            for hidden in [
                String::from_utf8_lossy(bytes).into_owned(),
                format!("{},{}", bytes[0], bytes[1]),
                format!("{:x},{:x}", bytes[0], bytes[1]),
            ] {
                assert!(!words.contains(&hidden), "{hidden} is shown: {text}");
            }
        }
    }
    format!("{what:?}")
}

#[test]
fn a_request_shows_how_many_bytes_it_brings() {
    let (handle, offset, value) = (CODE, 2, SECRET);
    let (start, end, uuid) = (1, 9, SECRET);
    for (request, text) in [
        (Request::ExchangeMtu { mtu: 185 }, "ExchangeMtu { mtu: 185 }"),
        (
            Request::FindInformation { start, end },
            "FindInformation { start: 1, end: 9 }",
        ),
        (
            Request::FindByTypeValue {
                start,
                end,
                uuid: 3,
                value,
            },
            "FindByTypeValue { start: 1, end: 9, uuid: 3, value: 6 bytes }",
        ),
        (
            Request::ReadByType { start, end, uuid },
            "ReadByType { start: 1, end: 9, uuid: 6 bytes }",
        ),
        (Request::Read { handle }, "Read { handle: 5 }"),
        (
            Request::ReadBlob { handle, offset },
            "ReadBlob { handle: 5, offset: 2 }",
        ),
        (
            Request::ReadMultiple { handles: SECRET },
            "ReadMultiple { handles: 6 bytes }",
        ),
        (
            Request::ReadByGroupType { start, end, uuid },
            "ReadByGroupType { start: 1, end: 9, uuid: 6 bytes }",
        ),
        (Request::Write { handle, value }, "Write { handle: 5, value: 6 bytes }"),
        (
            Request::PrepareWrite { handle, offset, value },
            "PrepareWrite { handle: 5, offset: 2, value: 6 bytes }",
        ),
        (Request::ExecuteWrite { flags: 1 }, "ExecuteWrite { flags: 1 }"),
        (
            Request::WriteCommand { handle, value: b"" },
            "WriteCommand { handle: 5, value: 0 bytes }",
        ),
        (Request::Confirmation, "Confirmation"),
    ] {
        assert_eq!(shown(&request), text);
    }
}

#[test]
fn a_hub_and_a_saved_table_show_no_value() {
    let mut hub = hub();
    let ada = join(&mut hub, 1).who();
    hub.set(ada, CODE, SECRET).unwrap();
    hub.set(ada, NAME, SECRET).unwrap();
    assert!(shown(&hub).contains("attributes: 8"));

    let saved = hub.client_table(ada).unwrap();
    assert!(saved.as_bytes().windows(SECRET.len()).any(|part| part == SECRET));
    assert_eq!(shown(&saved), "SavedTable { len: 24, .. }");
    assert_eq!(shown(&SavedTable::from_bytes(SECRET)), "SavedTable { len: 6, .. }");
    let refused = hub.restore(tablet(1), &SavedTable::from_bytes(SECRET)).unwrap_err();
    shown(&refused);
}

#[test]
fn a_connection_shows_how_much_waits() {
    let mut hub = hub();
    let mut ada = join(&mut hub, 1);
    let part = Request::PrepareWrite {
        handle: CODE,
        offset: 0,
        value: SECRET,
    };
    ask(&mut hub, &mut ada, part);
    assert_eq!(ada.prepared().bytes(), SECRET);
    assert!(shown(&ada).contains("len: 6"));
    shown(ada.prepared());
}

#[test]
fn a_list_and_a_lent_state_show_no_value() {
    let mut list = list();
    list.shared_fixed(0x300, Uuid::short(1), Needs::OPEN, SECRET);
    // 2, 5, 8, 4, 2 and 512 bytes of the classroom's, and the code's 6
    assert_eq!(shown(&list), "ListBuilder { attributes: 9, store: 539, .. }");

    let (mut list, mut store) = list.lay_out();
    let (mut slots, mut tables) = ([Slot::default(); 8], [[0; 640]; 8]);
    let mut state = State {
        slots: &mut slots,
        list: &mut list,
        store: &mut store,
        tables: &mut tables,
    };
    state.open().unwrap();
    let ada = Identity { kind: 1, addr: [9; 6] };
    state.connect(ada).unwrap();
    state.set(ada, CODE, SECRET).unwrap();
    let text = shown(&state);
    assert!(text.ends_with("attributes: 9, store: 539, tables: 8, .. }"), "{text}");
}
