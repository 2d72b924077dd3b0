//! Each refusal that a hub can give, provoked; every one leaves everything as it was. Number 5 has no call here.

mod common;

use common::{hub, join, list, tablet, ABSENT, CODE, LENT, SEAT, SUBSCRIPTION};
use ropethatch::{CallError, Hub, Identity, Link, ListBuilder, Needs, Refusal, Request, SavedTable, Uuid};

const TYPE: Uuid = Uuid::short(0xFF01);

fn built(list: &ListBuilder) -> Result<(), Refusal> {
    list.build().map(|_: Hub| ())
}

#[test]
fn one_a_list_that_breaks_a_rule() {
    let mut rights = ListBuilder::new();
    for handle in 1..=64 {
        rights.shared_fixed(handle, TYPE, Needs::OPEN, &[0; 64]);
    }
    assert_eq!(built(&rights), Ok(()), "64 entries, 4096 bytes");
    assert_eq!(
        built(rights.client_fixed(65, TYPE, Needs::OPEN, 0)),
        Err(Refusal::BadState)
    );

    for (handle, answer) in [
        (0, Err(Refusal::BadState)),
        (1, Ok(())),
        (0x7FFF, Ok(())),
        (0x8000, Err(Refusal::BadState)),
    ] {
        let mut list = ListBuilder::new();
        assert_eq!(built(list.client_fixed(handle, TYPE, Needs::OPEN, 2)), answer);
    }
    let twice = |first, second| {
        let mut list = ListBuilder::new();
        list.client_fixed(first, TYPE, Needs::OPEN, 2);
        built(list.client_fixed(second, TYPE, Needs::OPEN, 2))
    };
    assert_eq!(twice(3, 4), Ok(()));
    assert_eq!(twice(3, 3), Err(Refusal::BadState));
    assert_eq!(twice(4, 3), Err(Refusal::BadState));
}

#[test]
fn one_a_value_that_is_too_long() {
    let fixed = |len| built(ListBuilder::new().shared_fixed(1, TYPE, Needs::OPEN, &vec![0; len]));
    assert_eq!(fixed(512), Ok(()));
    assert_eq!(fixed(513), Err(Refusal::BadState));
    assert_eq!(fixed(65_536), Err(Refusal::BadState));
    assert_eq!(fixed(65_538), Err(Refusal::BadState));

    let variable =
        |value: &[u8], capacity| built(ListBuilder::new().shared_variable(1, TYPE, Needs::OPEN, value, capacity));
    assert_eq!(variable(b"abc", 3), Ok(()));
    assert_eq!(variable(b"abcd", 3), Err(Refusal::BadState));
    assert_eq!(variable(b"", 512), Ok(()));
    assert_eq!(variable(b"", 513), Err(Refusal::BadState));

    let mut store = ListBuilder::new();
    for handle in 1..=8 {
        store.shared_variable(handle, TYPE, Needs::OPEN, b"", 512);
    }
    assert_eq!(built(&store), Ok(()), "4096 bytes");
    assert_eq!(
        built(store.shared_variable(9, TYPE, Needs::OPEN, b"", 1)),
        Err(Refusal::BadState)
    );
}

#[test]
fn two_a_buffer_that_is_too_short_or_too_long() {
    let mut hub = hub();
    let mut ada = join(&mut hub, 1);
    let (before, waiting) = (hub.clone(), ada.prepared().clone());
    for request in [
        Request::Write {
            handle: CODE,
            value: b"3E10",
        },
        Request::PrepareWrite {
            handle: CODE,
            offset: 0,
            value: b"3E10",
        },
        Request::ExchangeMtu { mtu: 23 },
        Request::Confirmation,
    ] {
        for len in [0, 1, 22, 518, 600] {
            let mut out = vec![LENT; len];
            let answer = hub.process(&mut ada, Link::Plain, request, &mut out);
            assert_eq!(answer, Err(Refusal::BadBuffer));
            assert!(out.iter().all(|&byte| byte == LENT));
            let answer = hub.process_to_vec(&mut ada, Link::Plain, request, len);
            assert_eq!(answer, Err(Refusal::BadBuffer));
        }
    }
    let endless = hub.process_to_vec(&mut ada, Link::Plain, Request::Confirmation, usize::MAX);
    assert_eq!(endless, Err(Refusal::BadBuffer));
    assert_eq!(hub, before);
    assert_eq!(*ada.prepared(), waiting);
}

#[test]
fn two_a_prepared_value_that_can_not_be_repeated() {
    let mut hub = hub();
    let mut ada = join(&mut hub, 1);
    let waiting = ada.prepared().clone();
    for len in [19, 200] {
        let value = vec![b'x'; len];
        let prepare = Request::PrepareWrite {
            handle: CODE,
            offset: 0,
            value: &value,
        };
        let mut out = [LENT; 23];
        assert_eq!(
            hub.process(&mut ada, Link::Plain, prepare, &mut out),
            Err(Refusal::BadBuffer)
        );
        assert_eq!(out, [LENT; 23]);
        assert_eq!(*ada.prepared(), waiting);
    }
    let prepare = Request::PrepareWrite {
        handle: CODE,
        offset: 0,
        value: &[b'x'; 18],
    };
    assert!(hub.process(&mut ada, Link::Plain, prepare, &mut [0; 23]).is_ok());
    // any other request may bring more than the buffer holds
    let write = Request::Write {
        handle: CODE,
        value: &[b'x'; 200],
    };
    let answer = hub.process_to_vec(&mut ada, Link::Plain, write, 23);
    assert_eq!(answer, Ok(Some(vec![0x01, 0x12, 5, 0, 0x0D])));
}

#[test]
fn three_an_identity_that_is_none() {
    assert_eq!(Identity::from_bytes([0; 7]), Err(Refusal::BadPeer));
    for kind in 2..=255 {
        assert_eq!(Identity::from_bytes([kind, 1, 2, 3, 4, 5, 6]), Err(Refusal::BadPeer));
    }
    // the address of zeros is a random one's, not nobody's
    let mut hub = hub();
    let zeros = Identity::from_bytes([1, 0, 0, 0, 0, 0, 0]).unwrap();
    assert!(hub.connect(zeros).is_ok());
    assert_eq!(hub.get_to_vec(zeros, CODE), Ok(vec![]));
}

#[test]
fn four_a_saved_table_that_can_not_be_read() {
    let mut hub = hub();
    let ada = join(&mut hub, 1).who();
    hub.set(ada, CODE, b"3E10").unwrap();
    let before = hub.clone();
    let bad: [&[u8]; 9] = [
        &[],
        &[0, 0, 0],
        &[1, 0, 0, 0],
        &[0, 0, 1, 0],
        &[1, 0, 0, 0, 0, 0, 0, 0],
        &[1, 0, 1, 0, 1, 0x80, 0, 0, 0],
        &[1, 0, 3, 0, 1, 0x80, 0, 0, 2, 0, 7],
        &[1, 0, 1, 0, 1, 0, 2, 0, 7],
        &[2, 0, 0, 0, 3, 0, 0, 0, 3, 0, 0, 0],
    ];
    for saved in bad {
        assert_eq!(
            hub.restore(ada, &SavedTable::from_bytes(saved)),
            Err(Refusal::BadTable),
            "{saved:02X?}"
        );
        // also for a tablet without a slot
        assert_eq!(
            hub.restore(tablet(2), &SavedTable::from_bytes(saved)),
            Err(Refusal::BadTable)
        );
        assert_eq!(hub, before);
    }
    let whole = hub.client_table(ada).unwrap();
    let short = &whole.as_bytes()[..whole.as_bytes().len() - 1];
    assert_eq!(hub.restore(ada, &SavedTable::from_bytes(short)), Err(Refusal::BadTable));
    let longer = [whole.as_bytes(), b"and more"].concat();
    assert_eq!(hub.restore(ada, &SavedTable::from_bytes(longer)), Ok(()));
    assert_eq!(hub, before);
}

#[test]
fn six_client_values_that_need_too_much() {
    let table = |last| {
        let mut list = ListBuilder::new();
        list.client_fixed(1, TYPE, Needs::OPEN, 512);
        list.client_fixed(2, TYPE, Needs::OPEN, last);
        built(&list)
    };
    // a header of 4, two entries of 4, values of 512 and 116
    assert_eq!(table(116), Ok(()));
    assert_eq!(table(117), Err(Refusal::TableTooLong));

    // a variable value needs 2 bytes more
    let table = |last| {
        let mut list = ListBuilder::new();
        list.client_variable(1, TYPE, Needs::OPEN, 512);
        list.client_variable(2, TYPE, Needs::OPEN, last);
        built(&list)
    };
    assert_eq!(table(112), Ok(()));
    assert_eq!(table(113), Err(Refusal::TableTooLong));
    assert_eq!(table(513), Err(Refusal::BadState), "the lower number first");
}

#[test]
fn seven_a_ninth_tablet() {
    let mut hub = hub();
    for n in 1..=8 {
        join(&mut hub, n);
    }
    let before = hub.clone();
    assert_eq!(hub.connect(tablet(9)), Err(Refusal::NoSlot));
    assert_eq!(hub, before);
}

#[test]
fn eight_and_nine_in_get_and_set() {
    let mut hub = hub();
    let ada = join(&mut hub, 1).who();
    let before = hub.clone();
    let mut out = [LENT; 30];
    for handle in [0, 4, ABSENT, 0x7FFF, 0x8005, 0xFFFF] {
        assert_eq!(
            hub.get(ada, handle, &mut out),
            Err(CallError::Refused(Refusal::NoHandle))
        );
        assert_eq!(hub.set(ada, handle, b"A"), Err(CallError::Refused(Refusal::NoHandle)));
    }
    for value in [&b""[..], b"123", b"12345"] {
        assert_eq!(hub.set(ada, SEAT, value), Err(CallError::Refused(Refusal::WrongLength)));
        assert_eq!(
            hub.set(ada, SUBSCRIPTION, value),
            Err(CallError::Refused(Refusal::WrongLength))
        );
        // before any ATT code, and so also where there is no slot
        let stranger = hub.set(tablet(2), SUBSCRIPTION, value);
        assert_eq!(stranger, Err(CallError::Refused(Refusal::WrongLength)));
    }
    assert_eq!(out, [LENT; 30]);
    assert_eq!(hub, before);
}

#[test]
fn an_empty_list_is_a_hub() {
    let mut hub = ListBuilder::new().build().unwrap();
    let mut ada = join(&mut hub, 1);
    let answer = hub.process_to_vec(&mut ada, Link::Plain, Request::FindInformation { start: 1, end: 9 }, 23);
    assert_eq!(answer, Ok(Some(vec![0x01, 0x04, 1, 0, 0x0A])));
    assert_eq!(hub.client_table(ada.who()).unwrap().as_bytes(), [0; 4]);
}

#[test]
fn hubs_of_one_list_are_the_same() {
    assert_eq!(list().build(), list().build());
}
