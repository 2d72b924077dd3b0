//! Many writes by several tablets, beside a plain map of values: whatever the order, what is read is what was written last.

mod common;

use common::{ask_over, hub, join, tablet, CODE, NAME, SEAT, SUBSCRIPTION};
use ropethatch::{Connection, Hub, Link, Request};
use std::collections::HashMap;

/// Numbers that look random and are the same in every run.
struct Dice(u32);

impl Dice {
    fn roll(&mut self, sides: usize) -> usize {
        self.0 = self.0.wrapping_mul(1_664_525).wrapping_add(1_013_904_223);
        (self.0 >> 16) as usize % sides
    }

    fn bytes(&mut self, at_most: usize) -> Vec<u8> {
        (0..self.roll(at_most + 1)).map(|_| self.roll(256) as u8).collect()
    }
}

/// Values by tablet and handle; tablet 0 stands for all where a value is shared.
type Model = HashMap<(u8, u16), Vec<u8>>;

struct Value {
    handle: u16,
    capacity: usize,
    fixed: bool,
    shared: bool,
}

const VALUES: [Value; 4] = [
    Value {
        handle: SUBSCRIPTION,
        capacity: 2,
        fixed: true,
        shared: false,
    },
    Value {
        handle: CODE,
        capacity: 8,
        fixed: false,
        shared: false,
    },
    Value {
        handle: NAME,
        capacity: 8,
        fixed: false,
        shared: true,
    },
    Value {
        handle: SEAT,
        capacity: 4,
        fixed: true,
        shared: true,
    },
];

/// What the requirements say of a write: the code, or the value after it.
fn written(old: &[u8], value: &Value, offset: usize, data: &[u8]) -> Result<Vec<u8>, u8> {
    let end = offset + data.len();
    if offset > old.len() {
        Err(0x07)
    } else if end > value.capacity {
        Err(0x0D)
    } else {
        let tail = if value.fixed { &old[end.min(old.len())..] } else { &[] };
        Ok([&old[..offset], data, tail].concat())
    }
}

/// Writes over the air: at once where the offset is 0, in two steps otherwise.
fn write(hub: &mut Hub, from: &mut Connection, handle: u16, offset: usize, data: &[u8]) -> Result<(), u8> {
    let link = Link::Authenticated;
    let request = if offset == 0 {
        Request::Write { handle, value: data }
    } else {
        let offset = offset as u16;
        let prepare = Request::PrepareWrite {
            handle,
            offset,
            value: data,
        };
        assert_eq!(ask_over(hub, from, link, prepare, 64).unwrap()[0], 0x17);
        Request::ExecuteWrite { flags: 1 }
    };
    let response = ask_over(hub, from, link, request, 64).expect("writes are answered");
    match response[..] {
        [0x13 | 0x19] => Ok(()),
        [0x01, _, _, _, code] => Err(code),
        _ => panic!("{response:02X?}"),
    }
}

#[test]
fn a_hub_acts_as_a_map_of_values() {
    let mut hub = hub();
    let mut tablets: Vec<Connection> = (1..=3).map(|n| join(&mut hub, n)).collect();
    let mut model = Model::new();
    for n in 1..=3 {
        model.insert((n, SUBSCRIPTION), vec![0, 0]);
        model.insert((n, CODE), vec![]);
    }
    model.insert((0, NAME), b"Hub".to_vec());
    model.insert((0, SEAT), b"SEAT".to_vec());

    let mut dice = Dice(1);
    for _ in 0..1000 {
        let n = 1 + dice.roll(3) as u8;
        let value = &VALUES[dice.roll(VALUES.len())];
        let offset = dice.roll(value.capacity + 2);
        let data = dice.bytes(value.capacity + 1);
        let whose = if value.shared { 0 } else { n };
        let old = model.get_mut(&(whose, value.handle)).expect("it is in the model");
        let expected = written(old, value, offset, &data);
        let from = &mut tablets[usize::from(n) - 1];
        let answer = write(&mut hub, from, value.handle, offset, &data);
        assert_eq!(answer, expected.as_ref().map(|_| ()).map_err(|&code| code));
        if let Ok(new) = expected {
            *old = new;
        }
        for (&(whose, handle), expected) in &model {
            let who = tablet(whose.max(1));
            assert_eq!(hub.get_to_vec(who, handle).as_ref(), Ok(expected));
        }
    }
}
