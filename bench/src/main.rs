//! `speed SIDE HUB`: makes every kind of call on one side, `ours` (the proved library) or `rust` (the original), so that
//! they can be counted, and prints every answer, so that the two sides can be held to each other. The side `refused` is the
//! library with calls of nobody: each is refused 3, when every test has been made and nothing else.
//! `speed stack`: prints how deep each public call of the library goes into the stack.
//!
//! Counted is what stands in the functions named `counted_..`; `kind_ends` is called after the set-up and after each kind.

// The original's messages to its log go nowhere.
#[allow(unused_macros)]
macro_rules! trace {
    ($($message:tt)*) => {};
}
#[allow(unused_macros)]
macro_rules! debug {
    ($($message:tt)*) => {};
}
macro_rules! warn {
    ($($message:tt)*) => {};
}

/// The original's own files.
#[allow(warnings, clippy::all)]
mod found {
    include!(concat!(env!("OUT_DIR"), "/source.rs"));
}
use found::source::{att, attribute_server, codec, config, cursor, types};

#[cfg_attr(feature = "any-handles", allow(dead_code))]
#[cfg_attr(feature = "any-handles", path = "../../oracle/original/src/attribute.rs")]
mod attribute;
mod calls;
#[allow(dead_code)] // shared with the comparison, which looks at more of it
#[path = "../../oracle/original/src/connection.rs"]
mod connection;
#[allow(dead_code)] // the library's every call
#[path = "../../bindings/rust/src/ffi.rs"]
mod ffi;
mod hubs;
mod kinds;
mod ours;
#[allow(dead_code)] // as `connection`
#[path = "../../oracle/original/src/standins.rs"]
mod standins;
mod theirs;

use calls::{Call, Side};
use hubs::{Entry, TABLETS};
use ropethatch as _; // links the archive
use standins::{Error, Identity, NoPool, PacketPool};

fn main() {
    let words: Vec<String> = std::env::args().skip(1).collect();
    if words == ["stack"] {
        return print_stack();
    }
    let [side, hub] = &words[..] else { usage() };
    let list = hubs::named(hub).unwrap_or_else(|| usage());
    match side.as_str() {
        "ours" => run(ours::Ours::open(&list, false), &list),
        "refused" => run(ours::Ours::open(&list, true), &list),
        "rust" => run(theirs::Theirs::open(&list), &list),
        _ => usage(),
    }
}

fn print_stack() {
    for (call, bytes) in ours::stack::deepest() {
        println!("{call} {bytes}");
    }
}

fn usage() -> ! {
    eprintln!("speed stack, or speed ours|refused|rust HUB");
    eprintln!("HUB: classroom, large, full; 8, 16, 32, 64; alike8, alike16, alike32, alike64; keys1, keys8, keys32");
    std::process::exit(2)
}

fn run(mut side: impl Side, list: &[Entry]) {
    set_up(&mut side, list);
    side.begin();
    kind_ends();
    for (name, steps) in kinds::all(list) {
        println!("kind {} {name}", steps.len());
        for who in 0..TABLETS {
            side.put_waiting(who, 0, &[]);
        }
        for step in steps {
            if let Some((handle, data)) = step.waiting {
                side.put_waiting(step.who, handle, &data);
            }
            println!("{:02X?}", side.make(step.who, &step.call));
        }
        kind_ends();
    }
    show(&mut side, list);
}

/// Eight tablets connect, and every client value is given its value.
fn set_up(side: &mut impl Side, list: &[Entry]) {
    for who in 0..TABLETS {
        side.make(who, &Call::Connect);
        for (handle, entry) in (1..).zip(list).filter(|(_, entry)| entry.is_client) {
            let value = entry.value.clone();
            side.make(who, &Call::Set { handle, value });
        }
    }
}

/// What every tablet's values are in the end.
fn show(side: &mut impl Side, list: &[Entry]) {
    for who in 0..TABLETS {
        for handle in 1..=list.len() as u16 {
            println!("{who} {handle} {:02X?}", side.make(who, &Call::Get { handle }));
        }
    }
}

/// Here what has been counted is written down, and counting starts again.
#[inline(never)]
fn kind_ends() {
    std::hint::black_box(());
}
