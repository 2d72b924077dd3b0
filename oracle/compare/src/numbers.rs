//! Every number at the library's boundary: of a level, an opcode, flags and "bonded", those that name nothing included.

use crate::boundary::Spelling;
use crate::lists::{sample_lists, List};
use crate::pair::Step;
use crate::pokes::Poke;
use crate::rows::{row, tablet};
use crate::systematic::case;
use crate::{Fault, Totals};
use original::connection::PrepareWriteState;
use original::{Call, Hub, Request};

const HANDLE: u16 = 1;

pub fn run(totals: &mut Totals) -> Result<(), Fault> {
    let list = sample_lists().swap_remove(1);
    let hub = Hub::open(&list.entries, &list.store).expect("a sound list");
    for byte in 0..=0xFF {
        let mut steps = named_by(&hub, &list, byte);
        steps.extend([0, 1, 2, 0xFF].map(|low| cancel(&hub, byte << 8 | low)));
        case("the numbers of the boundary", &list, &steps, totals)?;
    }
    Ok(())
}

/// A tablet in its slot, and something prepared.
fn state(hub: &Hub) -> Poke {
    let record = PrepareWriteState {
        handle: HANDLE,
        offset: 1,
        len: 2,
        buf: [0x77; 512],
    };
    Poke::Several(vec![row(hub, ".A......"), Poke::Record(0, Box::new(record))])
}

fn step(hub: &Hub, call: Call, spelling: Option<Spelling>) -> Step {
    let poke = Some(state(hub));
    Step { poke, call, spelling }
}

/// Over a link that is gone.
fn asked(request: Request) -> Call {
    Call::Process {
        who: tablet('a'),
        link: None,
        record: 0,
        room: 23,
        request,
    }
}

/// Flags of two bytes: 1 alone writes.
fn cancel(hub: &Hub, number: u16) -> Step {
    let spelling = Some(Spelling::numbered(number));
    step(hub, asked(Request::ExecuteWrite { flags: 0 }), spelling)
}

/// What one byte can name: a level that is none, an opcode that is none, flags, and that a tablet is bonded.
fn named_by(hub: &Hub, list: &List, byte: u16) -> Vec<Step> {
    let (who, link, handle) = (tablet('a'), None, list.entries[0].handle);
    let value = vec![1, 2];
    let calls = [
        Call::CanRead { who, link, handle },
        Call::CanWrite { who, link, handle },
        Call::Disconnect { who, bonded: true },
        asked(Request::Read { handle }),
        asked(Request::Write { handle, value }),
        asked(Request::Confirmation),
    ];
    let mut steps: Vec<Step> = Vec::new();
    for call in calls {
        steps.push(step(hub, call, Some(Spelling::numbered(byte))));
    }
    let flags = byte as u8;
    steps.push(step(hub, asked(Request::ExecuteWrite { flags }), None));
    steps
}
