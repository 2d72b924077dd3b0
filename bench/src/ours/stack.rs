//! How deep a public call of the library goes into the stack.
//!
//! A call is made on a stack of its own, which is painted before; from the lowest byte that has changed up to the top is what
//! it used. The call's arguments and the thin functions around it are in the figure.

use super::{asked, counted, Ours};
use crate::calls::{Call, Side, Step, ROOM};
use crate::ffi::Reply;
use crate::hubs::{self, Entry, TABLETS};
use crate::kinds;
use std::arch::asm;
use std::collections::BTreeMap;

const PAINT: u128 = 0xA5A5_A5A5_A5A5_A5A5_A5A5_A5A5_A5A5_A5A5;
const WORDS: usize = 16 * 1024;

/// The most bytes that each public call used, over the three hubs and every call that is counted.
pub fn deepest() -> BTreeMap<&'static str, usize> {
    let mut most = BTreeMap::new();
    for hub in ["classroom", "large", "full"] {
        for (call, bytes) in of_each_call(&hubs::named(hub).expect("a hub")) {
            let so_far = most.entry(call).or_insert(0);
            *so_far = bytes.max(*so_far);
        }
    }
    most
}

fn of_each_call(list: &[Entry]) -> Vec<(&'static str, usize)> {
    let mut hub = Ours::open(list, false);
    let mut used = vec![
        ("ropethatch_new", used_by(&mut || counted::counted_new(&mut hub))),
        (
            "ropethatch_can_write",
            used_by(&mut || counted::counted_can_write(&hub, hub.identity(0), 1)),
        ),
    ];
    for who in 0..TABLETS {
        hub.make(who, &Call::Connect);
    }
    for step in kinds::all(list).iter().flat_map(|(_, steps)| steps) {
        used.push((name(&step.call), of_step(&mut hub, step)));
    }
    used
}

fn name(call: &Call) -> &'static str {
    match call {
        Call::Request(_) => "ropethatch_process",
        Call::Get { .. } => "ropethatch_get",
        Call::Set { .. } => "ropethatch_set",
        Call::CanRead { .. } => "ropethatch_can_read",
        Call::ShouldNotify { .. } => "ropethatch_should_notify",
        Call::ShouldIndicate { .. } => "ropethatch_should_indicate",
        Call::Connect => "ropethatch_connect",
        Call::Disconnect => "ropethatch_disconnect",
        Call::SaveTable => "ropethatch_get_client_att_table",
        Call::RestoreTable { .. } => "ropethatch_set_client_att_table",
    }
}

fn of_step(hub: &mut Ours, step: &Step) -> usize {
    let id = hub.identity(step.who);
    let (mut out, mut table) = ([0; ROOM], [0; 640]);
    let mut link = hub.links[step.who].clone();
    if let Some((handle, data)) = &step.waiting {
        link.put(*handle, data);
    }
    let used = match &step.call {
        Call::Request(q) => used_by(&mut || counted::counted_process(hub, id, &mut link, asked(q), &q.data, &mut out)),
        Call::Get { handle } => used_by(&mut || counted::counted_get(hub, id, *handle, &mut out)),
        Call::Set { handle, value } => used_by(&mut || counted::counted_set(hub, id, *handle, value)),
        Call::CanRead { handle } => used_by(&mut || counted::counted_can_read(hub, id, *handle)),
        Call::ShouldNotify { handle } => used_by(&mut || counted::counted_should_notify(hub, id, *handle)),
        Call::ShouldIndicate { handle } => used_by(&mut || counted::counted_should_indicate(hub, id, *handle)),
        Call::Connect => used_by(&mut || counted::counted_connect(hub, id)),
        Call::Disconnect => used_by(&mut || counted::counted_disconnect(hub, id)),
        Call::SaveTable => used_by(&mut || counted::counted_get_table(hub, id, &mut table)),
        Call::RestoreTable { saved } => used_by(&mut || counted::counted_set_table(hub, id, saved)),
    };
    hub.links[step.who] = link;
    used
}

/// How many bytes of stack a call uses. It must be one that is not refused, for a refusal may come before the deepest place.
fn used_by(call: &mut dyn FnMut() -> Reply) -> usize {
    let mut stack = vec![PAINT; WORDS];
    let mut status = u8::MAX;
    let mut noted = || status = call().status;
    on(&mut stack, &mut noted);
    assert_ne!(status, super::REFUSED, "a call that is measured is not refused");
    let untouched = stack.iter().take_while(|word| **word == PAINT).count();
    assert!(untouched > 0, "the stack is long enough");
    (WORDS - untouched) * size_of::<u128>()
}

/// Runs a function on another stack.
fn on(stack: &mut [u128], mut run: &mut dyn FnMut()) {
    extern "C" fn enter(run: &mut &mut dyn FnMut()) {
        run();
    }
    let top = stack.as_mut_ptr_range().end;
    // SAFETY: the stack is aligned, as u128 is, and belongs to this call alone; r12 is kept by `enter`, as the convention of C
    // has it, and holds the old stack meanwhile. What runs is the library and thin functions, none of which unwinds.
    unsafe {
        asm!(
            "mov r12, rsp",
            "mov rsp, {top}",
            "call {enter}",
            "mov rsp, r12",
            top = in(reg) top,
            enter = sym enter,
            in("rdi") &raw mut run,
            out("r12") _,
            clobber_abi("C"),
        );
    }
}
