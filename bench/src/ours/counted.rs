//! The calls that are counted. Each function makes one call of the library and does nothing else.

// SAFETY, in all of them: slots, list, store and tables are four ranges apart, each with its own count; a link, a request's
// bytes and a buffer are apart from them and from each other, as references to them are.

use super::{Link, Ours};
use crate::ffi::{self, Identity, Reply, Table};

/// Every link is encrypted.
const LEVEL: u8 = 2;

#[inline(never)]
pub fn counted_new(hub: &mut Ours) -> Reply {
    unsafe {
        ffi::ropethatch_new(
            hub.slots.as_mut_ptr(),
            8,
            hub.list.as_ptr(),
            hub.list.len(),
            hub.store.as_ptr(),
            hub.store.len(),
            hub.tables.as_mut_ptr(),
            8,
        )
    }
}

#[inline(never)]
pub fn counted_connect(hub: &mut Ours, who: Identity) -> Reply {
    unsafe {
        ffi::ropethatch_connect(
            hub.slots.as_mut_ptr(),
            8,
            hub.list.as_ptr(),
            hub.list.len(),
            hub.store.as_ptr(),
            hub.store.len(),
            hub.tables.as_mut_ptr(),
            8,
            who,
        )
    }
}

#[inline(never)]
pub fn counted_disconnect(hub: &mut Ours, who: Identity) -> Reply {
    unsafe {
        ffi::ropethatch_disconnect(
            hub.slots.as_mut_ptr(),
            8,
            hub.list.as_ptr(),
            hub.list.len(),
            hub.store.as_ptr(),
            hub.store.len(),
            hub.tables.as_mut_ptr(),
            8,
            who,
            1,
        )
    }
}

#[inline(never)]
pub fn counted_process(
    hub: &mut Ours,
    who: Identity,
    link: &mut Link,
    asked: ffi::Request,
    data: &[u8],
    out: &mut [u8],
) -> Reply {
    unsafe {
        ffi::ropethatch_process(
            hub.slots.as_ptr(),
            8,
            hub.list.as_mut_ptr(),
            hub.list.len(),
            hub.store.as_mut_ptr(),
            hub.store.len(),
            hub.tables.as_mut_ptr(),
            8,
            who,
            LEVEL,
            &mut link.prepared,
            &mut link.bytes,
            asked,
            data.as_ptr(),
            data.len(),
            out.as_mut_ptr(),
            out.len(),
        )
    }
}

#[inline(never)]
pub fn counted_get(hub: &Ours, who: Identity, handle: u16, out: &mut [u8]) -> Reply {
    unsafe {
        ffi::ropethatch_get(
            hub.slots.as_ptr(),
            8,
            hub.list.as_ptr(),
            hub.list.len(),
            hub.store.as_ptr(),
            hub.store.len(),
            hub.tables.as_ptr(),
            8,
            who,
            handle,
            out.as_mut_ptr(),
            out.len(),
        )
    }
}

#[inline(never)]
pub fn counted_set(hub: &mut Ours, who: Identity, handle: u16, value: &[u8]) -> Reply {
    unsafe {
        ffi::ropethatch_set(
            hub.slots.as_ptr(),
            8,
            hub.list.as_mut_ptr(),
            hub.list.len(),
            hub.store.as_mut_ptr(),
            hub.store.len(),
            hub.tables.as_mut_ptr(),
            8,
            who,
            handle,
            value.as_ptr(),
            value.len(),
        )
    }
}

#[inline(never)]
pub fn counted_can_read(hub: &Ours, who: Identity, handle: u16) -> Reply {
    unsafe {
        ffi::ropethatch_can_read(
            hub.slots.as_ptr(),
            8,
            hub.list.as_ptr(),
            hub.list.len(),
            hub.store.as_ptr(),
            hub.store.len(),
            hub.tables.as_ptr(),
            8,
            who,
            LEVEL,
            handle,
        )
    }
}

#[inline(never)]
pub fn counted_can_write(hub: &Ours, who: Identity, handle: u16) -> Reply {
    unsafe {
        ffi::ropethatch_can_write(
            hub.slots.as_ptr(),
            8,
            hub.list.as_ptr(),
            hub.list.len(),
            hub.store.as_ptr(),
            hub.store.len(),
            hub.tables.as_ptr(),
            8,
            who,
            LEVEL,
            handle,
        )
    }
}

#[inline(never)]
pub fn counted_should_notify(hub: &Ours, who: Identity, handle: u16) -> Reply {
    unsafe {
        ffi::ropethatch_should_notify(
            hub.slots.as_ptr(),
            8,
            hub.list.as_ptr(),
            hub.list.len(),
            hub.store.as_ptr(),
            hub.store.len(),
            hub.tables.as_ptr(),
            8,
            who,
            handle,
        )
    }
}

#[inline(never)]
pub fn counted_should_indicate(hub: &Ours, who: Identity, handle: u16) -> Reply {
    unsafe {
        ffi::ropethatch_should_indicate(
            hub.slots.as_ptr(),
            8,
            hub.list.as_ptr(),
            hub.list.len(),
            hub.store.as_ptr(),
            hub.store.len(),
            hub.tables.as_ptr(),
            8,
            who,
            handle,
        )
    }
}

#[inline(never)]
pub fn counted_get_table(hub: &Ours, who: Identity, out: &mut Table) -> Reply {
    unsafe {
        ffi::ropethatch_get_client_att_table(
            hub.slots.as_ptr(),
            8,
            hub.list.as_ptr(),
            hub.list.len(),
            hub.store.as_ptr(),
            hub.store.len(),
            hub.tables.as_ptr(),
            8,
            who,
            out,
        )
    }
}

#[inline(never)]
pub fn counted_set_table(hub: &mut Ours, who: Identity, saved: &[u8]) -> Reply {
    unsafe {
        ffi::ropethatch_set_client_att_table(
            hub.slots.as_ptr(),
            8,
            hub.list.as_ptr(),
            hub.list.len(),
            hub.store.as_ptr(),
            hub.store.len(),
            hub.tables.as_mut_ptr(),
            8,
            who,
            saved.as_ptr(),
            saved.len(),
        )
    }
}
