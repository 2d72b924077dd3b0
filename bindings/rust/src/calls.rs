//! The thin calls into the library. Every `unsafe` of this crate stands in this file, one for each call.
//!
//! The boundary asks four things of its caller, and each of them is met by the arguments' types:
//!
//! - *No pointer is null, and each is aligned.* Every pointer here comes from a Rust reference, a slice or an array, and
//!   these are never null and always aligned, also where a slice is empty.
//! - *Each count is that of the elements behind its pointer.* Pointer and count are taken from the same slice, side by
//!   side. Where the boundary takes one pointer (a table, 512 bytes), the type is an array of exactly that size.
//! - *No two lent ranges overlap.* What is lent to be changed is behind a `&mut`, so nothing else overlaps it. The four
//!   parts of the hub's memory are held in four `&mut` of a [`State`], or are four allocations of a `Hub`; a [`Lent`] is
//!   made from one of these only. Whatever else is only read (`data`, `saved`) comes with a call that holds the whole
//!   `State` by `&mut`.
//! - *The machine is x86-64 Linux.* `build.rs` stops for any other target, and the archive would not link there. The
//!   sizes and alignments of all that crosses are asserted in `ffi.rs`.
//!
//! The library is proved to answer for any bytes at all, so nothing is asked of what the memory holds. It keeps no
//! pointer after it returns, and it has no memory of its own, so calls may be made from any thread.

use crate::ffi::{self, Identity, Prepared, Reply, Table};
use crate::raw::{Lent, State};
use crate::{Bond, Link, Request};

pub(crate) fn open(state: &mut State<'_>) -> Reply {
    // SAFETY: non-null, counted and apart, as all come from the `&mut` slices of one `State` (see the top of this file).
    unsafe {
        ffi::ropethatch_new(
            state.slots.as_mut_ptr(),
            state.slots.len(),
            state.list.as_ptr(),
            state.list.len(),
            state.store.as_ptr(),
            state.store.len(),
            state.tables.as_mut_ptr(),
            state.tables.len(),
        )
    }
}

pub(crate) fn connect(state: &mut State<'_>, who: Identity) -> Reply {
    // SAFETY: non-null, counted and apart, as all come from the `&mut` slices of one `State`; `who` goes by value.
    unsafe {
        ffi::ropethatch_connect(
            state.slots.as_mut_ptr(),
            state.slots.len(),
            state.list.as_ptr(),
            state.list.len(),
            state.store.as_ptr(),
            state.store.len(),
            state.tables.as_mut_ptr(),
            state.tables.len(),
            who,
        )
    }
}

pub(crate) fn disconnect(state: &mut State<'_>, who: Identity, bond: Bond) -> Reply {
    // SAFETY: non-null, counted and apart, as all come from the `&mut` slices of one `State`; the rest goes by value.
    unsafe {
        ffi::ropethatch_disconnect(
            state.slots.as_mut_ptr(),
            state.slots.len(),
            state.list.as_ptr(),
            state.list.len(),
            state.store.as_ptr(),
            state.store.len(),
            state.tables.as_mut_ptr(),
            state.tables.len(),
            who,
            u8::from(bond == Bond::Bonded),
        )
    }
}

pub(crate) fn process(
    state: &mut State<'_>,
    who: Identity,
    link: Link,
    prepared: &mut Prepared,
    bytes: &mut [u8; 512],
    request: Request<'_>,
    out: &mut [u8],
) -> Reply {
    let (request, data) = request.encode();
    // SAFETY: non-null and counted, as all come from references. `state`, `prepared`, `bytes` and `out` are held by `&mut`,
    // so they are apart from each other and from `data`. `bytes` has the 512 bytes that its pointer promises.
    unsafe {
        ffi::ropethatch_process(
            state.slots.as_ptr(),
            state.slots.len(),
            state.list.as_mut_ptr(),
            state.list.len(),
            state.store.as_mut_ptr(),
            state.store.len(),
            state.tables.as_mut_ptr(),
            state.tables.len(),
            who,
            link.level(),
            prepared,
            bytes,
            request,
            data.as_ptr(),
            data.len(),
            out.as_mut_ptr(),
            out.len(),
        )
    }
}

pub(crate) fn get(lent: Lent<'_>, who: Identity, handle: u16, out: &mut [u8]) -> Reply {
    // SAFETY: non-null and counted, as all come from slices. The four of a `Lent` are apart, and `out` is a `&mut`.
    unsafe {
        ffi::ropethatch_get(
            lent.slots.as_ptr(),
            lent.slots.len(),
            lent.list.as_ptr(),
            lent.list.len(),
            lent.store.as_ptr(),
            lent.store.len(),
            lent.tables.as_ptr(),
            lent.tables.len(),
            who,
            handle,
            out.as_mut_ptr(),
            out.len(),
        )
    }
}

pub(crate) fn set(state: &mut State<'_>, who: Identity, handle: u16, data: &[u8]) -> Reply {
    // SAFETY: non-null and counted, as all come from slices. `state` is held by `&mut`, so its four slices are apart from
    // each other and from `data`.
    unsafe {
        ffi::ropethatch_set(
            state.slots.as_ptr(),
            state.slots.len(),
            state.list.as_mut_ptr(),
            state.list.len(),
            state.store.as_mut_ptr(),
            state.store.len(),
            state.tables.as_mut_ptr(),
            state.tables.len(),
            who,
            handle,
            data.as_ptr(),
            data.len(),
        )
    }
}

pub(crate) fn can_read(lent: Lent<'_>, who: Identity, link: Link, handle: u16) -> Reply {
    // SAFETY: non-null, counted and apart, as all come from the slices of one `Lent`; nothing is changed.
    unsafe {
        ffi::ropethatch_can_read(
            lent.slots.as_ptr(),
            lent.slots.len(),
            lent.list.as_ptr(),
            lent.list.len(),
            lent.store.as_ptr(),
            lent.store.len(),
            lent.tables.as_ptr(),
            lent.tables.len(),
            who,
            link.level(),
            handle,
        )
    }
}

pub(crate) fn can_write(lent: Lent<'_>, who: Identity, link: Link, handle: u16) -> Reply {
    // SAFETY: non-null, counted and apart, as all come from the slices of one `Lent`; nothing is changed.
    unsafe {
        ffi::ropethatch_can_write(
            lent.slots.as_ptr(),
            lent.slots.len(),
            lent.list.as_ptr(),
            lent.list.len(),
            lent.store.as_ptr(),
            lent.store.len(),
            lent.tables.as_ptr(),
            lent.tables.len(),
            who,
            link.level(),
            handle,
        )
    }
}

pub(crate) fn should_notify(lent: Lent<'_>, who: Identity, handle: u16) -> Reply {
    // SAFETY: non-null, counted and apart, as all come from the slices of one `Lent`; nothing is changed.
    unsafe {
        ffi::ropethatch_should_notify(
            lent.slots.as_ptr(),
            lent.slots.len(),
            lent.list.as_ptr(),
            lent.list.len(),
            lent.store.as_ptr(),
            lent.store.len(),
            lent.tables.as_ptr(),
            lent.tables.len(),
            who,
            handle,
        )
    }
}

pub(crate) fn should_indicate(lent: Lent<'_>, who: Identity, handle: u16) -> Reply {
    // SAFETY: non-null, counted and apart, as all come from the slices of one `Lent`; nothing is changed.
    unsafe {
        ffi::ropethatch_should_indicate(
            lent.slots.as_ptr(),
            lent.slots.len(),
            lent.list.as_ptr(),
            lent.list.len(),
            lent.store.as_ptr(),
            lent.store.len(),
            lent.tables.as_ptr(),
            lent.tables.len(),
            who,
            handle,
        )
    }
}

pub(crate) fn client_table(lent: Lent<'_>, who: Identity, out: &mut Table) -> Reply {
    // SAFETY: non-null and counted, as all come from slices. The four of a `Lent` are apart, and `out` is a `&mut` to the
    // 640 bytes that its pointer promises.
    unsafe {
        ffi::ropethatch_get_client_att_table(
            lent.slots.as_ptr(),
            lent.slots.len(),
            lent.list.as_ptr(),
            lent.list.len(),
            lent.store.as_ptr(),
            lent.store.len(),
            lent.tables.as_ptr(),
            lent.tables.len(),
            who,
            out,
        )
    }
}

pub(crate) fn restore(state: &mut State<'_>, who: Identity, saved: &[u8]) -> Reply {
    // SAFETY: non-null and counted, as all come from slices. `state` is held by `&mut`, so its four slices are apart from
    // each other and from `saved`.
    unsafe {
        ffi::ropethatch_set_client_att_table(
            state.slots.as_ptr(),
            state.slots.len(),
            state.list.as_ptr(),
            state.list.len(),
            state.store.as_ptr(),
            state.store.len(),
            state.tables.as_mut_ptr(),
            state.tables.len(),
            who,
            saved.as_ptr(),
            saved.len(),
        )
    }
}

pub(crate) fn saved_length(saved: &[u8]) -> Reply {
    // SAFETY: non-null and counted, as both come from one slice; nothing is changed.
    unsafe { ffi::ropethatch_saved_length(saved.as_ptr(), saved.len()) }
}
