//! The Rust original (trouble-host 0.8.0: `attribute_server.rs` and `client_att_table.rs`), compiled unchanged where it
//! stands, over stand-ins for the rest of its crate, and a [`Hub`] that drives it.

// The original's messages to its log go nowhere.
#[allow(unused_macros)]
macro_rules! trace {
    ($($message:tt)*) => {};
}
#[allow(unused_macros)]
macro_rules! debug {
    ($($message:tt)*) => {};
}
macro_rules! warn {
    ($($message:tt)*) => {};
}

/// The original's own files.
#[allow(warnings, clippy::all)]
mod found {
    include!(concat!(env!("OUT_DIR"), "/source.rs"));
}
pub use found::source::{att, attribute_server, codec, config, cursor, types};

#[cfg_attr(feature = "own-list", path = "own_list.rs")]
pub mod attribute;
pub mod calls;
pub mod connection;
pub mod hub;
pub mod list;
#[cfg(not(feature = "own-list"))]
mod repairs;
pub mod slots;
mod standins;
pub mod table;
mod valid;

pub use calls::{Answer, Call, Request};
pub use hub::Hub;
pub use list::Entry;
#[cfg(not(feature = "own-list"))]
pub use repairs::Repairs;
pub use standins::{Error, Identity, NoPool, PacketPool};
