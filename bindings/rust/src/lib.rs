//! A Bluetooth attribute server for classroom hubs, proved in Rattle and used from safe Rust.
//!
//! Tablets write a pupil's code to the hub; the hub keeps it and answers what tablets ask. Every answer comes from
//! `libropethatch.a`, whose calls are proved to give exactly what the requirements say, for any bytes at all. This crate adds no
//! rule of its own: it lends memory to the library and turns its answers into Rust's types.
//!
//! 1. List the attributes in a [`ListBuilder`], and open a [`Hub`].
//! 2. When a tablet connects, call [`Hub::connect`] and keep the [`Connection`].
//! 3. Hand each decoded [`Request`] with its connection and its [`Link`] to [`Hub::process`], and send the response.
//! 4. In the application, use [`Hub::get`] and [`Hub::set`], and ask [`Hub::should_notify`] whom to tell.
//! 5. When the tablet leaves, call [`Hub::disconnect`].
//!
//! ```
//! use ropethatch::{AddressKind, Bond, Identity, Link, ListBuilder, Needs, Request, Uuid};
//!
//! # fn main() -> Result<(), Box<dyn std::error::Error>> {
//! const SUBSCRIPTION: u16 = 3;
//! const CODE: u16 = 5;
//! let mut hub = ListBuilder::new()
//!     .client_fixed(SUBSCRIPTION, Uuid::short(0x2902), Needs::OPEN, 2)
//!     .client_variable(CODE, Uuid::short(0xFF01), Needs::OPEN, 8)
//!     .build()?;
//!
//! let who = Identity::new(AddressKind::Random, [0x11, 0x22, 0x33, 0x44, 0x55, 0xC6])?;
//! let mut tablet = hub.connect(who)?;
//!
//! let mut out = [0; 23]; // as long as the link's MTU
//! let write = Request::Write { handle: CODE, value: b"3E1047" };
//! assert_eq!(hub.process(&mut tablet, Link::Plain, write, &mut out)?, Some(&[0x13][..]));
//! let read = Request::Read { handle: CODE };
//! assert_eq!(hub.process(&mut tablet, Link::Plain, read, &mut out)?, Some(&b"\x0B3E1047"[..]));
//!
//! assert_eq!(hub.get_to_vec(who, CODE)?, b"3E1047");
//! assert!(!hub.should_notify(who, SUBSCRIPTION));
//! hub.disconnect(tablet, Bond::Unbonded);
//! # Ok(())
//! # }
//! ```
//!
//! # Refusals and errors
//!
//! A call with bad arguments is *refused* by a number and changes nothing: [`Refusal`]. An *ATT error* is an answer to the
//! tablet: in [`Hub::process`] it is a response of five bytes, in the application's calls it is an [`AttError`]. A call that
//! may end in both ways has a [`CallError`], and one that can't fail has no `Result`.
//!
//! No value is shown by `{:?}`, only how many there are and how long they are: a pupil's code does not land in a log.
//!
//! # What is proved, and what is not
//!
//! The library's answers and every byte that it leaves are proved. This crate is not: its `extern` block is written by hand
//! and held to the library by the tests. The library runs on x86-64 Linux only, and needs `libropethatch.a` to link: see
//! `build.rs`.

#![deny(unsafe_op_in_unsafe_fn)]
#![deny(unsafe_code)]
#![warn(missing_docs)]

mod answer;
#[allow(unsafe_code)] // the only file with `unsafe` in it
mod calls;
mod ffi;
mod hub;
mod list;
mod peer;
pub mod raw;
mod request;
mod saved;

pub use answer::{AttError, CallError, Refusal};
pub use hub::Hub;
pub use list::{ListBuilder, Need, Needs, Uuid};
pub use peer::{AddressKind, Bond, Connection, Identity, Link, Prepared};
pub use request::Request;
pub use saved::SavedTable;

/// The examples of the README, run as tests.
#[cfg(doctest)]
#[doc = include_str!("../README.md")]
struct Readme;

/// The example of the project's README, likewise.
#[cfg(doctest)]
#[doc = include_str!("../../../README.md")]
struct ProjectReadme;
