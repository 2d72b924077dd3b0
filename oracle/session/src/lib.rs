//! Sessions over the Rust original: the answer to each line, and how answers and states are written.

mod parse;
mod session;

pub use session::{printed, shown, state, told, Session};
