//! The calls of a receiver that holds packets, on the library's and on an
//! independent one.

mod alterations;
mod call;
mod lines;
mod lists;
mod met;
mod pair;
mod recording;
mod rising;
mod rows;
pub mod rules;

pub use call::{Call, Stepped};
pub use lines::receive;
pub use lists::calls;
pub use pair::Pair;
pub use rising::rising;
