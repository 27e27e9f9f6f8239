//! Gives the same packets, texts and calls to the proved library and to the
//! independent program, and looks for a difference.
#![forbid(unsafe_code)]

mod ascii_packets;
mod ascii_texts;
pub mod calls;
pub mod captures;
pub mod check;
pub mod damage;
pub mod kinds;
mod letters;
pub mod level;
pub mod output;
mod patterns;
pub mod plan;
pub mod run;
mod shapes;
pub mod texts;

pub use independent::random;
