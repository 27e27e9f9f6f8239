//! The proved RTP text line (RFC 4103), linked from its static library: a
//! packet reader, two receivers, a loss-mark writer and a sender.
//!
//! A [`Receiver`] turns arriving packets into text and losses, and a
//! [`HoldingReceiver`] does so with packets that wait for late ones; a
//! [`Sender`] turns text into packets, and [`read`] reads a single packet.
//! Every call answers on every input; a [`Refusal`] changes nothing.
#![deny(unsafe_code)]

mod holding;
#[allow(unsafe_code)]
pub mod lent;
mod library;
mod reader;
mod receiver;
mod refusal;
mod sender;

pub use holding::{HoldingReceiver, HoldingStep, Which};
pub use library::Settings;
pub use reader::{read, text, Older, Packet};
pub use receiver::{write_marks, LossMark, Receiver, Step};
pub use refusal::Refusal;
pub use sender::Sender;
