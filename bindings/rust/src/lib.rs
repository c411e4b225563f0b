#![doc = include_str!("../README.md")]
#![no_std]
#![deny(unsafe_op_in_unsafe_fn)]
#![warn(missing_docs, clippy::undocumented_unsafe_blocks)]

#[cfg(all(feature = "std", not(has_core_error)))]
extern crate std;

mod action;
mod bus;
mod controller;
mod driver;
mod error;
mod held;
mod host;
mod list;
mod message;
mod port;
pub mod raw;
mod values;
mod words;

pub use action::{Action, Hardware, Medium, Outcome, Stage, State, Volume, Way};
pub use bus::{BadBlock, Bus, BusFault};
pub use controller::Controller;
pub use driver::{Advice, Asked, Driver, Ended, Heard};
pub use error::Error;
pub use host::{Host, News, Poll};
pub use list::{List, Packet};
pub use message::{Body, Command, End, Order, Transfer};
pub use port::Port;
pub use values::{
    BusKind, Connection, Holder, Limits, Opcode, Picker, Report, Sent, Settings, Unit, Upcoming, Waiting,
};
pub use words::status_words;

/// The version of `mscp.h` that this was written for: a byte for each of the three numbers.
pub const VERSION: u32 = 0x02_00_00;
/// Commands that wait and ends that weren't taken, of both connections together, at most.
pub const CREDITS_MAX: usize = 64;
/// Commands that wait, at most: the last credit isn't theirs.
pub const COMMANDS_MAX: usize = 63;
/// Units of a controller, at most.
pub const UNITS_MAX: usize = 16;
/// Bytes of a message, at least.
pub const MESSAGE_MIN: usize = 12;
/// Bytes of a message, at most.
pub const MESSAGE_MAX: usize = 64;
/// Bytes of a message or an end, at most.
pub const PACKET_MAX: usize = 48;
/// Bytes of a block.
pub const BLOCK: usize = 512;
/// Bytes that a controller is saved as, at most, by any library that fits.
pub const SAVED_MAX: usize = 4608;
/// Bytes that a host is saved as, at most, by any library that fits.
pub const HOST_SAVED_MAX: usize = 1024;
/// Bytes that a port is saved as, at most, by any library that fits.
pub const PORT_SAVED_MAX: usize = 7168;
/// Bytes that a driver's account is saved as, at most, by any library that fits.
pub const DRIVER_SAVED_MAX: usize = 1536;

/// Whether a library of this version fits: its first number is that of [`VERSION`]. If it doesn't, whatever makes a controller,
/// a host or a port answers [`Error::NoHandle`].
#[must_use]
pub const fn fits(version: u32) -> bool {
    (version ^ VERSION) >> 16 == 0
}

/// The version of the library that is linked.
#[must_use]
pub fn version() -> u32 {
    // SAFETY: it reads nothing.
    unsafe { raw::mscp_version() }
}
