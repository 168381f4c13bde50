//! The rules of the M2UA gateway (RFC 3331, docs/RULES.md), written a second
//! time in plain Rust: the proved program is compared with this one, and its
//! speed is measured against it. No function of the rules uses the heap.

pub mod bytes;
pub mod events;
pub mod gateway;
pub mod generate;
mod naming;
pub mod plan;
pub mod reach;
pub mod read;
pub mod script;
pub mod wire;
pub mod write;

pub use bytes::{Batch, Handled};
pub use events::{Done, Event, Next};
pub use gateway::{is_sound, Gateway, Unit, HOLD_BYTES};
pub use plan::{load, Loaded};
pub use read::{protocol_data, read, Reading};
pub use wire::{Param, Params, Step};
pub use write::{write, Written};
