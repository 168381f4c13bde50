//! What the programs here share: the proved library's entries, plans, messages, states with units held, event
//! lines as calls, and timing.
pub mod holds;
pub mod lines;
pub mod messages;
#[cfg(old)]
pub mod old;
pub mod plans;
pub mod proved;
pub mod timing;
pub mod turns;
