//! A small M2UA gateway over the proved library, as the model of a host and for labs; and a controller that a
//! script drives. Read it in this order: `engine` (what a host does with an event), `daemon` (the loop),
//! `arrivals` (who comes by SCTP), `outside` (orders carried out), `links` (the link side), `units` (what
//! becomes of units), `peer`, `queue`, `beats` and `unread` (an association, what waits for it, whether it is
//! alive, what it has read), `transport` (Unix sockets and SCTP); then `start`, `options`, `files`, `log`,
//! `records`, `dump`. `os`, `kernel` (the kernel's SCTP) and `sctp` (libusrsctp) call C. `script` and
//! `controller` are those of m2ua-asp.
#![deny(unsafe_code)]

pub mod arrivals;
pub mod beats;
pub mod controller;
pub mod daemon;
pub mod dump;
pub mod engine;
pub mod files;
pub mod kernel;
pub mod links;
pub mod log;
pub mod options;
pub mod os;
pub mod outside;
pub mod peer;
pub mod pieces;
pub mod queue;
pub mod records;
pub mod script;
pub mod sctp;
pub mod start;
pub mod terms;
pub mod transport;
pub mod units;
pub mod unread;
