//! A script (docs/SCRIPT.md) run through the library, and what went to and fro: as a capture file, and as a
//! message sequence chart in text and SVG.
#![forbid(unsafe_code)]
pub mod capture;
pub mod chart;
pub mod names;
pub mod script;
pub mod svg;
pub mod trace;
