//! Many sheets received from one shaft: where in the frame the feeder is weak. docs/SHAFT.md says what is reckoned, and what was tried.
//!
//! A sheet goes [`sources`] → [`frame`] (answered by the library, then looked at by itself) → [`group`] (all frames of one pattern) → [`table`],
//! [`csv`] and [`svg`]. On f64 only + - * / and comparisons are used, so that the output is the same on every machine.
pub mod args;
pub mod csv;
pub mod frame;
pub mod group;
pub mod heard;
pub mod hint;
pub mod mark;
pub mod model;
pub mod output;
pub mod report;
pub mod sheet;
pub mod sound;
pub mod sources;
pub mod svg;
pub mod table;
pub mod work;
