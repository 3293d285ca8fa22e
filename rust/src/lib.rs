//! A second reading of the paper 01, from its definitions alone and with no line of the library's code, to compare the library with.
//!
//! `calls` answers, by way of `sheet`, `pattern`, `element`, `runs`, `buffers` and `listing`; `write` makes sheets. What is asked are the
//! `figures`, sheets at the `bounds`, calls at the `edges`, packed `lengths`, shared runs in `windows`, `transfers` from buffer to buffer,
//! `texts` of listings, calls with something in what they leave `unused`, and calls by `chance` with sheets of all `shapes` and every
//! `damage`, put together by `generate`, with a `bad` frame at the end. `programs` has what else the built programs are run on, and
//! `laws` what calls have to do with each other, tried on a program that `asking` runs. `frame` is how it is asked and answered; `spelled`
//! says a frame in words.

pub mod asking;
pub mod bad;
pub mod bounds;
pub mod buffers;
pub mod calls;
pub mod chance;
pub mod damage;
pub mod edges;
pub mod element;
pub mod figures;
pub mod frame;
pub mod generate;
pub mod laws;
pub mod layout;
pub mod lengths;
pub mod listing;
pub mod pattern;
pub mod programs;
pub mod random;
pub mod refusal;
pub mod runs;
pub mod shapes;
pub mod sheet;
pub mod spelled;
pub mod texts;
pub mod transfers;
pub mod unused;
pub mod windows;
pub mod write;
