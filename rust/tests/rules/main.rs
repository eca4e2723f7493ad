//! The rules of documents 01 and 02, held against the proved library: a file for each operation (of a draw sheet,
//! `sheet` runs it, `write` writes it, `read` reads it, `why` tells what happened to a record), and one each for the
//! program, the checked examples, the Rust and C faces, the paper's own shuffle, and the way from an order to words and
//! back; `sheets` and `support` have what they share. A test is named by the rule that it holds. Whole answers and
//! whole lent lists are compared. `two_ways` holds the oracle against itself, each operation done in two ways.
//!
//! `HILDRASP_CASES=20 cargo test --release` runs twenty times the random cases of a default run. Under an emulator a
//! default run has one in ten of the random cases and of the longest exhaustive ones; `HILDRASP_CASES=1` asks for all.

mod batch;
mod behind;
mod examples;
mod face;
mod list;
mod order;
mod paper;
mod program;
mod read;
mod sample;
mod sheet;
mod sheets;
mod shuffle;
mod support;
mod there_and_back;
mod two_ways;
mod why;
mod write;
