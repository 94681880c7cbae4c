//! The rules of the Childbus bootloader protocol, written from the papers.
//!
//! `model` profile, state, argument table, reserved addresses and the refusals
//! of board calls; `sums` both CRCs by half bytes, `bits` the same bit by bit;
//! `tally` the counters of received frames; `board` received frame and I2C
//! read; `master` encoder, decoder, two reads, version rule, reset of a running
//! application; `alarms` the five calls on what must not be missed, on bytes as
//! `layout` lays them; `ledger` the ledger of demand 3; `script` reads case files
//! and answers them; `check` compares board and ledger over lists of calls;
//! `half_bytes` compares `sums` with `bits`; `running` sends the reset of a
//! running application to boards; `silences` judges once more why a frame got
//! silence, and what the tally came to; `pages` judges once more what a page
//! allows, and hands states over from one page to another; `walks` judges once
//! more what `alarms` says of calls; `finished` checks what finished uploads
//! leave on any board, `finished_lists` makes lists of calls for it and
//! `finished_situations` counts what came in them; `total` gives every function
//! any input; `rng` is the generator of random numbers.

pub mod alarms;
pub mod bits;
pub mod board;
pub mod ledger;
pub mod check;
pub mod finished;
pub mod finished_lists;
pub mod finished_situations;
pub mod half_bytes;
pub mod layout;
pub mod master;
pub mod model;
pub mod pages;
pub mod rng;
pub mod running;
pub mod script;
pub mod silences;
pub mod sums;
pub mod tally;
pub mod total;
pub mod walks;
