//! Drawn cases over the archive `libpupcopper.a` and over the program
//! `clearing`, each compared with the second calculation.
//!
//! In the environment: `PUPCOPPER_LIB`, the folder of the archive, and
//! `CLEARING`, the program, both as absolute paths and by default in
//! `../target`; `CASES=n` draws n times as many cases; `SEED=s`, with the name
//! of a test, runs the case of that seed.

// Draws read plainer with a remainder.
#![allow(clippy::manual_is_multiple_of)]

mod compare;
mod drawn;
mod ledger;
mod lent;
mod library;

mod amounts;
mod balances;
mod by_owner;
mod calendar;
mod call_lists;
mod faulty_records;
mod lent_words;
mod limits;
mod operating_years;
mod program_runs;
mod read;
mod reader;
mod rounding;
mod rows;
mod single_events;
mod split;
mod steps;
mod targets;
mod worked_examples;
mod write;
