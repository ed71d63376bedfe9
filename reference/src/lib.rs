//! A plain second calculation of the settlement of an operating year of
//! point-to-point rights.

// A remainder reads like the paper's "not a multiple of 16".
#![allow(clippy::manual_is_multiple_of)]

// The rules, written from the scope paper and the delivered wishes alone.
pub mod book;
pub mod calendar;
pub mod civil;
pub mod program;
pub mod record_words;
pub mod refusal;
pub mod rights;
pub mod sentence;
pub mod split;
pub mod step;
pub mod target;

// What a host lends and gets, in words, from `host/pupcopper.h`, with the shortfalls
// laid out as Wish 11 has them.
pub mod by_owner;
pub mod words;

// Drawn numbers, and years for whole runs of the program.
pub mod draws;
pub mod make_year;
