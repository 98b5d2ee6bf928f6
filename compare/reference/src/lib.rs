//! A second implementation of documents 01 and 02, written from the papers, FIPS 202 and the decisions on calls of
//! docs/DECISIONS.md, with which the proved library is compared. It favours the plainest form of each definition over
//! speed, and where document 01 allows several ways it takes another one than tables of logarithms, tables of round
//! constants or Newton's slopes.
//!
//! Bottom up: fields and polynomials, the key, the strings hashed, leaves and parties of a run, messages of all runs,
//! sessions, extractor, key listing. `sampling` draws keys, exchanges and damaged ones for the comparisons.

#![forbid(unsafe_code)]
#![warn(missing_docs)]

pub mod byte_field;
pub mod interpolation;
pub mod keccak;
pub mod points_field;
pub mod polynomial;
pub mod shake256;
#[cfg(feature = "stand_in")]
pub mod stand_in;

pub mod key;
pub mod numbers;
pub mod parameters;
pub mod runs;

pub mod leaves;
pub mod shares;
pub mod strings;
pub mod tree;

pub mod challenge;
pub mod commitment;
pub mod parties;

pub mod check;
pub mod messages;

pub mod extractor;
pub mod keylist;
pub mod lent;
pub mod prover;
pub mod stored;
pub mod verifier;

pub mod sampling;
