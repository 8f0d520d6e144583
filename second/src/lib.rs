//! The independent second program, written from documents 01 and 02 and, for
//! the two hashes, FIPS 202 alone; the table of BCNS's noise is document 000's.
//!
//! It follows their words literally: plain sums, a search for the nearest z,
//! Keccak bit by bit. It is slow on purpose.
//!
//! `cargo test` runs all tests, the published NewHope vectors among them.

pub mod calls;
pub mod cards;
pub mod coins;
pub mod expand;
pub mod failure;
pub mod files;
pub mod grow;
pub mod hash;
pub mod keccak;
pub mod line;
pub mod long;
pub mod margins;
pub mod matrix;
pub mod message;
pub mod mix;
pub mod noise;
pub mod packing;
pub mod polynomial;
pub mod products;
pub mod rack;
pub mod reconcile;
pub mod refusal;
pub mod rows;
pub mod schemes;
pub mod session;
pub mod settings;
pub mod signed;
pub mod table;
pub mod trace;
pub mod transform;
pub mod vectors;
