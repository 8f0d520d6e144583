//! The archive from Rust, held to the second program. The published vectors are
//! those of the second program's own tests, here through the archive.
//!
//! `cargo test` makes 750 random calls, the 2,930 of the second program's long
//! list, and some 80,000 on sessions; `cargo test -- --ignored` makes 100,000
//! random ones, which takes some fifteen minutes.

#[path = "../../../second/tests/all/generator.rs"]
mod generator;
#[allow(dead_code)]
#[path = "../../../second/tests/all/inputs.rs"]
mod inputs;
#[path = "../../../second/tests/all/published.rs"]
mod published;
#[path = "../../../second/tests/all/standards.rs"]
mod standards;

mod calls;
mod damage;
mod drawn;
mod held;
mod lent;
mod links;
mod long;
mod package;
mod products;
mod racks;
mod residue;
mod rows;
mod sessions;
mod settings;
mod sizes;
mod typed;
