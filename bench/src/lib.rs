//! The proved kernels and calls of Wimmostry from outside: `kernels`, `levels` and
//! the package `wimmostry` call them, `plain` and `botan` are what they are
//! measured against, `draw`, `lent` and `grown` make inputs, `rows` has what is compared
//! with what, `measure` and `count` do it, `short` sums the calls up, and `bounds`
//! has what they cannot take less than.

#[cfg(botan)]
pub mod botan;
pub mod bounds;
pub mod count;
pub mod draw;
pub mod grown;
pub mod kernels;
pub mod lent;
pub mod levels;
pub mod measure;
pub mod ours;
pub mod plain;
pub mod rows;
pub mod short;
