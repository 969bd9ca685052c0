//! The original Rust, as published, cut down to what reading a description needs.
//!
//! `diff -r` of this directory against the original's `crates/turing-core/src` shows every
//! change; each changed line says why in a comment that begins with `oracle:`. The logic is
//! untouched, but for `analyze`, which is clone, `infer` and an empty list of checks.

pub(crate) mod diag;
pub(crate) mod dsl;
pub(crate) mod machine;
pub(crate) mod spec;
pub(crate) mod symbol;
