//! The fast Rust that the benchmark holds the proved product against: document 01's rules, written for speed in plain safe
//! Rust. The benchmark itself is the binary of this package.

#![forbid(unsafe_code)]

pub mod fast;
