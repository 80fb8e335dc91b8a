//! The port and the Rust that it was ported from, side by side: inputs, the answers of both in one
//! form, and the report that is compared.

// `rust/copy.rs` is written once, and is a module over each copy of the Rust.
#![allow(clippy::duplicate_mod)]

pub mod address;
pub mod answer;
pub mod closing;
pub mod generate;
mod hdf;
mod hdf_mended;
pub mod input;
pub mod listing;
pub mod number;
pub mod pair;
pub mod plain;
pub mod port;
pub mod random;
pub mod real;
pub mod rust;
pub mod scan;
pub mod sum;
pub mod text;

/// The crates, the sources and the archive that this program was built of.
pub const VERSIONS: &str = include_str!("versions.txt");
