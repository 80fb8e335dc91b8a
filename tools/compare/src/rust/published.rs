//! The Rust as it was published.

use crate::hdf;

#[path = "copy.rs"]
mod copy;
pub use copy::*;
