//! The Rust with `mended.patch`.

use crate::hdf_mended as hdf;

#[path = "copy.rs"]
mod copy;
pub use copy::*;
