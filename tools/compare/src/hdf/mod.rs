//! A copy of the Rust. All but `btree` are put here when the tree is built.
#![allow(dead_code, unused_imports, unused_mut)]

pub mod btree;
pub mod data_object;
pub mod fractal_heap;
pub mod gcol;
pub mod helpers;
pub mod ohdr_message;
pub mod parser;
pub mod super_block;
