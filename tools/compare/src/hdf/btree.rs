//! Stands in for the chunk tree, which was not published. Only chunked layouts ask for it, and
//! those are no part of the comparison: it refuses.
use winnow::ModalResult;
use winnow::error::{ContextError, ErrMode};

use super::data_object::{DataLayout, DataSpace};
use super::parser::Input;

pub(crate) fn tree(
    _data_size: usize,
    _data_space: DataSpace,
    _chunk: DataLayout,
) -> impl FnMut(&mut Input) -> ModalResult<Vec<u8>> {
    |_| Err(ErrMode::Cut(ContextError::new()))
}
