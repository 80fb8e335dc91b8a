//! Plain files: what the root operation is given. Their superblock begins at byte 0.

use std::borrow::Cow;

use crate::address::{Place, Seen};
use crate::input::get;

pub const SIGNATURE: &[u8] = b"\x89HDF\r\n\x1a\n";
/// Where the version of a superblock stands.
pub const VERSION: usize = SIGNATURE.len();
/// Where the four addresses of versions 2 and 3 begin: two widths and the flags stand before them.
const ADDRESSES: usize = VERSION + 4;

/// The version of a file's superblock, where the signature and its byte are there.
pub fn version(file: &[u8]) -> Option<u8> {
    file.strip_prefix(SIGNATURE)?.first().copied()
}

/// Where an address of version 2 or 3 stands: 0 the base, 1 the extension, 2 the end-of-file, 3 the
/// root; and with 4 the checksum behind them.
pub fn address(number: usize, offset_width: u64) -> usize {
    ADDRESSES + number * offset_width as usize
}

/// Where a superblock of version 2 or 3 ends.
pub fn end(offset_width: u64) -> usize {
    address(4, offset_width) + 4
}

/// The undefined addresses, and those one below, of a superblock of version 2 or 3, as far as they
/// lie in the file. The base address is none of them.
pub fn seen(file: &[u8], offset_width: u64) -> Vec<Seen> {
    let places = [Place::Extension, Place::EndOfFile, Place::Root];
    let field = |number: usize| {
        let range = address(number, offset_width)..address(number + 1, offset_width);
        file.get(range).map(get)
    };
    let fields = (1..).zip(places);
    fields
        .filter_map(|(number, place)| Seen::new(place, field(number)?, offset_width as u8))
        .collect()
}

/// A file as the Rust is given it, since it does not read version 3: with version 2 in its place.
/// The other fields are the same.
pub fn as_version_2(file: &[u8]) -> Cow<'_, [u8]> {
    let mut given = Cow::Borrowed(file);
    if version(file) == Some(3) {
        given.to_mut()[VERSION] = 2;
    }
    given
}
