//! Real files, as they are, and their headers: each `OHDR` mark, with the widths of the file's
//! superblock.

use std::io;
use std::path::{Path, PathBuf};

use crate::input::{Input, get};
use crate::plain::SIGNATURE;

/// All files below some paths, in the order of their names.
pub fn plain(paths: &[PathBuf]) -> io::Result<Vec<Vec<u8>>> {
    let mut plain = Vec::new();
    for path in paths {
        for file in files(path)? {
            plain.push(std::fs::read(file)?);
        }
    }
    Ok(plain)
}

/// The headers of all files below some paths.
pub fn headers(paths: &[PathBuf]) -> io::Result<Vec<Input>> {
    let files = plain(paths)?;
    Ok(files.iter().flat_map(|file| headers_of(file)).collect())
}

fn files(path: &Path) -> io::Result<Vec<PathBuf>> {
    if !path.is_dir() {
        return Ok(vec![path.to_path_buf()]);
    }
    let mut entries: Vec<PathBuf> = std::fs::read_dir(path)?
        .map(|entry| entry.map(|entry| entry.path()))
        .collect::<io::Result<_>>()?;
    entries.sort();
    let mut found = Vec::new();
    for entry in entries {
        found.extend(files(&entry)?);
    }
    Ok(found)
}

fn headers_of(file: &[u8]) -> Vec<Input> {
    let Some((offset_width, length_width, end_of_file)) = super_block(file) else {
        return Vec::new();
    };
    let marks = file
        .windows(4)
        .enumerate()
        .filter(|(_, bytes)| bytes == b"OHDR");
    marks
        .map(|(position, _)| Input {
            offset_width,
            length_width,
            end_of_file,
            position: position as u64,
            file: file.to_vec(),
        })
        .collect()
}

/// The widths and the end-of-file address of a superblock of versions 0 to 3.
fn super_block(file: &[u8]) -> Option<(u8, u8, u64)> {
    let rest = file.strip_prefix(SIGNATURE)?;
    let (widths, addresses) = match rest.first()? {
        0 => (5, 16),
        1 => (5, 20),
        2 | 3 => (1, 4),
        _ => return None,
    };
    let (offset_width, length_width) = (*rest.get(widths)?, *rest.get(widths + 1)?);
    let width = usize::from(offset_width);
    // The third address: base and one other stand before it.
    let address = addresses + 2 * width;
    let end_of_file = get(rest.get(address..address + width.min(8))?);
    Some((offset_width, length_width, end_of_file))
}
