//! Inputs on which the two sides differed, stored as text.

use crate::call::Call;
use std::fs;
use std::io;
use std::path::{Path, PathBuf};

/// Stores a call, with words on what is wrong, and gives the file.
pub fn store(folder: &Path, call: &Call, words: &str) -> io::Result<PathBuf> {
    fs::create_dir_all(folder)?;
    let text = call.text();
    let path = folder.join(format!("{}-{:016x}.txt", call.name(), digest(text.as_bytes())));
    let comment: String = words.lines().map(|line| format!("# {line}\n")).collect();
    fs::write(&path, comment + &text)?;
    Ok(path)
}

/// The stored calls of a folder, by file; none if there is no folder.
pub fn stored(folder: &Path) -> io::Result<Vec<(PathBuf, Call)>> {
    if !folder.exists() {
        return Ok(Vec::new());
    }
    let mut paths = fs::read_dir(folder)?.map(|entry| Ok(entry?.path())).collect::<io::Result<Vec<_>>>()?;
    paths.sort();
    paths.into_iter().map(|path| Ok((path.clone(), read(&path)?))).collect()
}

pub fn read(path: &Path) -> io::Result<Call> {
    let wrong = || io::Error::new(io::ErrorKind::InvalidData, format!("{}: not a stored call", path.display()));
    Call::read(&fs::read_to_string(path)?).ok_or_else(wrong)
}

/// Fowler, Noll and Vo's hash, for a name that is the same for the same call.
fn digest(bytes: &[u8]) -> u64 {
    bytes.iter().fold(0xCBF2_9CE4_8422_2325, |sum, byte| (sum ^ u64::from(*byte)).wrapping_mul(0x100_0000_01B3))
}
