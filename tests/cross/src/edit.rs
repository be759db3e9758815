//! Bytes that were edited: each edit does one thing that an editor or a bad copy would do.

use crate::chance::Chance;

/// The bytes after one to three edits.
pub fn edited(chance: &mut Chance, bytes: &[u8]) -> Vec<u8> {
    let mut result = bytes.to_vec();
    for _ in 0..chance.pick(&[1, 1, 2, 3]) {
        edit(chance, &mut result);
    }
    result
}

fn edit(chance: &mut Chance, bytes: &mut Vec<u8>) {
    if bytes.is_empty() {
        bytes.push(chance.byte());
        return;
    }
    let (at, other) = (place(chance, bytes.len()), place(chance, bytes.len()));
    match chance.below(10) {
        0 => bytes[at] = chance.byte(),
        1 => bytes[at] ^= 1 << chance.below(8),
        2 => bytes[at] = bytes[at].wrapping_add(1),
        3 => bytes[at] = bytes[at].wrapping_sub(1),
        4 => bytes[at] = chance.pick(&[0, 1, 7, 8, 14, 64, 65, 0x7F, 0xC5, 0xFF]),
        5 => bytes.swap(at, other),
        6 => drop(bytes.drain(at..(at + chance.between(1, 4)).min(bytes.len()))),
        7 => drop(bytes.splice(at..at, (0..chance.between(1, 4)).map(|_| chance.byte()))),
        8 => bytes.extend_from_within(at.min(other)..at.max(other)),
        _ => bytes.truncate(at),
    }
}

/// A place, often near the end, where the index and the trailer stand.
fn place(chance: &mut Chance, length: usize) -> usize {
    if chance.one_in(3) {
        length - 1 - chance.below(length.min(12))
    } else {
        chance.below(length)
    }
}
