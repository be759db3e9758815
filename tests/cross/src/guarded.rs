//! Bytes between guard bytes that nobody may touch.

/// So many bytes stand before the bytes, and behind them.
const GUARDS: usize = 32;

#[derive(Clone, Debug, Default)]
pub struct Guarded {
    all: Vec<u8>,
    pattern: Vec<u8>,
}

/// Equal if all bytes are, guards included.
impl PartialEq for Guarded {
    fn eq(&self, other: &Guarded) -> bool {
        self.all == other.all
    }
}

impl Eq for Guarded {}

impl Guarded {
    /// Holds so many bytes from now on, all of the pattern.
    pub fn fill(&mut self, length: usize) {
        let needed = length + 2 * GUARDS;
        for place in self.pattern.len()..needed {
            self.pattern.push(((place as u64 + 1).wrapping_mul(0x9E37_79B9_7F4A_7C15) >> 56) as u8);
        }
        self.all.clear();
        self.all.extend_from_slice(&self.pattern[..needed]);
    }

    /// Holds these bytes from now on.
    pub fn place(&mut self, bytes: &[u8]) {
        self.fill(bytes.len());
        self.inside_mut().copy_from_slice(bytes);
    }

    pub fn inside(&self) -> &[u8] {
        &self.all[GUARDS..self.all.len() - GUARDS]
    }

    pub fn inside_mut(&mut self) -> &mut [u8] {
        let end = self.all.len() - GUARDS;
        &mut self.all[GUARDS..end]
    }

    /// The bytes with their guards.
    pub fn all(&self) -> &[u8] {
        &self.all
    }

    /// Whether these bytes are held, and no guard was touched.
    pub fn holds(&self, bytes: &[u8]) -> bool {
        let behind = self.all.len() - GUARDS;
        self.inside() == bytes
            && self.all[..GUARDS] == self.pattern[..GUARDS]
            && self.all[behind..] == self.pattern[behind..self.all.len()]
    }
}

#[cfg(test)]
mod tests {
    use super::*;

    #[test]
    fn every_byte_counts() {
        let mut guarded = Guarded::default();
        for place in 0..5 + 2 * GUARDS {
            guarded.place(&[1, 2, 3, 4, 5]);
            assert!(guarded.holds(&[1, 2, 3, 4, 5]));
            let before = guarded.clone();
            guarded.all[place] ^= 1;
            assert!(!guarded.holds(&[1, 2, 3, 4, 5]));
            assert!(guarded != before);
        }
    }
}
