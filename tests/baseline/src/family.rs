//! Families of ready sets. However many masks there are on the way to a family, none is left out: it is a list while it
//! has few, and a bit for each of the 2 to the power of 14 masks from there on.

use crate::sheet::{Bits, ACTION_COUNT};

const FEW: usize = 16;
const MASKS: usize = 1 << ACTION_COUNT;
const WORDS: usize = MASKS / 64;

/// The places in a word of the masks that have an action, for the first six actions.
const HAVING: [u64; 6] = [
    0xAAAA_AAAA_AAAA_AAAA,
    0xCCCC_CCCC_CCCC_CCCC,
    0xF0F0_F0F0_F0F0_F0F0,
    0xFF00_FF00_FF00_FF00,
    0xFFFF_0000_FFFF_0000,
    0xFFFF_FFFF_0000_0000,
];

/// A family; its list means nothing once there are words.
#[derive(Clone)]
pub struct Family {
    few: [u16; FEW],
    count: usize,
    words: Vec<u64>,
}

impl Family {
    /// The family of one mask.
    pub fn of(mask: u16) -> Family {
        let mut few = [0; FEW];
        few[0] = mask;
        Family { few, count: 1, words: Vec::new() }
    }

    /// The family of some masks.
    fn among(masks: impl Iterator<Item = u16>) -> Family {
        let mut family = Family { few: [0; FEW], count: 0, words: Vec::new() };
        masks.for_each(|mask| family.insert(mask));
        family
    }

    #[inline]
    fn insert(&mut self, mask: u16) {
        if self.words.is_empty() {
            if self.few[..self.count].contains(&mask) {
                return;
            }
            if self.count < FEW {
                self.few[self.count] = mask;
                self.count += 1;
                return;
            }
            self.spread();
        }
        self.words[usize::from(mask) / 64] |= 1 << (mask % 64);
    }

    /// Turns the list to words.
    fn spread(&mut self) {
        if self.words.is_empty() {
            self.words = vec![0; WORDS];
            for mask in &self.few[..self.count] {
                self.words[usize::from(*mask) / 64] |= 1 << (mask % 64);
            }
        }
    }

    pub fn size(&self) -> usize {
        if self.words.is_empty() {
            self.count
        } else {
            self.words.iter().map(|word| word.count_ones() as usize).sum()
        }
    }

    /// The masks, which ascend if there are words.
    fn masks(&self) -> impl Iterator<Item = u16> + '_ {
        let listed = if self.words.is_empty() { self.count } else { 0 };
        let words = self.words.iter().zip(0u16..);
        let spread = words.flat_map(|(word, at)| Bits(*word).map(move |place| 64 * at + place as u16));
        self.few[..listed].iter().copied().chain(spread)
    }

    /// The masks, ascending, if there are so many at most.
    pub fn at_most<const MOST: usize>(&self) -> Option<([u16; MOST], usize)> {
        let (mut masks, mut count) = ([0; MOST], 0);
        for mask in self.masks() {
            *masks.get_mut(count)? = mask;
            count += 1;
        }
        masks[..count].sort_unstable();
        Some((masks, count))
    }

    /// Puts an action into every mask.
    pub fn require(&mut self, action: u32) {
        if self.words.is_empty() {
            let (few, count) = (self.few, std::mem::take(&mut self.count));
            few[..count].iter().for_each(|mask| self.insert(mask | 1 << action));
        } else if let Some(having) = HAVING.get(action as usize) {
            for word in &mut self.words {
                *word = *word & having | (*word & !having) << (1 << action);
            }
        } else {
            let half = 1 << (action - 6);
            for both in self.words.chunks_exact_mut(2 * half) {
                let (without, with) = both.split_at_mut(half);
                with.iter_mut().zip(&*without).for_each(|(with, without)| *with |= without);
                without.fill(0);
            }
        }
    }

    /// Adds the masks of another family.
    pub fn unite(&mut self, other: &Family) {
        if other.words.is_empty() {
            other.masks().for_each(|mask| self.insert(mask));
        } else {
            self.spread();
            self.words.iter_mut().zip(&other.words).for_each(|(word, more)| *word |= more);
        }
    }

    /// The unions of a mask of the one and a mask of the other, pair by pair.
    pub fn paired(&self, other: &Family) -> Family {
        Family::among(self.masks().flat_map(|mask| other.masks().map(move |more| mask | more)))
    }

    /// The same, by counting.
    pub fn counted(&self, other: &Family, counts: &mut Counts) -> Family {
        let (mut ours, mut theirs) = (self.clone(), other.clone());
        ours.spread();
        theirs.spread();
        Family { few: [0; FEW], count: 0, words: counts.joined(&ours.words, &theirs.words) }
    }

    /// Whether both are seen to have the same masks; not if only one is a list.
    pub fn equals(&self, other: &Family) -> bool {
        let theirs = &other.few[..other.count];
        match (self.words.is_empty(), other.words.is_empty()) {
            (true, true) => self.count == other.count && self.masks().all(|mask| theirs.contains(&mask)),
            (false, false) => self.words == other.words,
            _ => false,
        }
    }
}

/// Memory for joining by counting.
pub struct Counts {
    ours: Vec<u16>,
    theirs: Vec<u16>,
    pairs: Vec<u32>,
}

impl Counts {
    /// None yet.
    pub fn nothing() -> Counts {
        Counts { ours: Vec::new(), theirs: Vec::new(), pairs: Vec::new() }
    }

    /// For each mask it is counted how many masks of either family lie within it. The product is the number of pairs
    /// whose union lies within it, of which are taken away, action by action, those whose union lacks the action. No
    /// count is above 2 to the power of 28.
    fn joined(&mut self, ours: &[u64], theirs: &[u64]) -> Vec<u64> {
        within(ours, &mut self.ours);
        within(theirs, &mut self.theirs);
        self.pairs.clear();
        self.pairs.extend(self.ours.iter().zip(&self.theirs).map(|(one, other)| u32::from(*one) * u32::from(*other)));
        each_action(&mut self.pairs, 2, |with, without| *with = with.wrapping_sub(without));
        self.pairs
            .chunks_exact(64)
            .map(|counts| counts.chunks_exact(4).rev().fold(0, |word, four| word << 4 | left(four)))
            .collect()
    }
}

/// The last two actions: which of the masks without them, with the one, with the other and with both are left.
#[inline]
fn left(counts: &[u32]) -> u64 {
    let [neither, one, other, both] = [counts[0], counts[1], counts[2], counts[3]];
    let left = [neither != 0, one != neither, other != neither, both.wrapping_add(neither) != one.wrapping_add(other)];
    left.iter().rev().fold(0, |bits, bit| bits << 1 | u64::from(*bit))
}

/// How many masks lie within each of three actions, for every family of such masks.
const WITHIN: [[u16; 8]; 256] = {
    let mut table = [[0; 8]; 256];
    let mut at = 0;
    while at < 256 * 64 {
        let (family, mask, part) = (at / 64, at / 8 % 8, at % 8);
        if part & mask == part && family >> part & 1 != 0 {
            table[family][mask] += 1;
        }
        at += 1;
    }
    table
};

/// How many masks lie within each.
fn within(words: &[u64], counts: &mut Vec<u16>) {
    counts.clear();
    for word in words {
        word.to_le_bytes().iter().for_each(|family| counts.extend_from_slice(&WITHIN[usize::from(*family)]));
    }
    each_action(counts, 3, |with, without| *with += without);
}

/// Changes, for each action from this one on, the count of every mask with it by the count of the mask without it.
#[inline]
fn each_action<C: Copy>(counts: &mut [C], first: usize, change: impl Fn(&mut C, C) + Copy) {
    if first <= 2 {
        one_action(counts, 4, change);
    }
    // Apart, so that each has a loop of known length.
    one_action(counts, 8, change);
    one_action(counts, 16, change);
    one_action(counts, 32, change);
    for action in 6..ACTION_COUNT {
        one_action(counts, 1 << action, change);
    }
}

#[inline(always)]
fn one_action<C: Copy>(counts: &mut [C], half: usize, change: impl Fn(&mut C, C)) {
    for both in counts.chunks_exact_mut(2 * half) {
        let (without, with) = both.split_at_mut(half);
        with.iter_mut().zip(&*without).for_each(|(with, without)| change(with, *without));
    }
}
