//! Contracts, written as sheets (document 01, "Contracts as sheets"): random ones, ones that resemble another,
//! and clients made for a service.

use crate::chance::Chance;

pub const SERVICE: u8 = 0;
pub const CLIENT: u8 = 1;

pub const MOST_NAMES: u8 = 7;
pub const MOST_READY: usize = 8;
pub const MOST_STATES: usize = 64;

const SUCCESS: u16 = 1 << 14;
const ACTIONS: u16 = SUCCESS - 1;
const CLOSING: u8 = 0xC5;

/// Ready sets, ascending, and where each action leads; successors of what is not offered mean nothing.
#[derive(Clone, Debug)]
pub struct State {
    pub ready: Vec<u16>,
    pub after: [u8; 14],
}

#[derive(Clone, Debug)]
pub struct Contract {
    pub n: u8,
    pub role: u8,
    pub states: Vec<State>,
}

impl State {
    fn of(mut ready: Vec<u16>, after: [u8; 14]) -> State {
        ready.sort_unstable();
        ready.dedup();
        State { ready, after }
    }

    pub fn offered(&self) -> u16 {
        self.ready.iter().fold(0, |all, ready| all | ready) & ACTIONS
    }
}

/// The places of the ones of a mask.
pub fn ones(mask: u16) -> impl Iterator<Item = usize> {
    (0..16).filter(move |place| mask >> place & 1 == 1)
}

/// The mask of all actions over n names.
pub fn every_action(n: u8) -> u16 {
    let names = (1 << n) - 1;
    names | names << 7
}

/// The bits that no ready set over n names may have in a role.
pub fn forbidden(n: u8, role: u8) -> u16 {
    !(every_action(n) | if role == CLIENT { SUCCESS } else { 0 })
}

impl Contract {
    pub fn sheet(&self) -> Vec<u8> {
        let (mut rows, mut index) = (Vec::new(), Vec::new());
        for state in &self.states {
            index.extend((rows.len() as u16).to_le_bytes());
            rows.push(state.ready.len() as u8);
            rows.extend(state.ready.iter().flat_map(|ready| ready.to_le_bytes()));
            rows.extend(ones(state.offered()).map(|action| state.after[action]));
        }
        let offset = rows.len() as u16;
        rows.extend(index);
        rows.extend(trailer(offset, self.states.len() as u8, self.n, self.role));
        rows
    }
}

pub fn trailer(offset: u16, count: u8, n: u8, role: u8) -> [u8; 6] {
    let [low, high] = offset.to_le_bytes();
    [low, high, count, n, role, CLOSING]
}

/// How large a random contract gets: at most so many states, ready sets in a state, and actions in a ready set.
#[derive(Clone, Copy, Debug)]
pub struct Shape {
    pub n: u8,
    pub states: usize,
    pub ready: usize,
    pub actions: usize,
}

impl Shape {
    pub fn small(chance: &mut Chance) -> Shape {
        let n = chance.pick(&[0, 1, 1, 2, 2, 2, 3, 3, 7]);
        Shape { n, states: chance.between(1, 5), ready: chance.between(1, 3), actions: chance.between(1, 3) }
    }

    pub fn medium(chance: &mut Chance) -> Shape {
        let n = chance.between(1, 4) as u8;
        Shape { n, states: chance.between(3, 12), ready: chance.between(1, 4), actions: chance.between(1, 4) }
    }

    pub fn large(chance: &mut Chance) -> Shape {
        let n = chance.between(2, 7) as u8;
        Shape {
            n,
            states: chance.between(8, MOST_STATES),
            ready: chance.between(1, MOST_READY),
            actions: chance.between(1, 6),
        }
    }

    fn mask(&self, chance: &mut Chance) -> u16 {
        let usable: Vec<usize> = ones(every_action(self.n)).collect();
        if usable.is_empty() {
            return 0;
        }
        (0..chance.between(1, self.actions)).fold(0, |mask, _| mask | 1 << chance.pick(&usable))
    }

    fn ready(&self, chance: &mut Chance, role: u8) -> Vec<u16> {
        if chance.one_in(5) {
            let succeeds = role == CLIENT && !chance.one_in(4);
            return vec![if succeeds { SUCCESS } else { 0 }];
        }
        // Beside other ready sets, one in four is empty.
        let actions = |chance: &mut Chance, place| if place > 0 && chance.one_in(4) { 0 } else { self.mask(chance) };
        let mark = |chance: &mut Chance| if role == CLIENT && chance.one_in(6) { SUCCESS } else { 0 };
        (0..chance.between(1, self.ready)).map(|place| actions(chance, place) | mark(chance)).collect()
    }

    pub fn contract(&self, chance: &mut Chance, role: u8) -> Contract {
        let count = chance.between(1, self.states);
        let states = (0..count).map(|_| State::of(self.ready(chance, role), successors(chance, count))).collect();
        Contract { n: self.n, role, states }
    }

    /// A contract with one to three states changed. Most such pairs connect at some rank, or fail late.
    pub fn resembling(&self, chance: &mut Chance, contract: &Contract) -> Contract {
        let mut changed = contract.clone();
        let count = changed.states.len();
        for _ in 0..chance.between(1, 3) {
            let state = &mut changed.states[chance.below(count)];
            let (mut ready, mut after) = (state.ready.clone(), state.after);
            match chance.below(3) {
                0 if ready.len() > 1 => drop(ready.remove(chance.below(ready.len()))),
                1 if ready.len() < MOST_READY => ready.push(chance.pick(&ready) | self.mask(chance)),
                _ => after[chance.below(14)] = chance.below(count) as u8,
            }
            *state = State::of(ready, after);
        }
        changed
    }

    /// Two services over the same names, for two in three alike.
    pub fn pair(&self, chance: &mut Chance) -> (Contract, Contract) {
        let old = self.contract(chance, SERVICE);
        let new = if chance.one_in(3) { self.contract(chance, SERVICE) } else { self.resembling(chance, &old) };
        (old, new)
    }
}

/// Two services over the same names, with few first moves: the old one may end behind them, the new one takes less.
pub fn ending_pair(chance: &mut Chance) -> (Contract, Contract) {
    let shape = Shape { n: chance.between(1, 3) as u8, states: chance.between(2, 4), ready: 2, actions: 2 };
    let (mut old, mut new) = shape.pair(chance);
    for state in &mut old.states[1..] {
        let also: &[u16] = if chance.one_in(3) { &[] } else { &[0] };
        *state = State::of([&state.ready, also].concat(), state.after);
    }
    for state in &mut new.states {
        let less = if chance.one_in(3) { 1 << chance.below(shape.n.into()) } else { 0 };
        *state = State::of(state.ready.iter().map(|ready| ready & !less).collect(), state.after);
    }
    (old, new)
}

fn successors(chance: &mut Chance, count: usize) -> [u8; 14] {
    std::array::from_fn(|_| chance.below(count) as u8)
}

/// A client that takes what the service sends and the other way round; its ends are successful.
pub fn client_of(chance: &mut Chance, service: &Contract) -> Contract {
    let turned = |mask: u16| (mask << 7 | mask >> 7) & ACTIONS;
    let marked = |mask: u16| if mask == 0 { SUCCESS } else { mask };
    let states = service.states.iter().map(|state| {
        let every = vec![marked(turned(state.offered()))];
        let each = state.ready.iter().map(|ready| marked(turned(*ready))).collect();
        let after = std::array::from_fn(|action| state.after[(action + 7) % 14]);
        State::of(if chance.one_in(3) { each } else { every }, after)
    });
    Contract { n: service.n, role: CLIENT, states: states.collect() }
}

/// A contract of one state, which offers every action over n names for ever: with another such, every buffer is
/// reached.
pub fn everything(n: u8) -> Contract {
    Contract { n, role: SERVICE, states: vec![State::of(vec![every_action(n)], [0; 14])] }
}

/// A cycle of so many states and one of one more. Only their last states together fail the test, and each round
/// removes the one situation before: as many rounds as situations.
pub fn ring(states: u8) -> (Contract, Contract) {
    let cycle = |count: u8, ready: &dyn Fn(bool) -> Vec<u16>| {
        let states = (0..count).map(|state| State::of(ready(state + 1 == count), [(state + 1) % count; 14]));
        Contract { n: 2, role: SERVICE, states: states.collect() }
    };
    let old = cycle(states, &|last| if last { vec![1] } else { vec![1, 2] });
    let new = cycle(states + 1, &|last| if last { vec![1, 2] } else { vec![1] });
    (old, new)
}

#[cfg(test)]
mod tests {
    use super::*;
    use baseline::{Mode, Workspace};

    #[test]
    fn m1_is_written_as_in_document_01() {
        let end = State::of(vec![0], [0; 14]);
        let new = Contract { n: 2, role: SERVICE, states: vec![State::of(vec![3], [1; 14]), end] };
        assert_eq!(new.sheet(), [1, 3, 0, 1, 1, 1, 0, 0, 0, 0, 5, 0, 8, 0, 2, 2, 0, 0xC5]);
    }

    #[test]
    fn a_ring_takes_as_many_rounds_as_it_has_situations() {
        let (old, new) = ring(15);
        let answer = Workspace::new(240).connect(Mode::Paper, 0, &old.sheet(), &new.sheet(), 240, &mut []);
        assert_eq!((answer.number, answer.situations, answer.rounds), (12, 240, 240));
    }
}
