//! Rows left untidy: masks out of order, masks with forbidden bits, or both; and which of the two came first in a row
//! that was refused for its bits.

use crate::call::Call;
use crate::chance::Chance;
use crate::contract::{forbidden, ones, Contract, MOST_READY};
use crate::loose::masks_at;
use crate::target::Figures;

/// The sheet of a contract with one or two states left untidy.
pub fn untidy(chance: &mut Chance, contract: &Contract) -> Vec<u8> {
    let mut contract = contract.clone();
    for _ in 0..chance.between(1, 2) {
        let state = chance.below(contract.states.len());
        contract.states[state].ready = masks(chance, forbidden(contract.n, contract.role));
    }
    contract.sheet()
}

/// Up to eight masks, of which some change places or stand for another, and some, rather later ones, have a bit too
/// many.
fn masks(chance: &mut Chance, forbidden: u16) -> Vec<u16> {
    let count = chance.between(2, MOST_READY);
    let mut masks: Vec<u16> = (0..count).map(|_| chance.number() as u16 & !forbidden).collect();
    masks.sort_unstable();
    masks.dedup();
    for _ in 0..chance.pick(&[0, 1, 1, 2]) {
        let (at, other) = (chance.below(masks.len()), chance.below(masks.len()));
        match chance.below(3) {
            0 => masks[at] = masks[other],
            1 if masks.len() < MOST_READY => masks.insert(at, masks[other]),
            _ => masks.swap(at, other),
        }
    }
    let bits: Vec<usize> = ones(forbidden).collect();
    for _ in 0..chance.pick(&[0, 1, 1, 2]) {
        let at = chance.below(masks.len()).max(chance.below(masks.len()));
        masks[at] |= 1 << chance.pick(&bits);
    }
    masks
}

/// Whether a row was refused for a bit too many though the first of its masks at fault is out of order: such an answer
/// was 5 before request 2/13 of document 02.
pub fn out_of_order_first(call: &Call, figures: &Figures) -> bool {
    let Some(sheet) = call.sheet(figures[1]).filter(|_| figures[0] == 6) else {
        return false;
    };
    let (n, role) = (sheet[sheet.len() - 3], sheet[sheet.len() - 2]);
    let masks = masks_at(sheet, figures[2] as usize).unwrap_or_default();
    let fallen = (1..masks.len()).find(|place| masks[*place] <= masks[place - 1]);
    let noisy = masks.iter().position(|mask| mask & forbidden(n, role) != 0);
    fallen.is_some_and(|fallen| noisy.is_some_and(|noisy| fallen <= noisy))
}

#[cfg(test)]
mod tests {
    use super::*;
    use crate::call::Complies;
    use crate::contract::{Shape, CLIENT, SERVICE};
    use crate::target::padded;

    fn checked(client: Vec<u8>) -> (Call, Figures) {
        let (refusal, _) = baseline::complies(&client, &[]);
        let call = Call::Complies(Complies { client, ..Complies::default() });
        (call, padded([refusal.number.into(), refusal.sheet.into(), refusal.state.into()]))
    }

    #[test]
    fn the_first_mask_at_fault() {
        let end = [1, 0, 0].as_slice();
        for (masks, first) in [
            ([2, 0, 1, 0, 0, 0x80], true),
            ([0x80, 0, 4, 0, 0, 1], true),
            ([1, 0, 4, 0, 2, 0], false),
            ([1, 0, 2, 0, 2, 0x80], false),
            ([2, 0, 1, 0, 3, 0], false),
        ] {
            let sheet = [end, &[3], &masks, &[0, 0, 3, 0], &[10, 0, 2, 2, 0, 0xC5]].concat();
            let (call, figures) = checked(sheet);
            assert_eq!(out_of_order_first(&call, &figures), first, "{masks:?}");
        }
    }

    #[test]
    fn both_faults_are_met_often() {
        let mut chance = Chance::new(3);
        let (mut order, mut bits, mut both) = (0, 0, 0);
        for round in 0..1000 {
            let contract = Shape::small(&mut chance).contract(&mut chance, [SERVICE, CLIENT][round % 2]);
            let (call, figures) = checked(untidy(&mut chance, &contract));
            order += usize::from(figures[0] == 5);
            bits += usize::from(figures[0] == 6);
            both += usize::from(out_of_order_first(&call, &figures));
        }
        assert!(order > 100 && both > 100 && bits - both > 100, "{order}, {bits}, {both}");
    }
}
