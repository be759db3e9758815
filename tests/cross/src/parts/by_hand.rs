//! The check of plans from any hand: emitted ones and edits of them, with enough records, exactly enough and fewer;
//! damaged ones, and damaged sheets; as many pairs as there may be, and more.

use super::{single::each_change, Share};
use crate::call::{Call, CheckPlan, Connect};
use crate::chance::Chance;
use crate::contract::{client_of, everything, Contract, Shape, State, SERVICE};
use crate::edit;
use crate::plan::{codes, Plan};
use crate::runner::{Checked, Runner};
use crate::target::MOST_RECORDS;
use crate::untidy::untidy;
use baseline::{LONGEST_PLAN, MOST_SITUATIONS};

/// Two contracts and the plan that connects them, of at most so many bytes.
fn system(runner: &mut Runner, chance: &mut Chance, most: usize) -> Checked<(Contract, Contract, Plan)> {
    loop {
        let (old, new) = Shape::small(chance).pair(chance);
        let k = chance.below(4) as u8;
        let call = Connect::new(chance, k, old.sheet(), new.sheet(), 64, 1024);
        match runner.plan(&Call::Connect(call))? {
            Some(plan) if (20..=most).contains(&plan.len()) => return Ok((old, new, Plan::read(&plan))),
            _ => {}
        }
    }
}

fn check(
    runner: &mut Runner,
    chance: &mut Chance,
    sheets: (&[u8], &[u8]),
    plan: Vec<u8>,
    records: usize,
) -> Checked<u32> {
    let call = CheckPlan::new(chance, sheets.0.to_vec(), sheets.1.to_vec(), plan, records);
    Ok(runner.check(&Call::CheckPlan(call))?[0])
}

pub fn edited(runner: &mut Runner, chance: &mut Chance, share: Share) -> Checked {
    for _ in 0..share.of(60_000) {
        let (old, new, plan) = system(runner, chance, 1024)?;
        let (old, new) = (old.sheet(), new.sheet());
        let sheets = (&old[..], &new[..]);
        let states = plan.rows.len();
        check(runner, chance, sheets, plan.bytes(), states)?;
        check(runner, chance, sheets, plan.bytes(), states - 1)?;
        let mut grown = plan.clone();
        for _ in 0..5 {
            let other = plan.clone().edited(chance);
            let near = (states + 3).saturating_sub(chance.below(6));
            check(runner, chance, sheets, other.bytes(), near)?;
            check(runner, chance, sheets, other.bytes(), 64)?;
            let more = grown.clone().edited(chance);
            if check(runner, chance, sheets, more.bytes(), 100)? == 0 {
                grown = more;
            }
        }
        let random = Plan::random(chance, plan.n);
        let records = chance.pick(&[0, 1, 3, 10, 64]);
        check(runner, chance, sheets, random.bytes(), records)?;
        let names = chance.below(8) as u8;
        let renamed = Plan { n: names, ..random };
        check(runner, chance, sheets, renamed.bytes(), records)?;
    }
    Ok(())
}

pub fn damaged(runner: &mut Runner, chance: &mut Chance, share: Share) -> Checked {
    for _ in 0..share.of(40_000) {
        let (old, new, plan) = system(runner, chance, 600)?;
        let plan = plan.edited(chance).bytes();
        let records = chance.pick(&[0, 2, 16, 64]);
        let wrong = if chance.one_in(4) { client_of(chance, &old).sheet() } else { untidy(chance, &old) };
        let (old, new) = (old.sheet(), new.sheet());
        let (first, second, third) =
            (edit::edited(chance, &old), edit::edited(chance, &new), edit::edited(chance, &plan));
        for (old, new, plan) in [
            (&first, &new, &plan),
            (&old, &second, &plan),
            (&old, &new, &third),
            (&first, &second, &third),
            (&wrong, &new, &third),
            (&old, &wrong, &plan),
        ] {
            check(runner, chance, (old, new), plan.clone(), records)?;
        }
        let noise = chance.below(60);
        let noise = chance.bytes(noise);
        check(runner, chance, (&old, &new), noise, records)?;
    }
    Ok(())
}

pub fn single(runner: &mut Runner, chance: &mut Chance, share: Share) -> Checked {
    for _ in 0..share.of(40) {
        let (old, new, plan) = system(runner, chance, 160)?;
        let plan = if chance.one_in(2) { plan } else { plan.edited(chance) };
        let call = CheckPlan::new(chance, old.sheet(), new.sheet(), plan.bytes(), 24);
        each_change(runner, &call.plan, |plan| Call::CheckPlan(CheckPlan { plan, ..call.clone() }))?;
        if chance.one_in(4) {
            each_change(runner, &call.old, |old| Call::CheckPlan(CheckPlan { old, ..call.clone() }))?;
            each_change(runner, &call.new, |new| Call::CheckPlan(CheckPlan { new, ..call.clone() }))?;
        }
    }
    Ok(())
}

/// Contracts of so many states of which every one meets every other, by a and b.
fn wheels(states: u8) -> (Contract, Contract) {
    let wheel = |leads: usize| {
        let rows = (0..states).map(|at| {
            let after = std::array::from_fn(|action| if action == leads { (at + 1) % states } else { at });
            State { ready: vec![3], after }
        });
        Contract { n: 2, role: SERVICE, states: rows.collect() }
    };
    (wheel(0), wheel(1))
}

pub fn many(runner: &mut Runner, chance: &mut Chance, share: Share) -> Checked {
    let round = |to: u16| vec![(0, to), (1, to)];
    for states in [1, 2, 8, 63, 64] {
        let (old, new) = wheels(states);
        let pairs = usize::from(states) * usize::from(states);
        for rows in [vec![round(0)], vec![round(1), round(1)], vec![vec![(0, 1), (1, 1), (32, 1)], round(1)]] {
            let all = pairs + rows.len() - 1;
            let plan = Plan { n: 2, k: 0, rows }.bytes();
            for records in [0, 1, all - 1, all, all + 1, MOST_SITUATIONS, MOST_RECORDS] {
                check(runner, chance, (&old.sheet(), &new.sheet()), plan.clone(), records.min(MOST_RECORDS))?;
            }
        }
    }
    for (n, k) in [(0, 0), (1, 3), (2, 3), (3, 3), (4, 1), (5, 1), (6, 1), (7, 1)] {
        let sheet = everything(n).sheet();
        let row = codes(n).into_iter().map(|code| (code, 0)).collect();
        let plan = Plan { n, k, rows: vec![row] }.bytes();
        for records in [0, 1, 255, 4095, MOST_SITUATIONS, MOST_RECORDS] {
            check(runner, chance, (&sheet, &sheet), plan.clone(), records)?;
        }
    }
    for _ in 0..share.of(3_000) {
        let shape = if chance.one_in(2) { Shape::large(chance) } else { Shape::medium(chance) };
        let (old, new) = shape.pair(chance);
        let (k, old, new) = (chance.below(4) as u8, old.sheet(), new.sheet());
        let call = Connect::new(chance, k, old.clone(), new.clone(), MOST_RECORDS, LONGEST_PLAN);
        let Some(plan) = runner.plan(&Call::Connect(call))? else {
            continue;
        };
        let plan = Plan::read(&plan);
        let states = plan.rows.len();
        check(runner, chance, (&old, &new), plan.bytes(), states)?;
        check(runner, chance, (&old, &new), plan.bytes(), states - 1)?;
        for _ in 0..4 {
            let other = plan.clone().edited(chance).bytes();
            let records = chance.pick(&[states, states + 1, 2 * states, MOST_SITUATIONS, MOST_RECORDS]);
            check(runner, chance, (&old, &new), other, records.min(MOST_RECORDS))?;
        }
    }
    Ok(())
}

/// Lengths of sheets and of plans.
const SHEETS: [usize; 10] = [0, 1, 5, 6, 11, 2117, 2118, 2119, 65_536, 131_080];
const PLANS: [usize; 12] = [0, 7, 8, 12, 13, 65_535, 65_544, 536_583, 536_584, 536_585, 600_000, 1_048_576];

/// Slices without bytes in every place, as pointers and as null; bytes of all lengths.
pub fn lengths(runner: &mut Runner, chance: &mut Chance, share: Share) -> Checked {
    let sheet = everything(1).sheet();
    let whole = Plan { n: 1, k: 0, rows: vec![vec![(0, 0), (7, 0)]] }.bytes();
    for choice in 0..32 {
        let chosen = |bit: usize, bytes: &[u8]| if choice >> bit & 1 == 1 { bytes.to_vec() } else { Vec::new() };
        let (records, null) = (choice >> 4 & 1, choice >> 3 & 1 == 1);
        for mode in [0, 1, 255] {
            let (old, new, plan) = (chosen(0, &sheet), chosen(1, &sheet), chosen(2, &whole));
            runner.check(&Call::CheckPlan(CheckPlan { mode, old, new, plan, records, null, small: !null }))?;
        }
    }
    for _ in 0..share.of(20) {
        for length in SHEETS {
            let bytes = chance.bytes(length);
            for (old, new) in [(&bytes, &sheet), (&sheet, &bytes)] {
                check(runner, chance, (old, new), whole.clone(), 2)?;
            }
        }
        for length in PLANS.into_iter().chain(14..80) {
            let mut plan = if chance.one_in(2) { vec![0; length] } else { chance.bytes(length) };
            if length >= 8 {
                let count = chance.pick(&[1, 2, 4095, 4096, 4097u16]);
                let offset = length.wrapping_sub(8 + 4 * usize::from(count)) as u32;
                plan[length - 8..length - 4].copy_from_slice(&offset.to_le_bytes());
                plan[length - 4..length - 2].copy_from_slice(&count.to_le_bytes());
                plan[length - 2..].copy_from_slice(&[chance.below(3) as u8, chance.below(5) as u8]);
            }
            check(runner, chance, (&sheet, &sheet), plan, 2)?;
        }
    }
    for (count, moves) in [(1, 6), (4095, 0), (4096, 0), (4097, 0), (4096, 2), (4097, 2), (4096, 42)] {
        let row: Vec<_> = codes(7).into_iter().take(moves).map(|code| (code, 0)).collect();
        let n = if moves == 42 { 7 } else { 1 };
        let row = if moves == 2 { vec![(0, 0), (7, 0)] } else { row };
        let plan = Plan { n, k: 1, rows: vec![row; count] }.bytes();
        for sheet in [everything(1).sheet(), everything(7).sheet()] {
            check(runner, chance, (&sheet, &sheet), plan.clone(), MOST_RECORDS)?;
        }
    }
    Ok(())
}
