//! Tables: the true one of a column, and ones that differ from it a little or a lot.

use super::Dice;
use crate::plan::Plan;
use crate::work::make;

/// The true table of a column, where no statement is false.
pub fn true_table(plan: &Plan, inputs: &[i64]) -> Option<Vec<u32>> {
    let mut table = vec![0; plan.cells];
    make(plan, inputs, &mut table).is_ok().then_some(table)
}

/// A table for a list: the true table of the column in some way changed, or not.
pub fn table(dice: &mut Dice, plan: &Plan, inputs: &[i64]) -> Vec<u32> {
    let mut table = match true_table(plan, inputs) {
        Some(table) => table,
        None => random_cells(dice, plan),
    };
    match dice.below(12) {
        0..=3 => {}
        4..=5 => change_cell(dice, plan, &mut table),
        6 => add_p(dice, plan, &mut table),
        7 => table = random_cells(dice, plan),
        8 => {
            change_cell(dice, plan, &mut table);
            change_cell(dice, plan, &mut table);
        }
        9 => {
            table.pop();
        }
        10 => table.push(0),
        _ => set_far(dice, plan, &mut table),
    }
    table
}

/// One cell gets another remainder, a close one mostly.
fn change_cell(dice: &mut Dice, plan: &Plan, table: &mut [u32]) {
    let p = plan.p;
    if let Some(cell) = some_cell(dice, table) {
        let any = dice.range(0, p - 1);
        let step = dice.pick(&[1, p - 1, 2, p - 2, any]);
        *cell = ((i64::from(*cell) + step) % p) as u32;
    }
}

/// One cell is increased by p, which leaves its remainder the same.
fn add_p(dice: &mut Dice, plan: &Plan, table: &mut [u32]) {
    if let Some(cell) = some_cell(dice, table) {
        *cell = cell.saturating_add(plan.p as u32);
    }
}

/// One cell is set to an edge of what a cell can hold.
fn set_far(dice: &mut Dice, plan: &Plan, table: &mut [u32]) {
    let p = plan.p as u32;
    let any = dice.draw() as u32;
    let far = dice.pick(&[p - 1, p, p + 1, u32::MAX, 1 << 31, any]);
    if let Some(cell) = some_cell(dice, table) {
        *cell = far;
    }
}

/// Remainders by chance, all small or of any size.
fn random_cells(dice: &mut Dice, plan: &Plan) -> Vec<u32> {
    let most = if dice.once_in(2) { plan.p } else { plan.p.min(3) };
    (0..plan.cells).map(|_| dice.below(most as u64) as u32).collect()
}

fn some_cell<'a>(dice: &mut Dice, table: &'a mut [u32]) -> Option<&'a mut u32> {
    let place = dice.below(table.len() as u64) as usize;
    table.get_mut(place)
}
