//! Columns of inputs: such as make most statements true, and such as are refused.

use super::lists::{m, near};
use super::Dice;
use crate::ends::Ends;
use crate::line::Line;
use crate::plan::Plan;
use crate::work::work;

/// The known ends of each input after the whole list: outside them some span is false.
fn input_ends(plan: &Plan) -> Vec<Ends> {
    let makers = plan.steps.iter().filter(|step| step.line.makes_value());
    makers
        .zip(&plan.ends)
        .filter(|(step, _)| step.line == Line::In)
        .map(|(_, ends)| *ends)
        .collect()
}

/// The inputs nearest to 0 within the known ends.
pub fn nearest_to_zero(plan: &Plan) -> Vec<i64> {
    input_ends(plan).iter().map(|ends| 0.clamp(ends.low, ends.high)).collect()
}

/// A column that the list can be worked with, where a few tries find one.
pub fn column(dice: &mut Dice, plan: &Plan) -> Vec<i64> {
    let ends = input_ends(plan);
    let mut inputs = nearest_to_zero(plan);
    for _ in 0..12 {
        let style = dice.below(5);
        let centre = near(dice, 0, m(plan));
        inputs = ends.iter().map(|&ends| input(dice, ends, style, centre)).collect();
        if work(plan, &inputs).is_ok() {
            return inputs;
        }
    }
    let zeros = nearest_to_zero(plan);
    if work(plan, &zeros).is_ok() {
        zeros
    } else {
        inputs
    }
}

/// One input within its known ends.
fn input(dice: &mut Dice, ends: Ends, style: u64, centre: i64) -> i64 {
    let within = |input: i64| input.clamp(ends.low, ends.high);
    match style {
        0 => dice.range(ends.low, ends.high),
        1 => within(dice.range(-3, 3)),
        2 => dice.pick(&[ends.low, ends.high]),
        3 => within(centre + dice.range(-4, 4)),
        _ => within(centre),
    }
}

/// The column as it is, mostly; else with a wrong input or with a wrong count.
pub fn spoilt(dice: &mut Dice, plan: &Plan, mut inputs: Vec<i64>) -> Vec<i64> {
    match dice.below(16) {
        0 => {
            inputs.pop();
        }
        1 => inputs.push(0),
        2 => inputs.iter_mut().for_each(|input| *input = dice.draw() as i64),
        3 => inputs.iter_mut().for_each(|input| *input = dice.range(-m(plan), m(plan))),
        4..=7 if !inputs.is_empty() => {
            let place = dice.below(inputs.len() as u64) as usize;
            inputs[place] = edge(dice, m(plan));
        }
        _ => {}
    }
    inputs
}

/// An input at the edge of what is allowed, or far off.
fn edge(dice: &mut Dice, m: i64) -> i64 {
    let edges = [
        -m,
        m,
        -m - 1,
        m + 1,
        2 * m + 1,
        -2 * m - 1,
        i64::MIN,
        i64::MAX,
        i64::MIN + 1,
        1 << 32,
        -(1 << 32),
        2_147_483_647,
        -2_147_483_648,
    ];
    dice.pick(&edges)
}
