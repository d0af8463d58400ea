//! What a byte of text, a digit and a cell cost, each beside a floor: a plain pass over the same bytes, digits or cells that looks at
//! each of them once and keeps to none of the service's other rules.
//!
//! A floor takes one after the other, as the service has to: in each loop a turn may leave it or needs the turn before, so that the
//! compiler does not vectorise it. None is put in line where it is called, where it could be worked out once for all times.

use crate::lists::{
    few_and_many_digits, longest_of_spans, longest_of_sums, Spans, Workload, PRIMES,
};
use crate::turns::{Job, Rounds};
use compare::{Proved, Reference};
use std::hint::black_box;

/// The sum of the numbers between separators.
#[inline(never)]
fn scan(text: &[u8]) -> u64 {
    let (mut number, mut sum) = (0u64, 0u64);
    for &byte in text {
        match byte {
            b'0'..=b'9' => number = number.wrapping_mul(10).wrapping_add(u64::from(byte - b'0')),
            b'\t' | b'\n' => {
                sum = sum.wrapping_add(number);
                number = 0;
            }
            _ => {}
        }
    }
    sum
}

/// Whether each group has digits below the base alone, and they make up the whole number.
#[inline(never)]
fn groups_hold(cells: &[u32], count: usize, base: u64, whole: u64) -> bool {
    for group in cells.chunks_exact(count) {
        let (mut sum, mut weight) = (0, 1);
        for &digit in group {
            let digit = u64::from(digit);
            if digit >= base {
                return false;
            }
            sum += digit * weight;
            weight *= base;
        }
        if sum != whole {
            return false;
        }
    }
    true
}

/// Whether each cell is below p.
#[inline(never)]
fn all_below(cells: &[u32], p: u32) -> bool {
    for &cell in cells {
        if cell >= p {
            return false;
        }
    }
    true
}

fn scan_job(work: &Workload) -> Job<'_> {
    Job::new(|| _ = black_box(scan(black_box(&work.list))))
}

fn groups_job(spans: &Spans) -> Job<'_> {
    let Spans { digits, work } = spans;
    // The first cell is the value's; the groups follow.
    let hold = || {
        let whole = black_box(work.inputs[0] as u64);
        groups_hold(black_box(&work.table[1..]), black_box(*digits), black_box(2), whole)
    };
    assert!(hold());
    Job::new(move || _ = black_box(hold()))
}

fn cells_job(work: &Workload, p: i64) -> Job<'_> {
    let below = move || all_below(black_box(&work.table), black_box(p as u32));
    assert!(below());
    Job::new(move || _ = black_box(below()))
}

/// Prints one line: the figures of the service, the reference and the floor, formed of the times within a round.
fn line(what: &str, p: i64, jobs: Vec<Job>, figures: impl Fn(&[f64]) -> [f64; 3]) {
    let rounds = Rounds::of(jobs);
    let [proved, reference, floor] = [0, 1, 2].map(|side| rounds.median(|ns| figures(ns)[side]));
    let times = rounds.median(|ns| figures(ns)[0] / figures(ns)[2]);
    println!("| {what} | {p} | {proved:.2} | {reference:.2} | {floor:.2} | {times:.1} |");
}

/// `read` on a long text.
fn of_byte(name: &str, p: i64, work: &Workload) {
    let jobs =
        vec![Job::of::<Proved>("read", work), Job::of::<Reference>("read", work), scan_job(work)];
    let bytes = work.list.len() as f64;
    line(&format!("a byte, `read` of a {name}"), p, jobs, |ns| {
        [ns[0], ns[1], ns[2]].map(|ns| ns / bytes)
    });
}

/// What a list of as many spans takes more when they have more digits.
fn of_digit(call: &str, p: i64, few: &Spans, many: &Spans) {
    let jobs = vec![
        Job::of::<Proved>(call, &few.work),
        Job::of::<Proved>(call, &many.work),
        Job::of::<Reference>(call, &few.work),
        Job::of::<Reference>(call, &many.work),
        groups_job(few),
        groups_job(many),
    ];
    let more = (many.work.table.len() - few.work.table.len()) as f64;
    line(&format!("a digit, `{call}`, from {} to {}", few.digits, many.digits), p, jobs, |ns| {
        [ns[1] - ns[0], ns[3] - ns[2], ns[5] - ns[4]].map(|ns| ns / more)
    });
}

/// What `check` takes more than `read`.
fn of_cell(p: i64, work: &Workload) {
    let jobs = vec![
        Job::of::<Proved>("read", work),
        Job::of::<Proved>("check", work),
        Job::of::<Reference>("read", work),
        Job::of::<Reference>("check", work),
        cells_job(work, p),
    ];
    let cells = work.table.len() as f64;
    line("a cell, `check` less `read` of spans", p, jobs, |ns| {
        [ns[1] - ns[0], ns[3] - ns[2], ns[4]].map(|ns| ns / cells)
    });
}

pub fn report() {
    println!("| what | p | proved, ns | reference, ns | floor, ns | times the floor |");
    println!("|---|---|---|---|---|---|");
    for p in PRIMES {
        of_byte("text of sums", p, &longest_of_sums(p));
        of_byte("text of spans", p, &longest_of_spans(p));
        let [few, many] = few_and_many_digits(p);
        of_digit("check", p, &few, &many);
        of_digit("make", p, &few, &many);
        of_cell(p, &many.work);
    }
}
