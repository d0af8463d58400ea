//! Times taken in turns. What else the machine does in a round falls on all that is measured in it, so figures are formed within a round,
//! and the median over many rounds leaves out those in which it fell on one alone.

use crate::lists::Workload;
use compare::Service;
use reference::generate::Rows;
use std::hint::black_box;
use std::time::{Duration, Instant};

/// How many rounds there are, and how long each thing is run in one at least.
const ROUNDS: usize = 101;
const LEAST: Duration = Duration::from_millis(1);

/// What is measured, and how often it is done in one round.
pub struct Job<'a> {
    once: Box<dyn FnMut() + 'a>,
    pub times: u32,
}

impl<'a> Job<'a> {
    /// The job that is done as often as takes the least time.
    pub fn new(once: impl FnMut() + 'a) -> Job<'a> {
        let mut job = Job { once: Box::new(once), times: 1 };
        // Three times, as a pause of the machine would pass for work.
        while (0..3).any(|_| job.time() * f64::from(job.times) < LEAST.as_nanos() as f64) {
            job.times *= 2;
        }
        job
    }

    /// A call of a service on a list.
    pub fn of<S: Service>(call: &str, work: &'a Workload) -> Job<'a> {
        let Workload { list, rows, inputs, table, .. } = work;
        let (mut made, mut buffer) = (table.clone(), vec![0; list.len()]);
        match call {
            "read" => Job::new(|| _ = black_box(S::read(black_box(list), black_box(&mut [0; 4])))),
            "check" => Job::new(|| _ = black_box(S::check(black_box(list), black_box(table)))),
            "write" => Job::new(move || {
                let Rows { words, counts, numbers } = black_box(rows);
                _ = black_box(S::write(words, counts, numbers, &mut buffer))
            }),
            _ => Job::new(move || {
                _ = black_box(S::make(black_box(list), black_box(inputs), &mut made))
            }),
        }
    }

    /// Nanoseconds of doing it once.
    pub fn time(&mut self) -> f64 {
        let begin = Instant::now();
        for _ in 0..self.times {
            (self.once)();
        }
        begin.elapsed().as_secs_f64() * 1e9 / f64::from(self.times)
    }
}

/// The nanoseconds of each job, round by round.
pub struct Rounds(Vec<Vec<f64>>);

impl Rounds {
    /// Measures the jobs in turns.
    pub fn of(mut jobs: Vec<Job>) -> Rounds {
        Rounds((0..ROUNDS).map(|_| jobs.iter_mut().map(Job::time).collect()).collect())
    }

    /// The median of a figure that is formed within each round.
    pub fn median(&self, figure: impl Fn(&[f64]) -> f64) -> f64 {
        let mut figures: Vec<f64> = self.0.iter().map(|ns| figure(ns)).collect();
        figures.sort_by(f64::total_cmp);
        figures[figures.len() / 2]
    }
}
