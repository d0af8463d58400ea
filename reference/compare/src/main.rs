//! `compare [COUNT | soak] [--seed N] [--program PATH]`: the cases built on purpose, those of the sources, lines written on purpose, some
//! large cases, COUNT cases by chance (200,000 if not said), every table of small lists, and runs of the built program. The cases are the
//! same in every run; `--seed` gives other ones by chance, and `soak` is 2,000,000 other ones.
//!
//! Its last line is 'compare: N cases, D differences'. It ends with status 1 if D is not 0, or if some refusal was never reached; with 2 if
//! it was asked wrongly or the program is not there.

use compare::{
    by_chance, every_small_table, large_cases, on_purpose, program_runs, runs_by_chance,
    runs_of_limits, runs_on_purpose, standard_path, writings_on_purpose, Program, Report, SEEDS,
};
use reference::generate::{directed, sources, writings, Directed};
use std::path::PathBuf;
use std::process::ExitCode;

const USAGE: &str = "usage: compare [COUNT | soak] [--seed N] [--program PATH]";
/// How many of the cases by chance the program is run on.
const RUNS_BY_CHANCE: u64 = 6_000;

/// What the words of the command ask for.
struct Asked {
    count: u64,
    /// Added to each seed.
    added: u64,
    program: PathBuf,
}

impl Asked {
    fn of(mut words: impl Iterator<Item = String>) -> Option<Asked> {
        let mut asked = Asked { count: 200_000, added: 0, program: standard_path() };
        while let Some(word) = words.next() {
            match word.as_str() {
                "soak" => (asked.count, asked.added) = (2_000_000, 1_000_000),
                "--seed" => asked.added = words.next()?.parse::<u32>().ok()?.into(),
                "--program" => asked.program = words.next()?.into(),
                count => asked.count = count.parse().ok()?,
            }
        }
        Some(asked)
    }
}

fn main() -> ExitCode {
    let Some(asked) = Asked::of(std::env::args().skip(1)) else {
        eprintln!("{USAGE}");
        return ExitCode::from(2);
    };
    let program = match Program::at(asked.program.clone()) {
        Ok(program) => program,
        Err(message) => {
            eprintln!("compare: {message}");
            return ExitCode::from(2);
        }
    };
    ExitCode::from(u8::from(!compare(&asked, &program)))
}

/// Runs every part; true where the services agree everywhere and every refusal was reached.
fn compare(asked: &Asked, program: &Program) -> bool {
    let sets: [(&str, Vec<Directed>); 2] = [("directed", directed()), ("sources", sources())];
    let mut report = Report::begin();
    for (name, cases) in &sets {
        report.part(name, on_purpose(cases));
    }
    report.part("writings", writings_on_purpose(&writings()));
    report.part("large", large_cases(8));
    report.part("by chance", by_chance(asked.count, asked.added));
    let (tally, lines) = every_small_table();
    report.part("every table of small lists", tally);
    lines.iter().for_each(|line| println!("{line}"));
    for (name, cases) in &sets {
        let runs = runs_on_purpose(cases);
        report.part(&format!("program, {name}"), program_runs(program, &runs));
    }
    report.part("program, limits", program_runs(program, &runs_of_limits()));
    let runs = runs_by_chance(RUNS_BY_CHANCE.min(asked.count), SEEDS[0] + asked.added);
    report.part("program, by chance", program_runs(program, &runs));
    report.end()
}
