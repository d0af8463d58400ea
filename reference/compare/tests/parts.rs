//! The parts of the comparison see what they are there to see: every table, every refusal, the program as a process; and they do so
//! whatever the number of cores.

use compare::{
    by_chance, in_order, program_runs, runs_of_limits, small_jobs, standard_path, Comparison,
    Counts, Desk, Feeding, Program, Reference, Reply, Report, Run, Service, SmallJob, Tally, SEEDS,
};
use reference::generate::{case, text};
use std::path::PathBuf;

#[test]
fn jobs_are_handed_back_in_order() {
    let squares: Vec<usize> = (0..1_000).map(|number| number * number).collect();
    assert_eq!(in_order(1_000, |number| number * number), squares);
    assert_eq!(in_order(0, |number| number), [0; 0]);
}

#[test]
fn blocks_see_what_one_comparison_sees() {
    let count = 10_001;
    let mut comparison = Comparison::default();
    for number in 0..count {
        let case = case(SEEDS[(number % 4) as usize] + 5, number / 4);
        comparison.compare("one after the other", &case, &[case.line]);
    }
    assert_eq!(by_chance(count, 5), comparison.tally);
}

/// A checker that is wrong in one way; the other calls are not used.
struct Wrong<const WAY: usize>;

impl<const WAY: usize> Service for Wrong<WAY> {
    fn check(list: &[u8], table: &[u32]) -> Reply {
        let (number, place) = Reference::check(list, table);
        match WAY {
            // Accepts all, or refuses all.
            0 => (0, 0),
            1 => (15, place),
            // Another place, and another number.
            2 if number == 15 => (15, place + 1),
            3 if number == 14 => (15, place),
            _ => (number, place),
        }
    }

    fn read(list: &[u8], counts: &mut Counts) -> Reply {
        Reference::read(list, counts)
    }

    fn make(list: &[u8], inputs: &[i64], table: &mut [u32]) -> Reply {
        Reference::make(list, inputs, table)
    }

    fn show<'a>(list: &[u8], table: &'a [u32], line: usize) -> &'a [u32] {
        Reference::show(list, table, line)
    }

    fn desk(desk: &mut Desk, list: &[u8], table: &[u32]) -> Reply {
        Reference::desk(desk, list, table)
    }

    fn respond(input: &[u8], output: &mut [u8]) -> usize {
        Reference::respond(input, output)
    }

    fn write(words: &[u8], counts: &[usize], numbers: &[i64], buffer: &mut [u8]) -> Reply {
        Reference::write(words, counts, numbers, buffer)
    }
}

#[test]
fn a_wrong_checker_is_seen_on_small_tables() {
    let jobs = small_jobs();
    let few = |job: &&SmallJob| job.small.gadget == "relu" && job.small.p() == 3;
    let job = jobs.iter().find(few).expect("a relu with p = 3");
    assert!(job.compare::<Wrong<0>>().differences > 0);
    assert!(job.compare::<Wrong<1>>().differences > 0);
    assert!(job.compare::<Wrong<2>>().differences > 0);
    assert!(job.compare::<Wrong<3>>().differences > 0);
    let right = job.compare::<Wrong<4>>();
    assert_eq!(right.differences, 0);
    assert!(right.cases > 1_000);
}

#[test]
fn every_gadget_has_small_lists() {
    let jobs = small_jobs();
    for gadget in ["in", "span", "sum", "relu", "which", "max", "mix"] {
        for p in [3, 5, 7, 11, 13] {
            assert!(jobs.iter().any(|job| (job.small.gadget, job.small.p()) == (gadget, p)));
        }
    }
    assert_eq!(jobs.iter().filter(|job| job.small.gadget == "root").count(), 7);
}

#[test]
fn a_refusal_that_is_never_reached_is_told() {
    let mut report = Report::begin();
    assert_eq!(report.never_reached().len(), 13 + 16 + 17 + 18 + 16 + 1 + 14 + 16 + 1);
    let mut tally = Tally::default();
    tally.count_reply("make", 18);
    report.part("one reply", tally);
    let missing = report.never_reached();
    assert!(missing.contains(&"NEVER REACHED: make 17".to_string()));
    assert!(!missing.contains(&"NEVER REACHED: make 18".to_string()));
    assert!(!report.end());
}

fn built() -> Program {
    Program::at(standard_path()).expect("the built program")
}

#[test]
fn the_program_in_every_feeding() {
    let stdin = text("field 31;in;relu 0 2 4;end;-3");
    let feedings = [
        Feeding::AtOnce,
        Feeding::FirstByte,
        Feeding::Pieces(1),
        Feeding::Pieces(7),
        Feeding::Pause(1),
        Feeding::Pause(20),
    ];
    for feeding in feedings {
        let ended = built().run(&stdin, feeding).expect("the program runs");
        assert_eq!(ended.output, text("table 8;0 28;1 0;2 1;3 0;4 1;5 0;6 0;7 30"));
        assert_eq!((ended.errors, ended.status), (Vec::new(), Some(0)));
    }
}

#[test]
fn the_program_at_the_limits() {
    let tally = program_runs(&built(), &runs_of_limits());
    assert_eq!(tally.kept, [""; 0]);
}

#[test]
fn another_program_is_seen() {
    // One that writes its input, one that writes nothing, one that fails, one that reads nothing of a long input.
    let short = || Run::new("short", text("field 31;end"), Feeding::AtOnce);
    let long = || Run::new("long", vec![b'x'; 1_000_000], Feeding::AtOnce);
    for (path, run) in [("cat", short()), ("true", short()), ("false", short()), ("true", long())] {
        let program = Program::at(PathBuf::from("/bin").join(path)).expect("a system's program");
        assert_eq!(program_runs(&program, &[run]).differences, 1, "{path}");
    }
}

#[test]
fn a_missing_program_is_an_error() {
    let message = Program::at(PathBuf::from("/nowhere/digit_table")).err().expect("no such file");
    assert!(message.contains("/nowhere/digit_table is not there"));
}
