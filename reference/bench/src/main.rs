//! `bench`: what the proved service costs beside the reference, as ratios within one run.
//!
//!     bench [WORD]               every list, or those whose name has the word
//!     bench write                writing every list, beside reading it
//!     bench growth               how cost grows as a list doubles
//!     bench costs                what a byte, a digit and a cell cost, each beside a floor
//!     bench stack                how much stack each call takes at most
//!     bench profile NAME CALL    one call of the proved service over and over, for a profiler
//!
//! Both programs run on the same list, table and inputs in turns, and each figure is a median over the rounds, so that what else the
//! machine does falls out. The script `run` starts this program with every function at a multiple of 64.

mod costs;
mod lists;
mod stack;
mod turns;

use compare::{Proved, Reference};
use lists::{growing, workloads, Workload, GADGETS, PRIMES};
use turns::{Job, Rounds};

const CALLS: [&str; 3] = ["read", "check", "make"];

fn main() {
    let words: Vec<String> = std::env::args().skip(1).collect();
    let words: Vec<&str> = words.iter().map(String::as_str).collect();
    match words[..] {
        [] => bench(&workloads(), ""),
        ["write"] => writing(&workloads()),
        ["growth"] => growth(),
        ["costs"] => costs::report(),
        ["stack"] => stack::report(),
        ["profile", name, call] => profile(name, call),
        [word] => bench(&workloads(), word),
        _ => eprintln!("usage: bench [WORD | write | growth | costs | stack | profile NAME CALL]"),
    }
}

fn bench(all: &[Workload], word: &str) {
    println!(
        "| list | bytes | call | proved, ns | reference, ns | ratio | cells a second | ns a byte |"
    );
    println!("|---|---|---|---|---|---|---|---|");
    for work in all.iter().filter(|work| work.name.contains(word)) {
        for call in CALLS {
            let rounds =
                Rounds::of(vec![Job::of::<Proved>(call, work), Job::of::<Reference>(call, work)]);
            let [proved, reference] = [0, 1].map(|side| rounds.median(|ns| ns[side]));
            println!(
                "| {} | {} | {call} | {proved:.0} | {reference:.0} | {:.2} | {:.1} million | {:.2} |",
                work.name,
                work.list.len(),
                rounds.median(|ns| ns[0] / ns[1]),
                work.table.len() as f64 / proved * 1e3,
                proved / work.list.len() as f64
            );
        }
    }
}

/// Writing the lines of each list: the proved service against the reference, and against its own reading of the same text.
fn writing(all: &[Workload]) {
    println!(
        "| list | bytes | `write`, proved, ns | reference, ns | ratio | `read`, proved, ns | `write` against `read` | ns a byte |"
    );
    println!("|---|---|---|---|---|---|---|---|");
    for work in all {
        let rounds = Rounds::of(vec![
            Job::of::<Proved>("write", work),
            Job::of::<Reference>("write", work),
            Job::of::<Proved>("read", work),
        ]);
        let [proved, reference, read] = [0, 1, 2].map(|job| rounds.median(|ns| ns[job]));
        println!(
            "| {} | {} | {proved:.0} | {reference:.0} | {:.2} | {read:.0} | {:.2} | {:.2} |",
            work.name,
            work.list.len(),
            rounds.median(|ns| ns[0] / ns[1]),
            rounds.median(|ns| ns[0] / ns[2]),
            proved / work.list.len() as f64
        );
    }
}

/// Time by time twice the lines: what each costs against the one before.
fn growth() {
    println!("| list | call | proved, ns | against half of it |");
    println!("|---|---|---|---|");
    for (p, gadget) in PRIMES.into_iter().flat_map(|p| (0..GADGETS).map(move |gadget| (p, gadget)))
    {
        let all = growing(gadget, p);
        for call in CALLS {
            let rounds = Rounds::of(all.iter().map(|work| Job::of::<Proved>(call, work)).collect());
            for (place, work) in all.iter().enumerate() {
                let proved = rounds.median(|ns| ns[place]);
                let grown = match place {
                    0 => "".into(),
                    _ => format!("{:.2}", rounds.median(|ns| ns[place] / ns[place - 1])),
                };
                println!("| {} | {call} | {proved:.0} | {grown} |", work.name);
            }
        }
    }
}

/// One call of the proved service for some seconds, so that making the lists hardly counts.
fn profile(name: &str, call: &str) {
    let all = workloads();
    let work = all.iter().find(|work| work.name.contains(name)).expect("a list of this name");
    let mut job = Job::of::<Proved>(call, work);
    job.times *= 3_000;
    println!("{}, {call}: {:.0} ns", work.name, job.time());
}
