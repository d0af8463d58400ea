//! The program itself, run as a process (FORMAT 11.1): it writes what `respond` returns.

use reference::generate::{cases, directed, Call};
use reference::respond;
use std::io::Write;
use std::process::{Command, Stdio};

/// The standard output of the program for this standard input.
fn run(input: &[u8]) -> Vec<u8> {
    let mut child = Command::new(env!("CARGO_BIN_EXE_reference"))
        .stdin(Stdio::piped())
        .stdout(Stdio::piped())
        .spawn()
        .expect("the program starts");
    // Dropped at the end of this statement, which closes the program's input.
    child.stdin.take().expect("a pipe").write_all(input).expect("the program reads all");
    let output = child.wait_with_output().expect("the program ends");
    assert!(output.status.success());
    output.stdout
}

#[test]
fn directed_inputs() {
    for directed in directed().iter().filter(|directed| directed.call == Call::Program) {
        let output = run(&directed.case.stdin);
        assert_eq!(output, respond(&directed.case.stdin), "{}", directed.way);
    }
}

#[test]
fn inputs_by_chance() {
    for case in cases(99, 60) {
        assert_eq!(run(&case.stdin), respond(&case.stdin));
    }
}

#[test]
fn far_too_long() {
    assert_eq!(run(&vec![b'\n'; 1_000_000]), b"refused\t1\t0\n");
}
