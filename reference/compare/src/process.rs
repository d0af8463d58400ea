//! The built program as a process: a standard input fed to it in some way, its whole standard output, its status, and what it says on
//! standard error.

use crate::{answered, Answered, Tally};
use std::io::{ErrorKind, Result, Write};
use std::path::{Path, PathBuf};
use std::process::{ChildStdin, Command, Stdio};
use std::thread;
use std::time::Duration;

/// The program's file.
pub struct Program {
    path: PathBuf,
}

/// How a standard input arrives.
#[derive(Clone, Copy, Debug, PartialEq, Eq)]
pub enum Feeding {
    AtOnce,
    /// The first byte by itself.
    FirstByte,
    /// Pieces of so many bytes.
    Pieces(usize),
    /// So many bytes, a short pause, and the rest.
    Pause(usize),
}

/// What a process left.
#[derive(Clone, Debug, PartialEq, Eq)]
pub struct Ended {
    pub output: Vec<u8>,
    pub errors: Vec<u8>,
    /// None where a signal ended it.
    pub status: Option<i32>,
}

/// Where the repository's program is, unless DIGIT_TABLE_PROGRAM names another.
pub fn standard_path() -> PathBuf {
    let built = || Path::new(env!("CARGO_MANIFEST_DIR")).join("../../target/bin/digit_table");
    std::env::var_os("DIGIT_TABLE_PROGRAM").map_or_else(built, PathBuf::from)
}

impl Program {
    /// The program at a path; an error in words if there is no such file.
    pub fn at(path: PathBuf) -> std::result::Result<Program, String> {
        if path.is_file() {
            return Ok(Program { path });
        }
        Err(format!(
            "{} is not there: run `tools/build digit_table` in the repository, or name the program \
             by --program or DIGIT_TABLE_PROGRAM",
            path.display()
        ))
    }

    /// Runs the program on an input, which a thread of its own writes: neither side waits for the other with a full pipe.
    pub fn run(&self, input: &[u8], feeding: Feeding) -> Result<Ended> {
        let mut child = Command::new(&self.path)
            .stdin(Stdio::piped())
            .stdout(Stdio::piped())
            .stderr(Stdio::piped())
            .spawn()?;
        let pipe = child.stdin.take().expect("a pipe");
        thread::scope(|scope| {
            let feeder = scope.spawn(move || feed(pipe, input, feeding));
            let output = child.wait_with_output()?;
            feeder.join().expect("a feeder ends")?;
            let (status, errors) = (output.status.code(), output.stderr);
            Ok(Ended { output: output.stdout, errors, status })
        })
    }

    /// Runs the program on an input and compares it with the reference's answer.
    pub fn compare(&self, tally: &mut Tally, from: &str, input: &[u8], feeding: Feeding) {
        let right =
            Ended { output: reference::respond(input), errors: Vec::new(), status: Some(0) };
        tally.cases += 1;
        match answered(input, &right.output) {
            Answered::InputLine => tally.count_reply("program's input line", 3),
            Answered::Number(number) => tally.count_reply("program", number),
        }
        let ended = self.run(input, feeding);
        if !ended.as_ref().is_ok_and(|ended| *ended == right) {
            tally.differ(
                &format!("program: {from}"),
                &[
                    ("standard input", &|| format!("\"{}\"", input.escape_ascii())),
                    ("fed", &|| format!("{feeding:?}")),
                    ("proved", &|| ended.as_ref().map_or_else(|e| e.to_string(), Ended::shown)),
                    ("reference", &|| right.shown()),
                ],
            );
        }
    }
}

impl Ended {
    fn shown(&self) -> String {
        let (output, errors) = (self.output.escape_ascii(), self.errors.escape_ascii());
        format!("output \"{output}\", errors \"{errors}\", status {:?}", self.status)
    }
}

/// Writes the input and closes the pipe. A program may stop reading after 65,537 bytes, and not before (FORMAT 11.1), so a broken pipe is
/// no fault by itself. How much it reads is not compared: one that stops sooner is found only by its answer.
fn feed(mut pipe: ChildStdin, input: &[u8], feeding: Feeding) -> Result<()> {
    let (first, rest) = match feeding {
        Feeding::AtOnce => (input, &[][..]),
        Feeding::FirstByte => input.split_at(input.len().min(1)),
        Feeding::Pieces(_) => (&[][..], input),
        Feeding::Pause(count) => input.split_at(input.len().min(count)),
    };
    let size = if let Feeding::Pieces(size) = feeding { size } else { rest.len().max(1) };
    for piece in [first].into_iter().chain(rest.chunks(size)) {
        match pipe.write_all(piece).and_then(|()| pipe.flush()) {
            Err(error) if error.kind() == ErrorKind::BrokenPipe => return Ok(()),
            other => other?,
        }
        if matches!(feeding, Feeding::Pause(_)) {
            thread::sleep(Duration::from_millis(2));
        }
    }
    Ok(())
}
