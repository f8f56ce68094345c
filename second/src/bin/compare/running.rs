//! Runs two programs on the same cases and finds where they differ.

use std::fmt::Write as _;
use std::io::{self, Read, Write};
use std::process::{Child, Command, Stdio};
use std::sync::mpsc;
use std::thread;
use std::time::Duration;

/// A program that is not done with its input after this is stopped.
const PATIENCE: Duration = Duration::from_secs(300);

/// A batch is run once it is as large as this.
const BATCH_BYTES: usize = 1 << 20;

/// Lines for both programs. All but the last end in LF; so does the last,
/// unless the case has an open end.
pub struct Case {
    pub lines: Vec<Vec<u8>>,
    pub open_end: bool,
}

impl Case {
    /// Several cases as one.
    fn joined(batch: &[Case]) -> Case {
        Case {
            lines: batch
                .iter()
                .flat_map(|case| case.lines.iter().cloned())
                .collect(),
            open_end: batch.last().is_some_and(|case| case.open_end),
        }
    }

    fn bytes(&self) -> usize {
        self.lines.iter().map(|line| line.len() + 1).sum()
    }

    fn input(&self, lines: usize) -> Vec<u8> {
        let mut input = Vec::new();
        for line in &self.lines[..lines] {
            input.extend_from_slice(line);
            input.push(b'\n');
        }
        if self.open_end && lines == self.lines.len() {
            input.pop();
        }
        input
    }
}

/// All lines of a batch; only its last case may have an open end.
fn input_of(batch: &[Case]) -> Vec<u8> {
    batch
        .iter()
        .flat_map(|case| case.input(case.lines.len()))
        .collect()
}

/// What a program wrote, and whether it ended well.
#[derive(PartialEq, Eq)]
struct Outcome {
    answers: Vec<u8>,
    ended_well: bool,
}

impl Outcome {
    /// The number of whole answers that are the same in both.
    fn alike(&self, other: &Outcome) -> usize {
        let pairs = self.answers.iter().zip(&other.answers);
        pairs
            .take_while(|(a, b)| a == b)
            .filter(|(a, _)| **a == b'\n')
            .count()
    }
}

fn run(program: &Program, input: &[u8]) -> io::Result<Outcome> {
    let mut child = Command::new(program.path)
        .args(program.arguments)
        .stdin(Stdio::piped())
        .stdout(Stdio::piped())
        .stderr(Stdio::null())
        .spawn()
        .map_err(|error| io::Error::new(error.kind(), format!("{}: {error}", program.path)))?;
    let stdin = child.stdin.take();
    let stdout = child.stdout.take();
    let (done, waiting) = mpsc::channel::<()>();
    thread::scope(|scope| {
        // A program that ends early leaves input unread; its answers tell.
        scope.spawn(move || stdin.map(|mut stdin| stdin.write_all(input)));
        let watcher = scope.spawn(move || watch(child, &waiting));
        // No lawful answers are longer than this, so a flood ends here too.
        let most = 64 * (input.len() as u64 + 64);
        let mut answers = Vec::new();
        if let Some(stdout) = stdout {
            stdout.take(most).read_to_end(&mut answers)?;
        }
        drop(done);
        let ended_well = watcher.join().unwrap_or(false);
        Ok(Outcome {
            answers,
            ended_well,
        })
    })
}

/// Waits for the reader to be done, or stops the child.
fn watch(mut child: Child, reader: &mpsc::Receiver<()>) -> bool {
    if let Err(mpsc::RecvTimeoutError::Timeout) = reader.recv_timeout(PATIENCE) {
        // It may have ended by itself just now.
        let _ = child.kill();
    }
    child.wait().is_ok_and(|status| status.success())
}

/// A program, and what it is started with.
pub struct Program<'a> {
    pub path: &'a str,
    pub arguments: &'a [&'a str],
}

impl<'a> Program<'a> {
    pub fn plain(path: &'a str) -> Self {
        Program {
            path,
            arguments: &[],
        }
    }
}

pub struct Pair<'a> {
    pub ours: Program<'a>,
    pub second: Program<'a>,
}

impl Pair<'_> {
    fn run(&self, input: &[u8]) -> io::Result<(Outcome, Outcome)> {
        thread::scope(|scope| {
            let ours = scope.spawn(|| run(&self.ours, input));
            let second = run(&self.second, input)?;
            let ours = ours
                .join()
                .map_err(|_| io::Error::other("a thread ended"))??;
            Ok((ours, second))
        })
    }

    fn differs(&self, input: &[u8]) -> io::Result<bool> {
        let (ours, second) = self.run(input)?;
        Ok(ours != second || !ours.ended_well)
    }

    /// Whether all cases went alike. The title says which cases these are.
    pub fn compare(&self, title: &str, mut cases: impl Iterator<Item = Case>) -> io::Result<bool> {
        let (mut lines, mut done) = (0, 0);
        loop {
            let batch = batch(&mut cases);
            if batch.is_empty() {
                break;
            }
            let (ours, second) = self.run(&input_of(&batch))?;
            if ours != second || !ours.ended_well {
                self.report(title, done, &batch, ours.alike(&second))?;
                return Ok(false);
            }
            done += batch.len();
            lines += batch.iter().map(|case| case.lines.len()).sum::<usize>();
        }
        println!("compare: {title}, {done} cases, {lines} lines, no difference");
        Ok(true)
    }

    /// Finds the case that differs and prints its shortest beginning.
    fn report(&self, title: &str, first: usize, batch: &[Case], alike: usize) -> io::Result<()> {
        // Each line has one answer, so the first that differs names the case,
        // or a later one if answers were left out.
        let mut lines = 0;
        let named = batch.iter().position(|case| {
            lines += case.lines.len();
            alike < lines
        });
        let named = named.unwrap_or(batch.len() - 1);
        // By itself it should differ, or else with as few before it as will do.
        let mut from = named;
        while from > 0 && !self.differs(&input_of(&batch[from..=named]))? {
            from -= 1;
        }
        let lines = self.shortest(&Case::joined(&batch[from..=named]))?;
        // The last of these lines lies in the case that differs.
        let (mut at, mut before) = (from, 0);
        while before + batch[at].lines.len() < lines {
            before += batch[at].lines.len();
            at += 1;
        }
        print!("compare: difference, {title}, case {}", first + at);
        if from < at {
            print!(", but only after the cases from {} on", first + from);
        }
        println!();
        self.print(&Case::joined(&batch[from..=at]), lines)
    }

    /// A beginning that differs makes every longer one differ, so halving
    /// finds the shortest.
    fn shortest(&self, case: &Case) -> io::Result<usize> {
        let (mut same, mut different) = (0, case.lines.len());
        while same + 1 < different {
            let middle = same + (different - same) / 2;
            if self.differs(&case.input(middle))? {
                different = middle;
            } else {
                same = middle;
            }
        }
        Ok(different)
    }

    fn print(&self, case: &Case, lines: usize) -> io::Result<()> {
        let (ours, second) = self.run(&case.input(lines))?;
        println!("--- input, {lines} of {} lines", case.lines.len());
        for line in &case.lines[..lines] {
            println!("{}", readable(line));
        }
        if case.open_end && lines == case.lines.len() {
            println!("(no LF after the last line)");
        }
        for (program, outcome) in [(&self.ours, ours), (&self.second, second)] {
            println!("--- answers of {}", program.path);
            let text = outcome
                .answers
                .strip_suffix(b"\n")
                .unwrap_or(&outcome.answers);
            for line in text.split(|&byte| byte == b'\n') {
                println!("{}", readable(line));
            }
            if !outcome.ended_well {
                println!("(ended badly)");
            }
        }
        Ok(())
    }
}

/// The next cases, as many as are run together: only the last may have an open
/// end.
fn batch(cases: &mut impl Iterator<Item = Case>) -> Vec<Case> {
    let mut batch: Vec<Case> = Vec::new();
    let mut bytes = 0;
    while bytes < BATCH_BYTES {
        let Some(case) = cases.next() else { break };
        bytes += case.bytes();
        let last = case.open_end;
        batch.push(case);
        if last {
            break;
        }
    }
    batch
}

/// A line as it may be shown: odd bytes as `\xNN`, the middle of a long one
/// left out.
fn readable(line: &[u8]) -> String {
    const SHOWN: usize = 120;
    let mut text = String::new();
    for &byte in &line[..line.len().min(SHOWN)] {
        match byte {
            b'\\' => text += "\\\\",
            b' '..=b'~' => text.push(byte.into()),
            _ => {
                let _ = write!(text, "\\x{byte:02X}");
            }
        }
    }
    if line.len() > SHOWN {
        let _ = write!(text, "... ({} bytes)", line.len());
    }
    text
}
