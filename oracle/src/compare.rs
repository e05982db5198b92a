//! Runs another program on streams and compares its lines with this program's.

use std::collections::BTreeMap;
use std::io::{self, Write};
use std::process::{Command, Stdio};
use std::thread;

use crate::batch;
use crate::enumerate;
use crate::random::Random;
use crate::stream::{self, Stream};
use crate::text;

/// A comparison stops after so many differences.
const MOST_DIFFERENCES: u64 = 10;
const QUERIES_IN_A_BATCH: [u64; 3] = [50, 250, 500];
/// Those on large frames take up to some seconds each, and a batch tells its differences at its
/// end.
const LARGE_QUERIES_IN_A_BATCH: u64 = 30;

struct Comparison<'a> {
    command: &'a [&'a str],
    queries: u64,
    differences: u64,
    /// By how many settings of code 16 the query stands under, then by its own code.
    by_code: BTreeMap<(usize, u64), u64>,
    by_word: BTreeMap<String, u64>,
}

/// Compares about `count` random queries; true where there is no difference.
pub fn random(seed: u64, count: u64, command: &[&str]) -> io::Result<bool> {
    streams(seed, count, command, |random, left| {
        let most = random.one_of(&QUERIES_IN_A_BATCH);
        batch::any_stream(random, most.min(left))
    })
}

/// Compares `count` random queries on large frames, each of up to `most_steps` steps; true where
/// there is no difference.
pub fn large(seed: u64, count: u64, most_steps: u64, command: &[&str]) -> io::Result<bool> {
    streams(seed, count, command, |random, left| {
        batch::large_stream(random, LARGE_QUERIES_IN_A_BATCH.min(left), most_steps)
    })
}

/// Compares streams made of what is left of `count`.
fn streams(
    seed: u64,
    count: u64,
    command: &[&str],
    stream: impl Fn(&mut Random, u64) -> Vec<u8>,
) -> io::Result<bool> {
    let mut random = Random::new(seed);
    let mut comparison = Comparison::new(command);
    while comparison.queries < count && comparison.goes_on() {
        let bytes = stream(&mut random, count - comparison.queries);
        comparison.compare(&bytes)?;
    }
    comparison.summary()
}

/// Compares every small input; true where there is no difference.
pub fn enumeration(command: &[&str]) -> io::Result<bool> {
    let mut comparison = Comparison::new(command);
    for bytes in enumerate::streams() {
        comparison.compare(&bytes)?;
        if !comparison.goes_on() {
            break;
        }
    }
    comparison.summary()
}

impl<'a> Comparison<'a> {
    fn new(command: &'a [&'a str]) -> Self {
        Comparison {
            command,
            queries: 0,
            differences: 0,
            by_code: BTreeMap::new(),
            by_word: BTreeMap::new(),
        }
    }

    fn goes_on(&self) -> bool {
        self.differences < MOST_DIFFERENCES
    }

    /// One batch: one process, the stream on its standard input.
    fn compare(&mut self, bytes: &[u8]) -> io::Result<()> {
        let stream = stream::read(bytes);
        let (own, other) = both_answers(self.command, bytes, &stream)?;
        for query in &stream.queries {
            let code = (query.settings().len(), query.code());
            *self.by_code.entry(code).or_default() += 1;
        }
        for line in &own {
            *self.by_word.entry(word(line)).or_default() += 1;
        }
        self.queries += own.len() as u64;
        let other: Vec<&str> = other.split_inclusive('\n').collect();
        for index in 0..own.len().max(other.len()) {
            let own_line = own.get(index).map(|line| format!("{line}\n"));
            let other_line = other.get(index).copied();
            if own_line.as_deref() != other_line && self.goes_on() {
                self.differences += 1;
                report(&stream, bytes, index, own_line.as_deref(), other_line)?;
            }
        }
        Ok(())
    }

    fn summary(&self) -> io::Result<bool> {
        let mut out = io::stdout().lock();
        for ((settings, code), count) in &self.by_code {
            let under = match settings {
                0 => String::new(),
                _ => format!("16 with {settings}, "),
            };
            writeln!(out, "code {under}{code}: {count}")?;
        }
        for (word, count) in &self.by_word {
            writeln!(out, "{word}: {count}")?;
        }
        let (queries, differences) = (self.queries, self.differences);
        writeln!(out, "{queries} queries, {differences} differences")?;
        Ok(differences == 0)
    }
}

/// The query in text form, or what follows the last complete one, and both lines.
fn report(
    stream: &Stream,
    bytes: &[u8],
    index: usize,
    own: Option<&str>,
    other: Option<&str>,
) -> io::Result<()> {
    let query = match stream.queries.get(index) {
        Some(query) => text::query(query),
        None => "end ".to_string() + &text::raw(&bytes[stream.complete..]),
    };
    let own = own.unwrap_or("(no line)\n");
    let other = match other {
        None => "(no line)\n".to_string(),
        Some(line) if line.ends_with('\n') => line.to_string(),
        Some(line) => format!("{line} (no newline)\n"),
    };
    write!(
        io::stdout(),
        "query {query}\n  oracle  {own}  command {other}"
    )
}

/// This program's lines and what the command writes, at the same time.
fn both_answers(
    command: &[&str],
    bytes: &[u8],
    stream: &Stream,
) -> io::Result<(Vec<String>, String)> {
    let mut child = Command::new(command[0])
        .args(&command[1..])
        .stdin(Stdio::piped())
        .stdout(Stdio::piped())
        .spawn()
        .map_err(|error| io::Error::other(format!("{}: {error}", command[0])))?;
    let input = child.stdin.take();
    thread::scope(|scope| {
        // The command may well end before it has read everything: then its lines tell.
        scope.spawn(move || input.map(|mut input| input.write_all(bytes)));
        let own = scope.spawn(|| stream.lines().collect());
        let output = child.wait_with_output()?;
        let own = own.join().map_err(|_| io::Error::other("no own answer"))?;
        Ok((own, String::from_utf8_lossy(&output.stdout).into_owned()))
    })
}

/// What a line is counted as: its first word, for refusals with their number.
fn word(line: &str) -> String {
    let mut words = line.split(' ');
    let first = words.next().unwrap_or("");
    match first {
        "REFUSED" | "BAD" | "NO" => format!("{first} {}", words.next().unwrap_or("")),
        _ => first.to_string(),
    }
}
