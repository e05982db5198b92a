//! The independent second program of Palikudyom: document 01 and requests 1, 2, 4, 5, 6 and 7 of
//! document 02, read from scratch, by brute force. Request 3 makes the first program faster and
//! changes no answer: this one goes on to try every start, and `oracle large` asks where that
//! counts.
//!
//! To believe its answers, read `numbers`, `answer`, `table`, `owners`, `shortest`, `lost`,
//! `tasks`, `verdict`, `bound`, `machine`, `plan`, `trace`, `replay`, `summary` and `edit`, in this
//! order, and `examples`, `owner_examples`, `shortest_examples`, `summary_examples`,
//! `edit_examples` and `lost_examples`, which are the documents' own and some worked out by hand;
//! then `query` and `stream`, which are docs/ASK.md's. The other files make streams (`generate`,
//! `outages`, `traces`, `teams`, `slivers`, `summaries`, `edits`, `switches`, `large` with
//! `frames`, `tight` and `edge_jobs`, `spoil`, `batch`, `enumerate`, `enumerate_edits`,
//! `enumerate_switches`, `random`, `text`) and compare (`compare`): a fault there can hide a
//! difference in the first program but can't change an answer.

mod answer;
mod batch;
mod bound;
mod compare;
mod edge_jobs;
mod edit;
#[cfg(test)]
mod edit_examples;
mod edits;
mod enumerate;
mod enumerate_edits;
mod enumerate_switches;
#[cfg(test)]
mod examples;
mod frames;
mod generate;
mod large;
mod lost;
#[cfg(test)]
mod lost_examples;
mod machine;
mod numbers;
mod outages;
#[cfg(test)]
mod owner_examples;
mod owners;
mod plan;
mod query;
mod random;
mod replay;
mod shortest;
#[cfg(test)]
mod shortest_examples;
mod slivers;
mod spoil;
mod stream;
mod summaries;
mod summary;
#[cfg(test)]
mod summary_examples;
mod switches;
mod table;
mod tasks;
mod teams;
mod text;
mod tight;
mod trace;
mod traces;
mod verdict;

use std::io::{self, Read, Write};
use std::process::ExitCode;

use plan::Form;

const USAGE: &str = "\
usage: oracle answer < stream       answer a query stream, a line each
       oracle plan [SETTINGS] < file
                                    print the line of a plan file; SETTINGS is how many numbers
                                    stand before P: 0 or none given, the old form; 1, m first;
                                    3, m, the rule and q first
       oracle replay TRACEFILE PLANFILE
                                    print the line of a trace on a plan's table and group
       oracle encode < text         make a stream of decimal numbers and xHH bytes
       oracle decode < stream       print a stream as such a text
       oracle stream SEED COUNT     make a stream of up to COUNT random queries
       oracle compare SEED COUNT [COMMAND ...]
                                    compare with a command's answers to random streams
       oracle large [--steps STEPS] SEED COUNT [COMMAND ...]
                                    compare with its answers to random queries on large frames
       oracle enumerate [COMMAND ...]
                                    compare with its answers to every small input
COMMAND is `tools/run-program palikudyom --ask` unless it is given. With STEPS, what asks about
many lengths has at most so many starts to try in all, for a COMMAND that tries every start.
";

/// The command that answers streams by the first program.
const FIRST_PROGRAM: [&str; 3] = ["tools/run-program", "palikudyom", "--ask"];

fn main() -> ExitCode {
    let arguments: Vec<String> = std::env::args().skip(1).collect();
    let words: Vec<&str> = arguments.iter().map(String::as_str).collect();
    match run(&words) {
        Ok(code) => code,
        Err(message) => {
            // Nothing is left to tell an error to if this fails.
            let _ = write!(io::stderr(), "{message}");
            ExitCode::from(2)
        }
    }
}

fn run(words: &[&str]) -> Result<ExitCode, String> {
    match words {
        ["answer"] => {
            // One byte beyond those used tells that there are more.
            let bytes = read_input(stream::MOST_BYTES as u64 + 1)?;
            let lines = stream::read(&bytes);
            for line in lines.lines() {
                write_output(format!("{line}\n").as_bytes())?;
            }
        }
        ["plan"] => print_plan(Form::Old)?,
        ["plan", settings] => {
            let form = Form::of_settings(number(settings)?);
            print_plan(form.ok_or_else(|| USAGE.to_string())?)?;
        }
        ["replay", trace, plan] => {
            let (trace, plan) = (read_file(trace)?, read_file(plan)?);
            let answer = answer::Answer::from(replay::replay_on_plan(&plan, &trace));
            write_output(format!("{answer}\n").as_bytes())?;
        }
        ["encode"] => {
            let text = String::from_utf8_lossy(&read_input(u64::MAX)?).into_owned();
            let bytes = text::encode(&text).map_err(|error| error + "\n")?;
            write_output(&bytes)?;
        }
        ["decode"] => write_output(text::decode(&read_input(u64::MAX)?).as_bytes())?,
        ["stream", seed, count] => {
            let mut random = random::Random::new(number(seed)?);
            write_output(&batch::good_stream(&mut random, number(count)?))?;
        }
        ["compare", seed, count, command @ ..] => {
            let (seed, count) = (number(seed)?, number(count)?);
            return compared(compare::random(seed, count, or_first_program(command)));
        }
        ["large", "--steps", steps, seed, count, command @ ..] => {
            return large(number(steps)?, seed, count, command);
        }
        ["large", seed, count, command @ ..] => return large(u64::MAX, seed, count, command),
        ["enumerate", command @ ..] => {
            return compared(compare::enumeration(or_first_program(command)));
        }
        _ => return Err(USAGE.to_string()),
    }
    Ok(ExitCode::SUCCESS)
}

fn print_plan(form: Form) -> Result<(), String> {
    let answer = answer::Answer::from(plan::plan(form, &read_input(u64::MAX)?));
    write_output(format!("{answer}\n").as_bytes())
}

fn large(steps: u64, seed: &str, count: &str, command: &[&str]) -> Result<ExitCode, String> {
    let (seed, count) = (number(seed)?, number(count)?);
    compared(compare::large(
        seed,
        count,
        steps,
        or_first_program(command),
    ))
}

fn number(word: &str) -> Result<u64, String> {
    word.parse().map_err(|_| USAGE.to_string())
}

fn or_first_program<'a>(command: &'a [&'a str]) -> &'a [&'a str] {
    match command {
        [] => &FIRST_PROGRAM,
        given => given,
    }
}

/// Exit status 1 tells that there are differences.
fn compared(result: io::Result<bool>) -> Result<ExitCode, String> {
    match result {
        Ok(true) => Ok(ExitCode::SUCCESS),
        Ok(false) => Ok(ExitCode::from(1)),
        Err(error) => Err(format!("oracle: cannot compare: {error}\n")),
    }
}

fn read_input(most: u64) -> Result<Vec<u8>, String> {
    let mut bytes = Vec::new();
    let read = io::stdin().lock().take(most).read_to_end(&mut bytes);
    read.map_err(|error| format!("oracle: cannot read: {error}\n"))?;
    Ok(bytes)
}

fn read_file(name: &str) -> Result<Vec<u8>, String> {
    std::fs::read(name).map_err(|error| format!("oracle: cannot read {name}: {error}\n"))
}

fn write_output(bytes: &[u8]) -> Result<(), String> {
    let mut out = io::stdout().lock();
    let written = out.write_all(bytes).and_then(|()| out.flush());
    written.map_err(|error| format!("oracle: cannot write: {error}\n"))
}
