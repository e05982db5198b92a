//! What an entry answers: an amount, a verdict or a refusal, and the line of each.

use std::fmt;

/// Document 01, "Refusal numbers", and those that document 02 adds. When several hold, the order is
/// 9, 1, 2, 3, 12, 13, 4, 5, 6, 14, 7, 10, 11, 8: every entry makes the checks it needs one after
/// another in this order. An edit checks its new table between 7 and 8.
#[derive(Clone, Copy, Debug, PartialEq, Eq)]
pub enum Reason {
    WindowList = 1,
    Frame = 2,
    Window = 3,
    TaskList = 4,
    Task = 5,
    Cycle = 6,
    Asked = 7,
    Room = 8,
    /// A plan's bytes, or a trace's in a replay.
    PlanBytes = 9,
    RunSize = 10,
    Job = 11,
    /// A window shorter than the shortest allowed one, or no such shortest one.
    Sliver = 12,
    /// A rule or lost ticks that no board has, or no tick left for the asked owner.
    Switch = 13,
    /// A summary that does not belong to the windows lent with it.
    Summary = 14,
}

/// A refusal is a reason and a place.
#[derive(Clone, Copy, Debug, PartialEq, Eq)]
pub struct Refusal {
    pub reason: Reason,
    pub place: u64,
}

impl Reason {
    /// The check of one rule: refuses at `place` where the rule is `broken`.
    pub fn check(self, broken: bool, place: usize) -> Result<(), Refusal> {
        if broken {
            return Err(self.at(place));
        }
        Ok(())
    }

    pub fn at(self, place: usize) -> Refusal {
        Refusal {
            reason: self,
            place: place as u64,
        }
    }
}

/// A completion in a run: "complete at instant k + 1 when its last work is done in tick k".
#[derive(Clone, Copy, Debug, PartialEq, Eq)]
pub struct Completion {
    pub instant: u64,
    pub task: u64,
}

#[derive(Clone, Copy, Debug, PartialEq, Eq)]
pub enum Answer {
    Amount(u64),
    Windows(usize),
    Delay {
        delay: u64,
        supplied: u64,
    },
    Outage(u64),
    Demand(u64),
    Margin(i64),
    Meets {
        cycle: u64,
    },
    Miss {
        length: u64,
        start: u64,
        demand: u64,
        supply: u64,
    },
    Bound(u64),
    NoBound,
    Met {
        backlog: usize,
    },
    Missed {
        instant: u64,
        job: usize,
        backlog: usize,
    },
    Same,
    /// The first pair of completions that differs; a side that has ended is none.
    Differs {
        trace: Option<Completion>,
        machine: Option<Completion>,
    },
    /// A miss that a replay names: a run's, without its backlog.
    ReplayMissed {
        instant: u64,
        job: usize,
    },
    /// How many numbers a summary has.
    Summary(usize),
    /// How many margins were asked.
    Margins(usize),
    /// How many windows there are after an edit, and how many numbers their summary has.
    Edited {
        count: usize,
        summary: usize,
    },
    Refused(Refusal),
}

impl From<Result<Answer, Refusal>> for Answer {
    fn from(result: Result<Answer, Refusal>) -> Answer {
        result.unwrap_or_else(Answer::Refused)
    }
}

/// The line without its newline (docs/ASK.md).
impl fmt::Display for Answer {
    fn fmt(&self, f: &mut fmt::Formatter) -> fmt::Result {
        match self {
            Answer::Amount(amount) => write!(f, "AMOUNT {amount}"),
            Answer::Windows(count) => write!(f, "WINDOWS {count}"),
            Answer::Delay { delay, supplied } => write!(f, "DELAY {delay} of {supplied}"),
            Answer::Outage(ticks) => write!(f, "OUTAGE {ticks}"),
            Answer::Demand(demand) => write!(f, "DEMAND {demand}"),
            Answer::Margin(margin) => write!(f, "MARGIN {margin}"),
            Answer::Meets { cycle } => write!(f, "MEETS cycle {cycle}"),
            Answer::Miss {
                length,
                start,
                demand,
                supply,
            } => write!(
                f,
                "MISS length {length} start {start} demand {demand} supply {supply}"
            ),
            Answer::Bound(bound) => write!(f, "BOUND {bound}"),
            Answer::NoBound => write!(f, "NO BOUND"),
            Answer::Met { backlog } => write!(f, "MET backlog {backlog}"),
            Answer::Missed {
                instant,
                job,
                backlog,
            } => write!(f, "MISSED instant {instant} job {job} backlog {backlog}"),
            Answer::Same => write!(f, "SAME"),
            Answer::Differs { trace, machine } => {
                let (trace, machine) = (side(trace), side(machine));
                write!(f, "DIFFERS trace {trace} machine {machine}")
            }
            Answer::ReplayMissed { instant, job } => {
                write!(f, "MISSED instant {instant} job {job}")
            }
            Answer::Summary(numbers) => write!(f, "SUMMARY {numbers}"),
            Answer::Margins(count) => write!(f, "MARGINS {count}"),
            Answer::Edited { count, summary } => {
                write!(f, "EDITED count {count} summary {summary}")
            }
            Answer::Refused(Refusal { reason, place }) => {
                write!(f, "REFUSED {} at {place}", *reason as u8)
            }
        }
    }
}

/// One side of a difference.
fn side(completion: &Option<Completion>) -> String {
    match completion {
        Some(Completion { instant, task }) => format!("instant {instant} task {task}"),
        None => "none".to_string(),
    }
}
