//! The tick machine that runs a job list (document 01, "The tick machine").

use crate::answer::{Answer, Completion, Reason, Refusal};
use crate::table::{Table, TableNumbers};
use crate::tasks::{Group, TaskNumbers};

pub const MOST_RUN: u64 = 1_100_000;
pub const MOST_JOBS: usize = 4_096;

#[derive(Clone, Copy, Debug, PartialEq, Eq, PartialOrd, Ord)]
pub struct Job {
    pub release: u64,
    pub task: u64,
    pub work: u64,
}

/// "An unfinished job with r + D <= k + 1 is a miss": its instant and its index in the job list.
#[derive(Clone, Copy, Debug, PartialEq, Eq)]
pub struct Miss {
    pub instant: u64,
    pub job: usize,
}

/// What a run of a legal job list comes to.
pub struct Run {
    /// The miss that ended it, if one did.
    pub miss: Option<Miss>,
    pub backlog: usize,
    /// One count per job, 0 for one unfinished.
    pub counts: Vec<u64>,
    /// In the order in which they happened. One tick of work a tick: no two have one instant.
    pub completions: Vec<Completion>,
}

/// Runs `ticks` ticks and writes one count per job to the lent buffer. Checks the table and the
/// group, then 10, 11 and 8; never 6.
pub fn run(
    table: &TableNumbers,
    tasks: &TaskNumbers,
    ticks: u64,
    jobs: &[u64],
    lent: &mut [u64],
) -> Result<Answer, Refusal> {
    let table = table.check()?;
    let group = tasks.check()?;
    let too_large = jobs.len() / 3 > MOST_JOBS || ticks > MOST_RUN;
    Reason::RunSize.check(!jobs.len().is_multiple_of(3) || too_large, 0)?;
    let jobs: Vec<Job> = jobs.chunks(3).map(Job::new).collect();
    check_jobs(&group, ticks, &jobs)?;
    Reason::Room.check(lent.len() < jobs.len(), jobs.len())?;
    let run = run_legal(&table, &group, ticks, &jobs);
    lent[..jobs.len()].copy_from_slice(&run.counts);
    Ok(run.answer())
}

impl Run {
    fn answer(&self) -> Answer {
        let backlog = self.backlog;
        match self.miss {
            Some(Miss { instant, job }) => Answer::Missed {
                instant,
                job,
                backlog,
            },
            None => Answer::Met { backlog },
        }
    }
}

impl Job {
    fn new(numbers: &[u64]) -> Job {
        Job {
            release: numbers[0],
            task: numbers[1],
            work: numbers[2],
        }
    }

    /// The instant by which it must be complete.
    fn due(&self, group: &Group) -> u64 {
        self.release + group.tasks[self.task as usize].deadline
    }
}

/// Refusal 11 at the first job that breaks a rule against the jobs before it.
fn check_jobs(group: &Group, ticks: u64, jobs: &[Job]) -> Result<(), Refusal> {
    for (index, job) in jobs.iter().enumerate() {
        let legal = is_legal_after(group, ticks, &jobs[..index], job);
        Reason::Job.check(!legal, index)?;
    }
    Ok(())
}

/// Whether `job` may come next: "rises by tick and, within a tick, strictly by task index; the
/// task is in the table; work is 1 to C; release < n; jobs of one task are at least T apart."
pub fn is_legal_after(group: &Group, ticks: u64, earlier: &[Job], job: &Job) -> bool {
    let Some(task) = group.tasks.get(job.task as usize) else {
        return false;
    };
    let rises = earlier
        .last()
        .is_none_or(|last| (last.release, last.task) < (job.release, job.task));
    let apart = earlier
        .iter()
        .rfind(|other| other.task == job.task)
        .is_none_or(|other| other.release + task.period <= job.release);
    rises && (1..=task.work).contains(&job.work) && job.release < ticks && apart
}

/// The run of a legal list.
pub fn run_legal(table: &Table, group: &Group, ticks: u64, jobs: &[Job]) -> Run {
    let mut run = Run {
        miss: None,
        backlog: 0,
        counts: vec![0; jobs.len()],
        completions: Vec::new(),
    };
    let mut work_left: Vec<u64> = jobs.iter().map(|job| job.work).collect();
    let mut pending: Vec<usize> = Vec::new();
    let mut released = 0;
    for tick in 0..ticks {
        while released < jobs.len() && jobs[released].release == tick {
            pending.push(released);
            released += 1;
        }
        run.backlog = run.backlog.max(pending.len());
        let instant = tick + 1;
        if table.is_supplied(tick) {
            // The earliest deadline gets the tick, ties to the lower task index.
            let urgency = |&job: &usize| (jobs[job].due(group), jobs[job].task);
            if let Some(job) = pending.iter().copied().min_by_key(urgency) {
                work_left[job] -= 1;
                if work_left[job] == 0 {
                    run.counts[job] = instant - jobs[job].release;
                    let task = jobs[job].task;
                    run.completions.push(Completion { instant, task });
                    pending.retain(|&other| other != job);
                }
            }
        }
        let late = |&job: &usize| jobs[job].due(group) <= instant;
        if let Some(job) = pending.iter().copied().filter(late).min() {
            run.miss = Some(Miss { instant, job });
            return run;
        }
    }
    run
}
