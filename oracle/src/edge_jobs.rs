//! Job lists for runs on large tables: jobs are released, and work is done, where a window or a
//! frame begins or ends. A program that looks up a tick's window by another way than counting
//! (document 02, request 3) has its edges there.

use std::collections::BTreeSet;

use crate::machine::{run_legal, Job, MOST_RUN};
use crate::random::Random;
use crate::table::{Table, TableNumbers};
use crate::tasks::{TaskNumbers, MOST_TASKS, MOST_TICKS};

/// A group and a legal list of its jobs.
pub struct Jobs {
    pub group: Vec<[u64; 3]>,
    pub jobs: Vec<Job>,
}

/// Jobs on a legal table, of which the first is at tick 0, as a trace's must be, or where it falls.
pub fn jobs(r: &mut Random, lent: &TableNumbers, table: &Table, from_tick_0: bool) -> Jobs {
    if r.once_in(3) {
        one_long_job(r, lent, table, from_tick_0)
    } else {
        many_jobs(r, lent, table, from_tick_0)
    }
}

/// A window's or the frame's edge in some frame, or the tick just before or after it; often the
/// first or the last window's.
fn beside_an_edge(r: &mut Random, lent: &TableNumbers, frames: u64) -> u64 {
    let count = lent.windows.len();
    let edge = match r.below(8) {
        0 => lent.frame,
        1 => lent.windows[r.index(2)],
        2 => lent.windows[count - 1 - r.index(2)],
        _ => lent.windows[r.index(count)],
    };
    (frames * lent.frame + edge + r.below(3)).saturating_sub(1)
}

/// One job that is done just where a window or a frame ends, or a tick earlier or later; it is
/// due then, or a tick before that.
fn one_long_job(r: &mut Random, lent: &TableNumbers, table: &Table, from_tick_0: bool) -> Jobs {
    let release = if from_tick_0 {
        0
    } else {
        beside_an_edge(r, lent, 0)
    };
    let most_frames = (MOST_TICKS - 1) / lent.frame - 1;
    let frames = match r.below(3) {
        0 => r.between(1, 2),
        1 => r.between(1, most_frames),
        _ => most_frames,
    };
    // From the release on there is a supplied tick before the end: a frame holds one.
    let end = beside_an_edge(r, lent, frames).clamp(release + lent.frame, release + MOST_TICKS);
    let work = (release..end).filter(|&tick| table.is_supplied(tick));
    let work = work.count() as u64;
    let deadline = end - release - u64::from(r.once_in(4));
    let group = vec![[work, r.between(deadline, MOST_TICKS), deadline]];
    let task = 0;
    let jobs = vec![Job {
        release,
        task,
        work,
    }];
    Jobs { group, jobs }
}

/// Up to some hundred jobs, most of them short, in up to three frames: the first ones or some
/// late in the longest run. Mostly the deadlines of some tasks are just met or just missed.
fn many_jobs(r: &mut Random, lent: &TableNumbers, table: &Table, from_tick_0: bool) -> Jobs {
    let count = r.one_of(&[1, 3, 10, MOST_TASKS as u64]) as usize;
    let outage = table.longest_outage();
    let mut group: Vec<[u64; 3]> = (0..count).map(|_| task(r, table, outage)).collect();
    let last_frames = MOST_RUN / lent.frame - 4;
    let first_frame = match r.below(6) {
        0 => last_frames,
        1 => r.between(0, last_frames),
        _ => 0,
    };
    let mut instants = BTreeSet::new();
    if from_tick_0 {
        instants.insert(0);
    }
    for _ in 0..r.between(1, 150) {
        let frames = first_frame + r.below(3);
        instants.insert(beside_an_edge(r, lent, frames));
    }
    let mut jobs = Vec::new();
    let mut next = vec![0; count];
    for release in instants {
        for _ in 0..r.between(1, 3) {
            let task = r.index(count);
            let [work, period, _] = group[task];
            if next[task] <= release {
                next[task] = release + period;
                jobs.push(Job {
                    release,
                    task: task as u64,
                    work: r.between(1, work),
                });
            }
        }
    }
    jobs.sort();
    if r.once_in(2) {
        bring_to_the_edge(r, table, &mut group, &jobs);
    }
    Jobs { group, jobs }
}

/// A task that can be met if it is alone: due after the longest outage and some supply.
fn task(r: &mut Random, table: &Table, outage: u64) -> [u64; 3] {
    let work = match r.below(6) {
        0 => r.between(1, table.supplied_in_frame()),
        _ => r.between(1, 3),
    };
    let after = r.one_of(&[work, table.frame(), 3 * table.frame()]);
    let period = outage + after;
    [work, period, period]
}

/// Sets deadlines to the greatest count that a job of the task has in the run, or one less.
fn bring_to_the_edge(r: &mut Random, table: &Table, group: &mut [[u64; 3]], jobs: &[Job]) {
    let Ok(legal) = TaskNumbers::Records(group.to_vec()).check() else {
        return;
    };
    let run = run_legal(table, &legal, last_due(group, jobs), jobs);
    for (index, task) in group.iter_mut().enumerate() {
        let counts = jobs.iter().zip(&run.counts);
        let of_task = counts.filter(|(job, _)| job.task == index as u64);
        let most = of_task.map(|(_, &count)| count).max().unwrap_or(0);
        if most > 0 && r.once_in(2) {
            task[2] = (most - u64::from(r.once_in(8))).max(1);
        }
    }
}

/// When the last job is due, or the end of the longest run.
fn last_due(group: &[[u64; 3]], jobs: &[Job]) -> u64 {
    let due = |job: &Job| job.release + group[job.task as usize][2];
    jobs.iter().map(due).max().unwrap_or(0).min(MOST_RUN)
}

/// A run's n: beside an edge of a window or a frame, when the last job is due, or at a limit.
pub fn ticks(r: &mut Random, lent: &TableNumbers, jobs: &Jobs) -> u64 {
    let last = jobs.jobs.last().map_or(0, |job| job.release);
    let due = last_due(&jobs.group, &jobs.jobs);
    let ticks = match r.below(8) {
        0 => last + 1,
        1 => MOST_RUN,
        2 => (last / lent.frame + 1) * lent.frame,
        3 | 4 => beside_an_edge(r, lent, due / lent.frame),
        5 => due + 1,
        _ => due,
    };
    ticks.clamp(last + 1, MOST_RUN)
}
