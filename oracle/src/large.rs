//! Queries on large frames. Document 02's request 3 makes the least supply faster there, and with
//! it all that is asked by it, and changes no answer; so each of them is as large as document 01
//! allows, and there are as many as time allows.

use crate::edge_jobs;
use crate::frames;
use crate::generate;
use crate::numbers::GREATEST;
use crate::query::{Query, MOST_ROOM};
use crate::random::Random;
use crate::slivers;
use crate::spoil;
use crate::summaries;
use crate::switches;
use crate::table::{Table, TableNumbers, MOST_FRAME, MOST_LENGTH};
use crate::tasks::{MOST_TASKS, MOST_TICKS};
use crate::teams;
use crate::tight::Ground;
use crate::traces;

/// Some queries on one table: in a third of the sets about its summary, else half of them on one
/// that it shares with another team, some of those with a shortest allowed window, and as many with
/// a rule and q too. One that tries every start at every length takes up to `most_steps` such
/// steps, or as many as the frame `frames::LEAST_FRAME` needs.
pub fn queries(r: &mut Random, most_steps: u64) -> Vec<Query> {
    if r.once_in(3) {
        return summaries::large_queries(r, most_steps);
    }
    let mut queries = plain_queries(r, most_steps);
    for query in &mut queries {
        if r.once_in(2) {
            let faults = generate::faults(r);
            let shared = match r.below(3) {
                0 => switches::on_a_board(r, faults, query.clone()),
                with_shortest => {
                    let mut shared = teams::share(r, faults, query.clone());
                    if with_shortest == 1 {
                        slivers::set_shortest(r, &mut shared);
                    }
                    shared
                }
            };
            // The other team's verdict may need more steps, or what remains of a window.
            let is_verdict = matches!(shared, Query::Verdict(..));
            if !is_verdict || generate::steps(&shared) <= most_steps {
                *query = shared;
            }
        }
    }
    queries
}

fn plain_queries(r: &mut Random, most_steps: u64) -> Vec<Query> {
    let count = r.between(3, 8);
    let is_quick = r.once_in(2);
    let most_frame = match is_quick {
        true => MOST_FRAME,
        false => most_steps.isqrt().clamp(frames::LEAST_FRAME, MOST_FRAME),
    };
    let legal = frames::table(r, most_frame);
    let Ok(table) = legal.check() else {
        return Vec::new();
    };
    if is_quick {
        return (0..count).map(|_| quick(r, &legal, &table)).collect();
    }
    let mut ground = Ground::new(&table, most_steps / legal.frame);
    let mut queries: Vec<Query> = (0..count)
        .map(|_| match r.below(30) {
            0 => greatest_delay(r, most_frame),
            _ => slow(r, &legal, &mut ground),
        })
        .collect();
    // A damaged plan may be another plan, with more steps.
    let is_plan = |query: &Query| matches!(query, Query::Plan(..));
    queries.retain(|query| !is_plan(query) || generate::steps(query) <= most_steps);
    queries
}

/// A query about one length, or a run.
fn quick(r: &mut Random, legal: &TableNumbers, table: &Table) -> Query {
    let faults = generate::faults(r);
    let lent = lent_table(r, faults, legal);
    match r.below(20) {
        0..=5 => Query::LeastSupply(lent, length(r, faults, legal, table)),
        6 => Query::Outage(lent),
        7 | 8 => {
            let length = length(r, faults, legal, table);
            let group = supplied_at(r, table, length);
            Query::Margin(lent, generate::lent_tasks(r, faults, &group), length)
        }
        9..=14 => {
            let jobs = edge_jobs::jobs(r, legal, table, false);
            let ticks = edge_jobs::ticks(r, legal, &jobs);
            let run = generate::lent_run(r, faults, lent, &jobs.group, jobs.jobs, ticks);
            Query::Run(run)
        }
        _ => {
            let jobs = edge_jobs::jobs(r, legal, table, true);
            let trace = traces::trace_of_jobs(r, faults, legal, &jobs.group, &jobs.jobs);
            let tasks = generate::spoil_sometimes(r, faults, &jobs.group, false);
            Query::Replay(lent, tasks, trace)
        }
    }
}

/// A query that tries every start at many lengths.
fn slow(r: &mut Random, legal: &TableNumbers, ground: &mut Ground) -> Query {
    let faults = generate::faults(r);
    let mut lent = lent_table(r, faults, legal);
    match r.below(16) {
        0..=2 => {
            let needed = 2 * ground.critical_windows();
            // No query has room for a partition that needs more.
            let room = generate::room(r, needed).min(MOST_ROOM);
            Query::CriticalPartition(lent, room)
        }
        3 | 4 => Query::Delay(lent),
        5..=8 => {
            let (group, index) = ground.bounded(r);
            let count = group.len() as u64;
            let index = if r.once_in(faults) {
                r.one_of(&[count, count + 1, GREATEST])
            } else {
                index
            };
            Query::Bound(lent, generate::lent_tasks(r, faults, &group), index)
        }
        9 => {
            let group = ground.group(r);
            match r.below(3) {
                0 => lent.shortest = Some(slivers::shortest(r, &lent)),
                1 => {
                    switches::start_earlier(r, &mut lent);
                    switches::settle(r, faults, &mut lent);
                }
                _ => {}
            }
            generate::lent_plan(r, faults, lent, &group)
        }
        _ => {
            let group = ground.group(r);
            Query::Verdict(lent, generate::lent_tasks(r, faults, &group))
        }
    }
}

/// Of all tables with the frame, one with the greatest delay, or the one with the greatest A*t,
/// which is over 32 bits with P = 65,536.
fn greatest_delay(r: &mut Random, frame: u64) -> Query {
    let end = r.one_of(&[frame / 2, frame, frame]);
    let windows = vec![0, end];
    Query::Delay(TableNumbers::pairs(frame, windows))
}

/// The table, sometimes with a broken rule: often the last window's, sometimes two.
fn lent_table(r: &mut Random, faults: u64, legal: &TableNumbers) -> TableNumbers {
    let mut table = legal.clone();
    if r.once_in(faults) {
        let which = r.below(3);
        if which > 0 {
            spoil::table(r, &mut table);
        }
        if which < 2 {
            spoil::last_window(r, &mut table);
        }
    }
    table
}

/// A length at an edge of frames, of windows, of the longest outage or of the limit, or over it.
fn length(r: &mut Random, faults: u64, legal: &TableNumbers, table: &Table) -> u64 {
    if r.once_in(faults) {
        return r.one_of(&[MOST_LENGTH + 1, MOST_LENGTH + 1, GREATEST]);
    }
    let frame = legal.frame;
    let frames = frame * r.between(0, MOST_LENGTH / frame);
    let edge = match r.below(20) {
        0 => return r.between(0, 1),
        1 | 2 => return MOST_LENGTH - r.below(2),
        3 | 4 => return r.between(0, MOST_LENGTH),
        5 => return r.below(frame),
        6 | 7 => frame,
        8..=10 => frames,
        11 | 12 => table.longest_outage(),
        _ => {
            // From where a window ends to where one ends or starts, over some frames.
            let end = legal.windows[2 * r.index(legal.windows.len() / 2) + 1];
            let other = legal.windows[r.index(legal.windows.len())];
            (other + frame - end) % frame + r.one_of(&[0, 0, frame, frames])
        }
    };
    (edge + r.below(3)).saturating_sub(1)
}

/// A group with about as much demand at a length as the least supply there; or far more.
fn supplied_at(r: &mut Random, table: &Table, length: u64) -> Vec<[u64; 3]> {
    if r.once_in(12) {
        return vec![[MOST_TICKS, 1, 1]; MOST_TASKS];
    }
    let length = length.clamp(1, MOST_LENGTH);
    let deadline = r.between(1, length);
    let period = match r.below(3) {
        0 => deadline,
        1 => r.between(deadline, MOST_TICKS),
        _ => MOST_TICKS,
    };
    let jobs = (length - deadline) / period + 1;
    let work = table.least_supply(length) / jobs + r.below(3);
    let mut group = vec![[work.clamp(2, MOST_TICKS + 1) - 1, period, deadline]];
    while group.len() < MOST_TASKS && r.once_in(2) {
        let period = r.between(1, MOST_TICKS);
        group.push([r.between(1, 3), period, r.between(1, period)]);
    }
    group
}

#[cfg(test)]
mod tests {
    use super::*;
    use crate::answer::{Answer, Refusal};
    use crate::bound::bound;
    use crate::machine::{self, Job, MOST_RUN};
    use crate::numbers::encode;
    use crate::plan;
    use crate::query::RunNumbers;
    use crate::replay::replay;
    use crate::stream;
    use crate::table::{LeastSupplies, MOST_WINDOWS};
    use crate::tasks::{Group, TaskNumbers, MOST_CYCLE};
    use crate::trace;
    use crate::verdict::verdict;
    use std::collections::BTreeMap;

    type Edges = Vec<(&'static str, bool)>;

    /// Which edges a query is at, by its answer.
    fn edges(query: &Query) -> Vec<&'static str> {
        let edges = match query {
            Query::LeastSupply(lent, length) => match lent.check() {
                Ok(table) => amount(lent, &table, *length),
                Err(refusal) => refused_table(lent, refusal, *length > MOST_LENGTH),
            },
            Query::Margin(lent, tasks, length) => match (lent.check(), tasks.check()) {
                (Ok(table), Ok(group)) => margin(&table, &group, *length),
                (Ok(_), Err(_)) => vec![("a group's before 7", *length > MOST_LENGTH)],
                (Err(refusal), tasks) => refused_table(lent, refusal, tasks.is_err()),
            },
            Query::CriticalPartition(lent, room) => match lent.check() {
                Ok(table) => partition(lent, &table, *room),
                Err(refusal) => refused_table(lent, refusal, *room == 0),
            },
            Query::Delay(lent) => match lent.check() {
                Ok(table) => delay(lent, &table),
                Err(refusal) => refused_table(lent, refusal, false),
            },
            Query::Verdict(lent, tasks) => verdicts(lent, tasks),
            Query::Plan(form, bytes) => match plan::read(*form, bytes) {
                Ok((lent, tasks)) => verdicts(&lent, &tasks),
                Err(_) => vec![("9 of a plan", true)],
            },
            Query::Bound(lent, tasks, index) => bounds(lent, tasks, *index),
            Query::Run(numbers) => run(numbers),
            Query::Replay(lent, tasks, bytes) => replays(lent, tasks, bytes),
            _ => Vec::new(),
        };
        let asked = edges.into_iter().filter(|(_, is_asked)| *is_asked);
        asked.map(|(edge, _)| edge).collect()
    }

    fn refused_table(lent: &TableNumbers, refusal: Refusal, second: bool) -> Edges {
        let last = lent.windows.len() as u64 / 2 - u64::from(lent.windows.len() >= 2);
        let place = match refusal.reason as u8 {
            1 => "1",
            2 => "2",
            12 if refusal.place == MOST_WINDOWS as u64 => "12 of m itself",
            12 => "12",
            _ if refusal.place == 0 => "3 at 0",
            _ if refusal.place == MOST_WINDOWS as u64 - 1 => "3 at 63",
            _ if refusal.place == last => "3 at the last window",
            _ => "3 within",
        };
        vec![(place, true), ("a table's before another", second)]
    }

    /// The window ends from which `length` ticks hold the least supply. There is always one: that
    /// is what request 3 takes for granted.
    fn worst_ends(lent: &TableNumbers, table: &Table, length: u64) -> Vec<u64> {
        let supplied: Vec<bool> = (0..2 * lent.frame).map(|t| table.is_supplied(t)).collect();
        let frames = length / lent.frame * table.supplied_in_frame();
        let supply = |end: u64| {
            let rest = &supplied[end as usize..(end + length % lent.frame) as usize];
            frames + rest.iter().filter(|tick| **tick).count() as u64
        };
        let least = table.least_supply(length);
        let ends = ends(lent).into_iter();
        let worst: Vec<u64> = ends.filter(|&end| supply(end) == least).collect();
        assert!(!worst.is_empty(), "{lent:?} {length}");
        worst
    }

    fn is_largest(lent: &TableNumbers) -> bool {
        lent.frame == MOST_FRAME && lent.windows.len() == 2 * MOST_WINDOWS
    }

    fn ends(lent: &TableNumbers) -> Vec<u64> {
        lent.windows.chunks(2).map(|window| window[1]).collect()
    }

    fn amount(lent: &TableNumbers, table: &Table, length: u64) -> Edges {
        let frame = lent.frame;
        let ends = ends(lent);
        let worst = worst_ends(lent, table, length);
        let only = |end: &u64| ends.len() > 5 && worst == [*end];
        let last = ends[ends.len() - 1];
        let beside = (length + 1) % frame;
        let outage = table.longest_outage();
        vec![
            ("amount of no tick", length == 0),
            ("amount within a frame", length > 1 && length < frame),
            ("amount of P - 1", length == frame - 1),
            ("amount of P", length == frame),
            ("amount of P + 1", length == frame + 1),
            ("amount of ten frames", length >= 10 * frame),
            ("amount before whole frames", length > frame && beside == 0),
            ("amount of whole frames", length > frame && beside == 1),
            ("amount after whole frames", length > frame && beside == 2),
            ("amount of 1,000,000", length == MOST_LENGTH),
            ("amount of 1,000,001", length == MOST_LENGTH + 1),
            (
                "amount of the longest outage",
                outage > 1 && length == outage,
            ),
            ("amount of a tick more", outage > 1 && length == outage + 1),
            ("amount, only the frame's end", only(&frame)),
            ("amount, only the first end", only(&ends[0])),
            ("amount, only the last end", last < frame && only(&last)),
            ("amount, only one end", worst.len() == 1 && ends.len() > 5),
            (
                "amount, only one end, 65,536",
                worst.len() == 1 && is_largest(lent),
            ),
            (
                "amount, every end",
                worst.len() == ends.len() && ends.len() > 5,
            ),
            ("amount, 64 windows in 65,536", is_largest(lent)),
        ]
    }

    fn margin(table: &Table, group: &Group, length: u64) -> Edges {
        if length > MOST_LENGTH {
            return vec![("margin of a length too long", true)];
        }
        let (supply, demand) = (table.least_supply(length), group.demand(length));
        vec![
            ("margin of 0", supply == demand && supply > 0),
            ("margin of -1", supply + 1 == demand),
            ("margin of 1", supply == demand + 1),
            ("margin below 32 bits", demand > supply + (1 << 32)),
        ]
    }

    fn partition(lent: &TableNumbers, table: &Table, room: u64) -> Edges {
        let count = table.critical_windows().len() as u64;
        vec![
            ("partition, exactly enough room", room == 2 * count),
            ("partition, one number too few", room + 1 == 2 * count),
            ("partition, room for some", room > 0 && room < 2 * count),
            ("partition, no room", room == 0),
            ("partition, some more room", room > 2 * count),
            ("partition of 64 windows", count == MOST_WINDOWS as u64),
            (
                "partition of more",
                count > MOST_WINDOWS as u64 && room >= 2 * count,
            ),
            (
                "partition of 300 windows",
                count >= 300 && room >= 2 * count,
            ),
            ("partition of one window", count == 1),
            ("partition of 64 windows in 65,536", is_largest(lent)),
        ]
    }

    fn delay(lent: &TableNumbers, table: &Table) -> Edges {
        let supplied = table.supplied_in_frame();
        let frame = table.frame();
        let delay = table.delay();
        vec![
            ("no delay", delay == 0),
            ("no delay, A*P of 2^32", supplied == MOST_FRAME),
            ("delay of 64 windows in 65,536", is_largest(lent)),
            ("delay of one silent tick", supplied + 1 == frame),
            (
                "delay of one window",
                delay == supplied * (frame - supplied) && delay > 0,
            ),
            (
                "delay of many windows",
                delay > 0 && delay < supplied * (frame - supplied),
            ),
        ]
    }

    fn verdicts(lent: &TableNumbers, tasks: &TaskNumbers) -> Edges {
        let (table, group) = match (lent.check(), tasks.check()) {
            (Ok(table), Ok(group)) => (table, group),
            (Err(refusal), tasks) => return refused_table(lent, refusal, tasks.is_err()),
            (Ok(_), Err(_)) => return vec![("verdict of no legal group", true)],
        };
        let answer = verdict(lent, tasks);
        let (last, cycle) = match answer {
            Ok(Answer::Miss { length, .. }) => (length, group.cycle(&table).unwrap()),
            Ok(Answer::Meets { cycle }) => (cycle, cycle),
            _ => return vec![("6", true)],
        };
        let mut least = LeastSupplies::new(&table);
        let demands: Vec<u64> = (0..=last).map(|t| group.demand(t)).collect();
        let rises = demands.windows(2).filter(|pair| pair[1] > pair[0]).count() as u64;
        let is_equal = |&t: &u64| least.of(t) == demands[t as usize] && demands[t as usize] > 0;
        let equal = (1..last).filter(is_equal).count() as u64;
        let frames = cycle / lent.frame;
        let Ok(Answer::Miss {
            length,
            start,
            demand,
            supply,
        }) = answer
        else {
            return vec![
                ("meets", true),
                ("meets, no tasks", group.tasks.is_empty()),
                ("meets, one frame", frames == 1 && rises > 0),
                ("meets, ten frames", frames >= 10 && rises > 0),
                ("meets, a hundred frames", frames >= 100 && rises > 0),
                ("meets, a cycle of 1,000,000", cycle == MOST_CYCLE),
                ("meets, rises at a quarter", 4 * rises >= cycle),
                (
                    "meets, rises thrice in 100",
                    33 * rises >= cycle && lent.frame > 500,
                ),
                ("meets, equal ten times", equal >= 10),
                ("meets, equal at a quarter", 4 * equal >= cycle),
                ("meets, 20 tasks", group.tasks.len() >= 20),
                ("meets, 64 windows in 65,536", is_largest(lent) && rises > 0),
            ];
        };
        let at_an_end = ends(lent).iter().any(|end| end % lent.frame == start);
        vec![
            ("miss in a frame", length < lent.frame),
            ("miss after a frame", length > lent.frame),
            ("miss after ten frames", length > 10 * lent.frame),
            ("miss after a hundred frames", length > 100 * lent.frame),
            ("miss at P", length == lent.frame),
            ("miss at the last length", length == cycle && frames > 1),
            ("miss without supply", supply == 0),
            ("miss by one tick", demand == supply + 1 && supply > 0),
            ("miss after equal lengths", equal > 0),
            ("miss after ten equal lengths", equal >= 10),
            ("miss after many rises", rises > 100),
            ("miss from tick 0", start == 0),
            ("miss from a window's end", at_an_end && start > 0),
            ("miss from no window's end", !at_an_end && start > 0),
            ("miss from the frame's last tick", start == lent.frame - 1),
            ("miss with 20 tasks", group.tasks.len() >= 20),
            ("miss, 64 windows in 65,536", is_largest(lent)),
            (
                "miss after a frame, 64 windows in 65,536",
                is_largest(lent) && length > lent.frame,
            ),
        ]
    }

    fn bounds(lent: &TableNumbers, tasks: &TaskNumbers, index: u64) -> Edges {
        let (table, group) = match (lent.check(), tasks.check()) {
            (Ok(table), Ok(group)) => (table, group),
            (Err(refusal), tasks) => return refused_table(lent, refusal, tasks.is_err()),
            (Ok(_), Err(_)) => {
                return vec![("a group's before 7", index > MOST_TASKS as u64)];
            }
        };
        let Some(task) = group.tasks.get(index as usize) else {
            return vec![("7 of an absent task", true)];
        };
        let frame = lent.frame;
        let deadline = task.deadline;
        let above = &group.tasks[..index as usize];
        let wanted = |t: u64| -> u64 {
            let work = above.iter().map(|a| t.div_ceil(a.period) * a.work);
            task.work + work.sum::<u64>()
        };
        let cycle_is_too_long = group.cycle(&table).is_err();
        let Ok(Answer::Bound(t)) = bound(lent, tasks, index) else {
            let next = table.least_supply(deadline + 1) >= wanted(deadline + 1);
            return vec![
                ("no bound in a frame", deadline < frame),
                ("no bound in ten frames", deadline >= 10 * frame),
                ("no bound up to 1,000,000", deadline == MOST_TICKS),
                ("no bound, a tick too early", next),
                ("no bound, 31 above", index == 31),
                ("no bound, 64 windows in 65,536", is_largest(lent)),
            ];
        };
        vec![
            ("bound in a frame", t < frame),
            ("bound after a frame", t > frame),
            ("bound after ten frames", t > 10 * frame),
            ("bound after a hundred frames", t > 100 * frame),
            ("bound of whole frames", t > frame && t % frame == 0),
            ("bound at the deadline", t == deadline),
            (
                "bound with nothing over",
                table.least_supply(t) == wanted(t),
            ),
            ("bound, 31 above", index == 31),
            ("bound, too long a cycle", cycle_is_too_long),
            ("bound, 64 windows in 65,536", is_largest(lent)),
        ]
    }

    fn run(numbers: &RunNumbers) -> Edges {
        let RunNumbers {
            table: lent,
            tasks,
            ticks,
            ..
        } = numbers;
        let group = match (lent.check(), tasks.check()) {
            (Ok(_), Ok(group)) => group,
            (Err(refusal), tasks) => return refused_table(lent, refusal, tasks.is_err()),
            (Ok(_), Err(_)) => return vec![("run of no legal group", true)],
        };
        let mut counts = vec![0; numbers.room as usize];
        let answer = machine::run(lent, tasks, *ticks, &numbers.jobs, &mut counts);
        let missed_at = match answer {
            Err(refusal) => {
                let reason = refusal.reason as u8;
                return vec![
                    ("10", reason == 10),
                    ("11", reason == 11),
                    ("8", reason == 8),
                ];
            }
            Ok(Answer::Missed { instant, .. }) => Some(instant),
            Ok(_) => None,
        };
        let jobs: Vec<Job> = numbers.jobs.chunks(3).map(job).collect();
        let releases: Vec<u64> = jobs.iter().map(|job| job.release).collect();
        let complete: Vec<(&Job, u64)> = jobs.iter().zip(counts).filter(|c| c.1 > 0).collect();
        let done: Vec<u64> = complete
            .iter()
            .map(|(job, count)| job.release + count)
            .collect();
        let deadline = |job: &Job| group.tasks[job.task as usize].deadline;
        let frame = lent.frame;
        let is_in = |edges: &[u64], later: u64, instants: &[u64]| {
            let is_edge = |&t: &u64| edges.iter().any(|e| (e + later) % frame == t % frame);
            instants.iter().any(is_edge)
        };
        let starts: Vec<u64> = lent.windows.iter().copied().step_by(2).collect();
        let ends = ends(lent);
        vec![
            ("run met", missed_at.is_none() && !done.is_empty()),
            ("run missed", missed_at.is_some()),
            ("run missed after ten frames", missed_at > Some(10 * frame)),
            ("released at a start", is_in(&starts, 0, &releases)),
            (
                "released before a start",
                is_in(&starts, frame - 1, &releases),
            ),
            ("released at an end", is_in(&ends, 0, &releases)),
            ("released before an end", is_in(&ends, frame - 1, &releases)),
            ("released at a frame's start", is_in(&[0], 0, &releases)),
            (
                "released at a frame's end",
                is_in(&[0], frame - 1, &releases),
            ),
            ("done in a first tick", is_in(&starts, 1, &done)),
            ("done at an end", is_in(&ends, 0, &done)),
            ("done a tick before an end", is_in(&ends, frame - 1, &done)),
            ("done at a frame's end", is_in(&[0], 0, &done)),
            ("done in a frame's first tick", is_in(&[0], 1, &done)),
            (
                "just met",
                complete.iter().any(|(job, count)| *count == deadline(job)),
            ),
            (
                "done after ten frames",
                complete.iter().any(|c| c.1 > 10 * frame),
            ),
            ("twenty done", done.len() >= 20),
            ("n of whole frames", *ticks % frame == 0),
            ("n of 1,100,000", *ticks == MOST_RUN),
            ("run, 64 windows in 65,536", is_largest(lent)),
        ]
    }

    fn job(numbers: &[u64]) -> Job {
        Job {
            release: numbers[0],
            task: numbers[1],
            work: numbers[2],
        }
    }

    fn replays(lent: &TableNumbers, tasks: &TaskNumbers, bytes: &[u8]) -> Edges {
        let answer = replay(lent, tasks, bytes);
        let Ok(records) = trace::read(bytes) else {
            return vec![("9 of a trace", true)];
        };
        let completions = records
            .iter()
            .filter(|record| record.work.is_none())
            .count();
        let ticks = trace::ticks(&records);
        let is_long = ticks > lent.frame;
        match answer {
            Ok(Answer::Same) => vec![
                ("same", completions > 0),
                ("same, ten completions", completions >= 10),
                ("same, over frames", completions > 0 && is_long),
                (
                    "same, over ten frames",
                    completions > 0 && ticks > 10 * lent.frame,
                ),
                (
                    "same, 64 windows in 65,536",
                    completions > 0 && is_largest(lent),
                ),
            ],
            Ok(Answer::Differs { trace, machine }) => vec![
                ("differs, over frames", is_long),
                (
                    "differs in the instant",
                    trace.is_some() && machine.is_some(),
                ),
                ("differs, 64 windows in 65,536", is_largest(lent)),
            ],
            Ok(_) => vec![
                ("replay missed", true),
                ("replay missed, over frames", is_long),
            ],
            Err(refusal) => vec![("replay refused", refusal.reason as u8 >= 10)],
        }
    }

    fn count_edges(seed: u64, sets: u64, most_steps: u64) -> BTreeMap<&'static str, u64> {
        let mut random = Random::new(seed);
        let mut asked = BTreeMap::new();
        for _ in 0..sets {
            for query in plain_queries(&mut random, most_steps) {
                // It keeps the limits of a stream.
                let stream = stream::read(&encode(&query.numbers()));
                assert_eq!(
                    (stream.bad, &stream.queries[..]),
                    (None, &[query.clone()][..])
                );
                for edge in edges(&query) {
                    *asked.entry(edge).or_insert(0) += 1;
                }
            }
        }
        asked
    }

    /// Every edge is asked in 1,000 sets of queries, but for those that take more steps.
    #[test]
    fn every_edge_is_asked() {
        let asked = count_edges(9, 1_000, 4_000_000);
        assert_eq!(asked.len(), 127, "{asked:#?}");
    }

    /// What asks about many lengths has no more steps than are allowed.
    #[test]
    fn steps_are_kept() {
        let mut random = Random::new(11);
        let most_steps = 1_000_000;
        let all = (0..300).flat_map(|_| queries(&mut random, most_steps));
        let has_many = |code| matches!(code, 2 | 3 | 7 | 8 | 10 | 13 | 14 | 20 | 21 | 23);
        for query in all.filter(|query| has_many(query.code())) {
            assert!(generate::steps(&query) <= most_steps, "{query:?}");
        }
    }

    /// Those on shared tables keep the limits of a stream too.
    #[test]
    fn shared_tables_are_asked() {
        let mut random = Random::new(18);
        let all: Vec<Query> = (0..200)
            .flat_map(|_| queries(&mut random, 1_000_000))
            .collect();
        let shared: Vec<&Query> = all.iter().filter(|query| query.is_on_a_board()).collect();
        assert!(5 * shared.len() > all.len());
        for query in shared {
            let stream = stream::read(&encode(&query.numbers()));
            assert_eq!(
                (stream.bad, &stream.queries[..]),
                (None, &[query.clone()][..])
            );
        }
    }

    /// And those, in as many sets as some hundred queries have.
    #[test]
    #[ignore = "takes some minutes, in a release build"]
    fn every_edge_is_asked_at_full_size() {
        let asked = count_edges(10, 100, u64::MAX);
        for edge in [
            "partition of 64 windows in 65,536",
            "delay of 64 windows in 65,536",
            "no delay, A*P of 2^32",
            "meets, a cycle of 1,000,000",
            "meets, 64 windows in 65,536",
            "miss, 64 windows in 65,536",
            "miss after a frame, 64 windows in 65,536",
            "bound, 64 windows in 65,536",
            "no bound, 64 windows in 65,536",
            "no bound up to 1,000,000",
        ] {
            assert!(asked.contains_key(edge), "{edge} is not in {asked:#?}");
        }
    }
}
