//! Random queries that aim at edges: legal tables, groups and job lists near the edge of meeting
//! their deadlines. `spoil` breaks them by one rule, `batch` makes streams of them.

use std::collections::BTreeSet;

use crate::answer::Answer;
use crate::machine::{Job, MOST_RUN};
use crate::numbers::encode;
use crate::outages;
use crate::plan::{self, Form};
use crate::query::{Query, RunNumbers};
use crate::random::Random;
use crate::slivers;
use crate::spoil;
use crate::summaries;
use crate::switches;
use crate::table::{TableNumbers, MOST_FRAME, MOST_WINDOWS};
use crate::tasks::{least_common_multiple, TaskNumbers};
use crate::teams;
use crate::trace;
use crate::traces;
use crate::verdict::verdict;

/// A query with arguments of every kind that takes the program asked not too many steps: mostly
/// few, now and then more.
pub fn query(r: &mut Random) -> Query {
    let allowance = match r.below(2_000) {
        0 => 20_000_000,
        1..=9 => 4_000_000,
        10..=99 => 1_000_000,
        _ => 200_000,
    };
    if r.once_in(500) {
        return spoil::query_at_a_limit(r);
    }
    if r.once_in(500) {
        return traces::query_at_a_limit(r);
    }
    if r.once_in(500) {
        return teams::query_at_a_limit(r);
    }
    if r.once_in(200) {
        return slivers::query_at_a_limit(r);
    }
    if r.once_in(200) {
        return summaries::query_at_a_limit(r);
    }
    if r.once_in(200) {
        return switches::query_at_a_limit(r);
    }
    // A third of the queries is about summaries, and a third of all is on boards with a rule and q.
    // A quarter of the others has m, another one is for one of two teams without it.
    let is_about_summaries = r.once_in(3);
    let pays = r.once_in(3);
    let kind = r.below(4);
    loop {
        let faults = faults(r);
        let query = match kind {
            _ if is_about_summaries => summaries::query(r, faults, pays),
            _ if pays => switches::query(r, faults),
            0 => {
                let plain = any_query(r, faults);
                slivers::with_shortest(r, faults, plain)
            }
            1 => {
                let plain = any_query(r, faults);
                teams::share(r, faults, plain)
            }
            _ => any_query(r, faults),
        };
        if steps(&query) <= allowance {
            return query;
        }
    }
}

/// One argument in so many has a fault. One query in ten has faults in half of its arguments, so
/// that their order counts.
pub fn faults(r: &mut Random) -> u64 {
    if r.once_in(10) {
        2
    } else {
        25
    }
}

pub fn any_query(r: &mut Random, faults: u64) -> Query {
    match r.below(32) {
        0 => least_supply_query(r, faults),
        1 | 2 => critical_partition_query(r, faults),
        3 => Query::Delay(narrow_table(r, faults)),
        4 => Query::Outage(any_table(r, faults)),
        5 => demand_query(r, faults),
        6 | 7 => margin_query(r, faults),
        8..=11 => verdict_query(r, faults),
        12 | 13 => bound_query(r, faults),
        14..=17 => run_query(r, faults),
        18 | 19 => plan_query(r, faults),
        20..=23 => outage_query(r, faults),
        _ => traces::query(r, faults),
    }
}

/// About how many steps a plain program takes for a query: lengths tried times starts tried.
pub fn steps(query: &Query) -> u64 {
    match query {
        Query::LeastSupply(table, _) | Query::Margin(table, _, _) => legal_frame(table),
        Query::CriticalPartition(table, _) | Query::Delay(table) => legal_frame(table).pow(2),
        Query::Verdict(table, tasks) => verdict_steps(table, tasks),
        Query::Bound(table, tasks, index) => bound_steps(table, tasks, *index),
        Query::Run(run) if run.ticks <= MOST_RUN => 18 * run.ticks,
        Query::Plan(form, bytes) => {
            plan::read(*form, bytes).map_or(0, |(t, g)| verdict_steps(&t, &g))
        }
        Query::Replay(_, _, trace) => replay_steps(trace),
        Query::MakeSummary(table, _) | Query::SummaryAmount(table, _, _) => {
            legal_frame(table).pow(2)
        }
        Query::Margins(margins) => {
            let frame = legal_frame(&margins.table);
            frame.pow(2) + margins.lengths.len() as u64 * frame
        }
        // The summaries of the old table and of the new one.
        Query::Edit(edit) => {
            let frame = edit.old().map_or(0, |table| legal_frame(&table));
            2 * frame.pow(2)
        }
        Query::Outage(_) | Query::Demand(..) | Query::Run(_) => 0,
    }
}

/// As of a run: its ticks are the trace's, unless they are too many.
fn replay_steps(bytes: &[u8]) -> u64 {
    let ticks = trace::read(bytes).map_or(0, |records| trace::ticks(&records));
    match ticks {
        0..=MOST_RUN => 18 * ticks,
        _ => 0,
    }
}

/// The frame, or 0 where the table is refused.
fn legal_frame(table: &TableNumbers) -> u64 {
    table.check().map_or(0, |table| table.frame())
}

fn verdict_steps(table: &TableNumbers, tasks: &TaskNumbers) -> u64 {
    let frame = legal_frame(table);
    if frame > 5_000 {
        return u64::MAX;
    }
    match verdict(table, tasks) {
        Ok(Answer::Meets { cycle }) => cycle * frame,
        Ok(Answer::Miss { length, .. }) => length * frame,
        _ => 0,
    }
}

fn bound_steps(table: &TableNumbers, tasks: &TaskNumbers, index: u64) -> u64 {
    let deadline = tasks.check().map_or(0, |group| {
        group
            .tasks
            .get(index as usize)
            .map_or(0, |task| task.deadline)
    });
    deadline * legal_frame(table)
}

fn least_supply_query(r: &mut Random, faults: u64) -> Query {
    let table = any_table(r, faults);
    let length = length(r, table.frame, &[]);
    Query::LeastSupply(table, length)
}

fn critical_partition_query(r: &mut Random, faults: u64) -> Query {
    let table = narrow_table(r, faults);
    let known = table.check().map_or(0, |table| match table.frame() {
        0..=5_000 => 2 * table.critical_windows().len() as u64,
        _ => 0,
    });
    let room = room(r, known);
    Query::CriticalPartition(table, room)
}

/// An outage at an edge of document 02's request 1, refused as often as others.
fn outage_query(r: &mut Random, faults: u64) -> Query {
    let table = outages::table_at_an_edge(r);
    Query::Outage(lent_table(r, faults, table))
}

fn demand_query(r: &mut Random, faults: u64) -> Query {
    let table = legal_table(r);
    let group = legal_group(r, &table);
    let length = length(r, table.frame, &group);
    Query::Demand(lent_tasks(r, faults, &group), length)
}

fn margin_query(r: &mut Random, faults: u64) -> Query {
    let table = legal_table(r);
    let group = legal_group(r, &table);
    let length = length(r, table.frame, &group);
    let tasks = lent_tasks(r, faults, &group);
    Query::Margin(lent_table(r, faults, table), tasks, length)
}

fn verdict_query(r: &mut Random, faults: u64) -> Query {
    let table = legal_table(r);
    let group = match r.once_in(40) {
        true => spoil::group_near_the_greatest_cycle(r, table.frame),
        false => legal_group(r, &table),
    };
    let tasks = lent_tasks(r, faults, &group);
    Query::Verdict(lent_table(r, faults, table), tasks)
}

fn bound_query(r: &mut Random, faults: u64) -> Query {
    let table = legal_table(r);
    let group = legal_group(r, &table);
    let tasks = lent_tasks(r, faults, &group);
    let count = group.len() as u64;
    let index = match r.below(24) {
        0 => count,
        1 => r.one_of(&[count + 1, 32, 4_294_967_295]),
        2..=9 => count.saturating_sub(1),
        _ => r.below(count),
    };
    Query::Bound(lent_table(r, faults, table), tasks, index)
}

fn plan_query(r: &mut Random, faults: u64) -> Query {
    let table = legal_table(r);
    let group = legal_group(r, &table);
    let table = lent_table(r, faults, table);
    lent_plan(r, faults, table, &group)
}

/// The bytes of a plan file; half of them are damaged.
pub fn lent_plan(r: &mut Random, faults: u64, table: TableNumbers, group: &[[u64; 3]]) -> Query {
    let TaskNumbers::Triples(tasks) = spoil_sometimes(r, faults, group, false) else {
        return Query::Plan(Form::Old, Vec::new());
    };
    let (form, numbers) = plan_numbers(&table, &tasks);
    Query::Plan(form, spoil::plan_bytes(r, form, numbers))
}

/// A plan file as it should be, with m, or m, the rule and q, first where the table has them set.
pub fn plan_file(table: &TableNumbers, tasks: &[u64]) -> Query {
    let (form, numbers) = plan_numbers(table, tasks);
    Query::Plan(form, encode(&numbers))
}

/// Its form and its numbers.
fn plan_numbers(table: &TableNumbers, tasks: &[u64]) -> (Form, Vec<u64>) {
    let mut numbers = table.settings();
    let form = match numbers.len() {
        0 => Form::Old,
        1 => Form::WithShortest,
        _ => Form::WithSwitch,
    };
    numbers.extend([table.frame, table.windows.len() as u64 / 2]);
    numbers.extend(&table.windows);
    numbers.push(tasks.len() as u64 / 3);
    numbers.extend(tasks);
    (form, numbers)
}

fn run_query(r: &mut Random, faults: u64) -> Query {
    let table = legal_table(r);
    let group = legal_group(r, &table);
    let mut ticks = match r.below(60) {
        0 => r.below(3),
        1 => r.between(300, 5_000),
        _ => r.between(1, 300),
    };
    let jobs = legal_jobs(r, &table, &group, ticks);
    if let (Some(last), true) = (jobs.last(), r.once_in(3)) {
        // The run ends soon after the last release, or at or just before the last deadline.
        let deadline = group[last.task as usize][2];
        let after = [1, deadline, deadline + 1, deadline.saturating_sub(1).max(1)];
        ticks = last.release + r.one_of(&after);
    }
    let mut run = lent_run(r, faults, table, &group, jobs, ticks);
    run.table = lent_table(r, faults, run.table);
    Query::Run(run)
}

/// A run on a table, sometimes with a broken rule of its jobs or of its group.
pub fn lent_run(
    r: &mut Random,
    faults: u64,
    table: TableNumbers,
    group: &[[u64; 3]],
    mut jobs: Vec<Job>,
    mut ticks: u64,
) -> RunNumbers {
    if r.once_in(faults.min(6)) {
        spoil::jobs(r, &mut jobs, group, &mut ticks);
    }
    let room = room(r, jobs.len() as u64);
    let mut numbers: Vec<u64> = jobs
        .iter()
        .flat_map(|job| [job.release, job.task, job.work])
        .collect();
    if r.once_in(3 * faults) {
        spoil::not_in_threes(r, &mut numbers);
    }
    let tasks = lent_tasks(r, faults, group);
    RunNumbers {
        table,
        tasks,
        ticks,
        jobs: numbers,
        room,
    }
}

/// A legal table with a small frame.
pub fn legal_table(r: &mut Random) -> TableNumbers {
    let frame = match r.below(20) {
        0 => r.between(1, 2),
        1..=9 => r.between(3, 16),
        10..=14 => r.between(8, 60),
        15..=18 => r.one_of(&[8, 10, 12, 16, 20, 24, 25, 30, 32, 40, 60, 64, 100, 125, 128]),
        _ => r.between(60, 200),
    };
    let windows = windows(r, frame);
    TableNumbers::pairs(frame, windows)
}

/// A table for an entry that takes time with the square of the frame.
fn narrow_table(r: &mut Random, faults: u64) -> TableNumbers {
    let mut table = legal_table(r);
    if r.once_in(40) {
        table.frame = r.between(200, 2_000);
        table.windows = windows(r, table.frame);
    }
    lent_table(r, faults, table)
}

/// A table for an entry that is quick with every frame.
fn any_table(r: &mut Random, faults: u64) -> TableNumbers {
    let mut table = legal_table(r);
    if r.once_in(5) {
        table.frame = match r.below(3) {
            0 => r.between(MOST_FRAME - 2, MOST_FRAME),
            _ => r.between(200, MOST_FRAME),
        };
        table.windows = windows(r, table.frame);
    }
    lent_table(r, faults, table)
}

pub fn lent_table(r: &mut Random, faults: u64, mut table: TableNumbers) -> TableNumbers {
    if r.once_in(faults) {
        spoil::table(r, &mut table);
    }
    table
}

/// The windows of a legal table. Any even number of edges in 0 to P, all different, are legal
/// windows, and there are no others.
fn windows(r: &mut Random, frame: u64) -> Vec<u64> {
    let most = frame.div_ceil(2).min(MOST_WINDOWS as u64);
    match r.below(12) {
        0 => return vec![0, frame],
        1 => return one_tick_windows(r, frame, most),
        2 => return one_tick_gaps(r, frame),
        _ => {}
    }
    let count = match r.below(10) {
        0 => most,
        1 => r.between(1, most),
        _ => r.between(1, most.min(4)),
    };
    any_windows(r, frame, count)
}

/// Any windows, so many; often some are at the frame's ends.
pub fn any_windows(r: &mut Random, frame: u64, count: u64) -> Vec<u64> {
    let mut edges = BTreeSet::new();
    if r.once_in(3) {
        edges.insert(0);
    }
    if r.once_in(3) {
        edges.insert(frame);
    }
    while (edges.len() as u64) < 2 * count {
        edges.insert(r.between(0, frame));
    }
    edges.into_iter().collect()
}

/// Windows of one tick each, with gaps of one tick or some more.
fn one_tick_windows(r: &mut Random, frame: u64, most: u64) -> Vec<u64> {
    let gap = r.between(1, 4);
    let first = r.below(frame.min(3));
    let starts = (first..frame).step_by(gap as usize + 1).take(most as usize);
    starts.flat_map(|start| [start, start + 1]).collect()
}

/// A frame that is full but for some gaps of one tick.
fn one_tick_gaps(r: &mut Random, frame: u64) -> Vec<u64> {
    let mut edges = BTreeSet::from([0, frame]);
    for _ in 0..r.between(0, 5) {
        let gap = r.between(0, frame);
        if gap + 1 < frame && !edges.contains(&gap) && !edges.contains(&(gap + 1)) {
            edges.extend([gap, gap + 1]);
        }
    }
    edges.into_iter().collect()
}

/// A length at an edge of the frame, of a deadline or of the limit.
fn length(r: &mut Random, frame: u64, group: &[[u64; 3]]) -> u64 {
    let frame = frame.min(MOST_FRAME);
    match r.below(20) {
        0 => r.between(0, 1),
        1 => r.one_of(&[999_999, 1_000_000]),
        2 => r.one_of(&[1_000_001, 1_000_002, 2_000_000, 4_294_967_295]),
        3..=6 => (r.between(1, 5) * frame + r.between(0, 2)).saturating_sub(1),
        7..=12 if !group.is_empty() => {
            let [_, period, deadline] = group[r.index(group.len())];
            (r.between(0, 3) * period + deadline + r.between(0, 1)).saturating_sub(1)
        }
        13 => r.between(0, 1_000_000),
        _ => r.between(0, 3 * frame),
    }
}

/// Room for as many numbers as are needed, one fewer, or more.
pub fn room(r: &mut Random, needed: u64) -> u64 {
    match r.below(16) {
        0..=8 => needed,
        9 | 10 => needed.saturating_sub(1),
        11 => needed + 1,
        12 => needed + r.between(2, 6),
        13 => 0,
        14 => needed.saturating_sub(2),
        _ => needed / 2,
    }
}

/// A legal group of tasks C, T, D; mostly one of its works is at the edge of a miss.
pub fn legal_group(r: &mut Random, table: &TableNumbers) -> Vec<[u64; 3]> {
    let size = match r.below(40) {
        0 | 1 => 0,
        2..=4 => r.between(5, 10),
        5 => r.between(31, 32),
        _ => r.between(1, 4),
    };
    let most_cycle = r.one_of(&[500, 2_000, 2_000, 20_000]);
    let alike = r.once_in(6);
    let mut cycle = table.frame;
    let mut group: Vec<[u64; 3]> = Vec::new();
    for _ in 0..size {
        let (period, deadline) = match group.last() {
            Some(&[_, period, deadline]) if alike => (period, deadline),
            _ => times(r, table.frame, cycle, most_cycle),
        };
        cycle = least_common_multiple(cycle, period);
        // A share of the frame; the group as a whole asks for about what a frame can give.
        let work = r.between(1, (period / (2 * size)).max(1));
        group.push([work, period, deadline]);
    }
    while group.len() > 1 && !meets(table, &group) && !r.once_in(6) {
        group.remove(r.index(group.len()));
    }
    if !group.is_empty() && !r.once_in(6) {
        bring_to_the_edge(r, table, &mut group);
    }
    group
}

fn meets(table: &TableNumbers, group: &[[u64; 3]]) -> bool {
    let answer = verdict(table, &TaskNumbers::Records(group.to_vec()));
    matches!(answer, Ok(Answer::Meets { .. }))
}

/// A period that keeps the cycle small and a deadline: often equal, often at the frame's edges.
fn times(r: &mut Random, frame: u64, cycle: u64, most_cycle: u64) -> (u64, u64) {
    let mut period = frame;
    for _ in 0..6 {
        let candidate = match r.below(10) {
            0 | 1 => frame,
            2 => frame * r.between(2, 5),
            3 => frame + 1,
            4 => frame / 2,
            5 => frame.saturating_sub(1),
            6 => r.one_of(&[7, 11, 13, 17, 19, 23, 29, 31]),
            7 => r.between(2, 5),
            _ => r.between(4, 40),
        };
        let candidate = candidate.max(1);
        if least_common_multiple(cycle, candidate) <= most_cycle {
            period = candidate;
            break;
        }
    }
    let deadline = match r.below(10) {
        0..=4 => period,
        5 => period.saturating_sub(1),
        6 => period.div_ceil(2),
        _ => r.between(1, period),
    };
    (period, deadline.max(1))
}

/// Sets the work of one task to the most with which the group meets, or to one more.
fn bring_to_the_edge(r: &mut Random, table: &TableNumbers, group: &mut [[u64; 3]]) {
    let task = r.index(group.len());
    let (mut enough, mut too_much) = (0, group[task][2] + 1);
    while enough + 1 < too_much {
        group[task][0] = enough + (too_much - enough) / 2;
        if meets(table, group) {
            enough = group[task][0];
        } else {
            too_much = group[task][0];
        }
    }
    group[task][0] = match r.below(16) {
        0 => r.between(1, too_much + 1),
        1 => group[task][2] + 1,
        2..=7 => too_much,
        _ => enough.max(1),
    };
}

/// The group in triples or in records, sometimes with a broken rule.
pub fn lent_tasks(r: &mut Random, faults: u64, group: &[[u64; 3]]) -> TaskNumbers {
    let records = r.once_in(2);
    spoil_sometimes(r, faults, group, records)
}

pub fn spoil_sometimes(
    r: &mut Random,
    faults: u64,
    group: &[[u64; 3]],
    records: bool,
) -> TaskNumbers {
    let mut group = group.to_vec();
    let broken = r.once_in(faults);
    if broken {
        spoil::group(r, &mut group);
    }
    if records {
        return TaskNumbers::Records(group);
    }
    let mut numbers = group.concat();
    if broken && r.once_in(3) {
        spoil::not_in_threes(r, &mut numbers);
    }
    TaskNumbers::Triples(numbers)
}

/// A legal job list, up to 150 jobs. In half of the lists all tasks release at once, at the start
/// where the verdict finds a miss or at another one, and then every T ticks.
pub fn legal_jobs(
    r: &mut Random,
    table: &TableNumbers,
    group: &[[u64; 3]],
    ticks: u64,
) -> Vec<Job> {
    let together = r.once_in(2);
    let first = match verdict(table, &TaskNumbers::Records(group.to_vec())) {
        Ok(Answer::Miss { start, .. }) if !r.once_in(4) => start,
        _ => r.below(table.frame),
    };
    let mut jobs = Vec::new();
    for (index, &[work, period, _]) in group.iter().enumerate() {
        let mut release = if together { first } else { r.below(2 * period) };
        while release < ticks && jobs.len() < 2_000 {
            let part = if r.once_in(4) {
                r.between(1, work)
            } else {
                work
            };
            jobs.push(Job {
                release,
                task: index as u64,
                work: part,
            });
            let late = if together {
                0
            } else {
                r.below(2) * r.below(period)
            };
            release += period + late;
        }
    }
    jobs.sort();
    jobs.truncate(150);
    jobs
}
