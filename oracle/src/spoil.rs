//! Breaks legal arguments, mostly by exactly one rule, and asks at the limits.

use crate::machine::{Job, MOST_JOBS, MOST_RUN};
use crate::numbers::{encode, GREATEST};
use crate::plan::Form;
use crate::query::{
    Query, RunNumbers, MOST_JOB_NUMBERS, MOST_OLD_NUMBERS, MOST_PLAN_BYTES, MOST_ROOM,
};
use crate::random::Random;
use crate::table::{TableNumbers, MOST_FRAME, MOST_WINDOWS};
use crate::tasks::{TaskNumbers, MOST_TASKS, MOST_TICKS};

/// Breaks one rule of a legal table (refusals 1, 2 and 3).
pub fn table(r: &mut Random, table: &mut TableNumbers) {
    let windows = &mut table.windows;
    let count = windows.len() / 2;
    let window = 2 * r.index(count);
    match r.below(14) {
        0 => not_in_twos(r, windows),
        1 => windows.clear(),
        2 => *table = one_tick_windows(MOST_WINDOWS as u64 + r.between(1, 36)),
        3 | 4 => table.frame = r.one_of(&[0, 0, MOST_FRAME + 1, MOST_FRAME + 2, GREATEST]),
        5 | 6 if count > 1 => {
            // Touches the window before, or overlaps it by a tick.
            let later = 2 * r.between(1, count as u64 - 1) as usize;
            windows[later] = windows[later - 1].saturating_sub(r.below(2));
        }
        5 | 6 if windows[1] - windows[0] > 1 => {
            // One window written as two that touch.
            let middle = windows[0] + 1;
            windows.splice(1..1, [middle, middle]);
        }
        7 => windows[window + 1] = windows[window],
        8 => windows.swap(window, window + 1),
        9 => table.frame = windows[2 * count - 1] - 1,
        10 if count > 1 => windows.rotate_left(2),
        11 => windows.extend_from_within(2 * count - 2..),
        12 => windows[window] = r.one_of(&[MOST_FRAME, MOST_FRAME + 1, GREATEST]),
        _ => windows[window + 1] = r.one_of(&[0, table.frame + 1, MOST_FRAME + 1, GREATEST]),
    }
}

/// Breaks the rule of the last window alone, unless the table is broken already: every window
/// before it has to be found legal.
pub fn last_window(r: &mut Random, table: &mut TableNumbers) {
    let windows = &mut table.windows;
    let Some(last) = windows.len().checked_sub(2) else {
        return;
    };
    match r.below(6) {
        0 | 1 if last > 0 => windows[last] = windows[last - 1].saturating_sub(r.below(2)),
        2 => windows[last + 1] = windows[last],
        3 => windows.swap(last, last + 1),
        _ => windows[last + 1] = table.frame.saturating_add(1).min(GREATEST),
    }
}

/// Breaks one rule of a table that teams share (refusals 1, 2 and 3), mostly: where windows do not
/// touch, another owner is no fault.
pub fn shared_table(r: &mut Random, table: &mut TableNumbers) {
    let windows = &mut table.windows;
    let count = windows.len() / 3;
    if count == 0 {
        windows.extend([0, 1, r.below(2)]);
        return;
    }
    // Every window before the last has to be found legal.
    let window = match r.once_in(4) {
        true => 3 * (count - 1),
        false => 3 * r.index(count),
    };
    let (start, end, owner) = (windows[window], windows[window + 1], windows[window + 2]);
    // The window before it; before the first there is none.
    let before = window.saturating_sub(3);
    let (end_before, owner_before) = (windows[before + 1], windows[before + 2]);
    match r.below(20) {
        0 => not_in_threes(r, windows),
        1 if r.once_in(2) => windows.clear(),
        1 => {
            // The owners are left out.
            let pairs = windows.chunks(3).flat_map(|w| &w[..w.len().min(2)]);
            *windows = pairs.copied().collect();
        }
        2 => {
            let many = one_tick_windows(MOST_WINDOWS as u64 + r.between(1, 36));
            let owned = many.windows.chunks(2).zip(0..);
            *windows = owned.flat_map(|(w, i)| [w[0], w[1], i % 2]).collect();
            table.frame = many.frame;
        }
        3 => table.frame = r.one_of(&[0, 0, MOST_FRAME + 1, MOST_FRAME + 2, GREATEST]),
        4..=6 if window > 0 => {
            // Touches the window before, of the same owner.
            windows[window] = end_before;
            windows[window + 2] = owner_before;
        }
        7 | 8 if window > 0 => {
            let ticks = r.one_of(&[1, 1, 2, 4]);
            windows[window] = end_before.saturating_sub(ticks);
        }
        4..=8 if end > start + 1 => {
            // One window written as two that touch.
            let middle = r.between(start + 1, end - 1);
            windows.splice(window + 1..window + 1, [middle, owner, middle]);
        }
        9 | 10 => windows[window + 2] = absent_owner(r),
        11 => windows[window + 2] = owner_before,
        12 => windows[window + 2] = 1 - owner.min(1),
        13 => windows[window + 1] = start,
        14 => windows.swap(window, window + 1),
        15 => windows[3 * count - 2] = table.frame.saturating_add(1).min(GREATEST),
        16 => table.frame = windows[3 * count - 2].saturating_sub(1),
        17 => windows.rotate_left(3),
        18 => windows.extend([start, end, r.below(2)]),
        _ => windows[window + r.index(2)] = r.one_of(&[0, table.frame, MOST_FRAME + 1, GREATEST]),
    }
}

/// An owner that does not exist: often one that is 0 or 1 in its low byte or half.
pub fn absent_owner(r: &mut Random) -> u64 {
    r.one_of(&[2, 2, 2, 2, 3, 8, 256, 257, 1 << 16, GREATEST])
}

fn one_tick_windows(count: u64) -> TableNumbers {
    TableNumbers::pairs(
        2 * count,
        (0..count).flat_map(|i| [2 * i, 2 * i + 1]).collect(),
    )
}

fn not_in_twos(r: &mut Random, numbers: &mut Vec<u64>) {
    if r.once_in(2) {
        numbers.pop();
    } else {
        numbers.push(r.below(9));
    }
}

/// Leaves one or two numbers over.
pub fn not_in_threes(r: &mut Random, numbers: &mut Vec<u64>) {
    for _ in 0..r.between(1, 2) {
        if numbers.is_empty() || r.once_in(3) {
            numbers.insert(0, r.between(0, 3));
        } else {
            numbers.pop();
        }
    }
}

/// Breaks one rule of a legal group (refusals 4 and 5), of one task or sometimes of two.
pub fn group(r: &mut Random, group: &mut Vec<[u64; 3]>) {
    if r.once_in(4) || group.is_empty() {
        let count = r.between(MOST_TASKS as u64 + 1, MOST_TASKS as u64 + 8);
        group.resize(count as usize, [1, 8, 8]);
        return;
    }
    for _ in 0..r.between(1, 2) {
        let task = r.index(group.len());
        let [_, period, _] = group[task];
        match r.below(4) {
            0 => group[task][r.index(3)] = 0,
            1 => group[task][r.index(3)] = r.one_of(&[MOST_TICKS + 1, GREATEST]),
            2 => group[task][2] = (period + r.between(1, 2)).min(GREATEST),
            _ => group[task] = [1, MOST_TICKS + 1, MOST_TICKS + r.below(2)],
        }
    }
}

/// Breaks one rule of a job list (refusals 10 and 11).
pub fn jobs(r: &mut Random, jobs: &mut Vec<Job>, group: &[[u64; 3]], ticks: &mut u64) {
    if jobs.is_empty() {
        jobs.push(Job {
            release: 0,
            task: r.below(2) * r.below(33),
            work: r.below(2),
        });
        return;
    }
    let index = r.index(jobs.len());
    let job = jobs[index];
    let [work, period, _] = group[job.task as usize];
    match r.below(14) {
        0 | 1 => jobs.swap(index.saturating_sub(1), index),
        2 => jobs.insert(index, job),
        3 => jobs[index].task = group.len() as u64,
        4 => jobs[index].task = r.one_of(&[32, 33, GREATEST]),
        5 => jobs[index].work = 0,
        6 => jobs[index].work = work + 1,
        7 => jobs[index].work = GREATEST,
        8 => *ticks = jobs[jobs.len() - 1].release,
        9 => jobs[index].release = r.one_of(&[*ticks, *ticks + 1, GREATEST]),
        10 | 11 => {
            // Another job of the task one tick nearer than T, and no later one of it.
            jobs.retain(|j| j.task != job.task || j.release <= job.release);
            let release = job.release + period - 1;
            jobs.push(Job { release, ..job });
            jobs.sort();
            *ticks = (*ticks).max(release + 1);
        }
        12 if r.once_in(8) => jobs.resize(MOST_JOBS + 1 + r.index(30), job),
        _ => *ticks = r.one_of(&[MOST_RUN + 1, MOST_RUN + 2, GREATEST]),
    }
}

/// Periods whose least common multiple with the frame is at 1,000,000 or just beside it.
pub fn group_near_the_greatest_cycle(r: &mut Random, frame: u64) -> Vec<[u64; 3]> {
    let times = 1_000_000 / frame;
    let period = match r.below(6) {
        0 => 1_000_000,
        1 => 999_999,
        2 => times * frame,
        3 => (times + 1) * frame,
        4 => times + 1,
        _ => times,
    };
    let period = period.clamp(1, MOST_TICKS);
    let deadline = r.one_of(&[period, period, (period / 1_000).max(1), 1]);
    let work = r.one_of(&[1, 1, deadline, deadline + 1]).min(MOST_TICKS);
    let mut group = vec![[work, period, deadline]];
    if r.once_in(3) {
        group.push([1, r.one_of(&[1, 2, 3, 7, 64, 1_000]), 1]);
    }
    group
}

/// The bytes of a plan file's numbers, half of them damaged: now and then in the settings of its
/// form.
pub fn plan_bytes(r: &mut Random, form: Form, mut numbers: Vec<u64>) -> Vec<u8> {
    let frame = form.settings() as usize;
    let window_count = frame + 1;
    let task_count = window_count + 1 + 2 * numbers[window_count] as usize;
    match r.below(30) {
        0 => numbers[window_count] = r.one_of(&[0, 63, 64, 65, 66, GREATEST]),
        1 if numbers.len() > task_count => {
            numbers[task_count] = r.one_of(&[0, 31, 32, 33, 34, GREATEST]);
        }
        2 => numbers[frame] = r.one_of(&[0, MOST_FRAME + 1, GREATEST]),
        _ => {}
    }
    let mut bytes = encode(&numbers);
    match r.below(14) {
        0 | 1 => {
            let index = r.index(bytes.len());
            bytes[index] ^= 1 << r.below(8);
        }
        2 => bytes.truncate(r.index(bytes.len())),
        3 => bytes.push(r.one_of(&[0, 1, 0x7f, 0x80, 0xff]) as u8),
        4 => {
            let index = r.index(numbers.len());
            bytes = with_bad_number(r, &numbers, index);
        }
        5 if frame > 0 => {
            let setting = r.index(frame);
            bytes = with_bad_number(r, &numbers, setting);
        }
        _ => {}
    }
    bytes
}

/// The bytes of a trace's numbers, one trace in ten damaged: refusal 9, unless it is by chance
/// another trace.
pub fn trace_bytes(r: &mut Random, numbers: &[u64]) -> Vec<u8> {
    let mut bytes = encode(numbers);
    if bytes.is_empty() {
        return bytes;
    }
    match r.below(50) {
        0 => {
            let index = r.index(bytes.len());
            bytes[index] ^= 1 << r.below(8);
        }
        1 => bytes.truncate(r.index(bytes.len())),
        2 => bytes.push(r.one_of(&[0, 1, 2, 0x7f, 0x80, 0xff]) as u8),
        3 | 4 => {
            let index = r.index(numbers.len());
            bytes = with_bad_number(r, numbers, index);
        }
        _ => {}
    }
    bytes
}

/// The numbers with one of them padded, too large, too long or, at the end, unfinished.
pub fn with_bad_number(r: &mut Random, numbers: &[u64], index: usize) -> Vec<u8> {
    let mut bytes = encode(&numbers[..index]);
    let rest = encode(&numbers[index + 1..]);
    match r.below(6) {
        0 | 1 => {
            let mut padded = encode(&numbers[index..=index]);
            if let Some(last) = padded.last_mut() {
                *last |= 0x80;
            }
            bytes.extend(padded);
            bytes.push(0);
        }
        2 => bytes.extend([0x80, 0x80, 0x80, 0x80, 0x10]),
        3 => bytes.extend([0xff, 0xff, 0xff, 0xff, 0x1f]),
        4 => bytes.extend([0x80, 0x80, 0x80, 0x80, 0x80, 0x01]),
        _ => {
            let some = r.between(1, 4) as usize;
            bytes.extend(&[0x81, 0xff, 0x80, 0x80][..some]);
            return bytes;
        }
    }
    bytes.extend(rest);
    bytes
}

/// One of the queries whose lists or buffers are as long as they may be, or nearly.
pub fn query_at_a_limit(r: &mut Random) -> Query {
    let full = TableNumbers::pairs(1, vec![0, 1]);
    let one_task = TaskNumbers::Triples(vec![1, 1, 1]);
    let run = |ticks, jobs, room| {
        Query::Run(RunNumbers {
            table: full.clone(),
            tasks: one_task.clone(),
            ticks,
            jobs,
            room,
        })
    };
    match r.below(14) {
        0 => Query::Outage(one_tick_windows(MOST_WINDOWS as u64 + r.below(2))),
        1 => Query::Outage(TableNumbers::pairs(
            MOST_FRAME,
            (0..MOST_OLD_NUMBERS - r.below(2)).collect(),
        )),
        2 => Query::CriticalPartition(one_tick_windows(MOST_WINDOWS as u64), r.between(127, 129)),
        3 => Query::CriticalPartition(full, MOST_ROOM),
        4 => Query::Demand(TaskNumbers::Triples(vec![1; 200]), 1),
        5 => Query::Demand(
            TaskNumbers::Triples(vec![1; r.one_of(&[96, 99]) as usize]),
            1,
        ),
        6 => {
            let records = r.one_of(&[32, 33, 40]) as usize;
            Query::Verdict(full, TaskNumbers::Records(vec![[1, 32, 32]; records]))
        }
        7 => run(9, vec![1; MOST_JOB_NUMBERS as usize - r.index(3)], 0),
        8 => {
            // A job every tick, as many as there may be or one more.
            let most = MOST_JOBS as u64;
            let jobs = (0..most + r.below(2))
                .flat_map(|tick| [tick, 0, 1])
                .collect();
            run(most + 1, jobs, most - r.below(2))
        }
        9 => {
            let over = u64::from(!r.once_in(4));
            run(MOST_RUN + over, vec![MOST_RUN - 1, 0, 1], 1)
        }
        10 => run(2, vec![0, 0, 1], MOST_ROOM),
        11 if r.once_in(2) => verdict_at_the_greatest_cycle(r),
        11 => Query::Delay(TableNumbers::pairs(
            r.between(MOST_FRAME + 1, MOST_FRAME + 2),
            vec![0, MOST_FRAME],
        )),
        12 => Query::LeastSupply(
            one_tick_windows(MOST_WINDOWS as u64),
            1_000_000 + r.below(2),
        ),
        _ => {
            let bytes = vec![r.one_of(&[1, 2, 0x7f]) as u8; MOST_PLAN_BYTES as usize];
            Query::Plan(Form::Old, bytes)
        }
    }
}

/// A verdict that meets, or misses at the very last length, in a cycle of 1,000,000.
fn verdict_at_the_greatest_cycle(r: &mut Random) -> Query {
    let frame = r.one_of(&[1, 2, 4, 5, 8, 10]);
    let table = TableNumbers::pairs(frame, vec![r.below(frame), frame]);
    let supply = table
        .check()
        .map_or(0, |table| table.least_supply(MOST_TICKS));
    let work = (supply + r.below(2)).min(MOST_TICKS);
    let group = vec![[work, MOST_TICKS, MOST_TICKS]];
    Query::Verdict(table, TaskNumbers::Records(group))
}
