//! Queries at the edges of document 02's request 2: traces of what the machine itself does, most
//! of them with one thing changed.

use crate::generate;
use crate::machine::{self, Job, Miss, MOST_JOBS, MOST_RUN};
use crate::numbers::{encode, GREATEST};
use crate::query::{Query, MOST_NEW_NUMBERS, MOST_TRACE_BYTES};
use crate::random::Random;
use crate::spoil;
use crate::table::TableNumbers;
use crate::tasks::{TaskNumbers, MOST_TASKS, MOST_TICKS};
use crate::trace::STAMPS;

const RELEASE: u64 = 0;
const COMPLETION: u64 = 1;

/// The last instant that a run may have.
const LAST: u64 = MOST_RUN - 1;

/// A record with its instant in place of its stamp.
#[derive(Clone, Copy)]
struct Event {
    instant: u64,
    kind: u64,
    task: u64,
    /// Written for a release only.
    work: u64,
}

/// What a trace is made of.
struct Recording {
    group: Vec<[u64; 3]>,
    events: Vec<Event>,
    /// Where the machine misses a deadline, if it does.
    miss: Option<Miss>,
}

pub fn query(r: &mut Random, faults: u64) -> Query {
    let table = if r.once_in(2) {
        small_table(r)
    } else {
        generate::legal_table(r)
    };
    let mut recording = recording(r, &table);
    let trace = changed_trace(r, faults, &mut recording);
    let tasks = generate::spoil_sometimes(r, faults, &recording.group, false);
    Query::Replay(generate::lent_table(r, faults, table), tasks, trace)
}

/// The trace of what the machine does with a legal job list that begins at tick 0, sometimes up to
/// some record only, and mostly with one thing changed.
pub fn trace_of_jobs(
    r: &mut Random,
    faults: u64,
    table: &TableNumbers,
    group: &[[u64; 3]],
    jobs: &[Job],
) -> Vec<u8> {
    let mut recording = recorded(table, group, jobs);
    if r.once_in(3) {
        let some = r.index(recording.events.len()) + 1;
        recording.events.truncate(some);
    }
    if r.once_in(3) {
        go_on_after_a_miss(r, &mut recording);
    }
    changed_trace(r, faults, &mut recording)
}

/// A recording's bytes, mostly with one thing changed.
fn changed_trace(r: &mut Random, faults: u64, recording: &mut Recording) -> Vec<u8> {
    if !r.once_in(4) {
        change(r, recording);
    }
    if r.once_in(faults.min(10)) {
        // A second change, so that the order of the two counts.
        change(r, recording);
    }
    let numbers = numbers(first_stamp(r, &recording.events), &recording.events);
    spoil::trace_bytes(r, &numbers)
}

/// A frame of a few ticks, most of them supplied: completions and releases then often meet at one
/// instant.
fn small_table(r: &mut Random) -> TableNumbers {
    let frame = r.between(1, 8);
    let start = r.below(frame.min(3));
    let end = r.between(start + 1, frame);
    let mut windows = vec![start, end];
    if end + 1 < frame && r.once_in(2) {
        windows.extend([end + 1, r.between(end + 2, frame)]);
    }
    TableNumbers::pairs(frame, windows)
}

/// Some tasks with short times: met, just missed or far too much.
fn small_group(r: &mut Random) -> Vec<[u64; 3]> {
    let count = r.between(1, 4);
    let task = |r: &mut Random| {
        let period = r.between(1, 12);
        let deadline = r.between(period.div_ceil(2), period);
        let work = match r.below(8) {
            0 => deadline + r.below(2),
            1 | 2 => r.between(1, period.div_ceil(2)),
            _ => r.between(1, (period / count).max(1)),
        };
        [work, period, deadline]
    };
    if r.once_in(4) {
        // All are due at once: the machine completes one where it misses the next.
        return vec![task(r); count as usize];
    }
    (0..count).map(|_| task(r)).collect()
}

/// What the machine does with a legal job list that begins at tick 0, up to some record.
fn recording(r: &mut Random, table: &TableNumbers) -> Recording {
    let mut group = if r.once_in(2) {
        small_group(r)
    } else {
        generate::legal_group(r, table)
    };
    let ticks = match r.below(12) {
        0 => r.between(60, 200),
        1 | 2 => r.between(1, 5),
        _ => r.between(5, 40),
    };
    let mut jobs = generate::legal_jobs(r, table, &group, ticks);
    jobs.truncate(r.one_of(&[2, 4, 30, 30, 60]) as usize);
    if jobs.is_empty() && !group.is_empty() {
        jobs.push(Job {
            release: 0,
            task: 0,
            work: group[0][0],
        });
    }
    begin_at_tick_0(r, table.frame, &group, &mut jobs);
    let mut recording = recorded(table, &group, &jobs);
    if group.len() < MOST_TASKS && !jobs.is_empty() && r.once_in(2) {
        let mark = mark(r, &recording, group.len() as u64);
        group.push([1, 5_000, 5_000]);
        jobs.push(mark);
        jobs.sort();
        recording = recorded(table, &group, &jobs);
        if !r.once_in(4) {
            cut_after_the_mark(&mut recording.events, mark);
        }
    } else if r.once_in(2) {
        let some = r.index(recording.events.len()) + 1;
        recording.events.truncate(some);
    }
    if r.once_in(2) {
        go_on_after_a_miss(r, &mut recording);
    }
    recording
}

/// "The first record is at run tick 0": all jobs are moved to earlier ticks. Or one more job is
/// released at tick 0 and the others are whole frames later, which leaves them their supply.
fn begin_at_tick_0(r: &mut Random, frame: u64, group: &[[u64; 3]], jobs: &mut Vec<Job>) {
    let Some(&first) = jobs.first() else {
        return;
    };
    if first.release == 0 {
        return;
    }
    if r.once_in(3) {
        for job in jobs.iter_mut() {
            job.release -= first.release;
        }
        return;
    }
    let [work, period, _] = group[first.task as usize];
    let frames = period.saturating_sub(first.release).div_ceil(frame);
    let later = (frames + r.one_of(&[0, 0, 0, 1, 100])) * frame;
    for job in jobs.iter_mut() {
        job.release += later;
    }
    let one_more = Job {
        release: 0,
        task: first.task,
        work: r.between(1, work),
    };
    jobs.insert(0, one_more);
}

/// The releases and completions of a run that lasts until every job is complete or missed.
fn recorded(table: &TableNumbers, group: &[[u64; 3]], jobs: &[Job]) -> Recording {
    let mut events: Vec<Event> = jobs.iter().map(release).collect();
    let due = |job: &Job| job.release + group[job.task as usize][2];
    let ticks = jobs.iter().map(due).max().unwrap_or(0).min(MOST_RUN);
    let tasks = TaskNumbers::Records(group.to_vec());
    let mut miss = None;
    if let (Ok(table), Ok(group)) = (table.check(), tasks.check()) {
        let run = machine::run_legal(&table, &group, ticks, jobs);
        events.extend(
            run.completions
                .iter()
                .map(|c| completion(c.instant, c.task)),
        );
        miss = run.miss;
    }
    put_in_order(&mut events);
    let group = group.to_vec();
    Recording {
        group,
        events,
        miss,
    }
}

fn release(job: &Job) -> Event {
    Event {
        instant: job.release,
        kind: RELEASE,
        task: job.task,
        work: job.work,
    }
}

fn completion(instant: u64, task: u64) -> Event {
    Event {
        instant,
        kind: COMPLETION,
        task,
        work: 0,
    }
}

fn put_in_order(events: &mut [Event]) {
    events.sort_by_key(|event| (event.instant, event.kind == RELEASE, event.task));
}

/// One release of a further task, far less urgent than the others: a record at, just before or
/// just after a completion or the miss, which changes nothing before it.
fn mark(r: &mut Random, recording: &Recording, task: u64) -> Job {
    let near = match (any_of(r, &recording.events, COMPLETION), recording.miss) {
        (_, Some(miss)) if !r.once_in(3) => miss.instant,
        (Some(index), _) => recording.events[index].instant,
        _ => r.below(10),
    };
    Job {
        release: (near + r.below(3)).saturating_sub(1),
        task,
        work: 1,
    }
}

fn cut_after_the_mark(events: &mut Vec<Event>, mark: Job) {
    let is_mark = |event: &Event| event.kind == RELEASE && event.task == mark.task;
    let count = events.iter().position(is_mark).map_or(0, |index| index + 1);
    events.truncate(count);
}

/// The machine ends with its first miss, the board does not.
fn go_on_after_a_miss(r: &mut Random, recording: &mut Recording) {
    let Some(miss) = recording.miss else {
        return;
    };
    for _ in 0..r.between(1, 3) {
        let task = r.below(recording.group.len() as u64);
        let instant = miss.instant + r.below(4);
        recording.events.push(completion(instant, task));
    }
    put_in_order(&mut recording.events);
    // Of two completions of one task at one instant the second would be against the order.
    let place = |event: &mut Event| (event.instant, event.kind, event.task);
    recording.events.dedup_by_key(place);
}

fn change(r: &mut Random, recording: &mut Recording) {
    match r.below(16) {
        0..=7 => change_a_completion(r, recording),
        8..=10 => change_a_release(r, recording),
        11 | 12 => change_the_order(r, recording),
        13 | 14 => {
            if r.once_in(4) {
                change_a_release(r, recording);
            }
            change_the_stamps(r, &mut recording.events);
        }
        _ if r.once_in(3) => recording.events.clear(),
        _ => {
            let count = recording.events.len();
            if let Some(event) = recording.events.get_mut(r.index(count)) {
                event.kind = r.one_of(&[2, 2, 3, 127, 128, 129, 255, 256, GREATEST]);
            }
        }
    }
}

/// The index of any event of a kind, if there is one.
fn any_of(r: &mut Random, events: &[Event], kind: u64) -> Option<usize> {
    let of_kind: Vec<usize> = (0..events.len())
        .filter(|&index| events[index].kind == kind)
        .collect();
    of_kind.get(r.index(of_kind.len())).copied()
}

/// A task of the group, mostly, or one that it does not have.
fn any_task(r: &mut Random, group: &[[u64; 3]]) -> u64 {
    match r.below(8) {
        0 => absent_task(r, group),
        _ => r.below(group.len() as u64),
    }
}

fn absent_task(r: &mut Random, group: &[[u64; 3]]) -> u64 {
    let count = group.len() as u64;
    r.one_of(&[count, count, count + 1, 32, 33, GREATEST])
}

/// A completion too early, too late, of another task, missing or made up. The order stays legal,
/// mostly.
fn change_a_completion(r: &mut Random, recording: &mut Recording) {
    let task = any_task(r, &recording.group);
    let last = recording.events.last().map_or(0, |event| event.instant);
    let one = any_of(r, &recording.events, COMPLETION);
    let events = &mut recording.events;
    match (r.below(15), one, recording.miss) {
        (0..=2, Some(index), _) => {
            let instant = events[index].instant;
            events[index].instant = (instant + 2 * r.below(2)).saturating_sub(1);
        }
        (3, Some(index), _) => events[index].task = task,
        (4, Some(index), _) => {
            events.remove(index);
        }
        (5 | 6, Some(_), _) => {
            let is_completion = |event: &Event| event.kind == COMPLETION;
            let index = events.iter().rposition(is_completion).unwrap_or(0);
            events.remove(index);
        }
        (7, _, _) => events.push(completion(last + r.below(3), task)),
        (8, _, _) => events.push(completion(0, task)),
        (9, _, _) => events.push(completion(r.between(0, last), task)),
        (10 | 11, Some(_), Some(miss)) if is_completed_at(events, miss.instant) => {
            // The completion at the miss itself is earlier in the trace, which goes on.
            for event in events.iter_mut() {
                if event.kind == COMPLETION && event.instant == miss.instant {
                    event.instant -= 1;
                }
            }
            let instant = miss.instant + r.below(2);
            events.push(completion(instant, task));
        }
        (_, _, Some(miss)) => {
            // One before the miss, at it or one after it: made up or moved there.
            let instant = (miss.instant + r.below(3)).saturating_sub(1);
            match one {
                Some(index) if r.once_in(3) => events[index].instant = instant,
                _ => events.push(completion(instant, task)),
            }
        }
        (_, Some(index), None) => events[index].instant += r.between(1, 3),
        (_, None, None) => events.push(completion(r.below(3), task)),
    }
    if !r.once_in(20) {
        put_in_order(events);
    }
}

fn is_completed_at(events: &[Event], instant: u64) -> bool {
    let is = |event: &Event| event.kind == COMPLETION && event.instant == instant;
    events.iter().any(is)
}

/// A release that is illegal, or legal and not what the board was given.
fn change_a_release(r: &mut Random, recording: &mut Recording) {
    let Some(index) = any_of(r, &recording.events, RELEASE) else {
        return;
    };
    let group = &recording.group;
    let events = &mut recording.events;
    let event = events[index];
    let [work, period, _] = group.get(event.task as usize).copied().unwrap_or([1; 3]);
    match r.below(10) {
        0 => events[index].task = absent_task(r, group),
        1 => events[index].task = r.below(group.len() as u64),
        2 => events[index].work = 0,
        3 => events[index].work = work + 1,
        4 => events[index].work = r.one_of(&[work, 1, GREATEST]),
        5 => {
            events.remove(index);
        }
        _ => {
            // The next one of the task exactly T later or one tick nearer.
            let next = event.instant + period - r.below(2);
            let is_later = |e: &Event| e.kind == RELEASE && e.task == event.task;
            events.retain(|e| !is_later(e) || e.instant <= event.instant);
            events.push(Event {
                instant: next,
                ..event
            });
            put_in_order(events);
        }
    }
}

/// Two records in the wrong order, or one of them twice.
fn change_the_order(r: &mut Random, recording: &mut Recording) {
    let task = any_task(r, &recording.group);
    let events = &mut recording.events;
    if events.len() < 2 {
        return;
    }
    let index = r.index(events.len() - 1);
    let (one, next) = (events[index], events[index + 1]);
    match r.below(7) {
        0 => events.swap(index, index + 1),
        1 => {
            // Each with the instant of the other: the stamps still rise.
            events[index] = Event {
                instant: one.instant,
                ..next
            };
            events[index + 1] = Event {
                instant: next.instant,
                ..one
            };
        }
        2 => events.insert(index, one),
        3 | 4 => {
            if let Some(release) = any_of(r, events, RELEASE) {
                let instant = events[release].instant;
                events.insert(release + 1, completion(instant, task));
            }
        }
        5 => {
            // Another completion at the instant of one, before or after it.
            if let Some(index) = any_of(r, events, COMPLETION) {
                let instant = events[index].instant;
                events.insert(index + r.index(2), completion(instant, task));
            }
        }
        _ => events.reverse(),
    }
}

/// Stamps that are far apart: sums over the limit of a run and over 32 bits.
fn change_the_stamps(r: &mut Random, events: &mut Vec<Event>) {
    if events.is_empty() {
        return;
    }
    let index = r.index(events.len());
    let last = events.len() - 1;
    match r.below(8) {
        0 | 1 => {
            // One stamp only: the way back from it leads past the counter's top.
            events[index].instant += r.one_of(&[1, 5, 1 << 20, 1 << 31, STAMPS - 1]);
        }
        2 => {
            let by = r.below(STAMPS);
            events[index].instant += by;
        }
        3 => {
            // 2^32 itself can't be seen.
            let gap = r.one_of(&[1 << 31, STAMPS - 2, STAMPS - 1, STAMPS, STAMPS + 1]);
            for event in &mut events[index..] {
                event.instant += gap;
            }
        }
        4 => {
            let gap = r.between(1, 3_000);
            for event in &mut events[index..] {
                event.instant += gap;
            }
        }
        5 => events[last].instant = LAST + r.between(1, 2),
        6 => {
            // Then another record is at run tick 0.
            events.drain(..r.index(last + 1));
        }
        _ => {
            let instant = events[index].instant;
            events[last].instant = instant;
        }
    }
}

/// Mostly one with which the counter goes past its top among the records.
fn first_stamp(r: &mut Random, events: &[Event]) -> u64 {
    let last = events.last().map_or(0, |event| event.instant % STAMPS);
    match r.below(8) {
        0 => 0,
        1 => r.below(200),
        2 => GREATEST,
        3 => r.between((1 << 31) - 2, 1 << 31),
        4 => r.below(STAMPS),
        _ => GREATEST - r.below(last + 1),
    }
}

fn numbers(first_stamp: u64, events: &[Event]) -> Vec<u64> {
    let mut numbers = Vec::new();
    for event in events {
        numbers.extend([event.kind, event.task]);
        if event.kind != COMPLETION {
            numbers.push(event.work);
        }
        numbers.push((first_stamp + event.instant) % STAMPS);
    }
    numbers
}

/// One of the queries with as many ticks, releases, bytes or numbers as there may be, or with a
/// few more or fewer.
pub fn query_at_a_limit(r: &mut Random) -> Query {
    match r.below(8) {
        0 if r.once_in(3) => longest_run(r, 0),
        0 | 1 => {
            let over = r.between(1, 2);
            longest_run(r, over)
        }
        2 | 3 => most_releases(r),
        4 | 5 => longest_trace(r),
        6 => greatest_sum(r),
        _ => longest_lists(r),
    }
}

/// A run of 1,100,000 ticks, or some over: a task with nearly the longest times, or one with
/// little to do.
fn longest_run(r: &mut Random, over: u64) -> Query {
    let table = small_table(r);
    let work = match r.below(4) {
        0 => 1,
        1 => MOST_TICKS,
        _ => r.between(1, MOST_TICKS),
    };
    let period = MOST_TICKS - r.below(2);
    let group = [[work, period, period - r.below(2)]];
    let late = r.between(period, LAST - 1);
    let last = LAST + over;
    let jobs = [0, late].map(|release| Job {
        release,
        task: 0,
        work,
    });
    let mut recording = recorded(&table, &group, &jobs);
    recording.events.retain(|event| event.instant < last);
    match r.below(4) {
        0 => change_a_completion(r, &mut recording),
        1 => {
            recording.events.retain(|event| event.instant < late);
            recording.events.push(release(&Job {
                release: last,
                ..jobs[1]
            }));
        }
        _ => {}
    }
    let is_at_the_end = |event: &Event| event.instant == last;
    if !recording.events.last().is_some_and(is_at_the_end) {
        recording.events.push(completion(last, r.below(2)));
    }
    let numbers = numbers(first_stamp(r, &recording.events), &recording.events);
    Query::Replay(
        table,
        TaskNumbers::Triples(group.concat()),
        encode(&numbers),
    )
}

/// 4,096 releases, or one fewer or one more: all tasks at once, every T ticks, with short stamps,
/// so that the bytes are not too many. So many jobs can't all be done in time.
fn most_releases(r: &mut Random) -> Query {
    let period = r.between(1, 3);
    let count = MOST_JOBS as u64 - 1 + r.below(3);
    let most_tasks = MOST_TASKS as u64;
    let mut events: Vec<Event> = (0..count)
        .map(|index| Event {
            instant: index / most_tasks * period,
            kind: RELEASE,
            task: index % most_tasks,
            work: 1,
        })
        .collect();
    match r.below(4) {
        0 => events.insert(0, completion(0, r.below(3))),
        1 => events.push(completion(128 * period + 1, 0)),
        2 => events[r.index(count as usize)].work = 2,
        _ => {}
    }
    let tasks = vec![[1, period, period]; MOST_TASKS].concat();
    let trace = encode(&numbers(0, &events));
    Query::Replay(small_table(r), TaskNumbers::Triples(tasks), trace)
}

/// A busy board, up to 20,000 bytes. Half of these end within a record.
fn longest_trace(r: &mut Random) -> Query {
    let full = TableNumbers::pairs(1, vec![0, 1]);
    let group: &[[u64; 3]] = if r.once_in(2) {
        &[[1, 1, 1]]
    } else {
        &[[2, 4, 3], [1, 4, 4]]
    };
    let releases = |(task, &[work, period, _]): (usize, &[u64; 3])| {
        let job = move |release| Job {
            release,
            task: task as u64,
            work,
        };
        (0..3_000).step_by(period as usize).map(job)
    };
    let mut jobs: Vec<Job> = group.iter().enumerate().flat_map(releases).collect();
    jobs.sort();
    let mut recording = recorded(&full, group, &jobs);
    let first_stamp = r.one_of(&[0, 100, 10_000, GREATEST - 100]);
    while encode(&numbers(first_stamp, &recording.events)).len() > MOST_TRACE_BYTES as usize {
        let some_fewer = recording.events.len() - 10;
        recording.events.truncate(some_fewer);
    }
    if r.once_in(2) {
        let near_the_end = recording.events.len() - 1 - r.index(9);
        recording.events.remove(near_the_end);
    }
    let mut trace = encode(&numbers(first_stamp, &recording.events));
    if r.once_in(2) {
        trace.resize(MOST_TRACE_BYTES as usize, r.one_of(&[0, 1, 0x80]) as u8);
    }
    Query::Replay(full, TaskNumbers::Triples(group.concat()), trace)
}

/// Every stamp one lower than the one before: nearly 2^32 ticks from record to record. In all,
/// the counter may come back to where it was.
fn greatest_sum(r: &mut Random) -> Query {
    let first = r.between(1, 200);
    let mut numbers = vec![0, 0, 1, first];
    for stamp in (0..first).rev() {
        numbers.extend([1, 0, stamp]);
    }
    for stamp in [first, first + r.below(3)] {
        numbers.extend([1, r.below(3), stamp]);
    }
    let tasks = TaskNumbers::Triples(vec![1, 4, 4]);
    Query::Replay(small_table(r), tasks, encode(&numbers))
}

/// As many window or task numbers as may be lent, with a good or a bad trace.
fn longest_lists(r: &mut Random) -> Query {
    let count = r.one_of(&[MOST_NEW_NUMBERS, MOST_NEW_NUMBERS - 1, 201, 128, 130, 132]);
    let mut table = small_table(r);
    let mut tasks = vec![1, 4, 4];
    if r.once_in(2) {
        let many: Vec<u64> = (0..count).collect();
        table = TableNumbers::pairs(400, many);
    } else {
        tasks = vec![1; r.one_of(&[count, 96, 99]) as usize];
    }
    let good = encode(&[0, 0, 1, 9]);
    let bad = vec![r.below(256) as u8; r.index(5)];
    let trace = if r.once_in(2) { good } else { bad };
    Query::Replay(table, TaskNumbers::Triples(tasks), trace)
}

#[cfg(test)]
mod tests {
    use super::*;
    use crate::answer::{Answer, Completion, Reason, Refusal};
    use crate::replay::replay;
    use crate::table::Table;
    use crate::tasks::Group;
    use crate::trace::{self, Record, Trace};
    use std::collections::BTreeMap;

    type Edges = Vec<(&'static str, bool)>;

    /// Which edges a query is at, by its answer.
    fn edges(query: &Query) -> Vec<&'static str> {
        let Query::Replay(table, tasks, bytes) = query else {
            panic!("{query:?} is not a replay");
        };
        let mut edges = match (trace::read(bytes), table.check(), tasks.check()) {
            (Err(refusal), table, group) => vec![
                ("9 at the first byte", refusal.place == 0),
                ("9 at the end", refusal.place == bytes.len() as u64),
                ("9 within", (1..bytes.len() as u64).contains(&refusal.place)),
                ("9 before a table's", table.is_err()),
                ("9 before a group's", group.is_err()),
            ],
            (Ok(records), Err(refusal), group) => refused(refusal, &records, group.is_err()),
            (Ok(records), Ok(_), Err(refusal)) => refused(refusal, &records, false),
            (Ok(records), Ok(table), Ok(group)) => {
                let mut edges = sizes(&records);
                match trace::check(&group, &records) {
                    Err(refusal) if refusal.reason == Reason::RunSize => {
                        edges.extend(over_the_sizes(&group, &records));
                    }
                    Err(refusal) => edges.extend(against_the_rules(&group, &records, refusal)),
                    Ok(trace) => edges.extend(answered(&table, &group, &records, &trace)),
                }
                edges
            }
        };
        edges.retain(|(_, is_asked)| *is_asked);
        edges.into_iter().map(|(edge, _)| edge).collect()
    }

    fn refused(refusal: Refusal, records: &[Record], second: bool) -> Edges {
        let reason = refusal.reason;
        vec![
            ("1", reason == Reason::WindowList),
            ("2", reason == Reason::Frame),
            ("3", reason == Reason::Window),
            ("4", reason == Reason::TaskList),
            ("5", reason == Reason::Task),
            ("a table's before a group's", second),
            ("before 10", trace::ticks(records) > MOST_RUN),
            ("before an answer of an empty trace", records.is_empty()),
        ]
    }

    fn sizes(records: &[Record]) -> Edges {
        let releases = records.iter().filter(|record| record.work.is_some());
        let count = releases.count();
        let ticks = trace::ticks(records);
        vec![
            ("4,096 releases", count == MOST_JOBS),
            ("4,097 releases", count == MOST_JOBS + 1),
            ("n of 1,100,000", ticks == MOST_RUN),
            ("n of 1,100,001", ticks == MOST_RUN + 1),
        ]
    }

    fn over_the_sizes(group: &Group, records: &[Record]) -> Edges {
        let ticks = trace::ticks(records);
        let is_gap = |pair: &[Record]| (pair[0].stamp + STAMPS - 1) % STAMPS == pair[1].stamp;
        let instants = trace::instants(records);
        let place = |i: usize| (instants[i], records[i].work.is_some(), records[i].task);
        let mut indices = 1..records.len();
        let is_absent = |r: &Record| r.work.is_some() && r.task >= group.tasks.len() as u64;
        vec![
            (
                "10, which 32 bits hide",
                ticks > STAMPS && ticks % STAMPS <= MOST_RUN,
            ),
            ("10, sum over 2^33", ticks > 2 * STAMPS),
            ("10, a gap of 2^32 - 1", records.windows(2).any(is_gap)),
            ("10 before order", indices.any(|i| place(i - 1) >= place(i))),
            ("10 before an absent task", records.iter().any(is_absent)),
        ]
    }

    fn against_the_rules(group: &Group, records: &[Record], refusal: Refusal) -> Edges {
        assert_eq!(refusal.reason, Reason::Job);
        let index = refusal.place as usize;
        let record = records[index];
        let earlier = &records[..index];
        let releases = earlier.iter().filter(|r| r.work.is_some()).count();
        let previous = earlier.last().filter(|r| r.stamp == record.stamp);
        let same_kind = |r: &Record| r.work.is_some() == record.work.is_some();
        let alike = previous.filter(|r| same_kind(r));
        let falls = alike.is_some_and(|r| r.task > record.task);
        let twice = alike.is_some_and(|r| r.task == record.task);
        let completed = record.work.is_none();
        let task = group.tasks.get(record.task as usize);
        let legal = alike.is_none() && !completed;
        let work = record.work.unwrap_or(0);
        let nearer = || {
            let instants = trace::instants(records);
            let of_task = |&i: &usize| records[i].work.is_some() && records[i].task == record.task;
            let before = (0..index).rev().find(of_task).map(|i| instants[i]);
            let period = task.map_or(0, |task| task.period);
            before.is_some_and(|b| b + period == instants[index] + 1)
        };
        vec![
            ("11 at 0", index == 0),
            ("11, not the job's index", !completed && releases < index),
            ("11, absent task", legal && task.is_none()),
            ("11, no work", legal && task.is_some() && work == 0),
            (
                "11, C + 1",
                legal && task.is_some_and(|t| t.work + 1 == work),
            ),
            ("11, one tick nearer than T", legal && nearer()),
            ("11, releases fall", falls && !completed),
            ("11, completions fall", falls && completed),
            ("11, a release twice", twice && !completed),
            ("11, a completion twice", twice && completed),
            ("11, release first", completed && alike.is_none()),
        ]
    }

    fn answered(table: &Table, group: &Group, records: &[Record], trace: &Trace) -> Edges {
        let wraps = records.windows(2).any(|pair| pair[1].stamp < pair[0].stamp);
        let ends_with_a_completion = records.last().is_some_and(|r| r.work.is_none());
        let run = machine::run_legal(table, group, trace.ticks, &trace.jobs);
        // Counts say the same as completions.
        let mut counted: Vec<(u64, u64)> = trace
            .jobs
            .iter()
            .zip(&run.counts)
            .filter(|(_, &count)| count > 0)
            .map(|(job, count)| (job.release + count, job.task))
            .collect();
        counted.sort();
        let listed = run.completions.iter().map(|c| (c.instant, c.task));
        assert_eq!(counted, listed.collect::<Vec<_>>());

        let past = |miss: Miss| miss.instant == trace.ticks;
        let miss_past = run.miss.is_some_and(past);
        let miss = run.miss.filter(|miss| !past(*miss));
        let seen = counted.into_iter().filter(|c| c.0 < trace.ticks);
        let machine: Vec<(u64, u64)> = seen.collect();
        let own: Vec<(u64, u64)> = trace
            .completions
            .iter()
            .map(|&Completion { instant, task }| (instant, task))
            .collect();
        let alike = own.iter().zip(&machine).take_while(|(t, m)| t == m).count();
        let (t, m) = (own.get(alike), machine.get(alike));
        let lesser = [t, m].iter().flatten().map(|c| c.0).min();
        // How much later the miss is than the lesser instant.
        let beside = |later: u64| match (miss, lesser) {
            (Some(miss), Some(lesser)) => miss.instant + 1 == lesser + later,
            _ => false,
        };
        let long_after = match (miss, lesser) {
            (Some(miss), Some(lesser)) => miss.instant > lesser + 1,
            _ => false,
        };
        let same = miss.is_none() && lesser.is_none();
        let both = |is: &dyn Fn((u64, u64), (u64, u64)) -> bool| match (t, m) {
            (Some(&t), Some(&m)) => miss.is_none() && is(t, m),
            _ => false,
        };
        let absent = group.tasks.len() as u64;
        let last_miss = miss.filter(|miss| miss.instant + 1 == trace.ticks);
        let at_the_miss = miss.filter(|miss| m.is_some_and(|m| m.0 == miss.instant));
        vec![
            ("empty", records.is_empty()),
            ("same, wraps inside", same && wraps),
            ("same, completion last", same && ends_with_a_completion),
            ("same, miss one past the end", same && miss_past),
            ("same, five completions", same && alike >= 5),
            ("same, n over 1,000", same && trace.ticks > 1_000),
            (
                "five alike, then not",
                miss.is_none() && !same && alike >= 5,
            ),
            ("late", both(&|t, m| t.1 == m.1 && t.0 > m.0)),
            ("early", both(&|t, m| t.1 == m.1 && t.0 < m.0)),
            ("another task", both(&|t, m| t.1 != m.1 && t.0 == m.0)),
            ("absent task", both(&|t, _| t.1 >= absent)),
            ("trace none", t.is_none() && m.is_some() && miss.is_none()),
            ("machine none", t.is_some() && m.is_none() && miss.is_none()),
            ("completion at 0", t.is_some_and(|t| t.0 == 0)),
            (
                "differs, miss one past the end",
                lesser.is_some() && miss_past,
            ),
            ("miss only", miss.is_some() && lesser.is_none()),
            ("miss one before", beside(0)),
            ("miss beside", beside(1)),
            ("miss one after", beside(2)),
            ("miss long after", long_after),
            ("miss at the last instant", last_miss.is_some()),
            (
                "differs, machine's at the miss",
                at_the_miss.is_some() && t.is_some() && t < m,
            ),
            (
                "differs, wraps inside",
                lesser.is_some() && miss.is_none() && wraps,
            ),
        ]
    }

    fn count_edges(queries: impl Iterator<Item = Query>) -> BTreeMap<&'static str, u64> {
        let mut asked = BTreeMap::new();
        for query in queries {
            for edge in edges(&query) {
                *asked.entry(edge).or_insert(0) += 1;
            }
        }
        asked
    }

    /// Every edge is asked, once in 2,000 replays or more often; most of them far more often.
    #[test]
    fn every_edge_is_asked() {
        let mut random = Random::new(4);
        let queries = (0..20_000).map(|index| {
            let faults = if index % 10 == 0 { 2 } else { 25 };
            query(&mut random, faults)
        });
        let asked = count_edges(queries);
        let often: Vec<_> = asked.iter().filter(|(_, &times)| times >= 10).collect();
        assert_eq!(often.len(), 53, "{asked:#?}");
    }

    #[test]
    fn limits_are_asked() {
        let mut random = Random::new(5);
        let queries = (0..400).map(|_| query_at_a_limit(&mut random));
        let asked = count_edges(queries);
        let releases = ["4,096 releases", "4,097 releases"];
        for edge in releases.iter().chain(&["n of 1,100,000", "n of 1,100,001"]) {
            assert!(asked.get(edge) >= Some(&4), "{asked:#?}");
        }
    }

    /// A board that does what the machine does, recorded up to any record, is the same or has its
    /// miss; and the first stamp does not matter.
    #[test]
    fn what_the_machine_itself_does() {
        let mut random = Random::new(6);
        for _ in 0..2_000 {
            let table = small_table(&mut random);
            let group = small_group(&mut random);
            let mut jobs = generate::legal_jobs(&mut random, &table, &group, 30);
            begin_at_tick_0(&mut random, table.frame, &group, &mut jobs);
            let whole = recorded(&table, &group, &jobs);
            let tasks = TaskNumbers::Records(group);
            for count in 0..=whole.events.len() {
                let events = &whole.events[..count];
                let stamp = first_stamp(&mut random, events);
                let answer = replay(&table, &tasks, &encode(&numbers(stamp, events)));
                let last = events.last().map_or(0, |event| event.instant);
                let expected = match whole.miss {
                    Some(Miss { instant, job }) if instant <= last => {
                        Answer::ReplayMissed { instant, job }
                    }
                    _ => Answer::Same,
                };
                assert_eq!(answer, Ok(expected));
            }
        }
    }
}
