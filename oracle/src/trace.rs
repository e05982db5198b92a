//! The trace that a board records: its bytes, the run ticks of its records and its rules
//! (document 02, request 2).

use crate::answer::{Completion, Reason, Refusal};
use crate::machine::{is_legal_after, Job, MOST_JOBS, MOST_RUN};
use crate::numbers::Cursor;
use crate::tasks::Group;

/// "A free-running 32-bit counter that goes past its top back to 0": it has so many values.
pub const STAMPS: u64 = 1 << 32;

/// A record as it is written.
#[derive(Clone, Copy, Debug, PartialEq, Eq)]
pub struct Record {
    /// The work of a release; none for a completion.
    pub work: Option<u64>,
    pub task: u64,
    pub stamp: u64,
}

/// A trace without faults: what the board was given and what it says it did.
pub struct Trace {
    /// n, "one past the last record's instant, 0 for an empty file".
    pub ticks: u64,
    pub jobs: Vec<Job>,
    pub completions: Vec<Completion>,
}

/// The records, one after another to the end of the bytes, or refusal 9.
pub fn read(bytes: &[u8]) -> Result<Vec<Record>, Refusal> {
    let mut cursor = Cursor::new(bytes);
    let mut records = Vec::new();
    while !cursor.at_end() {
        let record = read_record(&mut cursor);
        records.push(record.map_err(|offset| Reason::PlanBytes.at(offset))?);
    }
    Ok(records)
}

/// "Kind (0 release, 1 completion), task index, work (release only), stamp." Another kind is bad
/// at its first byte, whatever follows it.
fn read_record(cursor: &mut Cursor) -> Result<Record, usize> {
    let is_release = cursor.number_up_to(1)? == 0;
    let task = cursor.number()?;
    let work = if is_release {
        Some(cursor.number()?)
    } else {
        None
    };
    let stamp = cursor.number()?;
    Ok(Record { work, task, stamp })
}

/// The run tick of each record. "The first record is at run tick 0"; each next one is later by
/// what the counter went on, which is less than 2^32. Only the counter wraps, not the run ticks:
/// a sum too large for 64 bits would stay at their top, far over every limit.
pub fn instants(records: &[Record]) -> Vec<u64> {
    let mut instants = Vec::new();
    let mut previous: Option<(u64, u64)> = None;
    for record in records {
        let instant = previous.map_or(0, |(instant, stamp)| {
            instant.saturating_add(elapsed(stamp, record.stamp))
        });
        instants.push(instant);
        previous = Some((instant, record.stamp));
    }
    instants
}

/// How many times the counter was raised by one between two stamps: the one number below 2^32
/// that leads from the first to the second.
fn elapsed(from: u64, to: u64) -> u64 {
    if to >= from {
        to - from
    } else {
        // Up to the top, past it to 0, and on.
        STAMPS - from + to
    }
}

/// n.
pub fn ticks(records: &[Record]) -> u64 {
    let last = instants(records).last().copied();
    last.map_or(0, |instant| instant.saturating_add(1))
}

/// Refusal 10, "too large an n or over 4,096 releases", and then 11, "an illegal release, or a
/// record against this order", at the record's index.
pub fn check(group: &Group, records: &[Record]) -> Result<Trace, Refusal> {
    let ticks = ticks(records);
    let releases = records.iter().filter(|record| record.work.is_some());
    let too_many = releases.count() > MOST_JOBS;
    Reason::RunSize.check(ticks > MOST_RUN || too_many, 0)?;
    let mut trace = Trace {
        ticks,
        jobs: Vec::new(),
        completions: Vec::new(),
    };
    let instants = instants(records);
    for (index, (record, &instant)) in records.iter().zip(&instants).enumerate() {
        let is_in_order = index == 0 || {
            let previous = place(&records[index - 1], instants[index - 1]);
            previous < place(record, instant)
        };
        Reason::Job.check(!is_in_order, index)?;
        let task = record.task;
        match record.work {
            Some(work) => {
                let release = instant;
                let job = Job {
                    release,
                    task,
                    work,
                };
                let is_legal = is_legal_after(group, ticks, &trace.jobs, &job);
                Reason::Job.check(!is_legal, index)?;
                trace.jobs.push(job);
            }
            // Any task index: one that the group does not have is not the machine's either.
            None => trace.completions.push(Completion { instant, task }),
        }
    }
    Ok(trace)
}

/// Where a record stands in the order, which rises strictly: by instant; "at one instant
/// completions come before releases, each kind by strictly rising task index".
fn place(record: &Record, instant: u64) -> (u64, bool, u64) {
    (instant, record.work.is_some(), record.task)
}

#[cfg(test)]
mod tests {
    use super::*;
    use crate::numbers::encode;

    fn refused_at(bytes: &[u8]) -> Option<u64> {
        let refusal = read(bytes).err()?;
        assert_eq!(refusal.reason, Reason::PlanBytes);
        Some(refusal.place)
    }

    #[test]
    fn records_of_both_kinds() {
        let bytes = encode(&[0, 3, 300, 4_294_967_295, 1, 4_294_967_295, 5]);
        let release = Record {
            work: Some(300),
            task: 3,
            stamp: 4_294_967_295,
        };
        let completion = Record {
            work: None,
            task: 4_294_967_295,
            stamp: 5,
        };
        assert_eq!(read(&bytes), Ok(vec![release, completion]));
        assert_eq!(read(&[]), Ok(Vec::new()));
    }

    /// Cut after any byte, a trace is refused unless it is cut between two records.
    #[test]
    fn a_trace_cut_short() {
        // A release at 0 to 4, its work 300 in two bytes; a completion at 5 to 7.
        let whole = [0, 1, 0xac, 0x02, 9, 1, 1, 10];
        let bad = [None, Some(1), Some(2), Some(2), Some(4), None];
        let bad = [&bad[..], &[Some(6), Some(7), None]].concat();
        for (end, &place) in bad.iter().enumerate() {
            assert_eq!(refused_at(&whole[..end]), place, "{end} bytes");
        }
    }

    #[test]
    fn another_kind() {
        assert_eq!(refused_at(&[2, 0, 0]), Some(0));
        assert_eq!(refused_at(&[1, 0, 0, 0x7f]), Some(3));
        // Kinds of two bytes, 128 and 129, and one of five.
        assert_eq!(refused_at(&[1, 0, 0, 0x80, 0x01, 0, 0]), Some(3));
        assert_eq!(refused_at(&[1, 0, 0, 0x81, 0x01, 0, 0]), Some(3));
        let five = [0xff, 0xff, 0xff, 0xff, 0x0f, 0, 0];
        assert_eq!(refused_at(&five), Some(0));
        // The kind comes before what is damaged after it, and a damaged kind is as bad.
        assert_eq!(refused_at(&[2, 0x80, 0x00, 0]), Some(0));
        assert_eq!(refused_at(&[0x81, 0x00, 0, 0]), Some(0));
    }

    /// The counter itself, raised by one until it shows the next stamp; here one of 8 values
    /// stands for each 2^29.
    #[test]
    fn elapsed_by_counting() {
        let eighth = STAMPS / 8;
        for from in 0..8 {
            for to in 0..8 {
                let raised = (0..8).find(|by| (from + by) % 8 == to).unwrap();
                let counted = raised * eighth;
                assert_eq!(elapsed(from * eighth, to * eighth), counted);
            }
        }
        assert_eq!(elapsed(STAMPS - 1, 0), 1);
        assert_eq!(elapsed(0, STAMPS - 1), STAMPS - 1);
        assert_eq!(elapsed(1, 0), STAMPS - 1);
        assert_eq!(elapsed(7, 7), 0);
    }

    #[test]
    fn instants_do_not_wrap() {
        let stamps = [9, 8, 7, 7, 10];
        let completion = |&stamp: &u64| Record {
            work: None,
            task: 0,
            stamp,
        };
        let records: Vec<Record> = stamps.iter().map(completion).collect();
        let back = STAMPS - 1;
        let expected = [0, back, 2 * back, 2 * back, 2 * back + 3];
        assert_eq!(instants(&records), expected);
        assert_eq!(ticks(&records), 2 * back + 4);
        assert_eq!(ticks(&[]), 0);
    }
}
