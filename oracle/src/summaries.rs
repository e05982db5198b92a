//! Queries at the edges of document 02's request 6: summaries that belong to their table, or
//! nearly, and amounts and margins from them. `edits` makes the edits.

use crate::edits;
use crate::frames;
use crate::generate;
use crate::numbers::GREATEST;
use crate::query::{
    MarginNumbers, Query, MOST_LENGTHS, MOST_NEW_NUMBERS, MOST_ROOM, MOST_SUMMARY_NUMBERS,
};
use crate::random::Random;
use crate::slivers;
use crate::summary;
use crate::switches;
use crate::table::{TableNumbers, MOST_FRAME, MOST_LENGTH, MOST_WINDOWS};
use crate::tasks::{TaskNumbers, MOST_TASKS, MOST_TICKS};
use crate::teams;

/// Where the first critical window stands in a summary.
const FIRST_WINDOW: usize = 3;
/// X's, for a table that has none.
const OF_X: [u64; 7] = [4, 12, 2, 3, 5, 6, 8];

/// A table in threes, which may be refused, and what belongs to it.
pub struct Kept {
    pub table: TableNumbers,
    pub summary: Vec<u64>,
    /// A legal group for the asked owner; mostly one of its works is at the edge of a miss.
    group: Vec<[u64; 3]>,
}

/// A query with one of the codes 20 to 23; half of them are edits. With `pays` it is on a board
/// with a rule and q.
pub fn query(r: &mut Random, faults: u64, pays: bool) -> Query {
    let plain = match pays {
        // Where one window alone gives ticks, an edit may leave none.
        true if r.once_in(3) => switches::table_with_room(r, one_window),
        true => switches::table_with_room(r, plain_table),
        false => plain_table(r),
    };
    let group = generate::legal_group(r, &plain);
    let kept = Kept::new(r, faults, plain, group, pays);
    any_query(r, faults, &kept)
}

/// Some of them on one table with a large frame. Each makes one summary, an edit two: each of up to
/// half of the steps, or as many as the frame `frames::LEAST_FRAME` needs.
pub fn large_queries(r: &mut Random, most_steps: u64) -> Vec<Query> {
    let most_frame = (most_steps / 2)
        .isqrt()
        .clamp(frames::LEAST_FRAME, MOST_FRAME);
    let plain = frames::table(r, most_frame);
    let faults = generate::faults(r);
    let pays = r.once_in(3);
    let mut kept = Kept::new(r, faults, plain.clone(), Vec::new(), pays);
    let lengths = r.between(1, 3);
    for _ in 0..lengths {
        let length = length(r, &kept).max(1);
        let amount = plain.check().map_or(1, |table| table.least_supply(length));
        let work = (amount + r.below(3)).clamp(2, MOST_TICKS + 1) - 1;
        kept.group
            .push([work, r.between(length, MOST_TICKS), length]);
    }
    let count = r.between(3, 6);
    (0..count).map(|_| any_query(r, faults, &kept)).collect()
}

fn any_query(r: &mut Random, faults: u64, kept: &Kept) -> Query {
    match r.below(12) {
        0 | 1 => making(r, kept),
        2 | 3 => amount(r, faults, kept),
        4 | 5 => margins(r, faults, kept),
        _ => edits::query(r, faults, kept),
    }
}

/// One owner's windows. Some are one window, so that a removal leaves none; some are as many as
/// there may be, or nearly.
fn plain_table(r: &mut Random) -> TableNumbers {
    match r.below(24) {
        0 | 1 => one_window(r),
        2 => {
            let count = MOST_WINDOWS as u64 - r.below(3);
            let frame = r.between(2 * count, 2 * count + 60);
            TableNumbers::pairs(frame, generate::any_windows(r, frame, count))
        }
        3 | 4 => {
            let frame = r.between(100, 310);
            let count = r.between(5, 20);
            TableNumbers::pairs(frame, generate::any_windows(r, frame, count))
        }
        _ => generate::legal_table(r),
    }
}

fn one_window(r: &mut Random) -> TableNumbers {
    let frame = r.between(1, 30);
    TableNumbers::pairs(frame, generate::any_windows(r, frame, 1))
}

impl Kept {
    fn new(
        r: &mut Random,
        faults: u64,
        mut plain: TableNumbers,
        group: Vec<[u64; 3]>,
        pays: bool,
    ) -> Kept {
        if pays {
            switches::start_earlier(r, &mut plain);
        }
        let mut table = teams::mostly_legal(r, faults, &plain);
        if pays {
            switches::settle(r, faults, &mut table);
        } else if r.once_in(2) {
            table.shortest = Some(slivers::mostly_allowed(r, faults, &table));
        }
        Kept {
            summary: belonging(&table),
            table,
            group,
        }
    }
}

/// What belongs to the table; where that is refused, to its windows with another owner or without
/// m, the rule and q; or X's.
pub fn belonging(table: &TableNumbers) -> Vec<u64> {
    let for_owner = |owner| TableNumbers {
        shortest: None,
        ..TableNumbers::threes(table.frame, table.windows.clone(), owner)
    };
    let asked = table.owner.unwrap_or(0);
    let tables = [table.clone(), for_owner(asked), for_owner(0), for_owner(1)];
    let legal = tables.iter().find_map(|table| table.check().ok());
    legal.map_or(OF_X.to_vec(), |table| summary::fresh(&table))
}

fn making(r: &mut Random, kept: &Kept) -> Query {
    let room = generate::room(r, kept.summary.len() as u64);
    Query::MakeSummary(kept.table.clone(), room.min(MOST_ROOM))
}

fn amount(r: &mut Random, faults: u64, kept: &Kept) -> Query {
    let length = match r.once_in(faults.min(8)) {
        true => too_long(r),
        false => length(r, kept),
    };
    Query::SummaryAmount(kept.table.clone(), lent(r, kept), length)
}

fn margins(r: &mut Random, faults: u64, kept: &Kept) -> Query {
    let count = match r.below(30) {
        0 | 1 => 0,
        2 => r.between(20, 100),
        3 if r.once_in(20) => MOST_LENGTHS - r.below(2),
        _ => r.between(1, 8),
    };
    let mut lengths: Vec<u64> = (0..count).map(|_| length(r, kept)).collect();
    if !lengths.is_empty() && r.once_in(faults.min(8)) {
        let places = [0, count - 1, r.below(count)];
        lengths[r.one_of(&places) as usize] = too_long(r);
    }
    let tasks = match r.once_in(12) {
        true => TaskNumbers::Triples([MOST_TICKS, 1, 1].repeat(r.one_of(&[1, 31, 32]) as usize)),
        false => generate::spoil_sometimes(r, faults.min(12), &kept.group, false),
    };
    Query::Margins(MarginNumbers {
        table: kept.table.clone(),
        summary: lent(r, kept),
        tasks,
        lengths,
        room: generate::room(r, count),
    })
}

/// A length at an edge of frames, of critical windows or of deadlines, over some frames.
fn length(r: &mut Random, kept: &Kept) -> u64 {
    let frame = kept.table.frame.clamp(1, MOST_FRAME);
    let frames = frame * r.between(0, MOST_LENGTH / frame);
    let edge = match r.below(20) {
        0 => return r.between(0, 1),
        1 | 2 => return MOST_LENGTH - r.below(2),
        3 => return r.between(0, MOST_LENGTH),
        4 | 5 => frame * r.between(1, 3),
        6 | 7 => frames,
        8..=11 if !kept.group.is_empty() => {
            let [_, period, deadline] = kept.group[r.index(kept.group.len())];
            deadline + r.between(0, 3) * period
        }
        12 | 13 => r.between(0, 3 * frame),
        _ => {
            let edges = &kept.summary[FIRST_WINDOW..];
            edges[r.index(edges.len())] + r.one_of(&[0, 0, frame, frames])
        }
    };
    (edge + r.below(3)).saturating_sub(1).min(MOST_LENGTH)
}

fn too_long(r: &mut Random) -> u64 {
    r.one_of(&[
        1_000_001,
        1_000_001,
        1_000_001,
        1_000_002,
        1 << 20,
        GREATEST,
    ])
}

/// A summary that is lent: half of them belong to the table.
fn lent(r: &mut Random, kept: &Kept) -> Vec<u64> {
    let mut summary = match r.below(16) {
        0..=7 => kept.summary.clone(),
        _ => wrong(r, kept),
    };
    if r.once_in(3) {
        append(r, &mut summary);
    }
    summary.truncate(MOST_SUMMARY_NUMBERS as usize);
    summary
}

/// Numbers that are not looked at, unless the summary is too short.
fn append(r: &mut Random, summary: &mut Vec<u64>) {
    for _ in 0..r.between(1, 5) {
        let last = summary.last().copied().unwrap_or(7);
        summary.push(match r.below(4) {
            0 => 7,
            1 => last,
            2 => last.saturating_add(1).min(GREATEST),
            _ => r.one_of(&[0, 1, 256, GREATEST]),
        });
    }
}

/// One that does not belong, mostly by exactly one number.
pub fn wrong(r: &mut Random, kept: &Kept) -> Vec<u64> {
    let mut summary = kept.summary.clone();
    let count = summary.len();
    match r.below(16) {
        0..=6 => change_a_number(r, &mut summary),
        7 | 8 => summary.truncate(count - 1),
        9 => {
            let numbers = [0, 1, 2, 3, count as u64 - 2, r.below(count as u64)];
            summary.truncate(r.one_of(&numbers) as usize);
        }
        10 => another_count(r, &mut summary),
        11 => summary = belonging(&of_other_owner(kept)),
        12 | 13 => {
            // What an edit may forget to make new, or what it makes new too early.
            let table = edits::in_threes(&kept.table);
            let edit = edits::edit(r, &table);
            if let Ok(edited) = edit.apply(&table) {
                summary = belonging(&edited);
            }
        }
        14 if kept.table.switch.is_none() || r.once_in(2) => summary = with_own_windows(kept),
        14 => summary = with_another_loss(r, kept),
        _ => {
            let other = r.index(count - 1);
            summary.swap(other, other + 1);
        }
    }
    summary
}

/// One number is another: often A, the delay, the count or the last one; often by one.
fn change_a_number(r: &mut Random, summary: &mut [u64]) {
    let index = match r.below(8) {
        place @ 0..=2 => place as usize,
        3 => summary.len() - 1,
        _ => r.index(summary.len()),
    };
    let number = summary[index];
    summary[index] = match r.below(10) {
        0..=3 => number + 1,
        4..=6 => number.checked_sub(1).unwrap_or(GREATEST),
        7 if number > 0 => 0,
        8 => number + r.one_of(&[1 << 8, 1 << 16, 1 << 31]),
        _ => GREATEST,
    }
    .min(GREATEST);
}

/// A critical window fewer or more, with the count as it was or as it is then; or one window
/// written as two.
fn another_count(r: &mut Random, summary: &mut Vec<u64>) {
    let count = summary.len();
    match r.below(5) {
        0 => {
            summary.truncate(count - 2);
            summary[2] -= 1;
        }
        1 => summary[2] -= 1,
        2 => {
            summary[2] += 1;
            summary.extend([GREATEST - 1, GREATEST]);
        }
        3 => {
            // It is not the number of numbers.
            summary[2] *= 2;
        }
        _ => {
            let (start, end) = (summary[FIRST_WINDOW], summary[FIRST_WINDOW + 1]);
            let middle = (start + end) / 2;
            summary[2] += 1;
            summary.splice(FIRST_WINDOW + 1..FIRST_WINDOW + 1, [middle, middle]);
        }
    }
}

fn of_other_owner(kept: &Kept) -> TableNumbers {
    TableNumbers {
        owner: kept.table.owner.map(|owner| u64::from(owner == 0)),
        ..kept.table.clone()
    }
}

/// The owner's own windows in place of the critical ones.
fn with_own_windows(kept: &Kept) -> Vec<u64> {
    let threes = kept.table.windows.chunks_exact(3);
    let own = threes.filter(|window| Some(window[2]) == kept.table.owner);
    let pairs: Vec<u64> = own.flat_map(|window| [window[0], window[1]]).collect();
    let front = [kept.summary[0], kept.summary[1], pairs.len() as u64 / 2];
    [&front[..], &pairs].concat()
}

/// What belongs to the same windows where they lose nothing, or a tick more or less.
fn with_another_loss(r: &mut Random, kept: &Kept) -> Vec<u64> {
    let mut table = kept.table.clone();
    if let Some(switch) = &mut table.switch {
        switch.lost = match r.below(3) {
            0 => 0,
            1 => switch.lost + 1,
            _ => switch.lost.saturating_sub(1),
        };
    }
    belonging(&table)
}

/// One of the queries whose lists, memories or rooms are as long as they may be, or nearly.
pub fn query_at_a_limit(r: &mut Random) -> Query {
    let table = TableNumbers::threes(8, vec![0, 2, 0, 5, 7, 0], 0);
    let longest = |r: &mut Random| {
        let mut summary = OF_X.to_vec();
        let numbers = MOST_SUMMARY_NUMBERS - r.below(2);
        summary.resize(numbers as usize, r.one_of(&[0, 7, 8]));
        summary
    };
    let numbers = MOST_NEW_NUMBERS - r.below(2);
    let margins = |summary, tasks: Vec<u64>, lengths, room| {
        Query::Margins(MarginNumbers {
            table: table.clone(),
            summary,
            tasks: TaskNumbers::Triples(tasks),
            lengths,
            room,
        })
    };
    match r.below(9) {
        0 => Query::MakeSummary(table, MOST_ROOM),
        1 => {
            let windows = (0..numbers).collect();
            Query::MakeSummary(TableNumbers::threes(MOST_FRAME, windows, 0), 0)
        }
        2 => Query::SummaryAmount(table, longest(r), r.below(99)),
        3 => margins(longest(r), vec![1, 4, 4], vec![4, 1_000_000], r.below(3)),
        4 => margins(OF_X.to_vec(), vec![1; numbers as usize], vec![4], 1),
        5 => {
            let tasks = [1, 4, 4].repeat(MOST_TASKS);
            let lengths: Vec<u64> = (0..MOST_LENGTHS - r.below(2)).collect();
            let room = lengths.len() as u64 + r.below(2) - r.below(2);
            margins(OF_X.to_vec(), tasks, lengths, room)
        }
        6 => margins(OF_X.to_vec(), vec![], vec![8], MOST_ROOM),
        _ => {
            let summary = longest(r);
            edits::at_a_limit(r, summary)
        }
    }
}

#[cfg(test)]
mod tests {
    use super::*;
    use crate::answer::Reason;
    use crate::numbers::encode;
    use crate::query::ONLY_ON_A_BOARD;
    use crate::stream;
    use std::collections::BTreeMap;

    type Edges = Vec<(&'static str, bool)>;

    fn queries(seed: u64) -> impl Iterator<Item = Query> {
        let mut random = Random::new(seed);
        let queries = std::iter::repeat_with(move || generate::query(&mut random));
        queries.filter(|query| ONLY_ON_A_BOARD.contains(&query.code()))
    }

    /// Which edges a query without an edit is at.
    fn edges(query: &Query) -> Vec<&'static str> {
        let edges = match query {
            Query::MakeSummary(table, room) => makings(table, *room),
            Query::SummaryAmount(table, lent, length) => amounts(table, lent, *length),
            Query::Margins(margins) => of_margins(margins, &query.line()),
            _ => Vec::new(),
        };
        let asked = edges.into_iter().filter(|(_, is_asked)| *is_asked);
        asked.map(|(edge, _)| edge).collect()
    }

    fn makings(table: &TableNumbers, room: u64) -> Edges {
        let needed = belonging(table).len() as u64;
        let Err(refusal) = table.check().map(|_| ()) else {
            return vec![
                ("making, exactly enough room", room == needed),
                ("making, one number too few", room + 1 == needed),
                ("making, no room", room == 0),
                ("making, more room", room > needed),
                ("making of one critical window", needed == 5),
                ("making of over 64", needed > 131),
                ("making for owner 1", table.owner == Some(1)),
            ];
        };
        let is_short = room < needed;
        vec![
            ("making, 1 before 8", refusal.reason as u8 == 1 && is_short),
            ("making, 2 before 8", refusal.reason as u8 == 2 && is_short),
            ("making, 3 before 8", refusal.reason as u8 == 3 && is_short),
            (
                "making, 12 before 8",
                refusal.reason as u8 == 12 && is_short,
            ),
        ]
    }

    fn amounts(table: &TableNumbers, lent: &[u64], length: u64) -> Edges {
        let fresh = belonging(table);
        let belongs = lent.starts_with(&fresh);
        let is_long = length > MOST_LENGTH;
        if let Err(refusal) = table.check() {
            let reason = refusal.reason as u8;
            return vec![
                ("amount, 1 before 14", reason == 1 && !belongs),
                ("amount, 3 before 14", reason == 3 && !belongs),
                ("amount, 12 before 14", reason == 12 && !belongs),
                ("amount, 12 before 7", reason == 12 && is_long),
            ];
        }
        let differ: Vec<usize> = (0..lent.len().min(fresh.len()))
            .filter(|&index| lent[index] != fresh[index])
            .collect();
        let one = match differ[..] {
            [index] if lent.len() >= fresh.len() => Some(index),
            _ => None,
        };
        let other = TableNumbers {
            owner: table.owner.map(|owner| 1 - owner),
            ..table.clone()
        };
        let of_other = other.check().map(|other| summary::fresh(&other));
        let rest = length % table.frame;
        vec![
            ("amount", belongs && !is_long),
            (
                "amount, numbers after it",
                belongs && lent.len() > fresh.len(),
            ),
            ("amount of no tick", belongs && length == 0),
            ("amount of whole frames", belongs && length > 0 && rest == 0),
            (
                "amount beside whole frames",
                belongs && rest + 1 == table.frame,
            ),
            (
                "amount at a critical edge",
                belongs && fresh[3..].contains(&rest),
            ),
            (
                "amount after some frames",
                belongs && length > 9 * table.frame,
            ),
            ("amount of 1,000,000", belongs && length == MOST_LENGTH),
            ("amount of 1,000,001", belongs && length == MOST_LENGTH + 1),
            ("amount of the greatest", belongs && length == GREATEST),
            (
                "amount of 130 critical numbers",
                belongs && fresh.len() > 130,
            ),
            ("14 before 7", !belongs && is_long),
            ("14, A", one == Some(0)),
            ("14, the delay", one == Some(1)),
            ("14, the count", one == Some(2)),
            ("14, the last number", one == Some(fresh.len() - 1)),
            (
                "14, another",
                one.is_some_and(|i| i > 2 && i + 1 < fresh.len()),
            ),
            (
                "14, one number, more after it",
                one.is_some() && lent.len() > fresh.len(),
            ),
            (
                "14, hidden by a byte",
                one.is_some_and(|i| lent[i] % 256 == fresh[i] % 256),
            ),
            (
                "14, a number too few",
                differ.is_empty() && lent.len() + 1 == fresh.len(),
            ),
            ("14, no number", lent.is_empty()),
            (
                "14, the other owner's",
                !belongs && of_other.as_deref() == Ok(lent),
            ),
            (
                "14, far fewer numbers",
                differ.is_empty() && lent.len() + 2 < fresh.len(),
            ),
        ]
    }

    fn of_margins(margins: &MarginNumbers, line: &str) -> Edges {
        let MarginNumbers {
            table,
            summary,
            tasks,
            lengths,
            room,
        } = margins;
        let belongs = summary.starts_with(&belonging(table));
        let long: Vec<usize> = (0..lengths.len())
            .filter(|&index| lengths[index] > MOST_LENGTH)
            .collect();
        let is_long = !long.is_empty();
        let count = lengths.len() as u64;
        let is_short = *room < count;
        match (table.check(), tasks.check()) {
            (Err(refusal), tasks) => {
                let reason = refusal.reason as u8;
                return vec![
                    ("margins, a table's before 4 or 5", tasks.is_err()),
                    ("margins, 12 before 14", reason == 12 && !belongs),
                ];
            }
            (Ok(_), Err(refusal)) => {
                let reason = refusal.reason;
                return vec![
                    (
                        "margins, 4 before 14",
                        reason == Reason::TaskList && !belongs,
                    ),
                    ("margins, 5 before 14", reason == Reason::Task && !belongs),
                    ("margins, 5 before 7", reason == Reason::Task && is_long),
                ];
            }
            _ => {}
        }
        let answered = line.starts_with("MARGINS");
        let numbers = line.split(' ').skip(3).filter_map(|n| n.parse().ok());
        let of: Vec<i64> = match answered {
            true => numbers.take(lengths.len()).collect(),
            false => Vec::new(),
        };
        vec![
            ("margins, 14 before 7", !belongs && is_long),
            ("margins, 14 before 8", !belongs && is_short),
            ("margins, 7 before 8", belongs && is_long && is_short),
            (
                "margins, 7 of the first",
                belongs && count > 1 && long == [0],
            ),
            (
                "margins, 7 of the last",
                belongs && count > 1 && long == [lengths.len() - 1],
            ),
            (
                "margins, 8 by one",
                belongs && !is_long && room + 1 == count,
            ),
            ("margins, exactly enough room", answered && *room == count),
            ("margins, more room", answered && *room > count),
            ("margins of no length", answered && count == 0),
            (
                "margins of no task",
                answered && *tasks == TaskNumbers::Triples(vec![]),
            ),
            ("margins of over 900", answered && count > 900),
            ("margins of 0", of.contains(&0)),
            ("margins of -1", of.contains(&-1)),
            ("margins below 32 bits", of.iter().any(|&n| n < -(1 << 32))),
            (
                "margins of both signs",
                of.iter().any(|n| *n < 0) && of.iter().any(|n| *n > 0),
            ),
        ]
    }

    /// Every edge is asked, once in 6,000 queries of these codes or more often.
    #[test]
    fn every_edge_is_asked() {
        let mut asked = BTreeMap::new();
        for query in queries(31).take(30_000) {
            for edge in edges(&query) {
                *asked.entry(edge).or_insert(0) += 1;
            }
        }
        let often: Vec<_> = asked.iter().filter(|(_, &times)| times >= 5).collect();
        assert_eq!(often.len(), 58, "{asked:#?}");
    }

    #[test]
    fn a_third_of_the_queries_is_about_summaries() {
        let mut random = Random::new(32);
        let queries = (0..6_000).map(|_| generate::query(&mut random));
        let codes: Vec<u64> = queries.map(|query| query.code()).collect();
        let of = |range: std::ops::RangeInclusive<u64>| {
            codes.iter().filter(|code| range.contains(code)).count()
        };
        assert!((1_850..2_150).contains(&of(20..=23)), "{}", of(20..=23));
        for code in 20..=22 {
            assert!(of(code..=code) > 250, "{code}: {}", of(code..=code));
        }
        assert!(of(23..=23) > 900, "{}", of(23..=23));
    }

    #[test]
    fn limits_are_kept() {
        let mut random = Random::new(33);
        for _ in 0..400 {
            let query = query_at_a_limit(&mut random);
            let stream = stream::read(&encode(&query.numbers()));
            assert_eq!((stream.bad, stream.queries), (None, vec![query]));
        }
    }

    /// Large frames have summaries and edits that are answered, and keep the limits of a stream.
    #[test]
    fn large_frames_are_asked() {
        let mut random = Random::new(34);
        let mut answered: BTreeMap<u64, u64> = BTreeMap::new();
        for _ in 0..200 {
            for query in large_queries(&mut random, 2_000_000) {
                let stream = stream::read(&encode(&query.numbers()));
                assert_eq!(
                    (stream.bad, &stream.queries[..]),
                    (None, &[query.clone()][..])
                );
                if !query.line().starts_with("REFUSED") {
                    *answered.entry(query.code()).or_default() += 1;
                }
            }
        }
        for code in ONLY_ON_A_BOARD {
            assert!(answered.get(&code) > Some(&15), "{answered:?}");
        }
    }

    /// "Answers from the summary and from the plain definition agree at every length", and the
    /// other team does not count: as the plain entries answer, so do those from a summary.
    #[test]
    fn summaries_answer_as_the_plain_entries_do() {
        for query in queries(35).take(6_000) {
            let line = query.line();
            match &query {
                Query::SummaryAmount(table, _, length) if !line.starts_with("REFUSED 14") => {
                    assert_eq!(line, Query::LeastSupply(table.clone(), *length).line());
                }
                Query::Margins(margins) if line.starts_with("MARGINS") => {
                    let table = || margins.table.clone();
                    let margin = |&length: &u64| {
                        let tasks = margins.tasks.clone();
                        Query::Margin(table(), tasks, length).line()
                    };
                    let numbers = line.split(' ').skip(3).map(|n| format!("MARGIN {n}"));
                    let lines = margins.lengths.iter().map(margin);
                    assert!(numbers.take(margins.lengths.len()).eq(lines), "{line}");
                }
                Query::MakeSummary(table, _) if line.starts_with("SUMMARY") => {
                    let numbers: Vec<&str> = line.split(' ').skip(3).collect();
                    let delay = format!("DELAY {} of {}", numbers[1], numbers[0]);
                    assert_eq!(delay, Query::Delay(table.clone()).line());
                    let count: u64 = numbers[2].parse().unwrap();
                    let critical = Query::CriticalPartition(table.clone(), 2 * count).line();
                    let windows = numbers[3..3 + 2 * count as usize].join(" ");
                    assert_eq!(critical, format!("WINDOWS {count} BUFFER {windows}"));
                }
                _ => {}
            }
        }
    }
}
