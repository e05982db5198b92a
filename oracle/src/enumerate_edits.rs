//! Everything that document 02's request 6 answers on every small table that two teams share: every
//! summary, with every length, room and single change; every edit, with every room that counts and
//! every shortest allowed window.

use crate::edit::{Edit, Kind};
use crate::enumerate::shared_lists;
use crate::owners::OWNERS;
use crate::query::{EditNumbers, MarginNumbers, Query};
use crate::summaries::belonging;
use crate::summary;
use crate::table::TableNumbers;
use crate::tasks::TaskNumbers;

const MOST_FRAME: u64 = 6;
const MOST_FRAME_OF_EDITS: u64 = 4;
const MOST_FRAME_WITH_SHORTEST: u64 = 3;
/// What the rest of a memory is filled with.
const REST: u64 = 9;

pub fn queries() -> impl Iterator<Item = Query> {
    summaries()
        .chain(counts())
        .chain(edits())
        .chain(legal_edits())
}

/// The legal lists of a frame, for each owner and for one that does not exist.
pub fn legal_tables(frame: u64) -> impl Iterator<Item = TableNumbers> {
    let is_legal = |list: &Vec<u64>| {
        let owner = list.last().copied().unwrap_or(0);
        let table = TableNumbers::threes(frame, list.clone(), owner);
        table.check().is_ok()
    };
    let legal: Vec<Vec<u64>> = shared_lists(frame).into_iter().filter(is_legal).collect();
    legal.into_iter().flat_map(move |list| {
        (0..=OWNERS).map(move |owner| TableNumbers::threes(frame, list.clone(), owner))
    })
}

/// Everything about the summary of every table with P up to 6.
fn summaries() -> impl Iterator<Item = Query> {
    (1..=MOST_FRAME).flat_map(legal_tables).flat_map(of_summary)
}

/// The making with every room up to one over, the amounts of every length up to 3P and at the
/// limit, one with every summary that is nearly the right one, and all margins. Of a table that is
/// refused there is one of each.
pub fn of_summary(table: TableNumbers) -> Vec<Query> {
    let summary = belonging(&table);
    let needed = summary.len() as u64;
    if table.check().is_err() {
        let amount = Query::SummaryAmount(table.clone(), vec![], 1_000_001);
        return vec![Query::MakeSummary(table, 0), amount];
    }
    let making = |room| Query::MakeSummary(table.clone(), room);
    let mut queries: Vec<Query> = (0..=needed + 1).map(making).collect();
    let lengths = 0..=3 * table.frame;
    let amount = |length| Query::SummaryAmount(table.clone(), summary.clone(), length);
    queries.extend(lengths.clone().chain([1_000_000, 1_000_001]).map(amount));
    let length = table.frame + 1;
    let with = |other| Query::SummaryAmount(table.clone(), other, length);
    queries.extend(nearly(&summary).into_iter().map(with));
    for (group, room) in [(vec![], 0), (vec![1, 2, 1], 1), (vec![1, 3, 2, 1, 5, 4], 2)] {
        queries.push(Query::Margins(MarginNumbers {
            table: table.clone(),
            summary: summary.clone(),
            tasks: TaskNumbers::Triples(group),
            lengths: lengths.clone().rev().collect(),
            room: 3 * table.frame + room,
        }));
    }
    queries
}

/// The summary with a number more, too short by each number of numbers, and with each number 0, one
/// more or one less.
fn nearly(summary: &[u64]) -> Vec<Vec<u64>> {
    let mut others = vec![[summary, &[REST]].concat()];
    others.extend((0..summary.len()).map(|end| summary[..end].to_vec()));
    for index in 0..summary.len() {
        for number in [0, summary[index] + 1, summary[index].saturating_sub(1)] {
            let mut other = summary.to_vec();
            other[index] = number;
            others.push(other);
        }
    }
    others
}

/// Of every table with P up to 4 in a memory with room for a window more: a removal of what is
/// first with every count up to two too many, and with what belongs to so many windows.
fn counts() -> impl Iterator<Item = Query> {
    let tables = (1..=MOST_FRAME_OF_EDITS).flat_map(legal_tables);
    tables.flat_map(|table| {
        let windows = table.windows.len() as u64 / 3;
        let with = |count: u64| {
            let mut memory = table.clone();
            memory.windows.truncate(3 * count as usize);
            let summary = belonging(&memory);
            memory.windows = with_room(&table.windows, 3);
            let edit = Edit {
                kind: Kind::Remove,
                index: 0,
                start: REST,
                end: REST,
                owner: REST,
            };
            Query::Edit(EditNumbers {
                memory,
                count,
                summary,
                edit,
            })
        };
        (0..=windows + 2).map(with).collect::<Vec<Query>>()
    })
}

/// Every edit of every table with P up to 4, and with P up to 3 and m from 0 to P + 1.
fn edits() -> impl Iterator<Item = Query> {
    let without = (1..=MOST_FRAME_OF_EDITS).flat_map(legal_tables);
    let with = (1..=MOST_FRAME_WITH_SHORTEST)
        .flat_map(legal_tables)
        .flat_map(|table| {
            (0..=table.frame + 1).map(move |shortest| TableNumbers {
                shortest: Some(shortest),
                ..table.clone()
            })
        });
    without.chain(with).flat_map(|table| {
        let edits = any_edits(table.frame, table.windows.len() as u64 / 3);
        let of_table = |edit| of_edit(&table, edit);
        edits.into_iter().flat_map(of_table).collect::<Vec<Query>>()
    })
}

/// Every edit of every table with P of 5 and 6 that leaves a legal table.
fn legal_edits() -> impl Iterator<Item = Query> {
    let tables = (MOST_FRAME_OF_EDITS + 1..=MOST_FRAME).flat_map(legal_tables);
    let legal = tables.filter(|table| table.check().is_ok());
    legal.flat_map(|table| {
        let edits = any_edits(table.frame, table.windows.len() as u64 / 3);
        let is_legal = |edit: &Edit| edit.apply(&table).is_ok_and(|new| new.check().is_ok());
        let legal = edits.into_iter().filter(is_legal);
        legal
            .flat_map(|edit| of_edit(&table, edit))
            .collect::<Vec<Query>>()
    })
}

/// Every edit: an absent index is one that is too large by one, a window has edges up to P + 1, an
/// owner is up to 2. What a kind does not use is one number.
pub fn any_edits(frame: u64, count: u64) -> Vec<Edit> {
    let mut edits = Vec::new();
    let mut push = |kind, index, start, end, owner| {
        edits.push(Edit {
            kind,
            index,
            start,
            end,
            owner,
        });
    };
    for index in 0..=count + 1 {
        for start in 0..=frame + 1 {
            for end in 0..=frame + 1 {
                if index <= count {
                    push(Kind::Move, index, start, end, REST);
                }
                for owner in 0..=OWNERS {
                    push(Kind::Add, index, start, end, owner);
                }
            }
        }
        if index <= count {
            push(Kind::Remove, index, REST, REST, REST);
        }
    }
    edits
}

/// The edit with more room than it needs; where it is answered so, also with every room for windows
/// and for the summary that is just enough, or one or two too few, and without the summary's last
/// number.
pub fn of_edit(table: &TableNumbers, edit: Edit) -> Vec<Query> {
    let summary = belonging(table);
    let with = |windows: Vec<u64>, summary: Vec<u64>| {
        Query::Edit(EditNumbers {
            memory: TableNumbers {
                windows,
                ..table.clone()
            },
            count: table.windows.len() as u64 / 3,
            summary,
            edit,
        })
    };
    let roomy = with(with_room(&table.windows, 4), with_room(&summary, 9));
    let edited = edit.apply(table).ok().and_then(|new| {
        let legal = new.check().ok()?;
        table.check().ok()?;
        Some((new.windows.len(), summary::fresh(&legal).len()))
    });
    let mut queries = vec![roomy];
    let Some((list, numbers)) = edited else {
        return queries;
    };
    let short = summary[..summary.len() - 1].to_vec();
    queries.push(with(with_room(&table.windows, 3), short));
    for windows in 0..=list.saturating_sub(table.windows.len()) {
        for kept in 0..=numbers.saturating_sub(summary.len()) {
            let lent = with_room(&table.windows, windows);
            queries.push(with(lent, with_room(&summary, kept)));
        }
    }
    queries
}

fn with_room(list: &[u64], room: usize) -> Vec<u64> {
    [list, &vec![REST; room]].concat()
}

#[cfg(test)]
mod tests {
    use super::*;
    use std::collections::BTreeMap;

    #[test]
    fn as_many_as_there_are() {
        // Each tick is nobody's or one owner's, not all nobody's; three owners.
        let counts: Vec<usize> = (1..=6).map(|frame| legal_tables(frame).count()).collect();
        assert_eq!(counts, [3 * 2, 3 * 8, 3 * 26, 3 * 80, 3 * 242, 3 * 728]);
        // Moves, additions and removals of one window in a frame of 2.
        assert_eq!(any_edits(2, 1).len(), 2 * 16 + 3 * 16 * 3 + 2);
    }

    /// Every line that there may be is among the answers.
    #[test]
    fn every_answer_is_asked() {
        let mut lines: BTreeMap<String, u64> = BTreeMap::new();
        for query in queries() {
            let line = query.line();
            let front = line.split(" BUFFER").next().unwrap_or("");
            let code = query.code();
            *lines.entry(format!("{code} {front}")).or_default() += 1;
        }
        for front in [
            "20 SUMMARY 5",
            "20 SUMMARY 7",
            "20 REFUSED 1 at 0",
            "20 REFUSED 8 at 5",
            "20 REFUSED 8 at 9",
            "21 AMOUNT 0",
            "21 AMOUNT 15",
            "21 AMOUNT 1000000",
            "21 REFUSED 7 at 0",
            "21 REFUSED 14 at 0",
            "22 MARGINS 19",
            "22 REFUSED 8 at 19",
            "23 EDITED count 1 summary 5",
            "23 EDITED count 4 summary 7",
            "23 EDITED count 2 summary 7",
            "23 REFUSED 1 at 0",
            "23 REFUSED 3 at 0",
            "23 REFUSED 3 at 3",
            "23 REFUSED 7 at 0",
            "23 REFUSED 8 at 6",
            "23 REFUSED 8 at 7",
            "23 REFUSED 8 at 12",
            "23 REFUSED 12 at 0",
            "23 REFUSED 12 at 1",
            "23 REFUSED 12 at 64",
            "23 REFUSED 14 at 0",
        ] {
            assert!(lines.contains_key(front), "{front} is not in {lines:#?}");
        }
    }

    /// The list and the summary after an edit are those that a fresh making gives, and nothing
    /// else has changed.
    #[test]
    fn edits_leave_what_a_fresh_making_gives() {
        let mut edited = 0;
        for query in edits().chain(legal_edits()) {
            let Query::Edit(numbers) = &query else {
                continue;
            };
            let line = query.line();
            let Some(rest) = line.strip_prefix("EDITED count ") else {
                continue;
            };
            edited += 1;
            let mut parts = rest.split(" BUFFER ");
            let front = parts.next().unwrap();
            let (count, kept) = front.split_once(" summary ").unwrap();
            let list = 3 * count.parse::<usize>().unwrap();
            let kept: usize = kept.parse().unwrap();
            let mut memory = || -> Vec<u64> {
                let numbers = parts.next().unwrap().split(' ');
                numbers.map(|number| number.parse().unwrap()).collect()
            };
            let (windows, summary) = (memory(), memory());
            let new = TableNumbers {
                windows: windows[..list].to_vec(),
                ..numbers.memory.clone()
            };
            let making = Query::MakeSummary(new, kept as u64).line();
            let made: Vec<String> = summary[..kept].iter().map(u64::to_string).collect();
            let expected = format!("SUMMARY {kept} BUFFER {}", made.join(" "));
            assert_eq!(making, expected, "{query:?}");
            assert_eq!(windows[list..], numbers.memory.windows[list..]);
            assert_eq!(summary[kept..], numbers.summary[kept..]);
        }
        assert!(edited > 3_000, "{edited}");
    }
}
