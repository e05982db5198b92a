//! Everything that document 02's request 7 answers on every small table that two teams share: what
//! every entry gives of what remains, every rule and q that refuses, every summary and every edit;
//! and every short plan file with m, the rule and q first.

use crate::enumerate::{
    any_bytes, any_lists, entries, groups_of_plans, tables, FRAME_OF_ANY_WINDOWS,
};
use crate::enumerate_edits::{any_edits, legal_tables, of_edit, of_summary};
use crate::generate;
use crate::lost::{Switch, MOST_LOST, PAYS, WHOLE};
use crate::numbers::encode;
use crate::owners::OWNERS;
use crate::plan::Form;
use crate::query::Query;
use crate::table::TableNumbers;
use crate::tasks::TaskNumbers;

const MOST_FRAME: u64 = 6;
const MOST_FRAME_OF_FAULTS: u64 = 4;
const MOST_FRAME_OF_SUMMARIES: u64 = 5;
const MOST_FRAME_OF_EDITS: u64 = 3;
const MOST_FRAME_OF_PLANS: u64 = 5;
const MOST_ANY_LOST: u64 = 3;
/// Every plan file of up to so many bytes.
const MOST_ANY_BYTES: usize = 5;
/// And every one of so many after small settings: P, one window and no task take five.
const BYTES_AFTER_SETTINGS: usize = 5;

pub fn queries() -> impl Iterator<Item = Query> {
    let tables = remaining().chain(faults()).chain(faults_of_any_windows());
    let summaries = summaries().chain(edits());
    tables.chain(summaries).chain(plans()).chain(any_plans())
}

fn with(table: &TableNumbers, shortest: u64, rule: u64, lost: u64) -> TableNumbers {
    TableNumbers {
        shortest: Some(shortest),
        switch: Some(Switch { rule, lost }),
        ..table.clone()
    }
}

/// What every entry gives of every table with P up to 6 where each window loses 1 to 3 ticks, and
/// with P up to 4 where it loses none.
fn remaining() -> impl Iterator<Item = Query> {
    (1..=MOST_FRAME).flat_map(legal_tables).flat_map(|table| {
        let least = u64::from(table.frame > MOST_FRAME_OF_FAULTS);
        let losing = |lost| entries(&with(&table, 1, PAYS, lost));
        (least..=MOST_ANY_LOST)
            .flat_map(losing)
            .collect::<Vec<Query>>()
    })
}

/// The outage, and the margin of a group that is not in threes, of every table with P up to 4, for
/// each rule from 0 to 3 and each q up to P + 1 and at its limit, with m from 0 to 2.
fn faults() -> impl Iterator<Item = Query> {
    let tables = (1..=MOST_FRAME_OF_FAULTS).flat_map(legal_tables);
    tables.flat_map(|table| {
        let mut queries = Vec::new();
        for rule in 0..=3 {
            for lost in (0..=table.frame + 1).chain([MOST_LOST, MOST_LOST + 1]) {
                for shortest in 0..=2 {
                    let table = with(&table, shortest, rule, lost);
                    queries.push(Query::Outage(table.clone()));
                    let tasks = TaskNumbers::Triples(vec![1, 4]);
                    queries.push(Query::Margin(table, tasks, 4));
                }
            }
        }
        queries
    })
}

/// The outage, for the owners 0 to 2, of every list of up to two windows with P = 3 that may break
/// every rule: where a tick is lost, where nothing is left, and where the rule is no board's.
fn faults_of_any_windows() -> impl Iterator<Item = Query> {
    any_lists().into_iter().flat_map(|list| {
        let mut queries = Vec::new();
        for owner in 0..=OWNERS {
            let table = TableNumbers::threes(FRAME_OF_ANY_WINDOWS, list.clone(), owner);
            for (rule, lost) in [(PAYS, 1), (PAYS, FRAME_OF_ANY_WINDOWS), (WHOLE, 1), (0, 0)] {
                queries.push(Query::Outage(with(&table, 1, rule, lost)));
            }
        }
        queries
    })
}

/// Everything about the summary of every table with P up to 5 where each window loses 1 or 2 ticks.
fn summaries() -> impl Iterator<Item = Query> {
    let tables = (1..=MOST_FRAME_OF_SUMMARIES).flat_map(legal_tables);
    tables.flat_map(|table| {
        let losing = |lost| of_summary(with(&table, 1, PAYS, lost));
        (1..=2).flat_map(losing).collect::<Vec<Query>>()
    })
}

/// Every edit of every table with P up to 3 where each window loses 0 to 2 ticks and m is 1 or 2,
/// and where the rule is 0.
fn edits() -> impl Iterator<Item = Query> {
    let tables = (1..=MOST_FRAME_OF_EDITS).flat_map(legal_tables);
    tables.flat_map(|table| {
        let edits = any_edits(table.frame, table.windows.len() as u64 / 3);
        let mut queries = Vec::new();
        for (shortest, rule, lost) in [
            (1, PAYS, 0),
            (1, PAYS, 1),
            (1, PAYS, 2),
            (2, PAYS, 1),
            (2, 0, 1),
        ] {
            let table = with(&table, shortest, rule, lost);
            queries.extend(edits.iter().flat_map(|&edit| of_edit(&table, edit)));
        }
        queries
    })
}

/// The verdicts of plan files with m from 0 to 2, the rule from 0 to 3 and q from 0 to 3 before
/// every table with P up to 5, with the groups that a plan with m first has.
fn plans() -> impl Iterator<Item = Query> {
    let groups = groups_of_plans();
    tables(MOST_FRAME_OF_PLANS)
        .into_iter()
        .flat_map(move |table| {
            let mut queries = Vec::new();
            for [shortest, rule, lost] in small_settings() {
                let table = with(&table, shortest, rule, lost);
                let plans = groups.iter();
                queries.extend(plans.map(|tasks| generate::plan_file(&table, tasks)));
            }
            queries
        })
}

/// m from 0 to 2, the rule from 0 to 3 and q from 0 to 3.
fn small_settings() -> Vec<[u64; 3]> {
    let mut settings = Vec::new();
    for shortest in 0..=2 {
        for rule in 0..=3 {
            settings.extend((0..=MOST_ANY_LOST).map(|lost| [shortest, rule, lost]));
        }
    }
    settings
}

/// Every plan file of up to 5 bytes, each one of six; and every one of five of them after small
/// settings.
fn any_plans() -> impl Iterator<Item = Query> {
    let short = (0..=MOST_ANY_BYTES).flat_map(any_bytes);
    let after = small_settings().into_iter().flat_map(|settings| {
        let before = encode(&settings);
        any_bytes(BYTES_AFTER_SETTINGS).map(move |rest| [&before[..], &rest].concat())
    });
    let plan = |bytes| Query::Plan(Form::WithSwitch, bytes);
    short.chain(after).map(plan)
}

#[cfg(test)]
mod tests {
    use super::*;
    use std::collections::BTreeMap;

    #[test]
    fn as_many_as_there_are() {
        // For three owners, 2, 8, 26, 80, 242 and 728 lists; 2P + 6 entries.
        let lists = (1..).zip([2, 8, 26, 80, 242, 728]);
        let queries = |(frame, count): (usize, usize)| {
            let lost = if frame > 4 { 3 } else { 4 };
            3 * count * lost * (2 * frame + 6)
        };
        assert_eq!(remaining().count(), lists.map(queries).sum::<usize>());
        // Four rules, three m and P + 4 numbers q.
        let lists = (1..).zip([2, 8, 26, 80]);
        let queries = |(frame, count): (usize, usize)| 3 * count * 2 * 4 * 3 * (frame + 4);
        assert_eq!(faults().count(), lists.map(queries).sum::<usize>());
        assert_eq!(faults_of_any_windows().count(), 4 * 3 * (1 + 75 + 75 * 75));
        assert_eq!(small_settings().len(), 3 * 4 * 4);
        // Sets of 1 to 5 ticks: 2^6 - 2 with the 5 empty ones; five groups.
        assert_eq!(plans().count(), (62 - 5) * 48 * 5);
        // 6^0 to 6^5, and 6^5 after the settings.
        let short = (6usize.pow(6) - 1) / 5;
        assert_eq!(any_plans().count(), short + 48 * 6usize.pow(5));
    }

    /// Every line that there may be is among the answers.
    #[test]
    fn every_answer_is_asked() {
        let mut lines: BTreeMap<String, u64> = BTreeMap::new();
        for query in queries() {
            let line = query.line();
            let front = line.split(" BUFFER").next().unwrap_or("");
            *lines
                .entry(format!("{} {front}", query.code()))
                .or_default() += 1;
        }
        for front in [
            "1 AMOUNT 9",
            "2 WINDOWS 2",
            "3 DELAY 9 of 3",
            "4 OUTAGE 5",
            "4 REFUSED 1 at 0",
            "4 REFUSED 3 at 1",
            "4 REFUSED 12 at 64",
            "4 REFUSED 12 at 1",
            "4 REFUSED 13 at 0",
            "6 REFUSED 4 at 0",
            "6 REFUSED 13 at 0",
            "7 MEETS cycle 12",
            "19 MEETS cycle 4",
            "19 MISS length 3 start 0 demand 1 supply 0",
            "19 REFUSED 2 at 0",
            "19 REFUSED 3 at 0",
            "19 REFUSED 4 at 0",
            "19 REFUSED 5 at 0",
            "19 REFUSED 6 at 0",
            "19 REFUSED 9 at 8",
            "19 REFUSED 12 at 0",
            "19 REFUSED 13 at 0",
            "20 SUMMARY 7",
            "20 REFUSED 13 at 0",
            "21 AMOUNT 12",
            "21 REFUSED 13 at 0",
            "21 REFUSED 14 at 0",
            "22 MARGINS 16",
            "23 EDITED count 1 summary 5",
            "23 EDITED count 2 summary 5",
            "23 REFUSED 3 at 1",
            "23 REFUSED 7 at 0",
            "23 REFUSED 8 at 6",
            "23 REFUSED 12 at 1",
            "23 REFUSED 13 at 0",
            "23 REFUSED 14 at 0",
        ] {
            assert!(lines.contains_key(front), "{front} is not in {lines:#?}");
        }
    }

    /// Of every table that is not refused, each entry gives what a plain table of just the
    /// remaining ticks gives.
    #[test]
    fn entries_read_the_remaining_ticks() {
        let mut compared = 0;
        for query in remaining() {
            let table = query.table().unwrap();
            let (owner, lost) = (table.owner.unwrap(), table.switch.unwrap().lost);
            let own = table.windows.chunks(3).filter(|window| window[2] == owner);
            let left = own.map(|window| [window[0] + lost, window[1]]);
            let pairs: Vec<u64> = left.filter(|[s, e]| s < e).flatten().collect();
            let has_window = table.windows.chunks(3).any(|window| window[2] == owner);
            let line = query.line();
            let line = line.split(" BUFFER 7").next();
            if pairs.is_empty() {
                let refused = match has_window {
                    true => "REFUSED 13 at 0",
                    false => "REFUSED 1 at 0",
                };
                assert_eq!(line, Some(refused), "{query:?}");
                continue;
            }
            let mut plain = query.clone();
            *plain.table_mut().unwrap() = TableNumbers::pairs(table.frame, pairs);
            assert_eq!(line, plain.line().split(" BUFFER 7").next(), "{query:?}");
            compared += 1;
        }
        assert!(compared > 20_000, "{compared}");
    }
}
