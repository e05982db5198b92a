//! Every small table, and every small group on the smaller ones; every small table that two teams
//! share, and every one of up to two windows that may break every rule, without a shortest allowed
//! window m and with every one that is not far longer than the frame; every summary and every edit
//! of small ones (`enumerate_edits`); all of these on boards with a rule and q
//! (`enumerate_switches`); every short plan file, of the old form and with m first; every bad query
//! by a code or a count of code 16.

use crate::enumerate_edits;
use crate::enumerate_switches;
use crate::generate;
use crate::numbers::encode;
use crate::owners::OWNERS;
use crate::plan::Form;
use crate::query::{
    Query, BOARD, MOST_LENGTHS, MOST_NEW_NUMBERS, MOST_OLD_NUMBERS, MOST_PLAN_BYTES, MOST_RECORDS,
    MOST_ROOM, MOST_SUMMARY_NUMBERS, ONLY_ON_A_BOARD, ON_A_BOARD,
};
use crate::shortest::MOST_SHORTEST;
use crate::stream::MOST_BYTES;
use crate::table::TableNumbers;
use crate::tasks::TaskNumbers;

/// Outages take no group, so larger frames are still few queries.
const MOST_FRAME_OF_OUTAGES: u64 = 12;
const MOST_FRAME: u64 = 7;
const MOST_PERIOD: u64 = 6;
const MOST_SHARED_FRAME: u64 = 6;
/// The frame of the windows that may break every rule.
pub const FRAME_OF_ANY_WINDOWS: u64 = 3;
/// Every plan file of up to so many of these bytes: with m first, one window and no task take six.
const MOST_ANY_BYTES: usize = 7;
const ANY_BYTES: [u8; 6] = [0, 1, 2, 3, 4, 0x80];

/// Streams of bad queries, then of every small outage, shared table, summary, edit, board with a
/// rule and q, plan and verdict.
pub fn streams() -> impl Iterator<Item = Vec<u8>> {
    let bad = bad_queries().into_iter().map(|numbers| encode(&numbers));
    bad.chain(streams_of_queries())
}

fn streams_of_queries() -> impl Iterator<Item = Vec<u8>> {
    let shared = any_windows().chain(shared()).chain(with_shortest());
    let plans = any_plans().chain(plans());
    let tables = outages().chain(shared).chain(enumerate_edits::queries());
    let tables = tables.chain(enumerate_switches::queries());
    let queries = tables.chain(plans).chain(verdicts());
    let mut encoded = queries.map(|query| encode(&query.numbers())).peekable();
    std::iter::from_fn(move || {
        encoded.peek()?;
        let mut stream = Vec::new();
        while let Some(query) = encoded.next_if(|next| stream.len() + next.len() <= MOST_BYTES) {
            stream.extend(query);
        }
        Some(stream)
    })
}

/// A bad query ends its stream, so each has one of its own: other counts of settings, what is bad
/// under 16 with one setting, with two and with four, and lists over their limits alone.
fn bad_queries() -> Vec<Vec<u64>> {
    let mut bad = Vec::new();
    for count in [0, 3, 5, 6] {
        let settings = vec![0; count as usize];
        bad.push([&[BOARD, count], &settings[..], &[4], &FULL].concat());
    }
    for settings in [
        &[BOARD, 1, 0][..],
        &[BOARD, 2, 0, 8],
        &[BOARD, 4, 0, 8, 2, 7],
    ] {
        bad.extend(bad_queries_under(settings));
    }
    for code in ON_A_BOARD {
        if ONLY_ON_A_BOARD.contains(&code) {
            // Alone, with what would be its table and summary under 16.
            bad.push([&[code], &FULL[..], &[5, 8, 0, 1, 0, 8, 0, 0, 0]].concat());
            continue;
        }
        let over = match code {
            17 => MOST_NEW_NUMBERS + 1,
            _ => MOST_OLD_NUMBERS + 1,
        };
        bad.push([&[code, 8, over], &vec![1; over as usize][..]].concat());
    }
    for plan in [10, 18, 19] {
        let over = MOST_PLAN_BYTES + 1;
        bad.push([&[plan, over], &vec![1; over as usize][..]].concat());
        bad.push(vec![plan, 3, 1, 256, 1]);
    }
    bad
}

/// A frame and its one window, of owner 0.
const FULL: [u64; 5] = [8, 3, 0, 8, 0];

/// A query that is cut short, codes up to 40 that 16 does not name, and lists over their limits.
fn bad_queries_under(settings: &[u64]) -> Vec<Vec<u64>> {
    let full = &FULL[..];
    let whole = [settings, &[4], full].concat();
    let mut bad: Vec<Vec<u64>> = (1..whole.len()).map(|end| whole[..end].to_vec()).collect();
    for code in (0..=40).filter(|code| !ON_A_BOARD.contains(code)) {
        bad.push([settings, &[code], full, &[0; 4]].concat());
    }
    for code in ON_A_BOARD {
        let over = MOST_NEW_NUMBERS + 1;
        let ones = vec![1; over as usize];
        let before_windows = match code {
            23 => &[8, 1][..],
            _ => &[8],
        };
        bad.push([settings, &[code], before_windows, &[over], &ones].concat());
        let tasks = match code {
            6..=9 | 17 => over,
            12..=15 => MOST_RECORDS + 1,
            _ => continue,
        };
        bad.push([settings, &[code], full, &[tasks], &ones].concat());
    }
    bad.extend(bad_summaries_under(settings));
    bad
}

/// Room, summaries, tasks, lengths and a kind over their limits; each edit, cut short.
fn bad_summaries_under(settings: &[u64]) -> Vec<Vec<u64>> {
    let full = &FULL[..];
    let memory = &[8, 1, 3, 0, 8, 0][..];
    let summary = &[5, 8, 0, 1, 0, 8][..];
    let over = |before: &[&[u64]], limit: u64| {
        let ones = vec![1; limit as usize + 9];
        [settings, &before.concat(), &[limit + 1], &ones].concat()
    };
    let mut bad = vec![
        over(&[&[20], full], MOST_ROOM),
        over(&[&[21], full], MOST_SUMMARY_NUMBERS),
        over(&[&[22], full], MOST_SUMMARY_NUMBERS),
        over(&[&[22], full, summary], MOST_NEW_NUMBERS),
        over(&[&[22], full, summary, &[0]], MOST_LENGTHS),
        over(&[&[22], full, summary, &[0, 1, 4]], MOST_ROOM),
        over(&[&[23], memory], MOST_SUMMARY_NUMBERS),
        over(&[&[23], memory, summary], 2),
    ];
    for kind in 0..3 {
        let edit = [settings, &[23], memory, summary, &[kind, 0, 0, 8, 0]].concat();
        bad.extend((settings.len() + 1..edit.len()).map(|end| edit[..end].to_vec()));
    }
    bad
}

/// The outage of every table with P up to 12.
fn outages() -> impl Iterator<Item = Query> {
    tables(MOST_FRAME_OF_OUTAGES).into_iter().map(Query::Outage)
}

/// The outage, for the owners 0 to 2, of every list of up to two windows with P = 3.
fn any_windows() -> impl Iterator<Item = Query> {
    let asked = |list: Vec<u64>| {
        let table = move |owner| TableNumbers::threes(FRAME_OF_ANY_WINDOWS, list.clone(), owner);
        (0..=OWNERS).map(move |owner| Query::Outage(table(owner)))
    };
    any_lists().into_iter().flat_map(asked)
}

/// Every list of up to two windows with starts and ends from 0 to P + 1, where P = 3, and with
/// owners from 0 to 2.
pub fn any_lists() -> Vec<Vec<u64>> {
    let edges = 0..=FRAME_OF_ANY_WINDOWS + 1;
    let mut windows = Vec::new();
    for start in edges.clone() {
        for end in edges.clone() {
            windows.extend((0..=OWNERS).map(|owner| vec![start, end, owner]));
        }
    }
    let mut lists = vec![Vec::new()];
    for first in &windows {
        lists.push(first.clone());
        lists.extend(windows.iter().map(|second| [&first[..], second].concat()));
    }
    lists
}

/// What both owners get of every table with P up to 6, cut into windows in every way.
fn shared() -> impl Iterator<Item = Query> {
    let asked = |(frame, windows): (u64, Vec<u64>)| {
        let entries = move |owner| entries(&TableNumbers::threes(frame, windows.clone(), owner));
        (0..OWNERS).flat_map(entries)
    };
    (1..=MOST_SHARED_FRAME)
        .flat_map(|frame| shared_lists(frame).into_iter().map(move |l| (frame, l)))
        .flat_map(asked)
}

/// The least supplies up to 2P, the outage, the delay, the critical partition and two groups'
/// verdicts.
pub fn entries(table: &TableNumbers) -> Vec<Query> {
    let lengths = 0..=2 * table.frame;
    let amount = |length| Query::LeastSupply(table.clone(), length);
    let verdict = |group: &[u64]| {
        let tasks = TaskNumbers::Triples(group.to_vec());
        Query::Verdict(table.clone(), tasks)
    };
    let mut queries: Vec<Query> = lengths.map(amount).collect();
    queries.push(Query::Outage(table.clone()));
    queries.push(Query::Delay(table.clone()));
    queries.push(Query::CriticalPartition(table.clone(), 4));
    queries.push(verdict(&[1, 4, 3]));
    queries.push(verdict(&[1, 3, 3, 1, 6, 5]));
    queries
}

/// The outage, and the margin of a group that is not in threes, for the owners 0 to 2, of every
/// table with P up to 6, cut into windows in every way, and of every list of up to two windows that
/// may break every rule: with m from 0 to P + 1 and at its limits.
fn with_shortest() -> impl Iterator<Item = Query> {
    let shared = (1..=MOST_SHARED_FRAME)
        .flat_map(|frame| shared_lists(frame).into_iter().map(move |l| (frame, l)));
    let any = any_lists().into_iter().map(|l| (FRAME_OF_ANY_WINDOWS, l));
    shared.chain(any).flat_map(|(frame, windows)| {
        let mut queries = Vec::new();
        for owner in 0..=OWNERS {
            for shortest in (0..=frame + 1).chain([MOST_SHORTEST, MOST_SHORTEST + 1]) {
                let table = TableNumbers {
                    shortest: Some(shortest),
                    ..TableNumbers::threes(frame, windows.clone(), owner)
                };
                queries.push(Query::Outage(table.clone()));
                let tasks = TaskNumbers::Triples(vec![1, 4]);
                queries.push(Query::Margin(table, tasks, 4));
            }
        }
        queries
    })
}

/// No task, a task that is met or missed, one that breaks its rule, too long a cycle, and too many
/// tasks.
pub fn groups_of_plans() -> [Vec<u64>; 5] {
    [
        vec![],
        vec![1, 4, 3],
        vec![1, 4, 5],
        vec![1, 999_983, 1],
        [1, 4, 4].repeat(33),
    ]
}

/// The verdicts of plan files with m from 0 to P + 1 before every table with P up to 7.
fn plans() -> impl Iterator<Item = Query> {
    let groups = groups_of_plans();
    tables(MOST_FRAME).into_iter().flat_map(move |table| {
        let mut queries = Vec::new();
        for shortest in 0..=table.frame + 1 {
            let table = TableNumbers {
                shortest: Some(shortest),
                ..table.clone()
            };
            let plans = groups.iter();
            queries.extend(plans.map(|tasks| generate::plan_file(&table, tasks)));
        }
        queries
    })
}

/// Every plan file of up to 7 bytes, each one of six, in both older forms.
fn any_plans() -> impl Iterator<Item = Query> {
    (0..=MOST_ANY_BYTES).flat_map(any_bytes).flat_map(|bytes| {
        [Form::Old, Form::WithShortest].map(|form| Query::Plan(form, bytes.clone()))
    })
}

/// Every file of so many bytes, each one of six.
pub fn any_bytes(count: usize) -> impl Iterator<Item = Vec<u8>> {
    let choices = ANY_BYTES.len();
    (0..choices.pow(count as u32)).map(move |file| {
        let byte = |index: usize| ANY_BYTES[file / choices.pow(index as u32) % choices];
        (0..count).map(byte).collect()
    })
}

/// Each tick is nobody's or begins a window of one owner, or it goes on with the window before.
/// The legal lists are those without a cut, where no window begins at the end of its owner's.
pub fn shared_lists(frame: u64) -> Vec<Vec<u64>> {
    let mut lists: Vec<Vec<u64>> = vec![Vec::new()];
    for tick in 0..frame {
        let mut longer = Vec::new();
        for list in lists {
            for owner in 0..OWNERS {
                longer.push([&list[..], &[tick, tick + 1, owner]].concat());
            }
            if let [.., start, end, owner] = list[..] {
                if end == tick {
                    let before = &list[..list.len() - 3];
                    longer.push([before, &[start, tick + 1, owner]].concat());
                }
            }
            longer.push(list);
        }
        lists = longer;
    }
    lists
}

/// The verdicts of every table with P up to 7 and every group of up to two tasks with T up to 6,
/// D up to T and C up to T + 1.
fn verdicts() -> impl Iterator<Item = Query> {
    let groups = groups();
    tables(MOST_FRAME).into_iter().flat_map(move |table| {
        let verdict =
            |group: &Vec<u64>| Query::Verdict(table.clone(), TaskNumbers::Triples(group.clone()));
        groups.iter().map(verdict).collect::<Vec<Query>>()
    })
}

/// Every ordered group of no, one and two tasks.
fn groups() -> Vec<Vec<u64>> {
    let mut tasks = Vec::new();
    for period in 1..=MOST_PERIOD {
        for deadline in 1..=period {
            for work in 1..=period + 1 {
                tasks.push(vec![work, period, deadline]);
            }
        }
    }
    let mut groups = vec![Vec::new()];
    for first in &tasks {
        groups.push(first.clone());
        for second in &tasks {
            groups.push([&first[..], second].concat());
        }
    }
    groups
}

/// Every table with a frame up to `most_frame`: every nonempty set of supplied ticks.
pub fn tables(most_frame: u64) -> Vec<TableNumbers> {
    let mut tables = Vec::new();
    for frame in 1..=most_frame {
        for set in 1..1u64 << frame {
            tables.push(table_of_ticks(frame, set));
        }
    }
    tables
}

/// The windows are the maximal runs of the ticks in the set.
fn table_of_ticks(frame: u64, set: u64) -> TableNumbers {
    let supplied = |tick: u64| set >> tick & 1 == 1;
    let mut windows = Vec::new();
    for tick in 0..frame {
        if supplied(tick) && (tick == 0 || !supplied(tick - 1)) {
            windows.push(tick);
        }
        if supplied(tick) && (tick + 1 == frame || !supplied(tick + 1)) {
            windows.push(tick + 1);
        }
    }
    TableNumbers::pairs(frame, windows)
}

#[cfg(test)]
mod tests {
    use super::*;
    use crate::stream;
    use std::collections::BTreeSet;

    #[test]
    fn as_many_as_there_are() {
        // Sets of 1 to 7 ticks: 2^8 - 2 with the 7 empty ones. Tasks: T(T+1) for each T up to 6.
        assert_eq!(tables(MOST_FRAME).len(), 254 - 7);
        assert_eq!(groups().len(), 1 + 112 + 112 * 112);
        assert!(tables(MOST_FRAME).iter().all(|table| table.check().is_ok()));
        // Sets of 1 to 12 ticks: 2^13 - 2 with the 12 empty ones.
        assert_eq!(outages().count(), 8_190 - 12);
        let is_outage = |query: Query| query.line().starts_with("OUTAGE ");
        assert!(outages().all(is_outage));
    }

    #[test]
    fn bad_queries_are_bad() {
        // 4 counts; three times 41 codes without the 17, 17 tables and 9 groups; after each number
        // but the last of 9, of 10 and of 12; 13 tables and 4 codes alone; 3 plans twice; 8 limits
        // of summaries and edits, and 17 ends of three edits, three times.
        let old = 4 + 3 * (24 + 17 + 9) + 8 + 9 + 11 + 13 + 4 + 6;
        assert_eq!(bad_queries().len(), old + 3 * (8 + 3 * 17));
        for numbers in bad_queries() {
            let stream = stream::read(&encode(&numbers));
            assert!(
                stream.queries.is_empty() && stream.bad.is_some(),
                "{numbers:?}"
            );
        }
    }

    /// With u lists that end in a silent tick and v that do not, one tick more makes u + v and
    /// 2u + 3v of them: 3, 11, 41, 153, 571 and 2,131 in all.
    #[test]
    fn as_many_shared_ones_as_there_are() {
        let counts = (1..=6).map(|frame| shared_lists(frame).len());
        assert!(counts.eq([3, 11, 41, 153, 571, 2_131]));
        let queries: u64 = (1..)
            .zip([3, 11, 41, 153, 571, 2_131])
            .map(|(frame, count)| 2 * count * (2 * frame + 6))
            .sum();
        assert_eq!(shared().count() as u64, queries);
        // 5 starts, 5 ends and 3 owners.
        assert_eq!(any_windows().count(), 3 * (1 + 75 + 75 * 75));
    }

    /// m is one of P + 4 numbers.
    #[test]
    fn as_many_with_m_as_there_are() {
        let shared: usize = (1..)
            .zip([3, 11, 41, 153, 571, 2_131])
            .map(|(frame, count)| count * (frame + 4))
            .sum();
        let any = (1 + 75 + 75 * 75) * 7;
        assert_eq!(with_shortest().count(), 3 * 2 * (shared + any));
        // Sets of P ticks and P + 2 numbers, with five groups.
        let tables: usize = (1..=7).map(|frame| ((1 << frame) - 1) * (frame + 2)).sum();
        assert_eq!(plans().count(), 5 * tables);
        // 6^0 to 6^7, in two forms, and no file twice.
        assert_eq!(any_plans().count(), 2 * (6usize.pow(8) - 1) / 5);
        let files: BTreeSet<Vec<u64>> = any_plans().map(|query| query.numbers()).collect();
        assert_eq!(files.len(), any_plans().count());
    }

    /// Where m is in its range and no window is shorter, it changes nothing. Where it is not, it
    /// changes only what is answered without it or refused later than a table is.
    #[test]
    fn m_refuses_or_changes_nothing() {
        for query in with_shortest() {
            let mut without = query.clone();
            let table = without.table_mut().unwrap();
            let shortest = table.shortest.take().unwrap();
            let ticks = |w: &[u64]| w[1].wrapping_sub(w[0]);
            let first = table.windows.chunks(3).position(|w| ticks(w) < shortest);
            let place = match shortest {
                1..=65_536 => first,
                _ => Some(64),
            };
            let refused_without_m = table.check().is_err();
            let line = match place {
                Some(place) if !refused_without_m => format!("REFUSED 12 at {place}"),
                _ => without.line(),
            };
            assert_eq!(query.line(), line, "{query:?}");
        }
    }

    /// Of every way to share a frame, each owner gets what its own ticks get alone; and the legal
    /// lists are as many as there are ways.
    #[test]
    fn each_owner_has_its_own_ticks() {
        for frame in 1..=MOST_SHARED_FRAME {
            let mut legal = 0;
            for list in shared_lists(frame) {
                let cut = list.chunks(3).zip(list.chunks(3).skip(1));
                let is_cut = |(one, next): (&[u64], &[u64])| one[1] == next[0] && one[2] == next[2];
                let first_cut = cut.map(is_cut).position(|is_cut| is_cut);
                if first_cut.is_none() && !list.is_empty() {
                    legal += 1;
                }
                for owner in 0..OWNERS {
                    let own = list.chunks(3).filter(|w| w[2] == owner);
                    let ticks = own.flat_map(|w| w[0]..w[1]);
                    let set = ticks.fold(0, |set, tick| set | 1 << tick);
                    let plain = entries(&table_of_ticks(frame, set));
                    let shared = entries(&TableNumbers::threes(frame, list.clone(), owner));
                    for (shared, plain) in shared.iter().zip(&plain) {
                        let line = shared.line();
                        match first_cut {
                            // Without a tick, the plain list is empty: 1 at 0 too.
                            None => assert_eq!(line, plain.line()),
                            Some(before) => {
                                let refused = format!("REFUSED 3 at {}", before + 1);
                                assert_eq!(line.split(" BUFFER").next(), Some(&refused[..]));
                            }
                        }
                    }
                }
            }
            assert_eq!(legal, 3u64.pow(frame as u32) - 1);
        }
    }
}
