//! Queries at the edges of document 02's request 4: any other query's table becomes one team's
//! windows in a table that two teams share, often with a broken rule.

use crate::generate;
use crate::numbers::GREATEST;
use crate::query::{Query, MOST_NEW_NUMBERS, MOST_RECORDS};
use crate::random::Random;
use crate::spoil;
use crate::table::{TableNumbers, MOST_FRAME, MOST_WINDOWS};
use crate::tasks::TaskNumbers;

/// As many windows as a query has room for, with some numbers left for faults.
const MOST_LENT_WINDOWS: u64 = MOST_NEW_NUMBERS / 3 - 3;

/// The query under code 16, unless it has no table. Mostly the team that is asked for has the
/// table's own windows, so that the group is still near the edge of meeting its deadlines.
pub fn share(r: &mut Random, faults: u64, mut query: Query) -> Query {
    if let Some(table) = query.table_mut() {
        let owner = r.below(2);
        table.windows = match table.check() {
            Ok(_) => beside_a_team(r, table, owner),
            Err(_) => any_owners(r, table),
        };
        if faults > 2 {
            if r.once_in(5) {
                spoil::shared_table(r, table);
            }
        } else if r.once_in(2) {
            spoil_often(r, table);
        }
        table.owner = Some(asked(r, faults, owner));
    }
    query
}

/// A legal table's windows as one team's, mostly beside another's, and mostly legal: for edges that
/// come later than those of this request.
pub fn mostly_legal(r: &mut Random, faults: u64, plain: &TableNumbers) -> TableNumbers {
    let owner = r.below(2);
    let mut table = plain.clone();
    table.windows = match r.once_in(8) {
        true => {
            let pairs = plain.windows.chunks(2);
            pairs.flat_map(|w| [w[0], w[1], owner]).collect()
        }
        false => beside_a_team(r, plain, owner),
    };
    if r.once_in(faults) {
        spoil::shared_table(r, &mut table);
    }
    table.owner = Some(match r.below(12) {
        _ if r.once_in(faults) => spoil::absent_owner(r),
        0 => 1 - owner,
        _ => owner,
    });
    table
}

/// Some faults of one table, so that their order counts.
fn spoil_often(r: &mut Random, table: &mut TableNumbers) {
    if r.once_in(2) {
        spoil::shared_table(r, table);
    }
    if r.once_in(4) {
        table.frame = r.one_of(&[0, MOST_FRAME + 1, GREATEST]);
    }
    if r.once_in(6) {
        spoil::not_in_threes(r, &mut table.windows);
    }
}

/// The team that has the table's own windows, the other one, or one that does not exist.
fn asked(r: &mut Random, faults: u64, owner: u64) -> u64 {
    if r.once_in(faults.min(20)) {
        spoil::absent_owner(r)
    } else if r.once_in(5) {
        1 - owner
    } else {
        owner
    }
}

/// The windows of a broken table, each some owner's: those that touched may be legal now.
fn any_owners(r: &mut Random, table: &TableNumbers) -> Vec<u64> {
    let mut threes = Vec::new();
    for window in table.windows.chunks(2) {
        threes.extend(window);
        if window.len() == 2 {
            threes.push(r.below(2));
        }
    }
    threes
}

/// A legal table's windows and, where it is silent, the other team's; now and then there is no
/// other team, or there are too many windows.
pub fn beside_a_team(r: &mut Random, table: &TableNumbers, owner: u64) -> Vec<u64> {
    let own = table.windows.chunks(2).map(|w| [w[0], w[1], owner]);
    let mut windows: Vec<[u64; 3]> = own.collect();
    if !r.once_in(10) {
        let others = other_windows(r, table);
        windows.extend(others.iter().map(|&[start, end]| [start, end, 1 - owner]));
    }
    windows.sort();
    let most = match r.below(6) {
        0 => MOST_WINDOWS as u64 + 1,
        1 => r.between(MOST_WINDOWS as u64 + 1, MOST_LENT_WINDOWS),
        _ => MOST_WINDOWS as u64,
    };
    while windows.len() as u64 > most {
        let any = r.index(windows.len());
        if windows[any][2] != owner {
            windows.remove(any);
        }
    }
    windows.concat()
}

/// Windows in the gaps of a legal table: in every one of them, or in some. In half of the tables
/// every window has the whole of its gap, else it often reaches one of the gap's ends.
fn other_windows(r: &mut Random, table: &TableNumbers) -> Vec<[u64; 2]> {
    let edges = [&[0], &table.windows[..], &[table.frame]].concat();
    let is_full = r.once_in(2);
    let is_in_every_gap = r.once_in(2);
    let are_many = r.once_in(3);
    let mut windows = Vec::new();
    for gap in edges.chunks(2) {
        let (start, length) = (gap[0], gap[1] - gap[0]);
        if length == 0 || !is_in_every_gap && r.once_in(2) {
            continue;
        }
        let most = length.div_ceil(2).min(MOST_LENT_WINDOWS);
        let inside = match r.below(4) {
            _ if is_full => vec![0, length],
            0..=2 if are_many => generate::any_windows(r, length, most),
            0 => {
                let count = r.between(1, most.min(3));
                generate::any_windows(r, length, count)
            }
            _ => generate::any_windows(r, length, 1),
        };
        windows.extend(inside.chunks(2).map(|w| [start + w[0], start + w[1]]));
    }
    windows
}

/// One of the queries whose lists or frames are as long as they may be, or nearly.
pub fn query_at_a_limit(r: &mut Random) -> Query {
    let owner = r.below(2);
    let shared = |frame, windows: Vec<u64>| TableNumbers::threes(frame, windows, owner);
    let full = shared(4, vec![0, 2, owner, 2, 4, 1 - owner]);
    let numbers = r.one_of(&[201, 390, MOST_NEW_NUMBERS - 1, MOST_NEW_NUMBERS]);
    match r.below(8) {
        0 => Query::Outage(shared(MOST_FRAME, (0..numbers).collect())),
        1 => {
            let count = MOST_WINDOWS as u64 + r.below(2);
            let windows = touching(r, count, count);
            Query::CriticalPartition(shared(count, windows), r.between(126, 130))
        }
        2 => {
            let windows = touching(r, MOST_FRAME, MOST_WINDOWS as u64);
            let length = 1_000_000 + r.below(2);
            Query::LeastSupply(shared(MOST_FRAME, windows), length)
        }
        3 => {
            let windows = touching(r, MOST_FRAME, MOST_WINDOWS as u64);
            Query::Outage(shared(MOST_FRAME + r.below(2), windows))
        }
        4 => Query::Verdict(full, TaskNumbers::Triples(vec![1; numbers as usize])),
        5 => Query::Bound(full, TaskNumbers::Triples(vec![1; 96]), r.between(31, 32)),
        6 => {
            let records = r.one_of(&[32, 33, MOST_RECORDS]) as usize;
            Query::Margin(full, TaskNumbers::Records(vec![[1, 1, 1]; records]), 4)
        }
        _ => {
            let tasks = TaskNumbers::Triples(vec![1; numbers as usize]);
            let trace = if r.once_in(2) { vec![] } else { vec![1] };
            Query::Replay(full, tasks, trace)
        }
    }
}

/// A frame without a silent tick: so many windows, of the teams in turn but for one now and then.
fn touching(r: &mut Random, frame: u64, count: u64) -> Vec<u64> {
    let mut windows = Vec::new();
    for index in 0..count {
        let (start, end) = (index * frame / count, (index + 1) * frame / count);
        windows.extend([start, end, index % 2]);
    }
    if r.once_in(4) {
        let any = r.index(count as usize);
        windows[3 * any + 2] = r.below(3);
    }
    windows
}

#[cfg(test)]
mod tests {
    use super::*;
    use crate::answer::{Reason, Refusal};
    use crate::numbers::encode;
    use crate::owners::OWNERS;
    use crate::query::ONLY_ON_A_BOARD;
    use crate::stream;
    use std::collections::BTreeMap;

    type Edges = Vec<(&'static str, bool)>;

    /// Which edges a query's shared table is at.
    fn edges(query: &Query) -> Vec<&'static str> {
        let table = query.table().unwrap();
        let asked = table.owner.unwrap();
        let threes: Vec<&[u64]> = table.windows.chunks_exact(3).collect();
        let own = threes.iter().filter(|w| w[2] == asked).count();
        let edges = match table.check() {
            Ok(_) => legal(query, table, &threes, asked),
            Err(refusal) if refusal.reason == Reason::Window => {
                bad_window(table, &threes, refusal, own)
            }
            Err(refusal) if refusal.reason == Reason::Frame => vec![
                ("2", true),
                ("2 before an absent owner", own == 0),
                ("2 before 3", threes.iter().any(|w| w[0] >= w[1])),
            ],
            Err(_) => bad_list(query, table, &threes, asked),
        };
        let asked = edges.into_iter().filter(|(_, is_asked)| *is_asked);
        asked.map(|(edge, _)| edge).collect()
    }

    fn legal(query: &Query, table: &TableNumbers, threes: &[&[u64]], asked: u64) -> Edges {
        let touch = |a: &[u64], b: &[u64]| a[1] == b[0];
        let touching = threes.windows(2).filter(|w| touch(w[0], w[1])).count();
        let is_between = |w: &[&[u64]]| touch(w[0], w[1]) && touch(w[1], w[2]) && w[0][2] == asked;
        let others = threes.iter().filter(|w| w[2] != asked).count();
        let mut other = query.clone();
        other.table_mut().unwrap().owner = Some(1 - asked);
        let line = query.line();
        let (first, last) = (threes[0], threes[threes.len() - 1]);
        let at_the_ends = first[0] == 0 && last[1] == table.frame;
        vec![
            ("owner 0", asked == 0),
            ("owner 1", asked == 1),
            ("the asked team alone", others == 0),
            ("the other team first", first[2] != asked),
            ("the other team last", last[2] != asked),
            ("no window touches", touching == 0 && others > 0),
            ("two windows touch", touching > 0),
            (
                "every window touches",
                touching > 2 && touching + 1 == threes.len(),
            ),
            (
                "the other's between two of the asked",
                threes.windows(3).any(is_between),
            ),
            (
                "over midnight, two of the asked",
                at_the_ends && first[2] == asked && last[2] == asked,
            ),
            ("over midnight, of both", at_the_ends && first[2] != last[2]),
            ("64 windows", threes.len() == MOST_WINDOWS),
            (
                "64 windows of both",
                threes.len() == MOST_WINDOWS && others > 0,
            ),
            (
                "64 windows, few of them asked",
                threes.len() == MOST_WINDOWS && others >= 60,
            ),
            ("the other team has another line", other.line() != line),
            (
                "all windows have another line",
                with_all_windows(query).line() != line,
            ),
            ("refused later", line.starts_with("REFUSED")),
        ]
    }

    /// Every tick that a team has, as if the asked one had it.
    fn with_all_windows(query: &Query) -> Query {
        let mut all = query.clone();
        let table = all.table_mut().unwrap();
        let mut pairs: Vec<u64> = Vec::new();
        for window in table.windows.chunks(3) {
            match pairs.last_mut() {
                Some(end) if *end == window[0] => *end = window[1],
                _ => pairs.extend(&window[..2]),
            }
        }
        *table = TableNumbers::pairs(table.frame, pairs);
        all
    }

    fn bad_window(table: &TableNumbers, threes: &[&[u64]], refusal: Refusal, own: usize) -> Edges {
        let place = refusal.place as usize;
        let [start, end, owner] = threes[place] else {
            panic!("{table:?}");
        };
        let is_in = start < end && *end <= table.frame;
        let is_good = is_in && *owner < OWNERS;
        let before = place.checked_sub(1).map(|before| threes[before]);
        let touches = before.is_some_and(|w| w[1] == *start);
        let by_one = before.is_some_and(|w| w[1] == *start + 1);
        let of_one_owner = before.is_some_and(|w| w[2] == *owner);
        let earlier = before.is_some_and(|w| w[1] > *start + 1);
        let own_before = threes[..place].iter().filter(|w| w[2] == *owner).count();
        vec![
            ("3 at 0", place == 0),
            ("3 within", place > 0 && place + 1 < threes.len()),
            ("3 at the last", place > 0 && place + 1 == threes.len()),
            ("3 at 63", place == MOST_WINDOWS - 1),
            (
                "3, another place in the owner's list",
                is_in && own_before != place,
            ),
            ("3 before an absent owner", own == 0),
            ("3, an owner that does not exist", is_in && *owner >= OWNERS),
            (
                "3, an owner that a byte hides",
                is_in && *owner >= 256 && owner % 256 < 2,
            ),
            ("3, the greatest owner", is_in && *owner == GREATEST),
            (
                "3, one owner's touch, asked",
                is_good && touches && table.owner == Some(*owner),
            ),
            (
                "3, one owner's touch, not asked",
                is_good && touches && table.owner != Some(*owner),
            ),
            (
                "3, one owner's overlap by a tick",
                is_good && by_one && of_one_owner,
            ),
            (
                "3, two owners' overlap by a tick",
                is_good && by_one && !of_one_owner,
            ),
            ("3, far too early", is_good && earlier),
            ("3, empty", start == end),
            (
                "3, empty beside another owner's",
                start == end && touches && !of_one_owner,
            ),
            ("3, ends before it starts", start > end),
            ("3, a tick over the frame", *end == table.frame + 1),
        ]
    }

    fn bad_list(query: &Query, table: &TableNumbers, threes: &[&[u64]], asked: u64) -> Edges {
        let count = threes.len();
        let own = threes.iter().filter(|w| w[2] == asked).count();
        let left_over = table.windows.len() % 3;
        let too_many = left_over == 0 && count > MOST_WINDOWS;
        let absent = left_over == 0 && (1..=MOST_WINDOWS).contains(&count);
        let is_bad = |tasks: &TaskNumbers| tasks.check().is_err();
        let bad_tasks = match query {
            Query::Margin(_, tasks, _) | Query::Verdict(_, tasks) => is_bad(tasks),
            Query::Run(run) => is_bad(&run.tasks),
            _ => false,
        };
        vec![
            ("1, one number over", left_over == 1),
            ("1, two numbers over", left_over == 2),
            ("1, no number", table.windows.is_empty()),
            (
                "1 before 2",
                !absent && !(1..=MOST_FRAME).contains(&table.frame),
            ),
            ("1, 65 windows", too_many && count == MOST_WINDOWS + 1),
            ("1, more", too_many && count > MOST_WINDOWS + 1),
            (
                "1, too many, few of them asked",
                too_many && (1..=4).contains(&own),
            ),
            (
                "1, absent, of both",
                absent && asked >= OWNERS && both(threes),
            ),
            ("1, absent, owner 0", absent && asked == 0),
            ("1, absent, owner 1", absent && asked == 1),
            (
                "1, absent, a byte hides it",
                absent && asked >= 256 && asked % 256 < 2,
            ),
            ("1, absent, the greatest", absent && asked == GREATEST),
            ("1, absent, before 4 and 5", absent && bad_tasks),
        ]
    }

    fn both(threes: &[&[u64]]) -> bool {
        threes.iter().any(|w| w[2] == 0) && threes.iter().any(|w| w[2] == 1)
    }

    /// For an owner, without m and without a summary.
    fn is_shared(query: &Query) -> bool {
        query.settings().len() == 1 && !ONLY_ON_A_BOARD.contains(&query.code())
    }

    fn shared_queries(seed: u64) -> impl Iterator<Item = Query> {
        let mut random = Random::new(seed);
        let queries = std::iter::repeat_with(move || generate::query(&mut random));
        queries.filter(is_shared)
    }

    /// Every edge is asked, once in 2,000 queries under code 16 with one setting or more often.
    #[test]
    fn every_edge_is_asked() {
        let mut asked = BTreeMap::new();
        for query in shared_queries(12).take(20_000) {
            for edge in edges(&query) {
                *asked.entry(edge).or_insert(0) += 1;
            }
        }
        let often: Vec<_> = asked.iter().filter(|(_, &times)| times >= 10).collect();
        assert_eq!(often.len(), 51, "{asked:#?}");
    }

    #[test]
    fn a_ninth_of_the_queries_is_shared_without_m() {
        let mut random = Random::new(13);
        let queries = (0..6_000).map(|_| generate::query(&mut random));
        let shared = queries.filter(is_shared).count();
        assert!((580..750).contains(&shared), "{shared}");
    }

    #[test]
    fn limits_are_kept() {
        let mut random = Random::new(14);
        for _ in 0..400 {
            let query = query_at_a_limit(&mut random);
            let stream = stream::read(&encode(&query.numbers()));
            assert_eq!((stream.bad, stream.queries), (None, vec![query]));
        }
    }

    /// "Each team's verdict, bounds and runs depend on the frame, its own windows and its own
    /// tasks, and on nothing else once the whole list is legal."
    #[test]
    fn the_other_team_does_not_count() {
        let mut random = Random::new(15);
        let is_legal = |query: &Query| query.table().is_some_and(|table| table.check().is_ok());
        for query in shared_queries(16).filter(is_legal).take(4_000) {
            let table = query.table().unwrap();
            let asked = table.owner.unwrap();
            let own = table.windows.chunks(3).filter(|w| w[2] == asked);
            let pairs: Vec<u64> = own.flat_map(|w| [w[0], w[1]]).collect();
            let plain = TableNumbers::pairs(table.frame, pairs);
            let mut other = query.clone();
            *other.table_mut().unwrap() = plain.clone();
            assert_eq!(other.line(), query.line(), "{query:?}");
            let windows = beside_a_team(&mut random, &plain, asked);
            if windows.len() > 3 * MOST_WINDOWS {
                continue;
            }
            *other.table_mut().unwrap() = TableNumbers {
                windows,
                ..table.clone()
            };
            assert_eq!(other.line(), query.line(), "{query:?} {other:?}");
        }
    }

    /// "A table with one owner must answer as it does today", refused or not.
    #[test]
    fn pairs_are_one_owner_s() {
        let mut random = Random::new(17);
        for _ in 0..10_000 {
            let query = generate::query(&mut random);
            let mut shared = query.clone();
            let Some(table) = shared.table_mut().filter(|table| table.owner.is_none()) else {
                continue;
            };
            let owner = random.below(2);
            let window = |w: &[u64]| [w, &vec![owner; w.len() / 2]].concat();
            table.windows = table.windows.chunks(2).flat_map(window).collect();
            table.owner = Some(owner);
            assert_eq!(shared.line(), query.line(), "{query:?}");
        }
    }
}
