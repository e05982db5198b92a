//! Queries at the edges of document 02's request 5: any other query's table gets a shortest allowed
//! window m, and so does a plan file; m is at an edge of the windows' lengths or of its own range.

use crate::generate;
use crate::numbers::GREATEST;
use crate::plan::Form;
use crate::query::{Query, MOST_NEW_NUMBERS, MOST_PLAN_BYTES};
use crate::random::Random;
use crate::shortest::MOST_SHORTEST;
use crate::spoil;
use crate::table::{TableNumbers, MOST_FRAME};
use crate::tasks::{TaskNumbers, MOST_TASKS};
use crate::teams;

/// The query under code 16 with two settings, or a plan file with m first.
pub fn with_shortest(r: &mut Random, faults: u64, query: Query) -> Query {
    if query.table().is_none() || r.once_in(6) {
        return plan_query(r, faults);
    }
    let mut query = teams::share(r, faults, query);
    set_shortest(r, &mut query);
    query
}

/// Gives the query's table, if it has one, a shortest allowed window.
pub fn set_shortest(r: &mut Random, query: &mut Query) {
    if let Some(table) = query.table_mut() {
        table.shortest = Some(shortest(r, table));
        if r.once_in(12) {
            make_the_last_a_sliver(table);
        }
    }
}

/// No window but the last, in threes, is shorter than m, and that by a tick.
fn make_the_last_a_sliver(table: &mut TableNumbers) {
    let lengths = lengths(table);
    let Some((last, others)) = lengths.split_last() else {
        return;
    };
    let shortest = others.iter().copied().min().unwrap_or(1);
    if shortest > 1 && *last >= shortest {
        let window = 3 * others.len();
        table.windows[window + 1] = table.windows[window] + shortest - 1;
        table.shortest = Some(shortest);
    }
}

/// m at an edge of the windows' lengths: in about half of the tables no window is shorter.
pub fn shortest(r: &mut Random, table: &TableNumbers) -> u64 {
    let lengths = lengths(table);
    let least = lengths.iter().copied().min().unwrap_or(1);
    let longest = lengths.iter().copied().max().unwrap_or(1);
    let any = lengths.get(r.index(lengths.len())).copied().unwrap_or(1);
    let shortest = match r.below(20) {
        0..=7 => least,
        8..=10 => least + 1,
        11 => least.saturating_sub(1),
        12..=14 => (any + r.below(3)).saturating_sub(1),
        15 => longest + r.below(2),
        16 => r.between(1, least),
        17 => r.between(1, MOST_SHORTEST),
        _ => at_a_limit(r, least),
    };
    shortest.min(GREATEST)
}

/// m for edges that come later: mostly no window is shorter.
pub fn mostly_allowed(r: &mut Random, faults: u64, table: &TableNumbers) -> u64 {
    let least = least_length(table).max(1);
    match r.below(3) {
        _ if r.once_in(faults.min(6)) => shortest(r, table),
        0 => r.between(1, least),
        _ => least,
    }
}

/// m at or over a limit; over it, often one that 16 bits or a byte hide.
fn at_a_limit(r: &mut Random, least: u64) -> u64 {
    match r.below(8) {
        0 => 1,
        1 => MOST_SHORTEST - r.below(2),
        2 => MOST_SHORTEST + 1,
        3 => GREATEST,
        4 => MOST_SHORTEST + least,
        5 => MOST_SHORTEST * r.between(2, MOST_SHORTEST - 1),
        _ => 0,
    }
}

/// How many ticks the shortest window of the whole list has.
fn least_length(table: &TableNumbers) -> u64 {
    lengths(table).into_iter().min().unwrap_or(1)
}

/// How many ticks each window of the whole list has, 0 where it ends before it starts.
fn lengths(table: &TableNumbers) -> Vec<u64> {
    let windows = table.windows.chunks_exact(table.numbers_a_window());
    windows.map(|w| w[1].saturating_sub(w[0])).collect()
}

/// A plan file with m first, half of them damaged; a few are asked in the other form.
fn plan_query(r: &mut Random, faults: u64) -> Query {
    let table = generate::legal_table(r);
    let group = match r.once_in(12) {
        true => spoil::group_near_the_greatest_cycle(r, table.frame),
        false => generate::legal_group(r, &table),
    };
    let mut table = generate::lent_table(r, faults, table);
    table.shortest = Some(shortest(r, &table));
    let mut query = generate::lent_plan(r, faults, table, &group);
    if let (Query::Plan(form, _), true) = (&mut query, r.once_in(20)) {
        *form = Form::Old;
    }
    query
}

/// One of the queries with as many windows, ticks, tasks, numbers or bytes as there may be, or
/// nearly.
pub fn query_at_a_limit(r: &mut Random) -> Query {
    let ones = |r: &mut Random| r.one_of(&[1, 32, 33, MOST_TASKS as u64 + 8]) as usize;
    match r.below(8) {
        0 => {
            let table = many_windows(r);
            Query::Outage(of_two_teams(r, &table))
        }
        1 => {
            let mut table = many_windows(r);
            table.frame = r.one_of(&[table.frame, MOST_FRAME, MOST_FRAME + 1]);
            let length = 1_000_000 + r.below(2);
            Query::LeastSupply(of_two_teams(r, &table), length)
        }
        2 => {
            let table = longest_windows(r);
            Query::Outage(of_two_teams(r, &table))
        }
        3 => {
            let table = many_windows(r);
            let records = TaskNumbers::Records(vec![[1, 1, 1]; ones(r)]);
            Query::Margin(of_two_teams(r, &table), records, r.below(9))
        }
        4 => {
            let numbers = r.one_of(&[201, 390, MOST_NEW_NUMBERS - 1, MOST_NEW_NUMBERS]);
            let table = TableNumbers::threes(MOST_FRAME, (0..numbers).collect(), 0);
            let mut query = Query::Outage(table);
            set_shortest(r, &mut query);
            query
        }
        5 => {
            let tasks = [1_000_000, 1_000_000, 1].repeat(ones(r));
            generate::plan_file(&many_windows(r), &tasks)
        }
        // Missed at once: no program has to try every start at every length.
        6 => generate::plan_file(&longest_windows(r), &[2, MOST_FRAME, 1]),
        _ => {
            let byte = r.one_of(&[0, 1, 2, 0x7f, 0x80]) as u8;
            Query::Plan(Form::WithShortest, vec![byte; MOST_PLAN_BYTES as usize])
        }
    }
}

/// As many windows as there may be, or one more or fewer, in pairs: none is shorter than m but, in
/// most of the tables, one by a tick, often the last.
fn many_windows(r: &mut Random) -> TableNumbers {
    let shortest = r.one_of(&[2, 3, 100, 1_000]);
    let count = r.one_of(&[63, 64, 64, 64, 65]);
    let sliver = match r.below(4) {
        0 => None,
        1 => Some(r.below(count)),
        _ => Some(count - 1),
    };
    let mut windows = Vec::new();
    let mut end = 0;
    for index in 0..count {
        let ticks = match sliver {
            Some(sliver) if sliver == index => shortest - 1,
            _ => shortest + r.below(3),
        };
        let start = end + r.between(1, 3);
        end = start + ticks;
        windows.extend([start, end]);
    }
    TableNumbers {
        shortest: Some(shortest),
        ..TableNumbers::pairs(end, windows)
    }
}

/// The longest frame and in it the longest window, or one that is a tick shorter.
fn longest_windows(r: &mut Random) -> TableNumbers {
    let (start, end) = (r.below(2), MOST_FRAME - r.below(2));
    let shortest = r.between(end - start - 1, end - start + 1);
    TableNumbers {
        shortest: Some(shortest),
        ..TableNumbers::pairs(MOST_FRAME, vec![start, end])
    }
}

/// The windows in threes, each of some owner, asked for one of them.
fn of_two_teams(r: &mut Random, pairs: &TableNumbers) -> TableNumbers {
    let mut windows = Vec::new();
    for window in pairs.windows.chunks(2) {
        windows.extend([window[0], window[1], r.below(2)]);
    }
    let owner = windows[3 * r.index(windows.len() / 3) + 2];
    TableNumbers {
        shortest: pairs.shortest,
        ..TableNumbers::threes(pairs.frame, windows, owner)
    }
}

#[cfg(test)]
mod tests {
    use super::*;
    use crate::answer::{Answer, Reason, Refusal};
    use crate::large;
    use crate::numbers::{encode, Cursor};
    use crate::plan;
    use crate::query::ONLY_ON_A_BOARD;
    use crate::stream;
    use std::collections::BTreeMap;

    type Edges = Vec<(&'static str, bool)>;

    /// Those about summaries have edges of their own.
    fn is_with_shortest(query: &Query) -> bool {
        let is_about_summaries = ONLY_ON_A_BOARD.contains(&query.code());
        query.settings().len() == 2 && !is_about_summaries || query.code() == 18
    }

    /// Which edges a query with m is at.
    fn edges(query: &Query) -> Vec<&'static str> {
        let edges = match query {
            Query::Plan(form, bytes) => match plan::read(*form, bytes) {
                Ok((table, tasks)) => {
                    let of_table = Query::Verdict(table, tasks);
                    let mut edges = of_a_table(&of_table);
                    edges.extend(of_a_plan(&of_table.line(), bytes));
                    edges
                }
                Err(refusal) => unread_plan(refusal, bytes),
            },
            _ => of_a_table(query),
        };
        let asked = edges.into_iter().filter(|(_, is_asked)| *is_asked);
        asked.map(|(edge, _)| edge).collect()
    }

    fn of_a_table(query: &Query) -> Edges {
        let table = query.table().unwrap();
        let mut without = query.clone();
        without.table_mut().unwrap().shortest = None;
        match (without.table().unwrap().check(), table.check()) {
            (Err(refusal), _) => illegal(table, refusal),
            (Ok(_), Ok(_)) => in_order(query, table),
            (Ok(_), Err(refusal)) => {
                let mut edges = sliver(table, refusal);
                edges.extend(before_another(query, &without.line()));
                edges
            }
        }
    }

    fn shortest_of(table: &TableNumbers) -> u64 {
        table.shortest.unwrap()
    }

    fn is_in_range(shortest: u64) -> bool {
        (1..=MOST_SHORTEST).contains(&shortest)
    }

    /// What is refused before m is looked at.
    fn illegal(table: &TableNumbers, refusal: Refusal) -> Edges {
        let shortest = shortest_of(table);
        let out = !is_in_range(shortest);
        let slivers: Vec<u64> = (0..)
            .zip(lengths(table))
            .filter(|(_, ticks)| *ticks < shortest && !out)
            .map(|(index, _)| index)
            .collect();
        let has_sliver = !slivers.is_empty();
        let reason = refusal.reason as u8;
        let count = table.windows.len() / 3;
        let is_list = !table.windows.len().is_multiple_of(3) || count == 0 || count > 64;
        let (one, absent) = (reason == 1 && is_list, reason == 1 && !is_list);
        vec![
            ("1 before a sliver", one && has_sliver),
            ("1 before m's range", one && out),
            ("2 before a sliver", reason == 2 && has_sliver),
            ("2 before m's range", reason == 2 && out),
            (
                "3 before an earlier sliver",
                reason == 3 && slivers.iter().any(|&index| index < refusal.place),
            ),
            (
                "3 before a later sliver",
                reason == 3 && slivers.iter().any(|&index| index > refusal.place),
            ),
            ("3 before m's range", reason == 3 && out),
            ("absent owner before a sliver", absent && has_sliver),
            ("absent owner before m's range", absent && out),
            ("absent owner, no sliver", absent && !out && !has_sliver),
        ]
    }

    /// What m does not refuse.
    fn in_order(query: &Query, table: &TableNumbers) -> Edges {
        let shortest = shortest_of(table);
        let least = lengths(table).into_iter().min().unwrap();
        let own = table.windows.chunks(table.numbers_a_window());
        let of_asked = own.filter(|w| w.get(2).copied() == table.owner);
        let own_least = of_asked.map(|w| w[1] - w[0]).min().unwrap();
        let line = query.line();
        let later = |reason: &str| line.starts_with(&format!("REFUSED {reason} "));
        vec![
            ("m is 1, so is a window", shortest == 1 && least == 1),
            ("m is 1, no window is", shortest == 1 && least > 1),
            ("m equals the shortest", shortest == least && least > 1),
            ("m is one less", shortest + 1 == least),
            ("m is half", 2 * shortest <= least),
            (
                "m equals the other team's only",
                shortest == least && own_least > least,
            ),
            (
                "m equals the asked team's only",
                shortest == own_least && own_least > 1,
            ),
            ("m is over 255", shortest > 255),
            ("m is over 10,000", shortest > 10_000),
            ("m is 65,536", shortest == MOST_SHORTEST),
            (
                "64 windows in order",
                lengths(table).len() == 64 && shortest > 1,
            ),
            ("4 after m", later("4")),
            ("5 after m", later("5")),
            ("6 after m", later("6")),
            ("7 after m", later("7")),
            ("8 after m", later("8")),
            ("9 before m", later("9")),
            ("10 after m", later("10")),
            ("11 after m", later("11")),
            ("answered with m", !line.starts_with("REFUSED")),
        ]
    }

    /// What m refuses.
    fn sliver(table: &TableNumbers, refusal: Refusal) -> Edges {
        assert_eq!(refusal.reason, Reason::Sliver);
        let shortest = shortest_of(table);
        let lengths = lengths(table);
        let least = lengths.iter().copied().min().unwrap();
        if refusal.place == 64 {
            return vec![
                ("m is 0", shortest == 0),
                ("m is 65,537", shortest == MOST_SHORTEST + 1),
                ("m is the greatest", shortest == GREATEST),
                ("m is over 65,537", shortest > MOST_SHORTEST + 1),
                (
                    "m in range in 16 bits",
                    (1..=least).contains(&(shortest % MOST_SHORTEST)),
                ),
                ("m is 0 in 16 bits", shortest.is_multiple_of(MOST_SHORTEST)),
                ("m out of range, a team's", table.owner == Some(1)),
                ("m out of range, 64 windows", lengths.len() == 64),
            ];
        }
        let place = refusal.place as usize;
        let slivers: Vec<usize> = (0..lengths.len())
            .filter(|&index| lengths[index] < shortest)
            .collect();
        let own = |index: usize| table.owner == table.windows.get(3 * index + 2).copied();
        let is_shared = table.owner.is_some();
        let own_slivers = slivers.iter().filter(|&&index| own(index)).count();
        let own_before = (0..place).filter(|&index| own(index)).count();
        let of_both = own_slivers > 0 && own_slivers < slivers.len();
        vec![
            ("12 at 0", place == 0),
            ("12 within", place > 0 && place + 1 < lengths.len()),
            ("12 at the last", place > 0 && place + 1 == lengths.len()),
            ("12 at 63", place == 63),
            ("12 by one tick", shortest == lengths[place] + 1),
            (
                "12 by one tick, not of one",
                shortest == lengths[place] + 1 && shortest > 2,
            ),
            ("12, m is 65,536", shortest == MOST_SHORTEST),
            ("12, m is over the frame", shortest > table.frame),
            ("12, one sliver", slivers.len() == 1 && lengths.len() > 1),
            (
                "12, several slivers",
                slivers.len() > 1 && slivers.len() < lengths.len(),
            ),
            ("12, all slivers", slivers.len() == lengths.len()),
            ("12, the shortest is later", lengths[place] > least),
            ("12, a longer one is before", place > 0),
            (
                "12, only the asked team's",
                is_shared && own_slivers == slivers.len() && lengths.len() > own_slivers,
            ),
            (
                "12, only the other team's",
                is_shared && own_slivers == 0 && !slivers.is_empty(),
            ),
            (
                "12, of both, the asked team's first",
                is_shared && of_both && own(place),
            ),
            (
                "12, of both, the other team's first",
                is_shared && of_both && !own(place),
            ),
            (
                "12, another place in the asked team's",
                is_shared && own(place) && own_before != place,
            ),
        ]
    }

    /// What would be refused otherwise if m were not set; nothing is written.
    fn before_another(query: &Query, without: &str) -> Edges {
        let line = query.line();
        let buffer = |line: &str| line.split_once(" BUFFER").map(|(_, rest)| rest.to_string());
        let lent = buffer(&line).unwrap_or_default();
        assert!(lent.split_whitespace().all(|number| number == "7"));
        let otherwise = |reason: &str| without.starts_with(&format!("REFUSED {reason} "));
        vec![
            ("12 before 4", otherwise("4")),
            ("12 before 5", otherwise("5")),
            ("12 before 6", otherwise("6")),
            ("12 before 7", otherwise("7")),
            ("12 before 8", otherwise("8")),
            ("9 before 12", otherwise("9") && line == without),
            ("12 before 10", otherwise("10")),
            ("12 before 11", otherwise("11")),
            (
                "12 before a buffer is written",
                buffer(without) != buffer(&line),
            ),
        ]
    }

    /// Of a plan file that is read whole.
    fn of_a_plan(line: &str, bytes: &[u8]) -> Edges {
        let mut cursor = Cursor::new(bytes);
        let shortest = cursor.number().unwrap();
        vec![
            ("plan, met", line.starts_with("MEETS")),
            ("plan, missed", line.starts_with("MISS")),
            (
                "plan, met, m > 1",
                line.starts_with("MEETS") && shortest > 1,
            ),
            ("plan, 12", line.starts_with("REFUSED 12")),
            ("plan, 12 at 0", line == "REFUSED 12 at 0"),
            ("plan, 12 at 63", line == "REFUSED 12 at 63"),
            ("plan, 12 at 64", line == "REFUSED 12 at 64"),
            ("plan, 2", line.starts_with("REFUSED 2")),
            ("plan, 3", line.starts_with("REFUSED 3")),
            ("plan, 5", line.starts_with("REFUSED 5")),
            ("plan, 6", line.starts_with("REFUSED 6")),
            ("plan, m in two bytes", cursor.offset() == 2),
            ("plan, m in three bytes", cursor.offset() == 3),
            ("plan, m in five bytes", cursor.offset() == 5),
        ]
    }

    /// Of a plan file that is refused as it is read.
    fn unread_plan(refusal: Refusal, bytes: &[u8]) -> Edges {
        let mut cursor = Cursor::new(bytes);
        let shortest = cursor.number();
        let is_out = shortest.is_ok_and(|m| !is_in_range(m));
        let bytes_of_m = cursor.offset();
        let later = shortest.is_ok();
        let place = refusal.place as usize;
        let nine = refusal.reason == Reason::PlanBytes;
        let at_the_end = nine && place == bytes.len();
        // Five groups of seven bits hold more than 32 bits.
        let is_too_large = bytes.len() > 4 && bytes[..4].iter().all(|b| *b >= 0x80) && !later;
        vec![
            ("plan, no byte", bytes.is_empty()),
            ("plan, m damaged", shortest.is_err() && !bytes.is_empty()),
            ("plan, m too large", is_too_large),
            ("plan, P damaged", nine && later && place == bytes_of_m),
            ("plan, 9 later", nine && place > bytes_of_m + 1),
            ("plan, cut", at_the_end && later),
            ("plan, 9 before m's range", nine && is_out),
            ("plan, early 1", refusal.reason == Reason::WindowList),
            ("plan, early 4", refusal.reason == Reason::TaskList),
            (
                "plan, early 1 before m's range",
                refusal.reason == Reason::WindowList && is_out,
            ),
            (
                "plan, early 4 before m's range",
                refusal.reason == Reason::TaskList && is_out,
            ),
        ]
    }

    fn count(queries: impl Iterator<Item = Query>) -> BTreeMap<&'static str, u64> {
        let mut asked = BTreeMap::new();
        for query in queries {
            for edge in edges(&query) {
                *asked.entry(edge).or_insert(0) += 1;
            }
        }
        asked
    }

    fn queries(seed: u64) -> impl Iterator<Item = Query> {
        let mut random = Random::new(seed);
        let queries = std::iter::repeat_with(move || generate::query(&mut random));
        queries.filter(is_with_shortest)
    }

    /// Every edge is asked, once in 5,000 queries with m or more often.
    #[test]
    fn every_edge_is_asked() {
        let asked = count(queries(19).take(20_000));
        let often: Vec<_> = asked.iter().filter(|(_, &times)| times >= 4).collect();
        assert_eq!(often.len(), 90, "{asked:#?}");
    }

    #[test]
    fn a_ninth_of_the_queries_has_m_alone() {
        let mut random = Random::new(20);
        let all: Vec<Query> = (0..7_500).map(|_| generate::query(&mut random)).collect();
        let with_shortest = all.iter().filter(|query| is_with_shortest(query)).count();
        assert!((750..950).contains(&with_shortest), "{with_shortest}");
        let plans = all.iter().filter(|query| query.code() == 18).count();
        assert!((150..280).contains(&plans), "{plans}");
    }

    #[test]
    fn large_frames_are_asked_with_m() {
        let mut random = Random::new(21);
        let all = (0..1_500).flat_map(|_| large::queries(&mut random, 200_000));
        let asked = count(all.filter(is_with_shortest));
        for edge in [
            "m equals the shortest",
            "m is one less",
            "m is over 255",
            "m is over 10,000",
            "m is 65,536",
            "64 windows in order",
            "12 at 63",
            "12 by one tick, not of one",
            "12, only the other team's",
            "m in range in 16 bits",
            "plan, met, m > 1",
            "plan, missed",
            "plan, 12 at 0",
        ] {
            assert!(asked.contains_key(edge), "{edge} is not in {asked:#?}");
        }
    }

    #[test]
    fn limits_are_kept() {
        let mut random = Random::new(22);
        for _ in 0..400 {
            let query = query_at_a_limit(&mut random);
            let stream = stream::read(&encode(&query.numbers()));
            assert_eq!((stream.bad, stream.queries), (None, vec![query]));
        }
    }

    /// What is not refused by 12 is answered, or refused, as without m; and in a plan file the
    /// offsets of 9 are those of the old form after m's own bytes.
    #[test]
    fn m_refuses_or_changes_nothing() {
        for query in queries(23).take(5_000) {
            let line = query.line();
            if let Query::Plan(_, bytes) = &query {
                let mut cursor = Cursor::new(bytes);
                if cursor.number().is_err() {
                    assert_eq!(line, "REFUSED 9 at 0");
                    continue;
                }
                let first = cursor.offset();
                let old = plan::plan(Form::Old, &bytes[first..]);
                let moved = old.map_err(|mut refusal| {
                    if refusal.reason == Reason::PlanBytes {
                        refusal.place += first as u64;
                    }
                    refusal
                });
                let is_refused = line.starts_with("REFUSED 12 ");
                assert!(is_refused || line == Answer::from(moved).to_string());
            } else if !line.starts_with("REFUSED 12 ") {
                let mut without = query.clone();
                without.table_mut().unwrap().shortest = None;
                assert_eq!(without.line(), line, "{query:?}");
            }
        }
    }
}
