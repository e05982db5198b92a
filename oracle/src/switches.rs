//! Queries at the edges of document 02's request 7: any other query's table gets a rule and q, and
//! so does a plan file. Mostly its windows start q ticks earlier then, so that the ticks that
//! remain are those it had, and a group is still near the edge of meeting its deadlines.

use crate::generate;
use crate::lost::{Switch, MOST_LOST, PAYS, WHOLE};
use crate::numbers::GREATEST;
use crate::plan::Form;
use crate::query::{Query, MOST_NEW_NUMBERS, MOST_PLAN_BYTES};
use crate::random::Random;
use crate::slivers;
use crate::spoil;
use crate::table::{TableNumbers, MOST_FRAME, MOST_WINDOWS};
use crate::tasks::TaskNumbers;
use crate::teams;

/// A query under code 16 with four settings, or a plan file with m, the rule and q first.
pub fn query(r: &mut Random, faults: u64) -> Query {
    if r.once_in(6) {
        return plan_query(r, faults);
    }
    loop {
        let mut plain = generate::any_query(r, faults);
        // What is released or recorded at one tick stays with the ticks around it.
        let has_run = matches!(plain, Query::Run(_) | Query::Replay(..));
        let Some(table) = plain.table_mut() else {
            continue;
        };
        if !has_run {
            turn(r, table);
        }
        if most_earlier(table) > 0 || r.once_in(8) {
            return on_a_board(r, faults, plain);
        }
    }
}

/// The query under code 16 with four settings, unless it has no table.
pub fn on_a_board(r: &mut Random, faults: u64, mut query: Query) -> Query {
    if let Some(table) = query.table_mut() {
        start_earlier(r, table);
        if table.check().is_ok() {
            *table = teams::mostly_legal(r, faults, table);
        } else {
            query = teams::share(r, faults, query);
        }
    }
    if let Some(table) = query.table_mut() {
        settle(r, faults, table);
    }
    query
}

/// One of the tables that are made, mostly one whose windows may start earlier.
pub fn table_with_room(r: &mut Random, make: impl Fn(&mut Random) -> TableNumbers) -> TableNumbers {
    loop {
        let mut table = make(r);
        turn(r, &mut table);
        if most_earlier(&table) > 0 || r.once_in(8) {
            return table;
        }
    }
}

/// Moves the windows of a legal table in pairs so that the first one does not start at tick 0,
/// unless the frame has no room: there it could not start earlier.
fn turn(r: &mut Random, table: &mut TableNumbers) {
    if table.check().is_err() || table.windows[0] > 0 {
        return;
    }
    let silent_at_the_end = table.frame - table.windows[table.windows.len() - 1];
    let later = r.between(1, silent_at_the_end).min(silent_at_the_end);
    for edge in &mut table.windows {
        *edge += later;
    }
}

/// In most of the legal tables in pairs that have room for it, every window starts q ticks earlier
/// and loses them: what remains are the ticks that the table had. In half of these there are
/// windows beside them that give nothing.
pub fn start_earlier(r: &mut Random, table: &mut TableNumbers) {
    let most = most_earlier(table).min(MOST_LOST);
    if most == 0 || r.once_in(12) {
        return;
    }
    let lost = match r.below(5) {
        0 => r.below(2),
        1 => r.between(1, most),
        2 => r.between(1, 4).min(most),
        _ => most,
    };
    for window in table.windows.chunks_mut(2) {
        window[0] -= lost;
    }
    let rule = PAYS;
    table.switch = Some(Switch { rule, lost });
    if lost > 0 && r.once_in(2) {
        add_windows_that_give_nothing(r, table, lost);
    }
}

/// How many ticks earlier every window of a table in pairs may start without touching the one
/// before; 0 where the table is refused.
fn most_earlier(table: &TableNumbers) -> u64 {
    if table.check().is_err() {
        return 0;
    }
    let mut most = MOST_FRAME;
    let mut first_free = 0;
    for window in table.windows.chunks(2) {
        most = most.min(window[0] - first_free);
        first_free = window[1] + 1;
    }
    most
}

/// Up to three windows no longer than q, often of just q ticks, where they touch no other.
fn add_windows_that_give_nothing(r: &mut Random, table: &mut TableNumbers, lost: u64) {
    for _ in 0..r.between(1, 3) {
        let gaps = gaps(table);
        if gaps.is_empty() || table.windows.len() >= 2 * MOST_WINDOWS {
            return;
        }
        let (place, low, high) = gaps[r.index(gaps.len())];
        let most = lost.min(high - low);
        let ticks = match r.below(3) {
            0 => r.between(1, most),
            _ => most,
        };
        let start = r.between(low, high - ticks);
        table
            .windows
            .splice(2 * place..2 * place, [start, start + ticks]);
    }
}

/// Where a window more may stand: its index, the first tick and the last end.
fn gaps(table: &TableNumbers) -> Vec<(usize, u64, u64)> {
    let windows: Vec<&[u64]> = table.windows.chunks(2).collect();
    let gap = |place: usize| {
        let before = place.checked_sub(1).map(|before| windows[before]);
        let low = before.map_or(0, |window| window[1] + 1);
        let after = windows.get(place);
        let high = after.map_or(table.frame, |window| window[0].saturating_sub(1));
        (place, low, high)
    };
    let gaps = (0..=windows.len()).map(gap);
    gaps.filter(|(_, low, high)| low < high).collect()
}

/// A rule and q for a table that has none yet, and m; now and then the rule or q is no board's.
pub fn settle(r: &mut Random, faults: u64, table: &mut TableNumbers) {
    let switch = match table.switch {
        Some(switch) if !r.once_in(6) => switch,
        _ => Switch {
            rule: PAYS,
            lost: lost_at_an_edge(r, table),
        },
    };
    table.switch = Some(match r.below(16) {
        _ if r.once_in(faults.min(8)) => no_board_s(r, switch),
        0 => Switch {
            rule: WHOLE,
            lost: 0,
        },
        _ => switch,
    });
    table.shortest = Some(slivers::mostly_allowed(r, faults, table));
}

/// q at an edge of the windows' lengths, the asked owner's or the other's; in more than half of the
/// tables a tick is left.
fn lost_at_an_edge(r: &mut Random, table: &TableNumbers) -> u64 {
    let (own, others) = lengths(table);
    let shortest = |lengths: &[u64]| lengths.iter().copied().min().unwrap_or(1);
    let longest = |lengths: &[u64]| lengths.iter().copied().max().unwrap_or(1);
    let edge = match r.below(12) {
        0 | 1 => shortest(&own),
        2..=4 => longest(&own),
        5 => shortest(&others),
        6 => longest(&others),
        7 | 8 => own.get(r.index(own.len())).copied().unwrap_or(1),
        9 => r.below(longest(&own)),
        10 => r.between(1, 2),
        _ => r.one_of(&[0, 1, MOST_LOST, MOST_LOST]),
    };
    let beside = match r.below(4) {
        0 => edge,
        1 => edge + 1,
        _ => edge.saturating_sub(1),
    };
    beside.min(MOST_LOST)
}

/// How many ticks the asked owner's windows have, and the other's; in pairs all are the asked
/// owner's.
fn lengths(table: &TableNumbers) -> (Vec<u64>, Vec<u64>) {
    let is_own = |window: &&[u64]| table.owner.is_none() || window.get(2).copied() == table.owner;
    let windows = table.windows.chunks_exact(table.numbers_a_window());
    let (own, others): (Vec<&[u64]>, Vec<&[u64]>) = windows.partition(is_own);
    let ticks = |windows: Vec<&[u64]>| {
        let windows = windows.iter();
        windows.map(|w| w[1].saturating_sub(w[0])).collect()
    };
    (ticks(own), ticks(others))
}

/// A rule that is neither 1 nor 2, rule 1 with q above 0, or q at or over its limit: often what a
/// byte or 16 bits hide.
fn no_board_s(r: &mut Random, switch: Switch) -> Switch {
    let Switch { rule, lost } = switch;
    let hidden = r.one_of(&[1 << 8, 1 << 16, 1 << 31]);
    let (rule, lost) = match r.below(16) {
        0 => (0, lost),
        1 => (3, lost),
        2 => (r.one_of(&[0, 3, GREATEST]), 0),
        3 | 4 => (rule + hidden, lost),
        5 => (WHOLE + hidden, 0),
        6..=8 => (WHOLE, lost.max(1)),
        9 => (WHOLE, r.one_of(&[MOST_LOST, MOST_LOST + 1, GREATEST])),
        10 => (PAYS, MOST_LOST),
        11 => (PAYS, MOST_LOST + 1),
        12 | 13 => (PAYS, lost + r.one_of(&[1 << 16, 1 << 31])),
        14 => (PAYS, GREATEST),
        _ => (r.one_of(&[0, 3, GREATEST]), MOST_LOST + 1 + r.below(2)),
    };
    Switch { rule, lost }
}

/// A plan file with m, the rule and q first, half of them damaged; a few are asked in another form.
fn plan_query(r: &mut Random, faults: u64) -> Query {
    let mut table = table_with_room(r, generate::legal_table);
    let group = match r.once_in(12) {
        true => spoil::group_near_the_greatest_cycle(r, table.frame),
        false => generate::legal_group(r, &table),
    };
    start_earlier(r, &mut table);
    let mut table = generate::lent_table(r, faults, table);
    settle(r, faults, &mut table);
    let mut query = generate::lent_plan(r, faults, table, &group);
    if let (Query::Plan(form, _), true) = (&mut query, r.once_in(20)) {
        *form = match r.below(2) {
            0 => Form::Old,
            _ => Form::WithShortest,
        };
    }
    query
}

/// One of the queries with as many windows, ticks, lost ticks, numbers or bytes as there may be, or
/// nearly.
pub fn query_at_a_limit(r: &mut Random) -> Query {
    match r.below(9) {
        0 | 1 => {
            let table = longest_window(r);
            Query::Outage(of_some_owner(r, &table))
        }
        2 => {
            let table = longest_window(r);
            let length = r.one_of(&[MOST_FRAME - 1, MOST_FRAME, 999_999, 1_000_000, 1_000_001]);
            Query::LeastSupply(of_some_owner(r, &table), length)
        }
        // Missed at once: no program has to try every start at every length.
        3 => generate::plan_file(&longest_window(r), &[2, MOST_FRAME, 1]),
        4 => {
            let table = many_windows(r);
            Query::Outage(of_some_owner(r, &table))
        }
        5 => {
            let table = many_windows(r);
            let tasks = TaskNumbers::Records(vec![[1, 1, 1]; r.one_of(&[1, 32, 33]) as usize]);
            Query::Margin(of_some_owner(r, &table), tasks, r.below(9))
        }
        6 => {
            let tasks = [1_000_000, 1_000_000, 1].repeat(r.one_of(&[1, 32, 33]) as usize);
            generate::plan_file(&many_windows(r), &tasks)
        }
        7 => {
            let numbers = MOST_NEW_NUMBERS - r.below(3);
            let mut table = TableNumbers::threes(MOST_FRAME, (0..numbers).collect(), 0);
            settle(r, 2, &mut table);
            Query::Outage(table)
        }
        _ => {
            let byte = r.one_of(&[0, 1, 2, 0x7f, 0x80]) as u8;
            Query::Plan(Form::WithSwitch, vec![byte; MOST_PLAN_BYTES as usize])
        }
    }
}

/// The longest frame and in it the longest window, or one that is a tick shorter, of which a tick
/// or two remain, or none.
fn longest_window(r: &mut Random) -> TableNumbers {
    let (start, end) = (r.below(2), MOST_FRAME - r.below(2));
    let lost = end - start - r.below(3);
    TableNumbers {
        shortest: Some(r.one_of(&[1, end - start, end - start + 1])),
        switch: Some(Switch { rule: PAYS, lost }),
        ..TableNumbers::pairs(MOST_FRAME, vec![start, end])
    }
}

/// As many windows as there may be, or one more or fewer, in pairs, of so many ticks each that
/// nothing remains but, in most of the tables, of one of them: often of the last.
fn many_windows(r: &mut Random) -> TableNumbers {
    let lost = r.one_of(&[1, 2, 100, 1_000]);
    let count = r.one_of(&[63, 64, 64, 64, 65]);
    let longer = match r.below(4) {
        0 => None,
        1 => Some(r.below(count)),
        _ => Some(count - 1),
    };
    let mut windows = Vec::new();
    let mut end = 0;
    for index in 0..count {
        let ticks = match longer {
            Some(longer) if longer == index => lost + 1,
            _ => (lost - r.below(2)).max(1),
        };
        let start = end + r.between(1, 3);
        end = start + ticks;
        windows.extend([start, end]);
    }
    TableNumbers {
        shortest: Some(r.one_of(&[1, 1, (lost - 1).max(1), lost])),
        switch: Some(Switch { rule: PAYS, lost }),
        ..TableNumbers::pairs(end, windows)
    }
}

/// The windows in threes, all of one owner or of both in turn, asked for the owner of the last one.
fn of_some_owner(r: &mut Random, pairs: &TableNumbers) -> TableNumbers {
    let turns = r.below(2);
    let last = r.below(2);
    let windows = pairs.windows.chunks(2).rev().zip(0..);
    let threes: Vec<[u64; 3]> = windows
        .map(|(w, index)| [w[0], w[1], (last + turns * index) % 2])
        .collect();
    TableNumbers {
        windows: threes.into_iter().rev().flatten().collect(),
        owner: Some(last),
        ..pairs.clone()
    }
}

#[cfg(test)]
mod tests {
    use super::*;
    use crate::answer::{Answer, Reason, Refusal};
    use crate::edit::Kind;
    use crate::large;
    use crate::numbers::{encode, Cursor};
    use crate::plan;
    use crate::query::{EditNumbers, ON_A_BOARD};
    use crate::stream;
    use crate::verdict::verdict;
    use std::collections::BTreeMap;

    type Edges = Vec<(&'static str, bool)>;

    fn has_switch(query: &Query) -> bool {
        query.settings().len() == 4 || query.code() == 19
    }

    fn queries(seed: u64) -> impl Iterator<Item = Query> {
        let mut random = Random::new(seed);
        let queries = std::iter::repeat_with(move || generate::query(&mut random));
        queries.filter(has_switch)
    }

    /// Which edges a query with a rule and q is at.
    fn edges(query: &Query) -> Vec<&'static str> {
        let edges = match query {
            Query::Plan(form, bytes) => match plan::read(*form, bytes) {
                Ok((table, tasks)) => {
                    let mut edges = of_a_table(&Query::Verdict(table.clone(), tasks.clone()));
                    edges.extend(of_a_plan(&table, &tasks));
                    edges
                }
                Err(refusal) => unread_plan(refusal, bytes),
            },
            Query::Edit(edit) => of_an_edit(edit),
            _ => of_a_table(query),
        };
        let asked = edges.into_iter().filter(|(_, is_asked)| *is_asked);
        asked.map(|(edge, _)| edge).collect()
    }

    /// The query on a board that sets no rule and no q.
    fn without_switch(query: &Query) -> Query {
        let mut without = query.clone();
        without.table_mut().unwrap().switch = None;
        without
    }

    fn switch_of(table: &TableNumbers) -> Switch {
        table.switch.unwrap()
    }

    /// The rule and q are no board's, whatever the windows are.
    fn is_no_board_s(table: &TableNumbers) -> bool {
        let Switch { rule, lost } = switch_of(table);
        !(rule == WHOLE && lost == 0 || rule == PAYS && lost <= MOST_LOST)
    }

    fn of_a_table(query: &Query) -> Edges {
        let table = query.table().unwrap();
        let without = without_switch(query);
        match (without.table().unwrap().check(), table.check()) {
            (Err(refusal), _) => illegal(table, refusal),
            (Ok(_), Ok(_)) => in_order(query, &without.line()),
            (Ok(_), Err(refusal)) => {
                assert_eq!((refusal.reason, refusal.place), (Reason::Switch, 0));
                let mut edges = nothing_left(table);
                edges.extend(before_another(query, &without.line()));
                edges
            }
        }
    }

    /// What is refused before the rule and q are looked at.
    fn illegal(table: &TableNumbers, refusal: Refusal) -> Edges {
        let bad = is_no_board_s(table);
        let (own, _) = lengths(table);
        let none_left = !bad && own.iter().all(|ticks| *ticks <= switch_of(table).lost);
        let count = table.windows.len() / 3;
        let is_list = !table.windows.len().is_multiple_of(3) || count == 0 || count > 64;
        let reason = refusal.reason as u8;
        vec![
            ("1 before a bad rule or q", reason == 1 && is_list && bad),
            ("absent owner before it", reason == 1 && !is_list && bad),
            ("2 before it", reason == 2 && bad),
            ("3 before it", reason == 3 && bad),
            ("3 before no tick left", reason == 3 && none_left),
            ("12 at 64 before it", refusal.place == 64 && bad),
            ("12 before it", reason == 12 && refusal.place < 64 && bad),
            ("12 before no tick left", reason == 12 && none_left),
            (
                "12 at 64 before no tick left",
                refusal.place == 64 && none_left,
            ),
        ]
    }

    /// What 13 refuses.
    fn nothing_left(table: &TableNumbers) -> Edges {
        let Switch { rule, lost } = switch_of(table);
        let (own, others) = lengths(table);
        let longest = own.iter().copied().max().unwrap();
        let is_left = |ticks: &u64| *ticks > lost;
        let bad = is_no_board_s(table);
        let pays = rule == PAYS;
        vec![
            ("rule 0", rule == 0),
            ("rule 0, q is 0", rule == 0 && lost == 0),
            ("rule 3", rule == 3),
            ("the greatest rule", rule == GREATEST),
            (
                "rule that a byte hides",
                rule > 255 && (1..=2).contains(&(rule % 256)),
            ),
            (
                "rule that 16 bits hide",
                rule > MOST_LOST && (1..=2).contains(&(rule % 65_536)),
            ),
            ("rule 1, q is 1", rule == WHOLE && lost == 1),
            (
                "rule 1, a tick would be left",
                rule == WHOLE && longest > lost,
            ),
            (
                "rule 1, q over its range",
                rule == WHOLE && lost > MOST_LOST,
            ),
            ("rule 3, q over its range", rule == 3 && lost > MOST_LOST),
            ("q is 65,536", pays && lost == MOST_LOST + 1),
            (
                "q that 16 bits hide",
                pays && bad && lost % 65_536 < longest,
            ),
            ("the greatest q", pays && lost == GREATEST),
            ("q is 65,535, none left", pays && lost == MOST_LOST),
            ("q is the longest", pays && lost == longest),
            ("q is one more", pays && lost == longest + 1),
            (
                "q is the longest, several",
                pays && lost == longest && own.len() > 1,
            ),
            ("q is 13", pays && lost == 13),
            (
                "the other team has a tick left",
                pays && !bad && others.iter().any(is_left),
            ),
            (
                "nobody has a tick left",
                pays && !bad && !others.is_empty() && !others.iter().any(is_left),
            ),
            ("13 of owner 1", table.owner == Some(1)),
            (
                "13 of 64 windows",
                own.len() + others.len() == MOST_WINDOWS && !bad,
            ),
        ]
    }

    /// What would be refused otherwise if the rule and q were not set; nothing is written.
    fn before_another(query: &Query, without: &str) -> Edges {
        let line = query.line();
        let buffer = |line: &str| line.split_once(" BUFFER").map(|(_, rest)| rest.to_string());
        let lent = buffer(&line).unwrap_or_default();
        assert!(lent.split_whitespace().all(|number| number == "7"));
        let otherwise = |reason: &str| without.starts_with(&format!("REFUSED {reason} "));
        vec![
            ("13 before 4", otherwise("4")),
            ("13 before 5", otherwise("5")),
            ("13 before 6", otherwise("6")),
            ("13 before 7", otherwise("7")),
            ("13 before 8", otherwise("8")),
            ("9 before 13", otherwise("9") && line == without),
            ("13 before 10", otherwise("10")),
            ("13 before 11", otherwise("11")),
            ("13 before 14", otherwise("14")),
            (
                "13 before a buffer is written",
                buffer(without) != buffer(&line),
            ),
        ]
    }

    /// What the rule and q do not refuse.
    fn in_order(query: &Query, without: &str) -> Edges {
        let table = query.table().unwrap();
        let Switch { rule, lost } = switch_of(table);
        let (own, others) = lengths(table);
        let shortest = own.iter().copied().min().unwrap();
        let longest = own.iter().copied().max().unwrap();
        let given = own.iter().map(|ticks| ticks.saturating_sub(lost));
        let line = query.line();
        let is = |front: &str| lost > 0 && line.starts_with(front);
        // What is lost is not supplied.
        assert!(!is("MEETS") || without.starts_with("MEETS"), "{query:?}");
        let last = table.windows.len() - table.numbers_a_window();
        let at_the_ends = table.windows[0] == 0 && table.windows[last + 1] == table.frame;
        let is_own = |index: usize| table.windows.get(index).copied() == table.owner;
        let others_over = |lost: u64| others.iter().any(|ticks| *ticks > lost);
        vec![
            ("rule 1", rule == WHOLE),
            ("rule 2, q is 0", rule == PAYS && lost == 0),
            ("q is 1", lost == 1),
            ("q is over 255", lost > 255),
            ("q is over 10,000", lost > 10_000),
            ("q is 65,535, a tick is left", lost == MOST_LOST),
            ("q is the shortest", lost == shortest),
            ("q is one more than the shortest", lost == shortest + 1),
            ("q is one less than the shortest", lost + 1 == shortest),
            ("q is one less than the longest", lost + 1 == longest),
            (
                "one tick is left of several windows",
                given.sum::<u64>() == 1 && own.len() > 1,
            ),
            ("a window gives nothing", shortest <= lost),
            (
                "each gives one tick",
                shortest == lost + 1 && longest == shortest && own.len() > 1 && lost > 0,
            ),
            ("q is 12 of 13", lost == 12 && longest == 13),
            (
                "the other team has no tick left",
                !others.is_empty() && lost > 0 && !others_over(lost),
            ),
            ("the other team has one left", lost > 0 && others_over(lost)),
            (
                "the other's windows are longer",
                lost > 0 && others_over(longest),
            ),
            (
                "over midnight, two of the asked",
                lost > 0 && at_the_ends && is_own(2) && is_own(last + 2) && own.len() > 1,
            ),
            (
                "64 windows of which some ticks are lost",
                lost > 0 && own.len() + others.len() == MOST_WINDOWS,
            ),
            ("another line without a loss", lost > 0 && line != without),
            ("for owner 1", lost > 0 && table.owner == Some(1)),
            ("with m over 1", lost > 0 && table.shortest > Some(1)),
            (
                "m equals a length that loses all",
                table.shortest == Some(shortest) && shortest <= lost,
            ),
            ("4 after 13", is("REFUSED 4")),
            ("5 after 13", is("REFUSED 5")),
            ("6 after 13", is("REFUSED 6")),
            ("7 after 13", is("REFUSED 7")),
            ("8 after 13", is("REFUSED 8")),
            ("10 after 13", is("REFUSED 10")),
            ("11 after 13", is("REFUSED 11")),
            ("14 after 13", is("REFUSED 14")),
            (
                "14, what belongs without a loss",
                is("REFUSED 14") && !without.starts_with("REFUSED"),
            ),
            ("amount", is("AMOUNT") && line != "AMOUNT 0"),
            ("partition", is("WINDOWS")),
            ("delay", is("DELAY")),
            ("outage", is("OUTAGE")),
            ("margin", is("MARGIN ")),
            ("margin of 0", is("MARGIN 0")),
            ("margin of -1", is("MARGIN -1")),
            ("meets", is("MEETS")),
            ("miss, and not without a loss", {
                is("MISS ") && without.starts_with("MEETS")
            }),
            ("bound", is("BOUND")),
            ("no bound, but without a loss", {
                is("NO BOUND") && without.starts_with("BOUND")
            }),
            ("run met", is("MET")),
            ("run missed", is("MISSED") && query.code() != 17),
            ("same", is("SAME") && !matches!(without, "SAME")),
            ("differs", is("DIFFERS")),
            ("summary", is("SUMMARY")),
            ("margins", is("MARGINS")),
        ]
    }

    fn of_a_plan(table: &TableNumbers, tasks: &TaskNumbers) -> Edges {
        let lost = switch_of(table).lost;
        let line = Answer::from(verdict(table, tasks)).to_string();
        let is = |front: &str| line.starts_with(front);
        vec![
            ("plan, met with a loss", is("MEETS") && lost > 0),
            ("plan, missed with a loss", is("MISS") && lost > 0),
            ("plan, rule 1", is("ME") && switch_of(table).rule == WHOLE),
            ("plan, 13", is("REFUSED 13")),
            ("plan, 12", is("REFUSED 12")),
            ("plan, 3", is("REFUSED 3")),
            ("plan, 5", is("REFUSED 5")),
            ("plan, 6", is("REFUSED 6")),
            ("plan, q in two bytes", (128..16_384).contains(&lost)),
            (
                "plan, q in three bytes",
                (16_384..=MOST_LOST).contains(&lost),
            ),
            ("plan, q in five bytes", lost > 1 << 28),
        ]
    }

    /// Of a plan file that is refused as it is read.
    fn unread_plan(refusal: Refusal, bytes: &[u8]) -> Edges {
        let mut cursor = Cursor::new(bytes);
        // The settings before the first one that is damaged or missing, and where each begins.
        let mut settings = Vec::new();
        let mut offsets = vec![0];
        while let (true, Ok(number)) = (settings.len() < 3, cursor.number()) {
            settings.push(number);
            offsets.push(cursor.offset());
        }
        let nine = refusal.reason == Reason::PlanBytes;
        let at_the_end = refusal.place == bytes.len() as u64;
        let damaged = |index: usize| {
            let here = offsets.get(index).map(|offset| *offset as u64);
            nine && !at_the_end && here == Some(refusal.place)
        };
        let missing = |index: usize| nine && at_the_end && settings.len() == index;
        let bad = settings.len() == 3
            && is_no_board_s(&TableNumbers {
                switch: Switch::after_m(&settings[1..]),
                ..TableNumbers::pairs(1, Vec::new())
            });
        vec![
            ("plan, m damaged", damaged(0)),
            ("plan, rule damaged", damaged(1)),
            ("plan, q damaged", damaged(2)),
            ("plan, P damaged", damaged(3)),
            ("plan, rule missing", missing(1)),
            ("plan, q missing", missing(2)),
            ("plan, P or more missing", missing(3)),
            (
                "plan, 9 later",
                nine && settings.len() == 3 && refusal.place > offsets[3] as u64,
            ),
            ("plan, 9 before 13", nine && bad),
            ("plan, early 1", refusal.reason == Reason::WindowList),
            (
                "plan, early 1 before 13",
                refusal.reason == Reason::WindowList && bad,
            ),
            (
                "plan, early 4 before 13",
                refusal.reason == Reason::TaskList && bad,
            ),
        ]
    }

    fn of_an_edit(numbers: &EditNumbers) -> Edges {
        let Some(old) = numbers.old() else {
            return vec![("edit, 1 before 13", is_no_board_s(&numbers.memory))];
        };
        let line = Query::Edit(numbers.clone()).line();
        let is = |front: &str| line.starts_with(front);
        let edit = &numbers.edit;
        let new = edit.apply(&old).ok();
        let check = new.as_ref().map(|new| new.check().map(|_| ()));
        let is_mended = check == Some(Ok(()));
        let lost = switch_of(&old).lost;
        if let Err(refusal) = old.check() {
            let switch = refusal.reason == Reason::Switch;
            let bad = is_no_board_s(&old);
            return vec![
                ("edit, old 13", switch),
                ("edit, old 13, mended", switch && is_mended),
                ("edit, old 13 before 7", switch && new.is_none()),
                (
                    "edit, old 12 before 13",
                    refusal.reason == Reason::Sliver && bad,
                ),
            ];
        }
        let new_is = |reason| matches!(check, Some(Err(refusal)) if refusal.reason == reason);
        let summary_belongs = !is("REFUSED 14");
        if new_is(Reason::Switch) {
            return vec![
                ("edit, 14 before the new 13", !summary_belongs),
                ("edit, new 13", is("REFUSED 13")),
                (
                    "edit, new 13 of a move",
                    is("REFUSED 13") && edit.kind == Kind::Move,
                ),
                (
                    "edit, new 13 of a removal",
                    is("REFUSED 13") && edit.kind == Kind::Remove,
                ),
            ];
        }
        let none_left = |table: &TableNumbers| {
            let (own, _) = lengths(table);
            lost > 0 && own.iter().all(|ticks| *ticks <= lost)
        };
        let Some(new) = new else {
            return Vec::new();
        };
        let touched = match edit.kind {
            Kind::Add => new.windows.get(3 * edit.index as usize..),
            Kind::Move | Kind::Remove => old.windows.get(3 * edit.index as usize..),
        };
        let own = touched.and_then(|window| window.get(2)) == old.owner.as_ref();
        let edited = is("EDITED") && lost > 0;
        let gives_nothing = edit.end.saturating_sub(edit.start) <= lost;
        vec![
            (
                "edit, new 12 before 13",
                is("REFUSED 12") && none_left(&new),
            ),
            ("edit, new 3 before 13", is("REFUSED 3") && none_left(&new)),
            ("edit, 8 after 13", is("REFUSED 8") && lost > 0),
            ("edited, own", edited && own),
            ("edited, the other's", edited && !own),
            (
                "edited, the other's gives nothing",
                edited && !own && gives_nothing && edit.kind != Kind::Remove,
            ),
            (
                "edited, own gives nothing",
                edited && own && gives_nothing && edit.kind != Kind::Remove,
            ),
            (
                "edited, own gives one tick",
                edited && own && edit.end == edit.start + lost + 1 && edit.kind != Kind::Remove,
            ),
            (
                "edited, own removed",
                edited && own && edit.kind == Kind::Remove,
            ),
            (
                "edited, rule 1",
                is("EDITED") && switch_of(&old).rule == WHOLE,
            ),
        ]
    }

    fn count(queries: impl Iterator<Item = Query>) -> BTreeMap<&'static str, u64> {
        let mut asked = BTreeMap::new();
        for query in queries {
            for edge in edges(&query) {
                *asked.entry(edge).or_insert(0) += 1;
            }
        }
        asked
    }

    /// Every edge is asked, once in 12,500 queries with a rule and q or more often.
    #[test]
    fn every_edge_is_asked() {
        let asked = count(queries(41).take(25_000));
        let often: Vec<_> = asked.iter().filter(|(_, &times)| times >= 2).collect();
        assert_eq!(often.len(), 132, "{asked:#?}");
    }

    #[test]
    fn a_third_of_the_queries_has_a_rule_and_q() {
        let mut random = Random::new(42);
        let all: Vec<Query> = (0..6_000).map(|_| generate::query(&mut random)).collect();
        let with_switch = all.iter().filter(|query| has_switch(query)).count();
        assert!((1_700..2_200).contains(&with_switch), "{with_switch}");
        for code in ON_A_BOARD {
            let is_asked = |query: &&Query| query.settings().len() == 4 && query.code() == code;
            assert!(all.iter().filter(is_asked).count() > 15, "{code}");
        }
        let plans = all.iter().filter(|query| query.code() == 19).count();
        assert!((200..400).contains(&plans), "{plans}");
    }

    #[test]
    fn large_frames_are_asked_with_a_rule_and_q() {
        let mut random = Random::new(43);
        let all = (0..1_500).flat_map(|_| large::queries(&mut random, 200_000));
        let asked = count(all.filter(has_switch));
        for edge in [
            "q is over 255",
            "q is over 10,000",
            "q is 65,535, none left",
            "q is the longest",
            "q is one less than the longest",
            "q is one less than the shortest",
            "a window gives nothing",
            "64 windows of which some ticks are lost",
            "the other team has a tick left",
            "amount",
            "partition",
            "delay",
            "margin of 0",
            "meets",
            "miss, and not without a loss",
            "bound",
            "run met",
            "run missed",
            "same",
            "summary",
            "margins",
            "edited, own",
            "plan, met with a loss",
            "plan, missed with a loss",
            "plan, q in two bytes",
            "plan, q in three bytes",
        ] {
            assert!(asked.contains_key(edge), "{edge} is not in {asked:#?}");
        }
    }

    #[test]
    fn limits_are_kept() {
        let mut random = Random::new(44);
        for _ in 0..400 {
            let query = query_at_a_limit(&mut random);
            let stream = stream::read(&encode(&query.numbers()));
            assert_eq!((stream.bad, stream.queries), (None, vec![query]));
        }
    }

    /// The asked owner's windows without what they lose, and without those that give nothing.
    fn remaining(table: &TableNumbers) -> Vec<[u64; 2]> {
        let lost = switch_of(table).lost;
        let windows = table.windows.chunks(table.numbers_a_window());
        let own = windows.filter(|w| w.get(2).copied() == table.owner);
        let left = own.map(|w| [w[0] + lost, w[1]]);
        left.filter(|[start, end]| start < end).collect()
    }

    /// "Supply, least supply, delay, outage, demands 2 and 3 and the tick machine all read the
    /// remaining ticks": where 13 does not refuse, a query is answered as it is by a board with
    /// whole windows that has just the remaining ones.
    #[test]
    fn whole_windows_of_what_remains() {
        let is_table_s = |query: &Query| query.code() != 19 && query.code() != 23;
        let mut answered = 0;
        for query in queries(45).filter(is_table_s).take(8_000) {
            let table = query.table().unwrap();
            if table.check().is_err() {
                continue;
            }
            let owner = table.owner.unwrap();
            let threes = remaining(table)
                .into_iter()
                .flat_map(|[s, e]| [s, e, owner]);
            let whole = TableNumbers::threes(table.frame, threes.collect(), owner);
            let mut other = query.clone();
            *other.table_mut().unwrap() = whole;
            assert_eq!(other.line(), query.line(), "{query:?}");
            answered += 1;
        }
        assert!(answered > 4_000, "{answered}");
    }

    /// So is a plan file, and an edit leaves the summary of the remaining windows.
    #[test]
    fn plans_and_edits_of_what_remains() {
        for query in queries(46).take(20_000) {
            match &query {
                Query::Plan(form, bytes) => {
                    let Ok((table, tasks)) = plan::read(*form, bytes) else {
                        continue;
                    };
                    if table.check().is_ok() {
                        let whole = TableNumbers::pairs(table.frame, remaining(&table).concat());
                        let answer = Answer::from(verdict(&whole, &tasks));
                        assert_eq!(query.line(), answer.to_string(), "{query:?}");
                    }
                }
                Query::Edit(numbers) => {
                    let line = query.line();
                    let Some(rest) = line.strip_prefix("EDITED count ") else {
                        continue;
                    };
                    let new = numbers.edit.apply(&numbers.old().unwrap()).unwrap();
                    let owner = new.owner.unwrap();
                    let threes = remaining(&new).into_iter().flat_map(|[s, e]| [s, e, owner]);
                    let whole = TableNumbers::threes(new.frame, threes.collect(), owner);
                    let kept = rest.split(' ').nth(2).unwrap().parse().unwrap();
                    let made = Query::MakeSummary(whole, kept).line();
                    let (_, made) = made.split_once(" BUFFER").unwrap();
                    let (_, memory) = rest.rsplit_once(" BUFFER").unwrap();
                    assert!(memory.starts_with(made), "{query:?}");
                }
                _ => {}
            }
        }
    }

    /// "Show the facts once over q, rule 1 being q = 0": under rule 1 every query is answered as
    /// with m alone, and so it is under rule 2 with q = 0.
    #[test]
    fn nothing_lost_changes_nothing() {
        let mut random = Random::new(47);
        let with_m = |query: &Query| query.settings().len() == 2;
        let all = std::iter::repeat_with(|| generate::query(&mut random));
        for query in all.filter(with_m).take(4_000) {
            for rule in [WHOLE, PAYS] {
                let mut with_switch = query.clone();
                let switch = Switch { rule, lost: 0 };
                with_switch.table_mut().unwrap().switch = Some(switch);
                assert_eq!(with_switch.line(), query.line(), "{query:?}");
            }
        }
    }

    /// Windows that start q ticks earlier keep the ticks that they had.
    #[test]
    fn starting_earlier_keeps_the_ticks() {
        let mut random = Random::new(48);
        let mut earlier = 0;
        for _ in 0..2_000 {
            let mut table = table_with_room(&mut random, generate::legal_table);
            let before = table.check().unwrap();
            start_earlier(&mut random, &mut table);
            let Some(Switch { lost, .. }) = table.switch else {
                continue;
            };
            earlier += u64::from(lost > 0);
            let after = table.check().unwrap();
            for tick in 0..table.frame {
                assert_eq!(before.is_supplied(tick), after.is_supplied(tick));
            }
        }
        assert!(earlier > 1_200, "{earlier}");
    }
}
