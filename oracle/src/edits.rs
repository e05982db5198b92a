//! Edits at the edges of document 02's request 6: at the first and the last index and beside them,
//! to every edge of the gap that a window has, with rooms that are just enough or not.

use crate::edit::{Edit, Kind};
use crate::numbers::GREATEST;
use crate::query::{EditNumbers, Query, MOST_NEW_NUMBERS, MOST_SUMMARY_NUMBERS};
use crate::random::Random;
use crate::spoil;
use crate::summaries::{self, Kept};
use crate::table::{TableNumbers, MOST_FRAME, MOST_WINDOWS};

/// An edit of a table, mostly with the summary that belongs to it.
pub fn query(r: &mut Random, faults: u64, kept: &Kept) -> Query {
    let table = in_threes(&kept.table);
    let edit = edit(r, &table);
    let (windows, numbers) = needed(&table, &edit);
    let mut memory = kept.table.clone();
    let list = memory.windows.len() as u64;
    let room = room(r, list, windows).min(MOST_NEW_NUMBERS);
    fill(r, &mut memory.windows, room);
    let mut summary = match r.once_in(faults.min(7)) {
        true => summaries::wrong(r, kept),
        false => kept.summary.clone(),
    };
    let room = room_for_summary(r, summary.len() as u64, numbers);
    fill(r, &mut summary, room);
    summary.truncate(MOST_SUMMARY_NUMBERS as usize);
    let mut count = list / 3;
    if r.once_in(faults.min(15)) {
        count = another_count(r, count);
        if r.once_in(4) {
            // What the count refuses comes first.
            memory.frame = r.one_of(&[0, MOST_FRAME + 1]);
        }
    }
    Query::Edit(EditNumbers {
        memory,
        count,
        summary,
        edit,
    })
}

/// Without what is left over after the last window.
pub fn in_threes(table: &TableNumbers) -> TableNumbers {
    let threes = table.windows.chunks_exact(3);
    TableNumbers {
        windows: threes.flatten().copied().collect(),
        ..table.clone()
    }
}

/// How many numbers the new table and its summary need; where it is refused, those of the old one.
fn needed(table: &TableNumbers, edit: &Edit) -> (u64, u64) {
    let new = edit.apply(table).unwrap_or_else(|_| table.clone());
    let summary = summaries::belonging(&new);
    (new.windows.len() as u64, summary.len() as u64)
}

/// As many numbers as are needed, up to three fewer, or more.
fn room(r: &mut Random, list: u64, needed: u64) -> u64 {
    match r.below(12) {
        0..=3 => needed,
        4 => needed.saturating_sub(1).max(list),
        5 => needed.saturating_sub(2).max(list),
        6 => list,
        7 => needed + 1,
        8 => needed + 2,
        9 | 10 => needed + 3,
        _ => needed + r.between(4, 20),
    }
}

fn room_for_summary(r: &mut Random, list: u64, needed: u64) -> u64 {
    match r.below(10) {
        0..=3 => needed,
        4 | 5 => needed.saturating_sub(1),
        6 => list,
        7 => needed + 1,
        8 => needed.saturating_sub(2),
        _ => needed + r.between(2, 9),
    }
    .max(list)
}

/// The rest of a memory: equal numbers, or what could be windows, or any numbers.
fn fill(r: &mut Random, memory: &mut Vec<u64>, room: u64) {
    let kind = r.below(4);
    while (memory.len() as u64) < room {
        let last = memory.last().copied().unwrap_or(0);
        memory.push(match kind {
            0 => 7,
            1 => 0,
            2 => (last + r.below(3)).min(GREATEST),
            _ => r.one_of(&[0, 1, 2, 255, 256, MOST_FRAME, GREATEST]),
        });
    }
}

/// A count that is not the list's: often by one; often one that is a small number of numbers in 32
/// bits.
fn another_count(r: &mut Random, count: u64) -> u64 {
    match r.below(10) {
        0..=2 => count + 1,
        3..=5 => count.saturating_sub(1),
        6 => 0,
        7 => r.one_of(&[64, 65, 66, 133, 134]),
        8 => r.one_of(&[1_431_655_765, 1_431_655_766, 1_431_655_767, GREATEST]),
        _ => count + r.one_of(&[1 << 8, 1 << 16, 1 << 31]),
    }
}

/// An edit of the list, of any kind.
pub fn edit(r: &mut Random, table: &TableNumbers) -> Edit {
    let windows: Vec<&[u64]> = table.windows.chunks_exact(3).collect();
    let count = windows.len() as u64;
    let kind = Kind::ALL[r.index(3)];
    let places = match kind {
        Kind::Add => count + 1,
        Kind::Move | Kind::Remove => count.max(1),
    };
    let place = match kind {
        Kind::Add if !r.once_in(4) => place_of_a_gap(r, table, &windows),
        _ => match r.below(4) {
            0 => 0,
            1 => places - 1,
            _ => r.below(places),
        },
    };
    let (start, end) = match kind {
        Kind::Remove => (any(r), any(r)),
        Kind::Move | Kind::Add => window(r, table, &windows, kind, place),
    };
    Edit {
        kind,
        index: index(r, places, place),
        start,
        end,
        owner: owner(r, table, kind),
    }
}

/// A number that is not used, or that is out of every range.
fn any(r: &mut Random) -> u64 {
    r.one_of(&[0, 1, 2, 7, 256, MOST_FRAME, MOST_FRAME + 1, GREATEST])
}

/// The place itself or, once in ten, an absent index.
fn index(r: &mut Random, places: u64, place: u64) -> u64 {
    if !r.once_in(10) {
        return place;
    }
    let most = MOST_WINDOWS as u64;
    match r.below(8) {
        0..=3 => places,
        4 => places + 1,
        5 => r.one_of(&[most - 1, most, most + 1, GREATEST]),
        6 => place + r.one_of(&[1 << 8, 1 << 16, 1 << 31]),
        // Three times it is a small number in 32 bits.
        _ => place + r.one_of(&[1_431_655_765, 1_431_655_766]),
    }
}

/// Where there is a tick between two windows, or at an end of the frame.
fn place_of_a_gap(r: &mut Random, table: &TableNumbers, windows: &[&[u64]]) -> u64 {
    let places = 0..=windows.len() as u64;
    let gaps: Vec<u64> = places
        .filter(|&place| {
            let (low, high) = gap(table, windows, Kind::Add, place);
            low < high
        })
        .collect();
    match gaps.is_empty() {
        true => r.below(windows.len() as u64 + 1),
        false => gaps[r.index(gaps.len())],
    }
}

/// From the end of the window before to the start of the window after, or to an end of the frame.
fn gap(table: &TableNumbers, windows: &[&[u64]], kind: Kind, place: u64) -> (u64, u64) {
    let place = place as usize;
    let before = place.checked_sub(1).and_then(|index| windows.get(index));
    let after = match kind {
        Kind::Add => windows.get(place),
        Kind::Move | Kind::Remove => windows.get(place + 1),
    };
    let low = before.map_or(0, |window| window[1]);
    (low, after.map_or(table.frame, |window| window[0]))
}

/// A start and an end at edges of the gap, of the window that moves, of m or of q; sometimes beside
/// them.
fn window(
    r: &mut Random,
    table: &TableNumbers,
    windows: &[&[u64]],
    kind: Kind,
    place: u64,
) -> (u64, u64) {
    let (low, high) = gap(table, windows, kind, place);
    let ticks = high.saturating_sub(low);
    // What moves, or what is in the middle of the gap.
    let (start, end) = match windows.get(place as usize) {
        Some(window) if kind == Kind::Move => (window[0], window[1]),
        _ => {
            let start = low + r.below(ticks);
            (start, r.between(start + 1, high))
        }
    };
    let before = |number: u64| number.saturating_sub(1);
    let (start, end) = match r.below(26) {
        0 => (low, high),
        1 => (low, end),
        2 => (start, high),
        3 => (low, low + 1),
        4 => (before(high), high),
        5 => (low + 1, before(high)),
        6 => (low + 1, end),
        7 => (start, before(high)),
        8 => (start + 1, end),
        9 => (before(start), end),
        10 => (start, before(end)),
        11 => (start, end + 1),
        12 => (start + 1, end + 1),
        13 => (before(start), before(end)),
        14 => (before(low), end),
        15 => (start, high + 1),
        16 => (start, start),
        17 => (end, start),
        18 => {
            let edge = r.below(table.frame + 1);
            (edge, r.between(edge + 1, table.frame))
        }
        19 => {
            let wrong = any(r);
            if r.once_in(2) {
                (wrong, end)
            } else {
                (start, wrong)
            }
        }
        20 | 21 => {
            // As short as is allowed, or a tick shorter.
            let shortest = table.shortest.unwrap_or(1).saturating_sub(r.below(2));
            (low, low + shortest)
        }
        22..=25 if table.switch.is_some() => {
            // A window that gives nothing, one that gives one tick, or all that there is.
            let lost = table.switch.map_or(0, |switch| switch.lost);
            let start = r.one_of(&[low, start]);
            match r.below(3) {
                0 => (low, high),
                more => (start, start + (lost + more - 1).max(1)),
            }
        }
        22 | 23 => {
            let start = low + r.below(ticks);
            (start, r.between(start + 1, high))
        }
        _ => (start, end),
    };
    (start.min(GREATEST), end.min(GREATEST))
}

/// Of an addition, either owner or one that does not exist; else any number, which is not read.
fn owner(r: &mut Random, table: &TableNumbers, kind: Kind) -> u64 {
    let asked = table.owner.unwrap_or(0);
    match r.below(12) {
        0 => spoil::absent_owner(r),
        1..=6 => asked.min(1),
        7..=10 => 1 - asked.min(1),
        _ if kind == Kind::Add => r.below(2),
        _ => any(r),
    }
}

/// An edit of X with memories that are as long as they may be, or of as many windows as there may
/// be.
pub fn at_a_limit(r: &mut Random, summary: Vec<u64>) -> Query {
    let memory = match r.below(3) {
        0 => MOST_NEW_NUMBERS,
        1 => MOST_NEW_NUMBERS - 1,
        _ => 9,
    };
    if r.once_in(2) {
        let mut table = TableNumbers::threes(8, vec![0, 2, 0, 5, 7, 0], 0);
        let edit = edit(r, &table);
        fill(r, &mut table.windows, memory);
        let count = r.one_of(&[2, 2, 2, 2, 3, 133, 134]);
        return Query::Edit(EditNumbers {
            memory: table,
            count,
            summary,
            edit,
        });
    }
    // Windows that touch, of the teams in turn; with 63 of them one may be added in a gap.
    let count = MOST_WINDOWS as u64 - r.below(3);
    let windows = (0..count).flat_map(|i| [i, i + 1, i % 2]).collect();
    let mut table = TableNumbers::threes(count + r.below(4), windows, r.below(2));
    let mut summary = summaries::belonging(&table);
    let edit = edit(r, &table);
    let (list, numbers) = needed(&table, &edit);
    let room = room(r, 3 * count, list);
    fill(r, &mut table.windows, room);
    fill(r, &mut summary, numbers);
    Query::Edit(EditNumbers {
        memory: table,
        count,
        summary,
        edit,
    })
}

#[cfg(test)]
mod tests {
    use super::*;
    use crate::answer::{Reason, Refusal};
    use crate::generate;
    use crate::summary;
    use std::collections::BTreeMap;

    type Edges = Vec<(&'static str, bool)>;

    /// Which edges an edit is at.
    fn edges(numbers: &EditNumbers) -> Vec<&'static str> {
        let edges = match numbers.old() {
            None => vec![
                ("memory too short", true),
                ("memory too short by a window", {
                    numbers.memory.windows.len() as u64 / 3 + 1 == numbers.count
                }),
                ("memory too short, no frame", numbers.memory.frame == 0),
                (
                    "count that 32 bits hide",
                    3 * numbers.count % (1 << 32) <= numbers.memory.windows.len() as u64,
                ),
                ("the greatest count", numbers.count == GREATEST),
            ],
            Some(old) => match old.check() {
                Err(refusal) => old_refused(numbers, refusal),
                Ok(table) => {
                    let belongs = numbers.summary.starts_with(&summary::fresh(&table));
                    of_old(numbers, &old, belongs)
                }
            },
        };
        let asked = edges.into_iter().filter(|(_, is_asked)| *is_asked);
        asked.map(|(edge, _)| edge).collect()
    }

    fn old_refused(numbers: &EditNumbers, refusal: Refusal) -> Edges {
        let reason = refusal.reason as u8;
        let old = numbers.old().unwrap();
        let new = numbers.edit.apply(&old);
        let is_mended = new.as_ref().is_ok_and(|new| new.check().is_ok());
        vec![
            ("old: no window", old.windows.is_empty()),
            ("old: too many windows", numbers.count > 64),
            ("old: 2", reason == 2),
            ("old: 3", reason == 3),
            (
                "old: absent owner",
                reason == 1 && old.check_sizes().is_ok(),
            ),
            ("old: 12", reason == 12),
            ("old: 3, mended", reason == 3 && is_mended),
            ("old: absent owner, mended", reason == 1 && is_mended),
            ("old: 12, mended", reason == 12 && is_mended),
            ("old: before 7", new.is_err()),
        ]
    }

    fn of_old(numbers: &EditNumbers, old: &TableNumbers, belongs: bool) -> Edges {
        let edit = &numbers.edit;
        let count = numbers.count;
        let Ok(new) = edit.apply(old) else {
            return vec![
                ("14 before 7", !belongs),
                ("7 of a move at the count", {
                    belongs && edit.kind == Kind::Move && edit.index == count
                }),
                ("7 of a removal at the count", {
                    belongs && edit.kind == Kind::Remove && edit.index == count
                }),
                ("7 of an addition past the count", {
                    belongs && edit.kind == Kind::Add && edit.index == count + 1
                }),
                ("7, hidden by a byte", belongs && edit.index % 256 < count),
                ("7 before 3", belongs && edit.start >= edit.end),
            ];
        };
        if !belongs {
            return vec![
                ("14", true),
                (
                    "14 before 3",
                    new.check().is_err_and(|r| r.reason == Reason::Window),
                ),
                (
                    "14 before 8",
                    numbers.memory.windows.len() < new.windows.len(),
                ),
                ("14, the new table's", {
                    numbers.summary.starts_with(&summaries::belonging(&new))
                }),
            ];
        }
        match new.check() {
            Err(refusal) => new_refused(numbers, &new, refusal),
            Ok(table) => answered_or_8(numbers, old, &new, &summary::fresh(&table)),
        }
    }

    fn new_refused(numbers: &EditNumbers, new: &TableNumbers, refusal: Refusal) -> Edges {
        let edit = &numbers.edit;
        let window = |index: u64| &new.windows[3 * index as usize..][..3];
        let three = refusal.reason == Reason::Window;
        let twelve = refusal.reason == Reason::Sliver;
        let one = refusal.reason == Reason::WindowList;
        let no_room = numbers.memory.windows.len() < new.windows.len();
        let count = new.windows.len() / 3;
        let at_it = three && refusal.place == edit.index;
        let (touches, alike) = match edit.index.checked_sub(1) {
            Some(before) if at_it => {
                let (one, next) = (window(before), window(edit.index));
                (one[1] == next[0] && next[0] < next[1], one[2] == next[2])
            }
            _ => (false, false),
        };
        let has_sliver = new.shortest.is_some_and(|shortest| {
            let mut windows = new.windows.chunks(3);
            windows.any(|w| w[0] < w[1] && w[1] - w[0] < shortest)
        });
        vec![
            ("new: no window", one && count == 0),
            ("new: 65 windows", one && count == 65),
            (
                "new: 65 windows before 3",
                one && count == 65 && edit.start >= edit.end,
            ),
            ("new: 65 windows before 8", one && count == 65 && no_room),
            ("new: absent owner", one && (1..=64).contains(&count)),
            ("new: 3 of a move", three && edit.kind == Kind::Move),
            ("new: 3 of an addition", three && edit.kind == Kind::Add),
            ("new: 3 at 0", at_it && edit.index == 0),
            ("new: 3 after it", three && refusal.place == edit.index + 1),
            ("new: 3, one owner's touch", touches && alike),
            ("new: 3, an owner that does not exist", {
                at_it && edit.kind == Kind::Add && edit.owner > 1 && edit.start < edit.end
            }),
            ("new: 3, over the frame", at_it && edit.end == new.frame + 1),
            ("new: 3, empty", at_it && edit.start == edit.end),
            ("new: 3 before 12", three && has_sliver),
            ("new: 3 before 8", three && no_room),
            ("new: 12", twelve),
            ("new: 12 by one tick", {
                let shortest = new.shortest.unwrap_or(1);
                twelve && window(refusal.place)[1] - window(refusal.place)[0] + 1 == shortest
            }),
            ("new: 12 of the other owner's", {
                twelve && Some(window(refusal.place)[2]) != new.owner
            }),
            ("new: 12 before 8", twelve && no_room),
        ]
    }

    fn answered_or_8(
        numbers: &EditNumbers,
        old: &TableNumbers,
        new: &TableNumbers,
        fresh: &[u64],
    ) -> Edges {
        let edit = &numbers.edit;
        let of_old = summaries::belonging(old);
        let (lent, needed) = (numbers.memory.windows.len(), new.windows.len());
        let (kept, wanted) = (numbers.summary.len(), fresh.len());
        if lent < needed || kept < wanted {
            return vec![
                ("8 for the windows", kept >= wanted),
                (
                    "8 for the windows by one",
                    kept >= wanted && lent + 1 == needed,
                ),
                (
                    "8 for the windows by three",
                    kept >= wanted && lent + 3 == needed,
                ),
                ("8 for the summary", lent >= needed),
                (
                    "8 for the summary by one",
                    lent >= needed && kept + 1 == wanted,
                ),
                ("8 for both", lent < needed && kept < wanted),
                ("8 for the summary of a removal", edit.kind == Kind::Remove),
            ];
        }
        let index = edit.index;
        let last = numbers.count - 1;
        let (is_move, is_add) = (edit.kind == Kind::Move, edit.kind == Kind::Add);
        let is_remove = edit.kind == Kind::Remove;
        let touched = match is_remove {
            true => &old.windows[3 * index as usize..][..3],
            false => &new.windows[3 * index as usize..][..3],
        };
        let own = Some(touched[2]) == old.owner;
        let before = index
            .checked_sub(1)
            .map(|before| &new.windows[3 * before as usize..][..3]);
        let touches = !is_remove && before.is_some_and(|before| before[1] == touched[0]);
        vec![
            ("moved, own", is_move && own),
            ("moved, the other's", is_move && !own),
            ("added, own", is_add && own),
            ("added, the other's", is_add && !own),
            ("removed, own", is_remove && own),
            ("removed, the other's", is_remove && !own),
            (
                "moved, the first of several",
                is_move && index == 0 && last > 0,
            ),
            (
                "moved, the last of several",
                is_move && index == last && last > 0,
            ),
            ("added before the first", is_add && index == 0),
            ("added at the count", is_add && index == last + 1),
            ("added within", is_add && index > 0 && index <= last),
            ("removed, the first", is_remove && index == 0),
            ("removed, the last", is_remove && index == last),
            ("moved to where it is", is_move && new == old),
            (
                "moved, another owner given",
                is_move && edit.owner != touched[2],
            ),
            ("touches another owner's", touches),
            ("for owner 1", old.owner == Some(1)),
            ("with m", old.shortest.is_some_and(|shortest| shortest > 1)),
            ("64 windows after", needed == 192),
            ("64 windows before", numbers.count == 64),
            (
                "own, the summary stays",
                own && new != old && of_old == fresh,
            ),
            ("own, only the delay changes", {
                fresh[1] != of_old[1] && fresh[0] == of_old[0] && fresh.len() == of_old.len()
            }),
            ("a longer summary", wanted > of_old.len()),
            ("a shorter summary", wanted < of_old.len()),
            ("a lesser delay", fresh[1] < of_old[1]),
            ("a greater delay", fresh[1] > of_old[1]),
            ("exactly enough for the windows", lent == needed && is_add),
            (
                "exactly enough for the summary",
                kept == wanted && wanted > of_old.len(),
            ),
            ("windows after the list", lent > needed),
            (
                "a rest that a removal leaves",
                is_remove && lent > needed + 3,
            ),
            ("numbers after the summary", kept > wanted.max(of_old.len())),
            ("a count below the list's", {
                let rest = &numbers.memory.windows[old.windows.len()..];
                rest.len() >= 3 && rest[0] < rest[1] && rest[1] <= old.frame && rest[2] < 2
            }),
        ]
    }

    /// Every edge is asked, once in 4,000 edits or more often.
    #[test]
    fn every_edge_is_asked() {
        let mut random = Random::new(36);
        let mut asked = BTreeMap::new();
        let mut edits = 0;
        while edits < 20_000 {
            if let Query::Edit(numbers) = generate::query(&mut random) {
                edits += 1;
                for edge in edges(&numbers) {
                    *asked.entry(edge).or_insert(0) += 1;
                }
            }
        }
        let often: Vec<_> = asked.iter().filter(|(_, &times)| times >= 5).collect();
        assert_eq!(often.len(), 83, "{asked:#?}");
    }
}
