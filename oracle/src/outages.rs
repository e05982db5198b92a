//! Legal tables at the edges of document 02's request 1: the silent ticks that end a frame join
//! those that begin the next.

use crate::random::Random;
use crate::table::{TableNumbers, MOST_FRAME, MOST_WINDOWS};

/// Ticks that a window supplies, then silent ticks up to the next window or the end of the frame.
struct Part {
    supplied: u64,
    silent: u64,
}

pub fn table_at_an_edge(r: &mut Random) -> TableNumbers {
    match r.below(12) {
        0 => never_silent(r),
        1..=4 => one_window(r),
        _ => joined_beside_inside(r),
    }
}

/// The shortest, the longest and some other frames.
fn frame(r: &mut Random) -> u64 {
    match r.below(12) {
        0 => r.between(1, 2),
        1 => r.between(MOST_FRAME - 1, MOST_FRAME),
        2 => r.between(200, MOST_FRAME),
        _ => r.between(3, 40),
    }
}

fn never_silent(r: &mut Random) -> TableNumbers {
    let frame = if r.once_in(4) { 1 } else { frame(r) };
    let windows = vec![0, frame];
    TableNumbers::pairs(frame, windows)
}

fn one_window(r: &mut Random) -> TableNumbers {
    let frame = frame(r);
    let windows = one_window_in(r, frame);
    TableNumbers::pairs(frame, windows)
}

/// One window: silent at both ends of the frame, or at one of them, sometimes for one tick only.
pub fn one_window_in(r: &mut Random, frame: u64) -> Vec<u64> {
    let start = match r.below(6) {
        0 => 0,
        1 => r.between(0, 1).min(frame - 1),
        _ => r.below(frame),
    };
    let end = match r.below(6) {
        0 => frame,
        1 => (frame - 1).max(start + 1),
        2 => start + 1,
        _ => r.between(start + 1, frame),
    };
    vec![start, end]
}

/// The joined run is one tick shorter than the longest one inside the frame, as long, or one tick
/// longer. At least half of these are silent at only one end.
fn joined_beside_inside(r: &mut Random) -> TableNumbers {
    // However they are chosen, the runs and windows of up to four ticks fit in the longest frame.
    let (count, inside) = match r.below(8) {
        0 => (MOST_WINDOWS, r.one_of(&[1, 2, 9, 900])),
        1 => (2, r.between(1, 32_000)),
        _ => (r.between(2, 5) as usize, r.between(1, 9)),
    };
    let joined = inside + r.below(3) - 1;
    let before_the_first = match r.below(4) {
        0 => 0,
        1 => joined,
        _ => r.between(1, joined.saturating_sub(1)).min(joined),
    };
    let mut parts: Vec<Part> = (0..count).map(|_| part(r, inside)).collect();
    // The longest gap is one between two windows; the last part ends the frame.
    parts[r.index(count - 1)].silent = inside;
    parts[count - 1].silent = joined - before_the_first;
    if r.once_in(6) {
        let shorter = table_of_parts(before_the_first, &parts).frame;
        parts[r.index(count)].supplied += MOST_FRAME - shorter;
    }
    table_of_parts(before_the_first, &parts)
}

fn part(r: &mut Random, most_silent: u64) -> Part {
    Part {
        supplied: r.between(1, 4),
        silent: r.between(1, most_silent),
    }
}

fn table_of_parts(before_the_first: u64, parts: &[Part]) -> TableNumbers {
    let mut frame = before_the_first;
    let mut windows = Vec::new();
    for part in parts {
        windows.extend([frame, frame + part.supplied]);
        frame += part.supplied + part.silent;
    }
    TableNumbers::pairs(frame, windows)
}

#[cfg(test)]
mod tests {
    use super::*;
    use std::collections::BTreeMap;

    /// The silent ticks before the first window, in the longest gap between two, after the last.
    fn silent(table: &TableNumbers) -> (u64, u64, u64) {
        let inner = &table.windows[1..table.windows.len() - 1];
        let inside = inner.chunks(2).map(|gap| gap[1] - gap[0]).max();
        let last_end = table.windows[table.windows.len() - 1];
        let after = table.frame - last_end;
        (table.windows[0], inside.unwrap_or(0), after)
    }

    fn edges(table: &TableNumbers) -> Vec<&'static str> {
        let (before, inside, after) = silent(table);
        let count = table.windows.len() / 2;
        let (one, several, most) = (count == 1, count > 1, count == MOST_WINDOWS);
        let joined = before + after;
        let longer = several && joined == inside + 1;
        let both = before > 0 && after > 0;
        let never = joined + inside == 0;
        let large = table.frame == MOST_FRAME;
        let all = [
            ("one window", one),
            ("one window, silent at both ends", one && both),
            ("silent at the start only", before > 0 && after == 0),
            ("silent at the end only", before == 0 && after > 0),
            ("joined shorter", several && both && joined + 1 == inside),
            ("joined equal", several && both && joined == inside),
            ("joined longer", longer && both),
            ("longer, at the start only", longer && after == 0),
            ("longer, at the end only", longer && before == 0),
            ("64 windows", most),
            ("64 windows, joined longer", most && both && longer),
            ("never silent", never),
            ("frame of 1", table.frame == 1),
            ("frame of 65,536", large),
            ("frame of 65,536, one window", large && one && both),
            ("frame of 65,536, joined longer", large && both && longer),
            ("frame of 65,536, never silent", large && never),
        ];
        let asked = all.iter().filter(|(_, is_asked)| *is_asked);
        asked.map(|(edge, _)| *edge).collect()
    }

    /// Every edge is asked, once in 400 tables or more often.
    #[test]
    fn every_edge_is_asked() {
        let mut random = Random::new(2);
        let mut asked = BTreeMap::new();
        for _ in 0..20_000 {
            let table = table_at_an_edge(&mut random);
            assert!(table.frame <= MOST_FRAME && table.windows.len() <= 2 * MOST_WINDOWS);
            for edge in edges(&table) {
                *asked.entry(edge).or_insert(0) += 1;
            }
        }
        assert_eq!(asked.len(), 17, "{asked:?}");
        assert!(asked.values().all(|&times| times >= 50), "{asked:?}");
    }

    /// The outage is the longer of the joined run and the longest one inside the frame, and the
    /// greatest length whose least supply is 0: with large frames and many windows too.
    #[test]
    fn outages_of_tables_at_an_edge() {
        let mut random = Random::new(3);
        for _ in 0..2_000 {
            let lent = table_at_an_edge(&mut random);
            let (before, inside, after) = silent(&lent);
            let table = lent.check().unwrap();
            let outage = table.longest_outage();
            assert_eq!(outage, inside.max(before + after), "{lent:?}");
            assert_eq!(table.least_supply(outage), 0, "{lent:?}");
            assert!(table.least_supply(outage + 1) > 0, "{lent:?}");
        }
    }
}
