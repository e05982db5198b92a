//! Legal tables with large frames or many windows. Document 02's request 3 has the amount tried
//! only at starts where a window ends: the edges are windows at the frame's ends, windows and gaps
//! of one tick, equal distances, and frames beside which a number of 16 bits ends.

use std::collections::BTreeSet;

use crate::generate;
use crate::outages;
use crate::random::Random;
use crate::table::{TableNumbers, MOST_FRAME, MOST_WINDOWS};

/// The shortest frame that has room for the most windows, of one tick each and one tick apart.
pub const LEAST_FRAME: u64 = 2 * MOST_WINDOWS as u64 - 1;

/// The greatest primes below powers of two, so that hardly a period divides a cycle of them.
const PRIMES: [u64; 8] = [65_521, 65_521, 32_749, 16_381, 8_191, 4_093, 1_021, 509];
/// Whole frames of these are the greatest cycle, 1,000,000.
const DIVISORS: [u64; 8] = [62_500, 50_000, 40_000, 15_625, 10_000, 8_000, 1_000, 500];

/// A table whose frame is at most `most_frame` (or `LEAST_FRAME`, where that is more).
pub fn table(r: &mut Random, most_frame: u64) -> TableNumbers {
    let frame = match frame(r) {
        too_large if too_large > most_frame => r.between(most_frame / 2, most_frame),
        frame => frame,
    };
    let frame = frame.max(LEAST_FRAME);
    let mut windows = windows(r, frame);
    move_to_an_end(r, frame, &mut windows);
    TableNumbers::pairs(frame, windows)
}

/// In half of the tables all windows are moved together to an end of the frame, or a tick from its
/// end. Then the silence that joins over midnight starts there: where a window ends at P, that is
/// tick 0.
fn move_to_an_end(r: &mut Random, frame: u64, windows: &mut [u64]) {
    let (first, last) = (windows[0], windows[windows.len() - 1]);
    let start = match r.below(8) {
        0 => 0,
        1 | 2 => first + frame - last,
        3 => (first + frame - last).saturating_sub(1),
        _ => first,
    };
    for edge in windows {
        *edge = *edge - first + start;
    }
}

fn frame(r: &mut Random) -> u64 {
    match r.below(16) {
        0..=3 => MOST_FRAME,
        4 => MOST_FRAME - 1,
        5 => r.one_of(&PRIMES),
        6 | 12 => r.one_of(&DIVISORS),
        7 => 1 << r.between(7, 15),
        8 => r.between(10_000, MOST_FRAME),
        9..=11 => r.between(500, 10_000),
        _ => r.between(LEAST_FRAME, LEAST_FRAME + 5),
    }
}

fn windows(r: &mut Random, frame: u64) -> Vec<u64> {
    let most = MOST_WINDOWS as u64;
    let count = match r.below(6) {
        0 => r.between(1, 5),
        1 => r.between(1, most),
        2 => most - 1,
        _ => most,
    };
    match r.below(20) {
        0 => vec![0, frame],
        1 => one_tick_gaps(r, frame, 1),
        2 => outages::one_window_in(r, frame),
        3..=7 => equally_spaced(r, frame, count),
        8 | 9 => one_tick_windows(r, frame, count),
        10..=12 => one_tick_gaps(r, frame, count.min(most - 1)),
        13 | 14 => clustered(r, frame, count),
        15 => growing(r, frame, count),
        16 | 17 => alike(r, frame, count),
        _ => generate::any_windows(r, frame, count),
    }
}

/// Windows of one width at one distance, with what ticks are over at an end of the frame, at both
/// or within it. Where they are as many as a gap, many starts are equally bad, so that the least of
/// them counts; where they are more, only the start before them is. In some one edge is a tick off.
fn equally_spaced(r: &mut Random, frame: u64, count: u64) -> Vec<u64> {
    let mut count = count.min(frame / 2);
    while r.once_in(2) && !frame.is_multiple_of(count) {
        count -= 1;
    }
    let mut distance = frame / count;
    if r.once_in(2) {
        distance = r.between(distance.div_ceil(2).max(2), distance);
    }
    let width = match r.below(4) {
        0 => 1,
        1 => distance - 1,
        2 => distance / 2,
        _ => r.between(1, distance - 1),
    };
    let over = frame - (count - 1) * distance - width;
    let (first, within) = match r.below(8) {
        0 => (0, 0),
        1 | 2 => (over, 0),
        3 | 4 => (over - 1, 0),
        5 => (r.between(0, over), 0),
        _ if count == 1 => (over, 0),
        _ => (0, over),
    };
    let later = match r.below(3) {
        0 => 1,
        1 => count - 1,
        _ => r.between(1, count - 1),
    };
    let start = |index| first + index * distance + if index >= later { within } else { 0 };
    let starts = (0..count).map(start);
    let mut windows: Vec<u64> = starts.flat_map(|start| [start, start + width]).collect();
    if r.once_in(4) {
        let edge = r.index(windows.len());
        let least = edge.checked_sub(1).map_or(0, |before| windows[before] + 1);
        let most = windows.get(edge + 1).map_or(frame, |after| after - 1);
        let moved = (windows[edge] + 2 * r.below(2)).saturating_sub(1);
        windows[edge] = moved.clamp(least, most);
    }
    windows
}

/// Ticks of a frame, each with at least one tick between it and the next. Often the frame's first
/// or last tick is among them.
fn ticks_apart(r: &mut Random, frame: u64, count: u64) -> Vec<u64> {
    // Without the ticks between them they are any different ones.
    let last = frame - count;
    let mut ticks = BTreeSet::new();
    if r.once_in(3) {
        ticks.insert(0);
    }
    if r.once_in(3) && count > 1 {
        ticks.insert(last);
    }
    while (ticks.len() as u64) < count {
        ticks.insert(r.between(0, last));
    }
    ticks.into_iter().zip(0..).map(|(t, i)| t + i).collect()
}

fn one_tick_windows(r: &mut Random, frame: u64, count: u64) -> Vec<u64> {
    let ticks = ticks_apart(r, frame, count).into_iter();
    ticks.flat_map(|tick| [tick, tick + 1]).collect()
}

/// A frame that is full but for gaps of one tick, at its ends too.
fn one_tick_gaps(r: &mut Random, frame: u64, count: u64) -> Vec<u64> {
    let mut edges = BTreeSet::from([0, frame]);
    for tick in ticks_apart(r, frame, count) {
        for edge in [tick, tick + 1] {
            // A gap at an end of the frame moves the edge that is there.
            if !edges.remove(&edge) {
                edges.insert(edge);
            }
        }
    }
    edges.into_iter().collect()
}

/// Some crowds of short windows, and much silence between them.
fn clustered(r: &mut Random, frame: u64, count: u64) -> Vec<u64> {
    let count = count.min(frame / 8);
    let in_a_crowd = count.div_ceil(r.between(1, 4));
    let short = r.between(1, 3);
    let parts: Vec<(u64, u64)> = (0..count)
        .map(|_| (r.between(1, short), r.between(1, short)))
        .collect();
    let mut silence = frame - parts.iter().map(|(gap, width)| gap + width).sum::<u64>();
    let mut end = 0;
    let mut windows = Vec::new();
    for (index, (gap, width)) in (0..).zip(parts) {
        if index % in_a_crowd == 0 && (index > 0 || r.once_in(2)) {
            let some = r.between(0, silence);
            silence -= some;
            end += some;
        }
        windows.extend([end + gap, end + gap + width]);
        end += gap + width;
    }
    windows
}

/// Gaps and widths that grow, or widths that fall: hardly a length ends at two edges.
fn growing(r: &mut Random, frame: u64, count: u64) -> Vec<u64> {
    let count = (1..=count).rfind(|n| n * (n + 1) <= frame).unwrap_or(1);
    let unit = frame / (count * (count + 1));
    let falls = r.once_in(2);
    let mut end = 0;
    let mut windows = Vec::new();
    for step in 1..=count {
        let width = if falls { count + 1 - step } else { step };
        windows.extend([end + step * unit, end + (step + width) * unit]);
        end += (step + width) * unit;
    }
    windows
}

/// Every window is about as long as the gap before it. A start before long windows has them later,
/// and then after longer gaps too: nearly each start is the worst at some length, so that the
/// critical partition has many hundred windows.
fn alike(r: &mut Random, frame: u64, count: u64) -> Vec<u64> {
    let count = count.min(frame / 8);
    let most = frame / count / r.one_of(&[8, 16]);
    let longer: Vec<u64> = (0..count).map(|_| r.between(0, most)).collect();
    let shortest = (frame / 2 - longer.iter().sum::<u64>()) / count;
    let mut end = 0;
    let mut windows = Vec::new();
    for longer in longer {
        let start = end + shortest + longer;
        end = start + shortest + longer;
        windows.extend([start, end]);
    }
    windows
}

#[cfg(test)]
mod tests {
    use super::*;
    use std::collections::BTreeMap;

    fn is_prime(number: u64) -> bool {
        let mut divisors = (2..).take_while(|d| d * d <= number);
        number > 1 && divisors.all(|d| !number.is_multiple_of(d))
    }

    fn edges(table: &TableNumbers) -> Vec<&'static str> {
        let frame = table.frame;
        let widths: Vec<u64> = table.windows.chunks(2).map(|w| w[1] - w[0]).collect();
        let inner = &table.windows[1..table.windows.len() - 1];
        let gaps: Vec<u64> = inner.chunks(2).map(|gap| gap[1] - gap[0]).collect();
        let (first, last) = (table.windows[0], table.windows[table.windows.len() - 1]);
        let joined = first + frame - last;
        let count = widths.len();
        let (one, most) = (count == 1, count == MOST_WINDOWS);
        let all =
            |numbers: &[u64], number| !numbers.is_empty() && numbers.iter().all(|n| *n == number);
        let equal = count > 4 && all(&widths, widths[0]) && all(&gaps, gaps[0]);
        let large = frame == MOST_FRAME;
        let at_both = first == 0 && last == frame;
        let all = [
            ("frame of 65,536", large),
            ("frame of 65,535", frame == MOST_FRAME - 1),
            ("a power of two", frame.is_power_of_two() && !large),
            ("a prime", is_prime(frame)),
            ("divides 1,000,000", 1_000_000 % frame == 0),
            (
                "middle, 64 windows",
                most && (500..=10_000).contains(&frame),
            ),
            ("65,536, 64 windows", most && large),
            ("64 windows in 127 ticks", most && frame == LEAST_FRAME),
            ("64 windows in 130 ticks", most && frame == 130),
            ("one window", one && joined > 0),
            ("one window of one tick", one && widths[0] == 1),
            ("every tick supplied", one && joined == 0),
            ("65,536, every tick supplied", one && joined == 0 && large),
            (
                "65,536, all but one tick",
                widths.iter().sum::<u64>() == frame - 1 && large,
            ),
            ("65,536, one tick", one && widths[0] == 1 && large),
            ("equally spaced", equal),
            (
                "equally spaced, over the frame's end too",
                equal && joined == gaps[0],
            ),
            (
                "equally spaced, longer over the frame's end",
                equal && joined > gaps[0],
            ),
            ("64 one-tick windows", most && all(&widths, 1)),
            ("64 windows, one-tick gaps", most && all(&gaps, 1)),
            (
                "one-tick gap over the frame's end",
                joined == 1 && all(&gaps, 1),
            ),
            ("starts at 0", first == 0 && last < frame),
            ("ends at P", first > 0 && last == frame),
            ("65,536, ends at P", first > 0 && last == frame && large),
            ("starts at 0 and ends at P", at_both && !one),
            (
                "65,536, starts at 0 and ends at P",
                at_both && !one && large,
            ),
            ("silent at both ends", first > 0 && last < frame),
            (
                "most of it is one silence",
                gaps.iter().any(|gap| 2 * gap > frame),
            ),
        ];
        let asked = all.iter().filter(|(_, is_asked)| *is_asked);
        asked.map(|(edge, _)| *edge).collect()
    }

    /// The rules, without counting every tick of so many large frames.
    fn is_legal(table: &TableNumbers) -> bool {
        let edges = &table.windows;
        let in_twos =
            edges.len().is_multiple_of(2) && (2..=2 * MOST_WINDOWS).contains(&edges.len());
        let rise = edges.windows(2).all(|pair| pair[0] < pair[1]);
        in_twos && rise && edges[edges.len() - 1] <= table.frame && table.frame <= MOST_FRAME
    }

    /// Every table is legal, and every edge is made, once in 1,000 tables or more often.
    #[test]
    fn every_edge_is_made() {
        let mut random = Random::new(7);
        let mut made = BTreeMap::new();
        for _ in 0..20_000 {
            let table = table(&mut random, MOST_FRAME);
            assert!(is_legal(&table), "{table:?}");
            for edge in edges(&table) {
                *made.entry(edge).or_insert(0) += 1;
            }
        }
        assert_eq!(made.len(), 28, "{made:#?}");
        assert!(made.values().all(|&times| times >= 20), "{made:#?}");
    }

    #[test]
    fn frames_up_to_a_limit() {
        let mut random = Random::new(8);
        for most in [1, LEAST_FRAME, 1_000, 20_000] {
            for _ in 0..200 {
                let table = table(&mut random, most);
                assert!(is_legal(&table), "{table:?}");
                assert!(table.frame <= most.max(LEAST_FRAME), "{table:?}");
            }
        }
    }
}
