//! The window table and what follows from it alone (document 01, "Tables and sizes" and
//! "Supply and demand"; document 02, requests 1, 4, 5 and 7).

use crate::answer::{Answer, Reason, Refusal};
use crate::lost::{self, Switch};
use crate::owners::{self, OWNERS};
use crate::shortest;

pub const MOST_FRAME: u64 = 65_536;
pub const MOST_WINDOWS: usize = 64;
/// The greatest length that may be asked (refusal 7).
pub const MOST_LENGTH: u64 = 1_000_000;

/// A table as it is lent: the frame and a list of numbers that may break every rule.
#[derive(Clone, Debug, PartialEq, Eq)]
pub struct TableNumbers {
    pub frame: u64,
    pub windows: Vec<u64>,
    /// The owner asked for, where the windows are in threes; none where they are in pairs.
    pub owner: Option<u64>,
    /// m, the shortest allowed window, where it is set.
    pub shortest: Option<u64>,
    /// The rule and q, where they are set: then m is set too, which stands before them.
    pub switch: Option<Switch>,
}

/// A legal table, tick by tick.
pub struct Table {
    frame: usize,
    /// Whether tick k of the frame is supplied, for k in 0 to P-1.
    supplied: Vec<bool>,
    /// How many of the ticks 0 to k-1 are supplied, for k in 0 to 2P.
    before: Vec<u32>,
}

impl TableNumbers {
    /// Windows in pairs of start and end.
    pub fn pairs(frame: u64, windows: Vec<u64>) -> TableNumbers {
        TableNumbers {
            frame,
            windows,
            owner: None,
            shortest: None,
            switch: None,
        }
    }

    /// Windows in threes of start, end and owner, asked for one owner.
    pub fn threes(frame: u64, windows: Vec<u64>, owner: u64) -> TableNumbers {
        TableNumbers {
            owner: Some(owner),
            ..TableNumbers::pairs(frame, windows)
        }
    }

    pub fn numbers_a_window(&self) -> usize {
        match self.owner {
            Some(_) => 3,
            None => 2,
        }
    }

    /// What is set of the owner, m, the rule and q, in this order.
    pub fn settings(&self) -> Vec<u64> {
        let mut settings: Vec<u64> = [self.owner, self.shortest].into_iter().flatten().collect();
        settings.extend(self.switch.into_iter().flat_map(Switch::numbers));
        settings
    }

    /// Refusals 1, 2 and 3; where teams share the table, then 1 for an owner that has no window;
    /// then 12; then 13, which is also given where "rule 2 leaves the asked owner no tick".
    pub fn check(&self) -> Result<Table, Refusal> {
        let own = match self.owner {
            Some(owner) => owners::table_of(owner, OWNERS, self)?,
            None => self.clone(),
        };
        own.check_pairs()?;
        shortest::check(self)?;
        let lost = lost::check(self)?;
        let table = own.tick_by_tick(lost);
        Reason::Switch.check(table.supplied_in_frame() == 0, 0)?;
        Ok(table)
    }

    /// Refusals 1 and 2.
    pub fn check_sizes(&self) -> Result<(), Refusal> {
        let count = self.windows.len();
        let numbers = self.numbers_a_window();
        let bad_list =
            !count.is_multiple_of(numbers) || count == 0 || count / numbers > MOST_WINDOWS;
        Reason::WindowList.check(bad_list, 0)?;
        Reason::Frame.check(self.frame < 1 || self.frame > MOST_FRAME, 0)
    }

    fn check_pairs(&self) -> Result<(), Refusal> {
        self.check_sizes()?;
        let mut previous_end = None;
        for (index, window) in self.windows.chunks(2).enumerate() {
            let (start, end) = (window[0], window[1]);
            let apart = previous_end.is_none_or(|previous| start > previous);
            let legal = start < end && end <= self.frame && apart;
            Reason::Window.check(!legal, index)?;
            previous_end = Some(end);
        }
        Ok(())
    }

    /// Each window covers "ticks start up to but not including end". It loses the first of them, so
    /// many, and "a window no longer than q gives nothing".
    fn tick_by_tick(&self, lost: u64) -> Table {
        let mut supplied = vec![false; self.frame as usize];
        for window in self.windows.chunks(2) {
            let (start, end) = (window[0], window[1]);
            for tick in start + lost..end {
                supplied[tick as usize] = true;
            }
        }
        let mut before = vec![0];
        let mut total = 0;
        for &tick in supplied.iter().chain(&supplied) {
            total += u32::from(tick);
            before.push(total);
        }
        Table {
            frame: supplied.len(),
            supplied,
            before,
        }
    }
}

impl Table {
    pub fn frame(&self) -> u64 {
        self.frame as u64
    }

    /// "Tick k is supplied if k mod P lies in a window", and not among the ticks that it loses.
    pub fn is_supplied(&self, tick: u64) -> bool {
        self.supplied[(tick % self.frame()) as usize]
    }

    /// A, the number of supplied ticks in one frame.
    pub fn supplied_in_frame(&self) -> u64 {
        u64::from(self.before[self.frame])
    }

    /// The supplied ticks among the `length` ticks from each start 0 to P-1: the whole frames in
    /// the length hold A each, wherever they begin, and the rest is counted.
    fn supply_from_each_start(&self, length: u64) -> impl Iterator<Item = u32> + '_ {
        let rest = (length % self.frame()) as usize;
        let ends = &self.before[rest..rest + self.frame];
        ends.iter()
            .zip(&self.before)
            .map(|(end, start)| end - start)
    }

    fn supply_of_whole_frames(&self, length: u64) -> u64 {
        length / self.frame() * self.supplied_in_frame()
    }

    /// The least supply of a length: the smallest over all starts.
    pub fn least_supply(&self, length: u64) -> u64 {
        let least_rest = self.supply_from_each_start(length).min().unwrap_or(0);
        self.supply_of_whole_frames(length) + u64::from(least_rest)
    }

    /// The least start whose next `length` ticks hold exactly the least supply.
    pub fn least_start(&self, length: u64) -> u64 {
        let least = self.least_supply(length) - self.supply_of_whole_frames(length);
        let is_least = |supply| u64::from(supply) == least;
        let start = self.supply_from_each_start(length).position(is_least);
        start.unwrap_or(0) as u64
    }

    pub fn critical_windows(&self) -> Vec<(u64, u64)> {
        LeastSupplies::new(self).critical_windows()
    }

    pub fn delay(&self) -> u64 {
        LeastSupplies::new(self).delay()
    }

    /// "The longest outage is the longest run of unsupplied ticks over endless frames, 0 if every
    /// tick is supplied." (Document 02, request 1.)
    ///
    /// Two frames are enough: a legal table supplies a tick of every frame, so a run has fewer
    /// than P ticks. Every frame is alike, so it may be moved by whole frames to begin in the
    /// first one, and then it ends in the second at the latest.
    pub fn longest_outage(&self) -> u64 {
        let (mut longest, mut run) = (0, 0);
        for tick in 0..2 * self.frame() {
            run = if self.is_supplied(tick) { 0 } else { run + 1 };
            longest = longest.max(run);
        }
        longest
    }
}

/// The least supplies of many lengths, each rest below P counted once and kept.
pub struct LeastSupplies<'a> {
    table: &'a Table,
    of_rest: Vec<u64>,
}

impl<'a> LeastSupplies<'a> {
    pub fn new(table: &'a Table) -> Self {
        LeastSupplies {
            table,
            of_rest: Vec::new(),
        }
    }

    pub fn of(&mut self, length: u64) -> u64 {
        let rest = (length % self.table.frame()) as usize;
        while self.of_rest.len() <= rest {
            let next = self.table.least_supply(self.of_rest.len() as u64);
            self.of_rest.push(next);
        }
        self.table.supply_of_whole_frames(length) + self.of_rest[rest]
    }

    /// The maximal runs of t in 0 to P-1 where the least supply of t+1 exceeds that of t.
    pub fn critical_windows(&mut self) -> Vec<(u64, u64)> {
        let mut windows: Vec<(u64, u64)> = Vec::new();
        for t in 0..self.table.frame() {
            if self.of(t + 1) > self.of(t) {
                match windows.last_mut() {
                    Some((_, end)) if *end == t => *end = t + 1,
                    _ => windows.push((t, t + 1)),
                }
            }
        }
        windows
    }

    /// The greatest of A*t - P*(least supply of t) over t in 0 to P; at t = 0 it is 0.
    pub fn delay(&mut self) -> u64 {
        let (frame, supplied) = (self.table.frame(), self.table.supplied_in_frame());
        let mut greatest = 0;
        for t in 0..=frame {
            let short = (supplied * t).saturating_sub(frame * self.of(t));
            greatest = greatest.max(short);
        }
        greatest
    }
}

/// Refusal 7 of an asked length.
pub fn check_length(length: u64) -> Result<(), Refusal> {
    Reason::Asked.check(length > MOST_LENGTH, 0)
}

pub fn least_supply(table: &TableNumbers, length: u64) -> Result<Answer, Refusal> {
    let table = table.check()?;
    check_length(length)?;
    Ok(Answer::Amount(table.least_supply(length)))
}

/// Writes two numbers a window and keeps the rest of the lent buffer.
pub fn critical_partition(table: &TableNumbers, lent: &mut [u64]) -> Result<Answer, Refusal> {
    let windows = table.check()?.critical_windows();
    let needed = 2 * windows.len();
    Reason::Room.check(lent.len() < needed, needed)?;
    for (pair, &(start, end)) in lent.chunks_mut(2).zip(&windows) {
        pair.copy_from_slice(&[start, end]);
    }
    Ok(Answer::Windows(windows.len()))
}

pub fn delay(table: &TableNumbers) -> Result<Answer, Refusal> {
    let table = table.check()?;
    Ok(Answer::Delay {
        delay: table.delay(),
        supplied: table.supplied_in_frame(),
    })
}

pub fn outage(table: &TableNumbers) -> Result<Answer, Refusal> {
    Ok(Answer::Outage(table.check()?.longest_outage()))
}

#[cfg(test)]
mod tests {
    use super::*;
    use crate::random::Random;

    /// Every start, every tick, with no frame taken out of the length.
    fn counted(table: &Table, start: u64, length: u64) -> u64 {
        let ticks = start..start + length;
        ticks.filter(|&tick| table.is_supplied(tick)).count() as u64
    }

    /// The definitions, word by word, on every table with P up to 8 and lengths up to 3P.
    #[test]
    fn supply_counted_tick_by_tick() {
        for table in crate::enumerate::tables(8) {
            let table = table.check().unwrap();
            let frame = table.frame();
            let mut kept = LeastSupplies::new(&table);
            for length in 0..=3 * frame {
                let counts = (0..3 * frame).map(|start| counted(&table, start, length));
                let least = counts.min().unwrap();
                assert_eq!(table.least_supply(length), least);
                assert_eq!(kept.of(length), least);
                let start = (0..frame).find(|&s| counted(&table, s, length) == least);
                assert_eq!(table.least_start(length), start.unwrap());
            }
        }
    }

    /// "It must also be the greatest length whose least supply is 0." That is where the first
    /// critical window starts. On every table with P up to 8, with lengths up to 3P.
    #[test]
    fn outage_is_the_greatest_length_without_supply() {
        for lent in crate::enumerate::tables(8) {
            let table = lent.check().unwrap();
            let outage = table.longest_outage();
            let lengths = 0..=3 * table.frame();
            let without = lengths.filter(|&length| table.least_supply(length) == 0);
            assert_eq!(Some(outage), without.max(), "{lent:?}");
            assert_eq!(outage, table.critical_windows()[0].0, "{lent:?}");
        }
    }

    /// Two frames hold as long a run as six do, on every table with P up to 8.
    #[test]
    fn outage_of_two_frames_is_that_of_more() {
        for lent in crate::enumerate::tables(8) {
            let table = lent.check().unwrap();
            let is_silent = |start, length| counted(&table, start, length) == 0;
            let within = 6 * table.frame();
            let silent =
                |length: &u64| (0..=within - length).any(|start| is_silent(start, *length));
            let longest = (0..=within).filter(silent).max();
            assert_eq!(Some(table.longest_outage()), longest, "{lent:?}");
        }
    }

    /// "Its supply from tick 0 and its own least supply both equal the least supply it came
    /// from."
    #[test]
    fn critical_partition_supplies_the_least_supply() {
        let mut random = Random::new(1);
        for _ in 0..100 {
            let lent = crate::generate::legal_table(&mut random);
            let table = lent.check().unwrap();
            let pairs = table.critical_windows();
            if pairs.len() > MOST_WINDOWS {
                continue;
            }
            let critical = TableNumbers::pairs(
                lent.frame,
                pairs.into_iter().flat_map(|(s, e)| [s, e]).collect(),
            );
            let critical = critical.check().unwrap();
            for length in 0..=2 * lent.frame {
                let least = table.least_supply(length);
                assert_eq!(counted(&critical, 0, length), least);
                assert_eq!(critical.least_supply(length), least);
            }
        }
    }
}
