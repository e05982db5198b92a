//! Groups whose demand is just what a table supplies, at one length or at many, or one tick more.
//! They are made from the least supplies of the table at all lengths, counted once.

use std::collections::BTreeSet;

use crate::random::Random;
use crate::spoil;
use crate::table::{LeastSupplies, Table};
use crate::tasks::{least_common_multiple, MOST_CYCLE, MOST_TASKS, MOST_TICKS};

/// C, T and D.
type Numbers = [u64; 3];

/// A table and what groups on it are made from.
pub struct Ground<'a> {
    table: &'a Table,
    outage: u64,
    least: LeastSupplies<'a>,
    /// The greatest cycle or deadline: a query tries up to so many lengths.
    most_length: u64,
}

impl<'a> Ground<'a> {
    /// With no more than `most_length` lengths tried, or than a frame has where that is more.
    pub fn new(table: &'a Table, most_length: u64) -> Self {
        Ground {
            table,
            outage: table.longest_outage(),
            least: LeastSupplies::new(table),
            most_length: most_length.clamp(table.frame(), MOST_CYCLE),
        }
    }

    /// How many windows the critical partition has.
    pub fn critical_windows(&mut self) -> u64 {
        let mut rises = |t| self.least.of(t + 1) > self.least.of(t);
        let starts = (0..self.table.frame()).filter(|&t| rises(t) && (t == 0 || !rises(t - 1)));
        starts.count() as u64
    }

    /// A group for a verdict.
    pub fn group(&mut self, r: &mut Random) -> Vec<Numbers> {
        match r.below(16) {
            0 => Vec::new(),
            1 => self.near_the_greatest_cycle(r),
            2 | 3 => self.soon_missed(r),
            4..=8 => self.staircase(r),
            _ => self.filled(r),
        }
    }

    /// Refused with its cycle, or just not, unless the cycle has more lengths than may be tried.
    fn near_the_greatest_cycle(&mut self, r: &mut Random) -> Vec<Numbers> {
        let group = spoil::group_near_the_greatest_cycle(r, self.table.frame());
        let periods = group.iter().map(|&[_, period, _]| period);
        let cycle = periods.fold(self.table.frame(), least_common_multiple);
        if (self.most_length + 1..=MOST_CYCLE).contains(&cycle) {
            return self.soon_missed(r);
        }
        group
    }

    /// A cycle of one frame, of as many as there may be, or of some.
    fn cycle(&self, r: &mut Random) -> u64 {
        let most = self.most_length / self.table.frame();
        let frames = match r.below(4) {
            0 => 1,
            1 => r.between(1, most),
            _ => most,
        };
        frames * self.table.frame()
    }

    /// The least length with the least supply of `length`.
    fn first_alike(&mut self, length: u64) -> u64 {
        let supply = self.least.of(length);
        let mut first = length;
        while first > 1 && self.least.of(first - 1) == supply {
            first -= 1;
        }
        first
    }

    /// One task that is due before anything need be supplied, or that wants a tick more than that,
    /// early in the cycle.
    fn soon_missed(&mut self, r: &mut Random) -> Vec<Numbers> {
        let period = self.cycle(r);
        let deadline = match r.below(4) {
            0 => r.between(1, self.outage),
            1 => self.outage + r.below(2),
            2 => r.between(1, self.table.frame()),
            _ => r.between(1, 2 * self.outage + 2),
        };
        let deadline = deadline.clamp(1, period);
        let work = self.least.of(deadline) + 1;
        vec![[work.min(MOST_TICKS), period, deadline]]
    }

    /// One job of each task in a cycle. Where a deadline falls, the demand is the least supply: it
    /// meets. In half of these one job wants a tick more, or is due where less is supplied: the
    /// first miss is there, however many frames later.
    fn staircase(&mut self, r: &mut Random) -> Vec<Numbers> {
        let cycle = self.cycle(r);
        let count = r.one_of(&[1, 2, 8, MOST_TASKS as u64]);
        let at_rises = r.once_in(2);
        let mut deadlines = BTreeSet::new();
        if r.once_in(3) {
            deadlines.insert(cycle);
        }
        for _ in deadlines.len() as u64..count {
            let deadline = match r.below(4) {
                0 => r.between(cycle - self.table.frame(), cycle),
                _ => r.between(self.outage + 1, cycle),
            };
            deadlines.insert(if at_rises {
                self.first_alike(deadline.max(1))
            } else {
                deadline.max(1)
            });
        }
        let mut demand = 0;
        let mut group: Vec<Numbers> = Vec::new();
        for deadline in deadlines {
            let supply = self.least.of(deadline);
            if supply > demand {
                group.push([supply - demand, cycle, deadline]);
                demand = supply;
            }
        }
        if !group.is_empty() && r.once_in(2) {
            let task = r.index(group.len());
            match r.below(2) {
                0 => group[task][0] = (group[task][0] + 1).min(MOST_TICKS),
                _ => group[task][2] = (group[task][2] - 1).max(1),
            }
        }
        group
    }

    /// Tasks whose periods divide the cycle, often the shortest that can be met, so that the
    /// demand rises at very many lengths. Each has some work that is left to it; the last one has
    /// all that is left or, in a third of these, a tick more: then often it is due late, and so
    /// is the miss.
    fn filled(&mut self, r: &mut Random) -> Vec<Numbers> {
        let cycle = self.cycle(r);
        let count = r.one_of(&[1, 1, 2, 6, MOST_TASKS as u64]);
        let divides = |period: &u64| cycle.is_multiple_of(*period);
        let periods: Vec<u64> = (self.outage + 1..=cycle).filter(divides).collect();
        let some = r.one_of(&[1, 3, 3, periods.len() as u64]) as usize;
        let is_over = r.once_in(3);
        let mut left = Left::new(self, cycle);
        let mut group = Vec::new();
        for others in (0..count).rev() {
            let is_late = others == 0 && is_over && r.once_in(2);
            let period = match is_late {
                true => cycle,
                false => periods[r.index(some.min(periods.len()))],
            };
            let deadline = match r.below(3) {
                _ if is_late => r.between(cycle / 2, cycle),
                0 => r.between(self.outage + 1, period),
                _ => period,
            };
            let most = left.most_work(period, deadline);
            let work = match (others, r.below(3)) {
                (0, _) => most + u64::from(is_over),
                (_, 0) => 1,
                _ => r.between(1, (most / 4).max(1)),
            };
            let is_met = (1..=most).contains(&work);
            if is_met || (others == 0 && is_over) {
                let task = [work.min(MOST_TICKS), period, deadline];
                left.take(task);
                group.push(task);
            }
        }
        group
    }

    /// A group and the index of the task whose bound is asked. That task's work is the most with
    /// which there is a bound, which is then mostly late, or one more, or less; and often it is
    /// due just at its bound or one tick before.
    pub fn bounded(&mut self, r: &mut Random) -> (Vec<Numbers>, u64) {
        let index = r.one_of(&[0, 1, 2, 5, MOST_TASKS as u64 - 1]);
        let mut deadline = match r.below(4) {
            0 => r.between(1, self.table.frame()),
            1 => r.between(1, self.most_length),
            _ => self.most_length,
        };
        let mut group: Vec<Numbers> = (0..index).map(|_| self.above(r, index)).collect();
        let spare = self.spare(&group, deadline);
        let most = spare.iter().copied().max().unwrap_or(0).max(0) as u64;
        let work = match r.below(6) {
            0 => most + 1,
            1 => r.between(1, most),
            2 => r.between(1, (most / 50).max(1)),
            _ => most.max(1),
        };
        let first = spare.iter().position(|&spare| spare >= work as i64);
        if let (Some(before), true) = (first, r.once_in(2)) {
            deadline = (before as u64 + r.below(2)).max(1);
        }
        let period = r.one_of(&[deadline, MOST_TICKS]);
        group.push([work.min(MOST_TICKS), period, deadline]);
        // What stands below does not count, nor does a cycle that is far too long.
        while group.len() < MOST_TASKS && r.once_in(4) {
            let period = r.between(1, MOST_TICKS);
            group.push([r.between(1, MOST_TICKS), period, r.between(1, period)]);
        }
        (group, index)
    }

    /// One of `count` tasks above the one asked. Mostly its period is so long, and sometimes just
    /// so long, that all of them leave some supply; now and then it is any: then there may be no
    /// bound however late. No cycle counts.
    fn above(&self, r: &mut Random, count: u64) -> Numbers {
        let (frame, supplied) = (self.table.frame(), self.table.supplied_in_frame());
        let work = match r.below(3) {
            0 => r.between(1, (2 * supplied / count).max(1)),
            _ => 1,
        };
        let share = work * count * frame / supplied;
        let period = match r.below(12) {
            0 => r.between(1, MOST_TICKS),
            1 => frame * r.between(1, 4),
            2 => share + 1,
            _ => r.between(share, 4 * share) + r.below(frame),
        };
        let period = period.clamp(1, MOST_TICKS);
        [work, period, r.one_of(&[1, period])]
    }

    /// The least supply of t minus the work of the tasks above, for t in 1 to `last`.
    fn spare(&mut self, above: &[Numbers], last: u64) -> Vec<i64> {
        let interference = |t: u64| -> u64 {
            let work_of = |&[work, period, _]: &Numbers| t.div_ceil(period) * work;
            above.iter().map(work_of).sum()
        };
        (1..=last)
            .map(|t| self.least.of(t) as i64 - interference(t) as i64)
            .collect()
    }
}

/// What a group leaves of the least supply, at each length up to the cycle.
struct Left {
    of: Vec<i64>,
}

impl Left {
    fn new(ground: &mut Ground, cycle: u64) -> Self {
        let of = (0..=cycle).map(|t| ground.least.of(t) as i64).collect();
        Left { of }
    }

    /// Each length from the deadline on, and how many jobs of the task are due there.
    fn due(&self, period: u64, deadline: u64) -> impl Iterator<Item = (usize, i64)> {
        let jobs = move |length: usize| (length as u64 - deadline) / period + 1;
        (deadline as usize..self.of.len()).map(move |length| (length, jobs(length) as i64))
    }

    /// The most work with which a further task is met; 0 where there is none.
    fn most_work(&self, period: u64, deadline: u64) -> u64 {
        let most = self
            .due(period, deadline)
            .map(|(t, jobs)| self.of[t] / jobs);
        most.min().unwrap_or(0).max(0) as u64
    }

    fn take(&mut self, [work, period, deadline]: Numbers) {
        for (length, jobs) in self.due(period, deadline) {
            self.of[length] -= work as i64 * jobs;
        }
    }
}
