//! The task group and its demand (document 01, "Tables and sizes" and "Supply and demand").

use crate::answer::{Answer, Reason, Refusal};
use crate::table::{check_length, Table, TableNumbers};

pub const MOST_TASKS: usize = 32;
/// The greatest C, T and D.
pub const MOST_TICKS: u64 = 1_000_000;
/// The greatest cycle H.
pub const MOST_CYCLE: u64 = 1_000_000;

/// A group as it is lent, with any numbers: in triples C, T, D or as task records.
#[derive(Clone, Debug, PartialEq, Eq)]
pub enum TaskNumbers {
    Triples(Vec<u64>),
    Records(Vec<[u64; 3]>),
}

#[derive(Clone, Copy, Debug, PartialEq, Eq)]
pub struct Task {
    /// C
    pub work: u64,
    /// T, the least distance of releases
    pub period: u64,
    /// D, after the release
    pub deadline: u64,
}

/// A legal group.
pub struct Group {
    pub tasks: Vec<Task>,
}

impl TaskNumbers {
    /// Refusals 4 and 5.
    pub fn check(&self) -> Result<Group, Refusal> {
        let tasks = self.in_threes()?;
        Reason::TaskList.check(tasks.len() > MOST_TASKS, 0)?;
        for (index, task) in tasks.iter().enumerate() {
            Reason::Task.check(!task.is_legal(), index)?;
        }
        Ok(Group { tasks })
    }

    fn in_threes(&self) -> Result<Vec<Task>, Refusal> {
        match self {
            TaskNumbers::Triples(numbers) => {
                Reason::TaskList.check(numbers.len() % 3 != 0, 0)?;
                let triples = numbers.chunks(3);
                Ok(triples.map(|n| Task::new(n[0], n[1], n[2])).collect())
            }
            TaskNumbers::Records(records) => {
                let records = records.iter();
                Ok(records.map(|&[c, t, d]| Task::new(c, t, d)).collect())
            }
        }
    }
}

impl Task {
    fn new(work: u64, period: u64, deadline: u64) -> Task {
        Task {
            work,
            period,
            deadline,
        }
    }

    /// "Each is 1 to 1,000,000 and D <= T. C > D is legal."
    fn is_legal(&self) -> bool {
        let numbers = [self.work, self.period, self.deadline];
        numbers.iter().all(|n| (1..=MOST_TICKS).contains(n)) && self.deadline <= self.period
    }

    /// "0 where t < D, else (floor((t - D)/T) + 1)*C."
    pub fn demand(&self, length: u64) -> u64 {
        if length < self.deadline {
            return 0;
        }
        ((length - self.deadline) / self.period + 1) * self.work
    }
}

impl Group {
    pub fn demand(&self, length: u64) -> u64 {
        self.tasks.iter().map(|task| task.demand(length)).sum()
    }

    /// H, the least common multiple of the frame and all periods, or refusal 6.
    pub fn cycle(&self, table: &Table) -> Result<u64, Refusal> {
        let mut cycle = table.frame();
        for task in &self.tasks {
            cycle = least_common_multiple(cycle, task.period);
            // It never falls again, so the check can come now and no product grows too large.
            Reason::Cycle.check(cycle > MOST_CYCLE, 0)?;
        }
        Ok(cycle)
    }
}

/// Of two numbers of at least 1.
pub fn least_common_multiple(a: u64, b: u64) -> u64 {
    let (mut divisor, mut rest) = (a, b);
    while rest > 0 {
        (divisor, rest) = (rest, divisor % rest);
    }
    a / divisor * b
}

pub fn demand(tasks: &TaskNumbers, length: u64) -> Result<Answer, Refusal> {
    let group = tasks.check()?;
    check_length(length)?;
    Ok(Answer::Demand(group.demand(length)))
}

/// Least supply minus group demand, signed.
pub fn margin(table: &TableNumbers, tasks: &TaskNumbers, length: u64) -> Result<Answer, Refusal> {
    let table = table.check()?;
    let group = tasks.check()?;
    check_length(length)?;
    let supply = table.least_supply(length) as i64;
    Ok(Answer::Margin(supply - group.demand(length) as i64))
}

#[cfg(test)]
mod tests {
    use super::*;

    #[test]
    fn least_common_multiples_by_counting() {
        for a in 1..30 {
            for b in 1..30 {
                let counted = (1..).find(|m| m % a == 0 && m % b == 0);
                assert_eq!(Some(least_common_multiple(a, b)), counted);
            }
        }
    }

    /// Demand as what it counts: releases at 0, T, 2T and on, each with its deadline by t.
    #[test]
    fn demand_by_counting_releases() {
        for period in 1..8 {
            for deadline in 1..=period {
                let task = Task::new(3, period, deadline);
                for length in 0..40 {
                    let releases = (0..40).map(|k| k * period);
                    let due = releases.filter(|r| r + deadline <= length).count() as u64;
                    assert_eq!(task.demand(length), 3 * due);
                }
            }
        }
    }
}
