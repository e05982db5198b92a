//! The fixed-priority response bound (document 01, "The two tests").

use crate::answer::{Answer, Reason, Refusal};
use crate::table::{LeastSupplies, TableNumbers};
use crate::tasks::{Task, TaskNumbers};

/// The least t in 1 to D of task `index` with least supply of t at least its own C and the work
/// of every lower index. Checks the table and the group, then 7 where the asked task is absent;
/// never 6.
pub fn bound(table: &TableNumbers, tasks: &TaskNumbers, index: u64) -> Result<Answer, Refusal> {
    let table = table.check()?;
    let group = tasks.check()?;
    Reason::Asked.check(index >= group.tasks.len() as u64, 0)?;
    let (higher, rest) = group.tasks.split_at(index as usize);
    let task = rest[0];
    let mut least = LeastSupplies::new(&table);
    for t in 1..=task.deadline {
        if least.of(t) >= task.work + interference(higher, t) {
            return Ok(Answer::Bound(t));
        }
    }
    Ok(Answer::NoBound)
}

/// The sum of ceil(t/Tj)*Cj over the tasks of lower index, which have higher priority.
fn interference(higher: &[Task], t: u64) -> u64 {
    let work_of = |task: &Task| t.div_ceil(task.period) * task.work;
    higher.iter().map(work_of).sum()
}
