//! The earliest-deadline-first verdict (document 01, "The two tests").

use crate::answer::{Answer, Refusal};
use crate::table::{LeastSupplies, TableNumbers};
use crate::tasks::TaskNumbers;

/// "Meets" with H, or the least length in 1 to H with demand above least supply and the least
/// start that holds that least supply. Checks the table and the group, then 6.
pub fn verdict(table: &TableNumbers, tasks: &TaskNumbers) -> Result<Answer, Refusal> {
    let table = table.check()?;
    let group = tasks.check()?;
    let cycle = group.cycle(&table)?;
    let mut least = LeastSupplies::new(&table);
    for length in 1..=cycle {
        let demand = group.demand(length);
        let supply = least.of(length);
        if demand > supply {
            return Ok(Answer::Miss {
                length,
                start: table.least_start(length),
                demand,
                supply,
            });
        }
    }
    Ok(Answer::Meets { cycle })
}
