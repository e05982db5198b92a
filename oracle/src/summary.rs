//! A summary beside the table, and what is answered from it (document 02, request 6): "Keep one
//! owner's critical partition, A and delay beside the windows in lent memory, and answer least
//! supply from it."
//!
//! A summary is A, the delay, the number of critical windows, then the start and the end of each.
//! "Answers from the summary and from the plain definition agree at every length": so this program
//! finds out whether a summary belongs, and then answers by the plain definition.

use crate::answer::{Answer, Reason, Refusal};
use crate::table::{check_length, LeastSupplies, Table, TableNumbers};
use crate::tasks::TaskNumbers;

/// What a fresh making writes.
pub fn fresh(table: &Table) -> Vec<u64> {
    let mut least = LeastSupplies::new(table);
    let windows = least.critical_windows();
    let mut numbers = vec![
        table.supplied_in_frame(),
        least.delay(),
        windows.len() as u64,
    ];
    numbers.extend(windows.iter().flat_map(|&(start, end)| [start, end]));
    numbers
}

/// Refusal 14: "A summary that does not belong to the windows lent with it is 14, place 0". It
/// belongs when it begins with what a fresh making writes. What follows is not looked at, and one
/// that is too short does not begin with it.
pub fn check(table: &Table, summary: &[u64]) -> Result<(), Refusal> {
    Reason::Summary.check(!summary.starts_with(&fresh(table)), 0)
}

/// Makes a summary and keeps the rest of the lent buffer. Checks the table, then 8.
pub fn make(table: &TableNumbers, lent: &mut [u64]) -> Result<Answer, Refusal> {
    let summary = fresh(&table.check()?);
    let needed = summary.len();
    Reason::Room.check(lent.len() < needed, needed)?;
    lent[..needed].copy_from_slice(&summary);
    Ok(Answer::Summary(needed))
}

/// Checks the table, then 14, then 7.
pub fn least_supply(table: &TableNumbers, summary: &[u64], t: u64) -> Result<Answer, Refusal> {
    let table = table.check()?;
    check(&table, summary)?;
    check_length(t)?;
    Ok(Answer::Amount(table.least_supply(t)))
}

/// The margin at each length, and the rest of the lent buffer is kept. Checks the table and the
/// group, then 14, then 7 of every length, then 8.
pub fn margins(
    table: &TableNumbers,
    summary: &[u64],
    tasks: &TaskNumbers,
    lengths: &[u64],
    lent: &mut [i64],
) -> Result<Answer, Refusal> {
    let table = table.check()?;
    let group = tasks.check()?;
    check(&table, summary)?;
    for &length in lengths {
        check_length(length)?;
    }
    let needed = lengths.len();
    Reason::Room.check(lent.len() < needed, needed)?;
    for (margin, &length) in lent.iter_mut().zip(lengths) {
        *margin = table.least_supply(length) as i64 - group.demand(length) as i64;
    }
    Ok(Answer::Margins(needed))
}
