//! The shortest allowed window m: a table with a sliver is refused (document 02, request 5).

use crate::answer::{Reason, Refusal};
use crate::table::TableNumbers;

/// "A shortest allowed window m, 1 to 65,536."
pub const MOST_SHORTEST: u64 = 65_536;
/// The m of a table that sets none, and of "old plan files": no window is shorter than one tick.
const NOT_SET: u64 = 1;
/// "m outside its range is 12 at place 64", one past the greatest index of a window.
const OUT_OF_RANGE: usize = 64;

/// Refusal 12 of a table that is legal by 3: "some window is shorter than m, with the lowest
/// index; m outside its range is 12 at place 64, before that". The windows are those of the whole
/// list, whoever owns them.
pub fn check(table: &TableNumbers) -> Result<(), Refusal> {
    let shortest = table.shortest.unwrap_or(NOT_SET);
    let is_in_range = (1..=MOST_SHORTEST).contains(&shortest);
    Reason::Sliver.check(!is_in_range, OUT_OF_RANGE)?;
    for (index, window) in table.windows.chunks(table.numbers_a_window()).enumerate() {
        let ticks = window[1] - window[0];
        Reason::Sliver.check(ticks < shortest, index)?;
    }
    Ok(())
}
