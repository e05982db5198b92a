//! Moving, adding or removing one window of a table that has a summary beside it (document 02,
//! request 6): "the summary must be the one a fresh making would give".

use crate::answer::{Answer, Reason, Refusal};
use crate::summary;
use crate::table::TableNumbers;

/// What is done to the window at an index.
#[derive(Clone, Copy, Debug, PartialEq, Eq)]
pub enum Kind {
    Move = 0,
    Add = 1,
    Remove = 2,
}

/// One edit. A move uses the start and the end, an addition the owner too, a removal none of them.
#[derive(Clone, Copy, Debug, PartialEq, Eq)]
pub struct Edit {
    pub kind: Kind,
    pub index: u64,
    pub start: u64,
    pub end: u64,
    pub owner: u64,
}

const NUMBERS_A_WINDOW: usize = 3;

/// `memory` is a table whose windows are lent memory: the first `count` threes are its list, the
/// rest is room. Both memories begin with the new list and its summary afterwards, and the rest of
/// each is as it was; on a refusal neither changes.
///
/// Checks the old table whole, so an edit can't repair one that is refused; then 14 of its summary,
/// 7 of the index, the new table, and 8 first for the windows and then for the summary.
pub fn edit(
    memory: &mut TableNumbers,
    count: u64,
    summary: &mut [u64],
    edit: &Edit,
) -> Result<Answer, Refusal> {
    let numbers = count * NUMBERS_A_WINDOW as u64;
    // "A memory shorter than that is refusal 1."
    Reason::WindowList.check((memory.windows.len() as u64) < numbers, 0)?;
    let old = TableNumbers {
        windows: memory.windows[..numbers as usize].to_vec(),
        ..memory.clone()
    };
    summary::check(&old.check()?, summary)?;
    let new = edit.apply(&old)?;
    let new_summary = summary::fresh(&new.check()?);
    for (lent, needed) in [
        (memory.windows.len(), new.windows.len()),
        (summary.len(), new_summary.len()),
    ] {
        Reason::Room.check(lent < needed, needed)?;
    }
    memory.windows[..new.windows.len()].copy_from_slice(&new.windows);
    summary[..new_summary.len()].copy_from_slice(&new_summary);
    Ok(Answer::Edited {
        count: new.windows.len() / NUMBERS_A_WINDOW,
        summary: new_summary.len(),
    })
}

impl Edit {
    /// The table after the edit, which may be illegal; or 7: "an absent index is 7 (adding inserts
    /// at the index, the count allowed)".
    pub fn apply(&self, old: &TableNumbers) -> Result<TableNumbers, Refusal> {
        let mut windows: Vec<Vec<u64>> = old
            .windows
            .chunks(NUMBERS_A_WINDOW)
            .map(<[u64]>::to_vec)
            .collect();
        let count = windows.len() as u64;
        let is_absent = match self.kind {
            Kind::Add => self.index > count,
            Kind::Move | Kind::Remove => self.index >= count,
        };
        Reason::Asked.check(is_absent, 0)?;
        let index = self.index as usize;
        match self.kind {
            Kind::Move => {
                let owner = windows[index][2];
                windows[index] = vec![self.start, self.end, owner];
            }
            Kind::Add => windows.insert(index, vec![self.start, self.end, self.owner]),
            Kind::Remove => {
                windows.remove(index);
            }
        }
        Ok(TableNumbers {
            windows: windows.concat(),
            ..old.clone()
        })
    }
}

impl Kind {
    /// By its number in a stream, up to the greatest.
    pub const ALL: [Kind; 3] = [Kind::Move, Kind::Add, Kind::Remove];
}
