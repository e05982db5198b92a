//! A table that teams share: windows in threes of start, end and owner (document 02, request 4).

use crate::answer::{Reason, Refusal};
use crate::table::TableNumbers;

/// Two teams: "an owner but 0 or 1 breaks rule 3".
pub const OWNERS: u64 = 2;

/// The table that has only the asked owner's windows, in pairs and in order. Refusals 1, 2 and 3
/// of the whole list, with the owners 0 to `owners` - 1; then "an entry asked for an owner with no
/// window, or for no such owner, answers 1 at place 0, just after 3".
pub fn table_of(asked: u64, owners: u64, shared: &TableNumbers) -> Result<TableNumbers, Refusal> {
    shared.check_sizes()?;
    let windows: Vec<Window> = shared.windows.chunks(3).map(Window::new).collect();
    for (index, window) in windows.iter().enumerate() {
        let previous = index.checked_sub(1).map(|before| &windows[before]);
        let legal = window.is_in(shared.frame)
            && window.owner < owners
            && previous.is_none_or(|previous| window.may_follow(previous));
        Reason::Window.check(!legal, index)?;
    }
    let own = windows.iter().filter(|window| window.owner == asked);
    let pairs: Vec<u64> = own.flat_map(|window| [window.start, window.end]).collect();
    // No window has an owner that does not exist, so such an owner has none.
    Reason::WindowList.check(pairs.is_empty(), 0)?;
    Ok(TableNumbers::pairs(shared.frame, pairs))
}

struct Window {
    start: u64,
    end: u64,
    owner: u64,
}

impl Window {
    fn new(numbers: &[u64]) -> Window {
        Window {
            start: numbers[0],
            end: numbers[1],
            owner: numbers[2],
        }
    }

    fn is_in(&self, frame: u64) -> bool {
        self.start < self.end && self.end <= frame
    }

    /// "No window starts before the previous end. Windows of different owners may touch; windows
    /// of one owner may not."
    fn may_follow(&self, previous: &Window) -> bool {
        let touches = self.start == previous.end;
        self.start > previous.end || touches && self.owner != previous.owner
    }
}
