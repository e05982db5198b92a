//! Edits of a table with a summary beside it (document 02, request 6): X and X beside another team,
//! each kind of edit, and refusals, worked out by hand.

use crate::edit::{Edit, Kind};
use crate::query::{EditNumbers, Query};
use crate::table::TableNumbers;

const GREATEST: u64 = 4_294_967_295;
/// What an edit gives that does not use a number.
const ANY: u64 = 9;

const X: [u64; 6] = [0, 2, 0, 5, 7, 0];
const OF_X: [u64; 7] = [4, 12, 2, 3, 5, 6, 8];
const SHARED: [u64; 12] = [0, 2, 0, 2, 5, 1, 5, 7, 0, 7, 8, 1];
const OF_OWNER_1: [u64; 7] = [4, 12, 2, 2, 3, 5, 8];

fn moved(index: u64, start: u64, end: u64) -> Edit {
    let owner = ANY;
    Edit {
        kind: Kind::Move,
        index,
        start,
        end,
        owner,
    }
}

fn added(index: u64, start: u64, end: u64, owner: u64) -> Edit {
    Edit {
        kind: Kind::Add,
        index,
        start,
        end,
        owner,
    }
}

fn removed(index: u64) -> Edit {
    Edit {
        kind: Kind::Remove,
        index,
        start: ANY,
        end: ANY,
        owner: ANY,
    }
}

/// A frame of 8 and its windows memory, asked for one owner.
fn memory(windows: &[u64], owner: u64) -> TableNumbers {
    TableNumbers::threes(8, windows.to_vec(), owner)
}

fn with_shortest(table: TableNumbers, shortest: u64) -> TableNumbers {
    TableNumbers {
        shortest: Some(shortest),
        ..table
    }
}

fn line(memory: TableNumbers, count: u64, summary: &[u64], edit: Edit) -> String {
    Query::Edit(EditNumbers {
        memory,
        count,
        summary: summary.to_vec(),
        edit,
    })
    .line()
}

/// Of X, with room for a window and two numbers more.
fn of_x(edit: Edit) -> String {
    let windows = [&X[..], &[31, 32, 33]].concat();
    let summary = [&OF_X[..], &[41, 42]].concat();
    line(memory(&windows, 0), 2, &summary, edit)
}

/// Of X beside owner 1, with room for a window.
fn of_shared(owner: u64, edit: Edit) -> String {
    let windows = [&SHARED[..], &[31, 32, 33]].concat();
    let summary = match owner {
        0 => OF_X,
        _ => OF_OWNER_1,
    };
    line(memory(&windows, owner), 4, &summary, edit)
}

#[test]
fn windows_that_move() {
    // Ticks 0, 1, 4 and 5, as in a frame of 4: least supply 0, 0, 0, 1, 2, 2, 2, 3, 4.
    let expected = "EDITED count 2 summary 7 \
        BUFFER 0 2 0 4 6 0 31 32 33 BUFFER 4 8 2 2 4 6 8 41 42";
    assert_eq!(of_x(moved(1, 4, 6)), expected);
    // Ticks 0, 5 and 6: 1 to 4 are silent, and 7 to 4 hold one tick.
    let expected = "EDITED count 2 summary 7 \
        BUFFER 0 1 0 5 7 0 31 32 33 BUFFER 3 12 2 4 5 6 8 41 42";
    assert_eq!(of_x(moved(0, 0, 1)), expected);
    // Ticks 0, 1, 3 and 4 are X turned around: the same summary.
    let expected = "EDITED count 2 summary 7 \
        BUFFER 0 2 0 3 5 0 31 32 33 BUFFER 4 12 2 3 5 6 8 41 42";
    assert_eq!(of_x(moved(1, 3, 5)), expected);
    // To where it is.
    let expected = "EDITED count 2 summary 7 \
        BUFFER 0 2 0 5 7 0 31 32 33 BUFFER 4 12 2 3 5 6 8 41 42";
    assert_eq!(of_x(moved(0, 0, 2)), expected);
}

#[test]
fn windows_that_are_added() {
    // Ticks 0, 1, 3, 5 and 6: least supply 0, 0, 1, 1, 2, 3, 3, 4, 5, and 5*3 - 8*1 is the delay.
    let expected = "EDITED count 3 summary 9 \
        BUFFER 0 2 0 3 4 0 5 7 0 BUFFER 5 7 3 1 2 3 5 6 8";
    assert_eq!(of_x(added(1, 3, 4, 0)), expected);
    // Owner 1's change nothing of the summary, before the first and after the last too.
    let expected = "EDITED count 3 summary 7 \
        BUFFER 0 2 0 2 5 1 5 7 0 BUFFER 4 12 2 3 5 6 8 41 42";
    assert_eq!(of_x(added(1, 2, 5, 1)), expected);
    let expected = "EDITED count 3 summary 7 \
        BUFFER 0 2 0 5 7 0 7 8 1 BUFFER 4 12 2 3 5 6 8 41 42";
    assert_eq!(of_x(added(2, 7, 8, 1)), expected);
    // Before (3,5): ticks 0, 1, 3 and 4 are X turned around.
    let lab = [3, 5, 0, 0, 0, 0];
    let expected = "EDITED count 2 summary 7 BUFFER 0 2 0 3 5 0 BUFFER 4 12 2 3 5 6 8";
    let summary = [2, 12, 1, 6, 8, 41, 42];
    let edited = line(memory(&lab, 0), 1, &summary, added(0, 0, 2, 0));
    assert_eq!(edited, expected);
    // The rest of the windows memory may be anything, here what would be a window.
    let more = [3, 5, 0, 6, 7, 0, 6, 7, 0];
    let expected = "EDITED count 2 summary 5 BUFFER 3 5 0 7 8 1 6 7 0 BUFFER 2 12 1 6 8 41 42";
    let edited = line(memory(&more, 0), 1, &summary, added(1, 7, 8, 1));
    assert_eq!(edited, expected);
}

/// The rest is as it was: after the new list still stands what was the last window.
#[test]
fn windows_that_are_removed() {
    // Ticks 5 and 6, or 0 and 1: six silent ticks, 2*6 - 8*0.
    let expected = "EDITED count 1 summary 5 \
        BUFFER 5 7 0 5 7 0 31 32 33 BUFFER 2 12 1 6 8 6 8 41 42";
    assert_eq!(of_x(removed(0)), expected);
    let expected = "EDITED count 1 summary 5 \
        BUFFER 0 2 0 5 7 0 31 32 33 BUFFER 2 12 1 6 8 6 8 41 42";
    assert_eq!(of_x(removed(1)), expected);
    // Owner 1's, from between X's windows.
    let expected = "EDITED count 3 summary 7 \
        BUFFER 0 2 0 5 7 0 7 8 1 7 8 1 31 32 33 BUFFER 4 12 2 3 5 6 8";
    assert_eq!(of_shared(0, removed(1)), expected);
}

#[test]
fn edits_for_owner_1() {
    // Its (2,5) becomes (3,5), and the owner 9 is not read. Ticks 3, 4 and 7: least supply
    // 0, 0, 0, 0, 1, 1, 1, 2, 3, and 3*6 - 8*1 is the delay.
    let expected = "EDITED count 4 summary 7 \
        BUFFER 0 2 0 3 5 1 5 7 0 7 8 1 31 32 33 BUFFER 3 10 2 3 4 6 8";
    assert_eq!(of_shared(1, moved(1, 3, 5)), expected);
    // The same for owner 0, whose summary stays.
    let expected = "EDITED count 4 summary 7 \
        BUFFER 0 2 0 3 5 1 5 7 0 7 8 1 31 32 33 BUFFER 4 12 2 3 5 6 8";
    assert_eq!(of_shared(0, moved(1, 3, 5)), expected);
    // Owner 0's window moves, and owner 1's summary stays.
    let expected = "EDITED count 4 summary 7 \
        BUFFER 0 1 0 2 5 1 5 7 0 7 8 1 31 32 33 BUFFER 4 12 2 2 3 5 8";
    assert_eq!(of_shared(1, moved(0, 0, 1)), expected);
    // Owner 1 without (2,5): tick 7, 1*7 - 8*0.
    let expected = "EDITED count 3 summary 5 \
        BUFFER 0 2 0 5 7 0 7 8 1 7 8 1 31 32 33 BUFFER 1 7 1 7 8 5 8";
    assert_eq!(of_shared(1, removed(1)), expected);
    // Owner 1 without (7,8): ticks 2, 3 and 4, 3*5 - 8*0.
    let expected = "EDITED count 3 summary 5 \
        BUFFER 0 2 0 2 5 1 5 7 0 7 8 1 31 32 33 BUFFER 3 15 1 5 8 5 8";
    assert_eq!(of_shared(1, removed(3)), expected);
}

/// "Windows of different owners may touch; windows of one owner may not", and the owner stays.
#[test]
fn new_windows_that_touch() {
    let refusal = |line: String| line.split(" BUFFER").next().unwrap_or("").to_string();
    let edited = |owner, edit| refusal(of_shared(owner, edit));
    for owner in 0..2 {
        // The other owner's may be touched, or left.
        assert_eq!(
            edited(owner, moved(2, 5, 6)).find("EDITED count 4"),
            Some(0)
        );
        assert_eq!(edited(owner, moved(3, 6, 8)), "REFUSED 3 at 3");
        assert_eq!(edited(owner, moved(1, 2, 6)), "REFUSED 3 at 2");
        assert_eq!(edited(owner, moved(0, 0, 3)), "REFUSED 3 at 1");
        // Inserted at 2, between (2,5) and (5,7): there is no tick.
        assert_eq!(edited(owner, added(2, 5, 5, 0)), "REFUSED 3 at 2");
        assert_eq!(edited(owner, added(2, 5, 7, 1)), "REFUSED 3 at 2");
        assert_eq!(edited(owner, added(2, 5, 7, 0)), "REFUSED 3 at 3");
        assert_eq!(edited(owner, added(2, 5, 7, 2)), "REFUSED 3 at 2");
    }
    let edited = |edit| refusal(of_x(edit));
    assert_eq!(edited(added(1, 2, 3, 0)), "REFUSED 3 at 1");
    assert_eq!(edited(added(1, 2, 3, 1)), "EDITED count 3 summary 7");
    assert_eq!(edited(added(1, 4, 5, 0)), "REFUSED 3 at 2");
    assert_eq!(edited(added(1, 4, 5, 1)), "EDITED count 3 summary 7");
    assert_eq!(edited(added(2, 7, 8, 0)), "REFUSED 3 at 2");
    assert_eq!(edited(added(2, 8, 9, 1)), "REFUSED 3 at 2");
    assert_eq!(edited(added(1, 3, 4, 2)), "REFUSED 3 at 1");
    assert_eq!(edited(added(1, 3, 4, GREATEST)), "REFUSED 3 at 1");
    // In its place alone.
    assert_eq!(edited(added(0, 3, 4, 0)), "REFUSED 3 at 1");
    assert_eq!(edited(added(2, 3, 4, 0)), "REFUSED 3 at 2");
    assert_eq!(edited(moved(0, 7, 8)), "REFUSED 3 at 1");
    assert_eq!(edited(moved(1, 2, 4)), "REFUSED 3 at 1");
    assert_eq!(edited(moved(1, 5, 9)), "REFUSED 3 at 1");
    assert_eq!(edited(moved(1, 7, 7)), "REFUSED 3 at 1");
    assert_eq!(edited(moved(1, 7, 5)), "REFUSED 3 at 1");
    assert_eq!(edited(moved(0, GREATEST, GREATEST)), "REFUSED 3 at 0");
    // The other owner's too, whoever asks.
    let other = [0, 2, 0, 3, 4, 1, 5, 7, 0];
    let edited = line(memory(&other, 0), 3, &OF_X, moved(1, 5, 6));
    assert_eq!(refusal(edited), "REFUSED 3 at 2");
}

/// Both memories are as they were.
fn refused(memory: TableNumbers, count: u64, summary: &[u64], edit: Edit) -> String {
    let after = |numbers: &[u64]| {
        let numbers: Vec<String> = numbers.iter().map(|n| format!(" {n}")).collect();
        format!(" BUFFER{}", numbers.concat())
    };
    let buffers = after(&memory.windows) + &after(summary);
    let line = line(memory, count, summary, edit);
    match line.strip_suffix(&buffers) {
        Some(refusal) => refusal.to_string(),
        None => panic!("{line}"),
    }
}

#[test]
fn a_memory_shorter_than_its_count() {
    let none = memory(&[], 0);
    let short = |count| {
        let mut x = memory(&X, 2);
        x.frame = 0;
        refused(x, count, &[], moved(9, 9, 9))
    };
    // Before 2 and all others; 3*1,431,655,766 is 2 in 32 bits.
    for count in [3, 4, 65, 256, 65_536, 1_431_655_766, GREATEST] {
        assert_eq!(short(count), "REFUSED 1 at 0", "{count}");
    }
    assert_eq!(short(2), "REFUSED 2 at 0");
    assert_eq!(short(0), "REFUSED 1 at 0");
    assert_eq!(
        refused(none.clone(), 0, &[], added(0, 0, 2, 0)),
        "REFUSED 1 at 0"
    );
    assert_eq!(refused(none, 1, &[], added(0, 0, 2, 0)), "REFUSED 1 at 0");
    // One number short of a window, and enough but for the room.
    let cut = memory(&X[..5], 0);
    assert_eq!(refused(cut.clone(), 2, &OF_X, removed(1)), "REFUSED 1 at 0");
    let one = [2, 12, 1, 6, 8];
    let add = added(1, 5, 7, 0);
    assert_eq!(refused(cut, 1, &one, add), "REFUSED 8 at 6");
    // The list is as long as the count says: what follows is not looked at.
    let both = memory(&X, 0);
    assert_eq!(refused(both, 1, &OF_X, add), "REFUSED 14 at 0");
    let edited = line(memory(&X, 0), 1, &one, moved(0, 6, 8));
    assert_eq!(
        edited,
        "EDITED count 1 summary 5 BUFFER 6 8 0 5 7 0 BUFFER 2 12 1 6 8"
    );
}

/// "The old table is checked whole first, so an edit can't repair a table that is refused."
#[test]
fn refusals_of_the_old_table_in_order() {
    let wrong = &OF_X[..6];
    let old = |frame, windows: &[u64], owner, shortest| TableNumbers {
        frame,
        windows: windows.to_vec(),
        owner: Some(owner),
        shortest: Some(shortest),
        switch: None,
    };
    // Each before 14 and 7.
    let at = |table, count| refused(table, count, wrong, removed(64));
    assert_eq!(at(old(0, &X, 2, 0), 0), "REFUSED 1 at 0");
    let many: Vec<u64> = (0..65).flat_map(|i| [2 * i, 2 * i + 1, 0]).collect();
    assert_eq!(at(old(0, &many, 2, 0), 65), "REFUSED 1 at 0");
    assert_eq!(at(old(0, &[1, 1, 0], 2, 0), 1), "REFUSED 2 at 0");
    assert_eq!(at(old(8, &[1, 1, 0], 2, 0), 1), "REFUSED 3 at 0");
    assert_eq!(at(old(8, &X, 1, 0), 2), "REFUSED 1 at 0");
    assert_eq!(at(old(8, &X, 0, 0), 2), "REFUSED 12 at 64");
    assert_eq!(at(old(8, &X, 0, 3), 2), "REFUSED 12 at 0");
    assert_eq!(at(old(8, &X, 0, 2), 2), "REFUSED 14 at 0");
    // An edit that would mend it: 65 windows to 64, a window that touches, owner 1's first window,
    // a sliver. The summary is that of the table as it would be, or of what is legal of it.
    let one = [2, 12, 1, 6, 8];
    let full = old(130, &many, 0, 1);
    assert_eq!(refused(full, 65, &[], removed(64)), "REFUSED 1 at 0");
    let touching = memory(&[0, 2, 0, 2, 7, 0], 0);
    let mend = moved(1, 5, 7);
    assert_eq!(refused(touching, 2, &OF_X, mend), "REFUSED 3 at 1");
    let absent = memory(&[5, 7, 0, 0, 0, 0], 1);
    let mend = added(0, 0, 2, 1);
    assert_eq!(refused(absent, 1, &one, mend), "REFUSED 1 at 0");
    let sliver = old(8, &[0, 2, 0, 5, 6, 0], 0, 2);
    let mend = moved(1, 5, 7);
    assert_eq!(refused(sliver, 2, &OF_X, mend), "REFUSED 12 at 1");
}

#[test]
fn summaries_that_do_not_belong() {
    let at = |summary: &[u64], edit| refused(memory(&X, 0), 2, summary, edit);
    // That of the new table is not that of the old one.
    let after = [2, 12, 1, 6, 8, 6, 8];
    assert_eq!(at(&after, removed(0)), "REFUSED 14 at 0");
    for end in 0..OF_X.len() {
        assert_eq!(at(&OF_X[..end], removed(0)), "REFUSED 14 at 0");
    }
    for index in 0..OF_X.len() {
        let mut summary = OF_X;
        summary[index] += 1;
        assert_eq!(at(&summary, removed(0)), "REFUSED 14 at 0");
    }
    // Before 7, the new table's refusals and 8.
    let wrong = &OF_X[..6];
    assert_eq!(at(wrong, removed(2)), "REFUSED 14 at 0");
    assert_eq!(at(wrong, moved(0, 0, 9)), "REFUSED 14 at 0");
    assert_eq!(at(wrong, added(2, 7, 8, 1)), "REFUSED 14 at 0");
    // Each owner has its own.
    let shared = |owner, summary: &[u64]| refused(memory(&SHARED, owner), 4, summary, removed(4));
    assert_eq!(shared(0, &OF_OWNER_1), "REFUSED 14 at 0");
    assert_eq!(shared(1, &OF_X), "REFUSED 14 at 0");
    assert_eq!(shared(1, &OF_OWNER_1), "REFUSED 7 at 0");
}

/// "An absent index is 7 (adding inserts at the index, the count allowed)."
#[test]
fn absent_indices() {
    let at = |edit| refused(memory(&X, 0), 2, &OF_X, edit);
    for index in [2, 3, 64, 256, 65_536, 1_431_655_766, GREATEST] {
        assert_eq!(at(removed(index)), "REFUSED 7 at 0", "{index}");
        assert_eq!(at(moved(index, 5, 7)), "REFUSED 7 at 0", "{index}");
        // Before 3 of the new table.
        assert_eq!(at(moved(index, 9, 9)), "REFUSED 7 at 0", "{index}");
    }
    for index in [3, 4, 256, 65_536, GREATEST] {
        assert_eq!(at(added(index, 7, 8, 1)), "REFUSED 7 at 0", "{index}");
        assert_eq!(at(added(index, 9, 9, 9)), "REFUSED 7 at 0", "{index}");
    }
    // At the count it is there, but for the room.
    assert_eq!(at(added(2, 7, 8, 1)), "REFUSED 8 at 9");
}

#[test]
fn refusals_of_the_new_table_in_order() {
    let one = [2, 12, 1, 6, 8];
    // 1: no window is left.
    let single = memory(&[0, 2, 0], 0);
    assert_eq!(refused(single, 1, &one, removed(0)), "REFUSED 1 at 0");
    // 1: the owner has none left, though another has.
    let both = [0, 2, 0, 5, 7, 1];
    let remove = |owner, index| line(memory(&both, owner), 2, &one, removed(index));
    assert_eq!(
        remove(0, 0),
        "REFUSED 1 at 0 BUFFER 0 2 0 5 7 1 BUFFER 2 12 1 6 8"
    );
    assert_eq!(
        remove(1, 1),
        "REFUSED 1 at 0 BUFFER 0 2 0 5 7 1 BUFFER 2 12 1 6 8"
    );
    let expected = "EDITED count 1 summary 5 BUFFER 5 7 1 5 7 1 BUFFER 2 12 1 6 8";
    assert_eq!(remove(1, 0), expected);
    let expected = "EDITED count 1 summary 5 BUFFER 0 2 0 5 7 1 BUFFER 2 12 1 6 8";
    assert_eq!(remove(0, 1), expected);
    // 3 before 12, and 12 before 8.
    let at = |shortest, edit| refused(with_shortest(memory(&X, 0), shortest), 2, &OF_X, edit);
    assert_eq!(at(2, moved(1, 1, 2)), "REFUSED 3 at 1");
    assert_eq!(at(2, moved(0, 0, 1)), "REFUSED 12 at 0");
    assert_eq!(at(2, moved(1, 7, 8)), "REFUSED 12 at 1");
    assert_eq!(at(2, added(1, 2, 3, 0)), "REFUSED 3 at 1");
    assert_eq!(at(2, added(1, 3, 4, 0)), "REFUSED 12 at 1");
    assert_eq!(at(2, added(2, 7, 8, 1)), "REFUSED 12 at 2");
    // 3 before 8, and then 8.
    assert_eq!(at(1, added(1, 2, 3, 0)), "REFUSED 3 at 1");
    assert_eq!(at(1, added(1, 3, 4, 0)), "REFUSED 8 at 9");
    assert_eq!(at(1, added(2, 7, 8, 1)), "REFUSED 8 at 9");
}

/// 64 windows of one tick each, every second tick of 128: the least supply of t is t / 2 rounded
/// down, and the delay is 64*1 - 128*0.
#[test]
fn at_most_64_windows() {
    let windows: Vec<u64> = (0..64).flat_map(|i| [2 * i, 2 * i + 1, 0]).collect();
    let of = |frame, room: usize, summary: &[u64], edit| {
        let mut numbers = windows.clone();
        numbers.resize(192 + room, 7);
        let table = TableNumbers::threes(frame, numbers, 0);
        let line = line(table, 64, summary, edit);
        line.split(" BUFFER").next().unwrap_or("").to_string()
    };
    let mut summary = vec![64, 64, 64];
    summary.extend((1..=64).flat_map(|k| [2 * k - 1, 2 * k]));
    assert_eq!(
        of(128, 0, &summary, moved(0, 0, 1)),
        "EDITED count 64 summary 131"
    );
    // Without tick 126 three ticks are silent, 125 to 127: 63 critical windows from 3 on.
    assert_eq!(
        of(128, 0, &summary, removed(63)),
        "EDITED count 63 summary 129"
    );
    // 65: before 3 and 8.
    assert_eq!(
        of(128, 3, &summary, added(64, 127, 128, 1)),
        "REFUSED 1 at 0"
    );
    assert_eq!(
        of(128, 0, &summary, added(64, 127, 128, 1)),
        "REFUSED 1 at 0"
    );
    assert_eq!(of(128, 0, &summary, added(0, 9, 9, 9)), "REFUSED 1 at 0");
    assert_eq!(
        of(128, 0, &summary, added(65, 127, 128, 1)),
        "REFUSED 7 at 0"
    );
    assert_eq!(
        of(128, 0, &summary[..130], added(65, 9, 9, 9)),
        "REFUSED 14 at 0"
    );
}

/// "8 first for the windows, then for the summary, with the numbers needed."
#[test]
fn room_for_windows_and_for_a_summary() {
    // Ticks 0, 1, 3, 5 and 6, whose summary has nine numbers.
    let add = added(1, 3, 4, 0);
    let of = |windows: usize, summary: usize| {
        let mut lent = X.to_vec();
        lent.resize(windows, 31);
        let mut kept = OF_X.to_vec();
        kept.resize(summary, 41);
        line(memory(&lent, 0), 2, &kept, add)
    };
    for (windows, lent) in [(6, ""), (7, " 31"), (8, " 31 31")] {
        for (summary, kept) in [(7, ""), (8, " 41"), (9, " 41 41")] {
            let expected =
                format!("REFUSED 8 at 9 BUFFER 0 2 0 5 7 0{lent} BUFFER 4 12 2 3 5 6 8{kept}");
            assert_eq!(of(windows, summary), expected);
        }
    }
    let expected = "REFUSED 8 at 9 BUFFER 0 2 0 5 7 0 31 31 31 BUFFER 4 12 2 3 5 6 8 41";
    assert_eq!(of(9, 8), expected);
    let expected = "REFUSED 8 at 9 BUFFER 0 2 0 5 7 0 31 31 31 31 BUFFER 4 12 2 3 5 6 8";
    assert_eq!(of(10, 7), expected);
    let expected = "EDITED count 3 summary 9 \
        BUFFER 0 2 0 3 4 0 5 7 0 BUFFER 5 7 3 1 2 3 5 6 8";
    assert_eq!(of(9, 9), expected);
    let expected = "EDITED count 3 summary 9 \
        BUFFER 0 2 0 3 4 0 5 7 0 31 BUFFER 5 7 3 1 2 3 5 6 8 41";
    assert_eq!(of(10, 10), expected);
    // With owner 1's tick 7 there are four windows then: the numbers needed differ.
    let of = |windows: usize, summary: usize| {
        let mut lent = [&X[..], &[7, 8, 1]].concat();
        lent.resize(windows, 31);
        let mut kept = OF_X.to_vec();
        kept.resize(summary, 41);
        let line = line(memory(&lent, 0), 3, &kept, add);
        line.split(" BUFFER").next().unwrap_or("").to_string()
    };
    assert_eq!(of(9, 7), "REFUSED 8 at 12");
    assert_eq!(of(11, 8), "REFUSED 8 at 12");
    assert_eq!(of(11, 9), "REFUSED 8 at 12");
    assert_eq!(of(12, 7), "REFUSED 8 at 9");
    assert_eq!(of(12, 8), "REFUSED 8 at 9");
    assert_eq!(of(12, 9), "EDITED count 4 summary 9");
}

/// A removal needs no more room for windows, but it may for the summary.
#[test]
fn edits_that_need_room_for_the_summary() {
    // Silent ticks 1, 4, 5 and 8 of 10. Least supply 0, 0, 0, 1, 2, 2, 3, 4, 4, 5, 6, since five
    // ticks hold three silent ones at most and seven too; 6*2 - 10*0 is the delay.
    let windows = [0, 1, 0, 2, 4, 0, 6, 8, 0, 9, 10, 0];
    let old = [6, 12, 3, 2, 4, 5, 7, 8, 10];
    // With 9 silent too: 4 to 9 hold four of them, 4 to 11 hold all five. Least supply
    // 0, 0, 0, 1, 1, 2, 2, 3, 3, 4, 5, and 5*t - 10*(least supply of t) is 10 at 2, 4, 6 and 8.
    let remove = |room: usize| {
        let mut summary = old.to_vec();
        summary.resize(room, 41);
        let table = TableNumbers::threes(10, windows.to_vec(), 0);
        line(table, 4, &summary, removed(3))
    };
    let expected = "REFUSED 8 at 11 \
        BUFFER 0 1 0 2 4 0 6 8 0 9 10 0 BUFFER 6 12 3 2 4 5 7 8 10";
    assert_eq!(remove(9), expected);
    assert_eq!(remove(10), format!("{expected} 41"));
    let expected = "EDITED count 3 summary 11 \
        BUFFER 0 1 0 2 4 0 6 8 0 9 10 0 BUFFER 5 10 4 2 3 4 5 6 7 8 10";
    assert_eq!(remove(11), expected);
    // From a full frame to six ticks of it: as many numbers.
    let full = [0, 8, 0];
    let edited = line(memory(&full, 0), 1, &[8, 0, 1, 0, 8], moved(0, 1, 7));
    let expected = "EDITED count 1 summary 5 BUFFER 1 7 0 BUFFER 6 12 1 2 8";
    assert_eq!(edited, expected);
}

/// Some edits one after another, each on the memories that the one before left.
#[test]
fn a_chain_of_edits() {
    let step = |memories: &(Vec<u64>, u64, Vec<u64>), edit, expected: &str| {
        let (windows, count, summary) = memories;
        let edited = line(memory(windows, 0), *count, summary, edit);
        assert_eq!(edited, expected);
        let buffers: Vec<Vec<u64>> = edited
            .split(" BUFFER ")
            .skip(1)
            .map(|buffer| buffer.split(' ').map(|n| n.parse().unwrap()).collect())
            .collect();
        let count = edited.split(' ').nth(2).unwrap().parse().unwrap();
        (buffers[0].clone(), count, buffers[1].clone())
    };
    // X, then ticks 0, 1, 3, 5 and 6, then 0, 1 and 3, then 3 and 4, then 3 and 4 with owner 1.
    let lent = [&X[..], &[7; 3]].concat();
    let summary = [&OF_X[..], &[7; 2]].concat();
    let at = (lent, 2, summary);
    let expected = "EDITED count 3 summary 9 BUFFER 0 2 0 3 4 0 5 7 0 BUFFER 5 7 3 1 2 3 5 6 8";
    let at = step(&at, added(1, 3, 4, 0), expected);
    // Silent 2 and 4 to 7: 2 to 7 hold one tick. Least supply 0, 0, 0, 0, 0, 1, 1, 2, 3; 3*4 - 8*0.
    let expected = "EDITED count 2 summary 7 BUFFER 0 2 0 3 4 0 5 7 0 BUFFER 3 12 2 4 5 6 8 6 8";
    let at = step(&at, removed(2), expected);
    let expected = "EDITED count 1 summary 5 BUFFER 3 4 0 3 4 0 5 7 0 BUFFER 1 7 1 7 8 6 8 6 8";
    let at = step(&at, removed(0), expected);
    let expected = "EDITED count 1 summary 5 BUFFER 3 5 0 3 4 0 5 7 0 BUFFER 2 12 1 6 8 6 8 6 8";
    let at = step(&at, moved(0, 3, 5), expected);
    let expected = "EDITED count 2 summary 5 BUFFER 0 3 1 3 5 0 5 7 0 BUFFER 2 12 1 6 8 6 8 6 8";
    step(&at, added(0, 0, 3, 1), expected);
}
