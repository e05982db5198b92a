//! Tables that two teams share (document 02, request 4): X beside another team, and refusals
//! worked out by hand.

use crate::answer::Answer;
use crate::numbers::encode;
use crate::owners;
use crate::query::{Query, RunNumbers};
use crate::table::TableNumbers;
use crate::tasks::TaskNumbers;

fn shared(frame: u64, windows: &[[u64; 3]], owner: u64) -> TableNumbers {
    TableNumbers::threes(frame, windows.concat(), owner)
}

/// X is owner 0's; owner 1 has the other ticks, 2 to 4 and 7: every window touches the next.
fn x(owner: u64) -> TableNumbers {
    shared(8, &[[0, 2, 0], [2, 5, 1], [5, 7, 0], [7, 8, 1]], owner)
}

/// By the outage, in a frame of 8.
fn outage(windows: &[[u64; 3]], owner: u64) -> String {
    Query::Outage(shared(8, windows, owner)).line()
}

fn triples(group: &[[u64; 3]]) -> TaskNumbers {
    TaskNumbers::Triples(group.concat())
}

/// The verdict on the table that is shared with X, the same in triples and in records.
fn verdict(owner: u64, group: &[[u64; 3]]) -> String {
    let line = Query::Verdict(x(owner), triples(group)).line();
    let records = TaskNumbers::Records(group.to_vec());
    assert_eq!(Query::Verdict(x(owner), records).line(), line);
    line
}

fn bounds(owner: u64, group: &[[u64; 3]]) -> Vec<String> {
    let bound = |i| Query::Bound(x(owner), triples(group), i).line();
    (0..group.len() as u64).map(bound).collect()
}

fn run(table: TableNumbers, group: &[[u64; 3]], jobs: &[u64]) -> String {
    let tasks = triples(group);
    let (ticks, jobs, room) = (10, jobs.to_vec(), 3);
    Query::Run(RunNumbers {
        table,
        tasks,
        ticks,
        jobs,
        room,
    })
    .line()
}

fn replay(table: TableNumbers, tasks: TaskNumbers, trace: &[u64]) -> String {
    Query::Replay(table, tasks, encode(trace)).line()
}

const W7: [[u64; 3]; 2] = [[1, 4, 4], [2, 8, 7]];

/// W1 to W3 and the outage, then owner 1's: ticks 2, 3, 4 and 7.
#[test]
fn supply_of_each_owner() {
    let amounts = |owner, expected: [u64; 9]| {
        for (t, amount) in (0..).zip(expected) {
            let line = Query::LeastSupply(x(owner), t).line();
            assert_eq!(line, format!("AMOUNT {amount}"), "owner {owner}, {t}");
            let line = Query::LeastSupply(x(owner), t + 8).line();
            assert_eq!(line, format!("AMOUNT {}", amount + 4));
        }
    };
    amounts(0, [0, 0, 0, 0, 1, 2, 2, 3, 4]);
    // Worst: ticks 5 and 6, up to five ticks from 5, six from 5 or 4, all but one.
    amounts(1, [0, 0, 0, 1, 1, 1, 2, 3, 4]);
    let critical = |owner| Query::CriticalPartition(x(owner), 5).line();
    assert_eq!(critical(0), "WINDOWS 2 BUFFER 3 5 6 8 7");
    assert_eq!(critical(1), "WINDOWS 2 BUFFER 2 3 5 8 7");
    assert_eq!(Query::Delay(x(0)).line(), "DELAY 12 of 4");
    // 4*5 - 8*1 at length 5.
    assert_eq!(Query::Delay(x(1)).line(), "DELAY 12 of 4");
    assert_eq!(Query::Outage(x(0)).line(), "OUTAGE 3");
    assert_eq!(Query::Outage(x(1)).line(), "OUTAGE 2");
}

/// W4 to W10, and owner 1 with some of the same groups.
#[test]
fn verdicts_of_each_owner() {
    assert_eq!(verdict(0, &[[1, 4, 4]]), "MEETS cycle 8");
    let w5 = "MISS length 3 start 2 demand 1 supply 0";
    assert_eq!(verdict(0, &[[1, 4, 3]]), w5);
    let w6 = [[1, 4, 4], [2, 8, 6]];
    let missed = "MISS length 6 start 2 demand 3 supply 2";
    assert_eq!(verdict(0, &w6), missed);
    assert_eq!(Query::Margin(x(0), triples(&w6), 6).line(), "MARGIN -1");
    assert_eq!(verdict(0, &W7), "MEETS cycle 8");
    let w8 = "MISS length 8 start 0 demand 5 supply 4";
    assert_eq!(verdict(0, &[[5, 8, 8]]), w8);
    let w9 = "MISS length 24 start 0 demand 13 supply 12";
    assert_eq!(verdict(0, &[[13, 24, 24]]), w9);
    assert_eq!(verdict(0, &[]), "MEETS cycle 8");

    // Owner 1 has 1 of any 3 ticks and 3 of any 7.
    assert_eq!(verdict(1, &[[1, 4, 3]]), "MEETS cycle 8");
    // And 0 of ticks 0 and 1.
    let short = "MISS length 2 start 0 demand 1 supply 0";
    assert_eq!(verdict(1, &[[1, 4, 2]]), short);
    // Ticks 4 to 1 hold 2, and so do 5 to 2: the least start is 4.
    let missed = "MISS length 6 start 4 demand 3 supply 2";
    assert_eq!(verdict(1, &w6), missed);
    assert_eq!(Query::Margin(x(1), triples(&w6), 3).line(), "MARGIN 1");
    assert_eq!(verdict(1, &[[5, 8, 8]]), w8);
    assert_eq!(verdict(1, &[]), "MEETS cycle 8");
}

/// W11, and W12 with every tick one team's.
#[test]
fn bounds_of_each_owner() {
    let w11 = [[1, 4, 4], [1, 8, 8]];
    assert_eq!(bounds(0, &w11), ["BOUND 4", "BOUND 7"]);
    // Length 3 holds one tick; 7 is the first that holds three.
    assert_eq!(bounds(1, &w11), ["BOUND 3", "BOUND 7"]);
    assert_eq!(bounds(0, &[[1, 4, 3]]), ["NO BOUND"]);
    assert_eq!(bounds(1, &[[1, 4, 3]]), ["BOUND 3"]);
    let absent = Query::Bound(x(1), triples(&w11), 2).line();
    assert_eq!(absent, "REFUSED 7 at 0");
    let w12: Vec<[u64; 3]> = [[1, 10], [1, 5], [1, 15], [2, 10], [2, 30]]
        .iter()
        .map(|&[work, period]| [work, period, period])
        .collect();
    for (index, bound) in (0..).zip([1, 2, 3, 5, 8]) {
        for owner in 0..2 {
            let full = shared(1, &[[0, 1, owner]], owner);
            let line = Query::Bound(full, triples(&w12), index).line();
            assert_eq!(line, format!("BOUND {bound}"));
        }
    }
}

/// W13, and the same on ticks 2, 3 and 4, which are owner 1's.
#[test]
fn runs_of_each_owner() {
    let jobs = [2, 0, 1, 2, 1, 2];
    assert_eq!(run(x(0), &W7, &jobs), "MET backlog 2 BUFFER 4 7 7");
    assert_eq!(run(x(1), &W7, &jobs), "MET backlog 2 BUFFER 1 3 7");
    // Due at 5: owner 1 does the work in ticks 2 and 3, owner 0 has none of 2, 3 and 4.
    let short = [[2, 4, 3]];
    let jobs = [2, 0, 2];
    assert_eq!(run(x(1), &short, &jobs), "MET backlog 1 BUFFER 2 7 7");
    let missed = "MISSED instant 5 job 0 backlog 1 BUFFER 0 7 7";
    assert_eq!(run(x(0), &short, &jobs), missed);
}

/// Both of W7's tasks are released at tick 0. Owner 0 has ticks 0, 1 and 5 for them, owner 1 has
/// ticks 2, 3 and 4.
#[test]
fn replays_of_each_owner() {
    let from = |owner, completions: [u64; 2]| {
        let [first, second] = completions;
        let releases = [0, 0, 1, 9, 0, 1, 2, 9];
        let completions = [1, 0, 9 + first, 1, 1, 9 + second];
        replay(
            x(owner),
            triples(&W7),
            &[releases.as_slice(), &completions].concat(),
        )
    };
    assert_eq!(from(0, [1, 6]), "SAME");
    assert_eq!(from(1, [3, 5]), "SAME");
    let first = "DIFFERS trace instant 3 task 0 machine instant 1 task 0";
    assert_eq!(from(0, [3, 5]), first);
    let first = "DIFFERS trace instant 1 task 0 machine instant 3 task 0";
    assert_eq!(from(1, [1, 6]), first);
}

/// "Windows of different owners may touch; windows of one owner may not."
#[test]
fn windows_that_touch() {
    for owner in 0..2 {
        let other = 1 - owner;
        for asked in 0..2 {
            // Ticks 2 to 7, or 4 to 7 and then 0 and 1.
            let apart = [[0, 2, owner], [2, 4, other]];
            assert_eq!(outage(&apart, asked), "OUTAGE 6");
            let alike = [[0, 2, owner], [2, 4, owner]];
            assert_eq!(outage(&alike, asked), "REFUSED 3 at 1");
            let third = [[0, 2, owner], [2, 4, other], [4, 6, other]];
            assert_eq!(outage(&third, asked), "REFUSED 3 at 2");
        }
        // One team's windows on both sides of the other's do not touch.
        let around = [[0, 2, owner], [2, 4, other], [4, 6, owner]];
        assert_eq!(outage(&around, owner), "OUTAGE 2");
        assert_eq!(outage(&around, other), "OUTAGE 6");
        // A tick apart, and at both ends of the frame, they do not touch either.
        let ends = [[0, 2, owner], [3, 4, owner], [6, 8, owner]];
        assert_eq!(outage(&ends, owner), "OUTAGE 2");
    }
}

/// "Refusal 3 reads this over the whole list": the place is not one among the owner's windows.
#[test]
fn windows_that_break_their_rule() {
    let at = |window: [u64; 3], index: usize| {
        let mut windows = [[0, 2, 0], [2, 4, 1], [4, 6, 0], [7, 8, 1]];
        windows[index] = window;
        let lines: Vec<String> = (0..4).map(|owner| outage(&windows, owner)).collect();
        assert!(lines.iter().all(|line| *line == lines[0]));
        lines[0].clone()
    };
    assert_eq!(at([2, 2, 1], 1), "REFUSED 3 at 1", "empty");
    assert_eq!(at([3, 2, 1], 1), "REFUSED 3 at 1", "ends before it starts");
    assert_eq!(at([7, 9, 1], 3), "REFUSED 3 at 3", "leaves the frame");
    assert_eq!(at([1, 4, 1], 1), "REFUSED 3 at 1", "one tick too early");
    assert_eq!(at([3, 6, 0], 2), "REFUSED 3 at 2", "one tick too early");
    assert_eq!(at([0, 4, 1], 1), "REFUSED 3 at 1", "from tick 0");
    assert_eq!(at([2, 5, 1], 1), "REFUSED 3 at 2", "the next is too early");
    assert_eq!(at([2, 4, 0], 1), "REFUSED 3 at 1", "the previous owner's");
    assert_eq!(at([4, 6, 1], 2), "REFUSED 3 at 2", "the previous owner's");
    assert_eq!(at([4, 7, 1], 2), "REFUSED 3 at 2", "both sides");
    // An owner but 0 or 1; some have a low byte or half that is 0 or 1.
    for owner in [2, 3, 7, 8, 255, 256, 257, 65_536, 65_537, 4_294_967_295] {
        assert_eq!(at([0, 2, owner], 0), "REFUSED 3 at 0");
        assert_eq!(at([7, 8, owner], 3), "REFUSED 3 at 3");
    }
    // The lowest index, whatever is broken there.
    let several = [[0, 2, 0], [2, 3, 9], [2, 2, 0], [9, 9, 9]];
    assert_eq!(outage(&several, 0), "REFUSED 3 at 1");
    let falling = [[5, 7, 0], [0, 2, 1]];
    assert_eq!(outage(&falling, 0), "REFUSED 3 at 1");
    assert_eq!(outage(&falling, 1), "REFUSED 3 at 1");
}

/// "An entry asked for an owner with no window, or for no such owner, answers 1 at place 0, just
/// after 3."
#[test]
fn an_owner_without_a_window() {
    let first = [[0, 2, 0], [5, 7, 0]];
    let second = [[0, 2, 1], [5, 7, 1]];
    assert_eq!(outage(&first, 0), "OUTAGE 3");
    assert_eq!(outage(&first, 1), "REFUSED 1 at 0");
    assert_eq!(outage(&second, 0), "REFUSED 1 at 0");
    assert_eq!(outage(&second, 1), "OUTAGE 3");
    for absent in [2, 3, 256, 257, 65_536, 4_294_967_295] {
        assert_eq!(outage(&first, absent), "REFUSED 1 at 0");
        assert_eq!(Query::Outage(x(absent)).line(), "REFUSED 1 at 0");
        // A window of an owner that does not exist does not make it one.
        assert_eq!(outage(&[[0, 2, absent]], absent), "REFUSED 3 at 0");
    }
    // After 3, and before what comes later.
    assert_eq!(outage(&[[0, 2, 0], [2, 4, 0]], 1), "REFUSED 3 at 1");
    assert_eq!(outage(&[[0, 2, 0], [2, 9, 1]], 2), "REFUSED 3 at 1");
    let long = Query::LeastSupply(x(2), 1_000_001).line();
    assert_eq!(long, "REFUSED 1 at 0");
    // Nothing is written.
    let critical = Query::CriticalPartition(x(2), 1).line();
    assert_eq!(critical, "REFUSED 1 at 0 BUFFER 7");
    let line = "REFUSED 1 at 0 BUFFER 7 7 7";
    assert_eq!(run(x(2), &W7, &[]), line);
}

#[test]
fn refusals_of_a_shared_table_in_order() {
    let bad_tasks = TaskNumbers::Triples(vec![0; 4]);
    let asked = |frame, windows: &[u64], owner| {
        let table = TableNumbers::threes(frame, windows.to_vec(), owner);
        let margin = Query::Margin(table.clone(), bad_tasks.clone(), 1_000_001).line();
        let bytes = vec![0, 9, 1, 1, 1, 0, 0];
        let replay = Query::Replay(table.clone(), bad_tasks.clone(), bytes).line();
        assert_eq!(margin, replay, "10 and 11 of a trace are later too");
        // "9 before all others."
        let replay = Query::Replay(table, bad_tasks.clone(), vec![1, 0]).line();
        assert_eq!(replay, "REFUSED 9 at 2");
        margin
    };
    // Not in threes; pairs, and what would be three pairs.
    assert_eq!(asked(0, &[], 2), "REFUSED 1 at 0");
    assert_eq!(asked(0, &[9], 2), "REFUSED 1 at 0");
    assert_eq!(asked(0, &[0, 2, 5, 7], 2), "REFUSED 1 at 0");
    assert_eq!(asked(8, &[0, 2, 0, 5, 7], 0), "REFUSED 1 at 0");
    assert_eq!(asked(8, &[0, 2, 3, 5, 6, 8], 0), "REFUSED 3 at 0");
    assert_eq!(asked(0, &[9, 9, 9], 2), "REFUSED 2 at 0");
    assert_eq!(asked(65_537, &[0, 8, 0], 2), "REFUSED 2 at 0");
    assert_eq!(asked(8, &[0, 1, 0, 9, 9, 0], 2), "REFUSED 3 at 1");
    assert_eq!(asked(8, &[0, 8, 0], 2), "REFUSED 1 at 0");
    assert_eq!(asked(8, &[0, 8, 0], 1), "REFUSED 1 at 0");
    assert_eq!(asked(8, &[0, 8, 0], 0), "REFUSED 4 at 0");
    assert_eq!(asked(8, &[0, 8, 1], 1), "REFUSED 4 at 0");
}

/// "The whole list of at most 64": windows of one tick, one tick apart, three of them owner 1's.
#[test]
fn at_most_64_windows_in_all() {
    let windows = |count: u64| -> Vec<[u64; 3]> {
        let owner = |i| u64::from(i % 20 == 7);
        (0..count).map(|i| [2 * i, 2 * i + 1, owner(i)]).collect()
    };
    let of = |count, owner| Query::Outage(shared(130, &windows(count), owner)).line();
    // Owner 1 has ticks 14, 54 and 94 of 130: the longest run is 95 to 129, then 0 to 13.
    assert_eq!(of(64, 1), "OUTAGE 49");
    assert_eq!(of(65, 1), "REFUSED 1 at 0");
    // Owner 0 has tick 126; without the 65th window 127 to 129 are silent, as 13 to 15 are.
    assert_eq!(of(64, 0), "OUTAGE 3");
    assert_eq!(of(65, 0), "REFUSED 1 at 0");
    // 64 windows that touch.
    let touching: Vec<[u64; 3]> = (0..64).map(|i| [i, i + 1, i % 2]).collect();
    for owner in 0..2 {
        let line = Query::Outage(shared(64, &touching, owner)).line();
        assert_eq!(line, "OUTAGE 1");
    }
}

/// The number of owners is not in the rules: eight of them, each with one tick.
#[test]
fn eight_owners() {
    let ticks: Vec<[u64; 3]> = (0..8).map(|i| [i, i + 1, i]).collect();
    let lent = |owner| shared(8, &ticks, owner);
    for owner in 0..8 {
        let own = owners::table_of(owner, 8, &lent(owner)).unwrap();
        assert_eq!(own, TableNumbers::pairs(8, vec![owner, owner + 1]));
    }
    let refused = |owner, owners| {
        let refusal = owners::table_of(owner, owners, &lent(owner)).unwrap_err();
        Answer::Refused(refusal).to_string()
    };
    assert_eq!(refused(8, 8), "REFUSED 1 at 0");
    assert_eq!(refused(0, 7), "REFUSED 3 at 7");
    assert_eq!(refused(0, 2), "REFUSED 3 at 2");
}
