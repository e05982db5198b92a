//! Boards that refuse slivers (document 02, request 5): X, whose windows have two ticks each, and
//! refusals worked out by hand.

use crate::answer::Answer;
use crate::numbers::encode;
use crate::plan::{plan, Form};
use crate::query::{Query, RunNumbers};
use crate::table::TableNumbers;
use crate::tasks::TaskNumbers;

const GREATEST: u64 = 4_294_967_295;
const OUT_OF_RANGE: [u64; 5] = [0, 65_537, 65_538, 131_072, GREATEST];

const X: [[u64; 3]; 2] = [[0, 2, 0], [5, 7, 0]];
const W6: [[u64; 3]; 2] = [[1, 4, 4], [2, 8, 6]];
const W7: [[u64; 3]; 2] = [[1, 4, 4], [2, 8, 7]];

fn table(frame: u64, windows: &[u64], owner: u64, shortest: u64) -> TableNumbers {
    TableNumbers {
        shortest: Some(shortest),
        ..TableNumbers::threes(frame, windows.to_vec(), owner)
    }
}

/// X with the shortest allowed window m, asked for owner 0.
fn x(shortest: u64) -> TableNumbers {
    table(8, &X.concat(), 0, shortest)
}

/// By the outage.
fn outage(frame: u64, windows: &[[u64; 3]], owner: u64, shortest: u64) -> String {
    Query::Outage(table(frame, &windows.concat(), owner, shortest)).line()
}

fn triples(group: &[[u64; 3]]) -> TaskNumbers {
    TaskNumbers::Triples(group.concat())
}

fn run(shortest: u64, tasks: TaskNumbers, ticks: u64, jobs: &[u64], room: u64) -> String {
    Query::Run(RunNumbers {
        table: x(shortest),
        tasks,
        ticks,
        jobs: jobs.to_vec(),
        room,
    })
    .line()
}

fn replay(shortest: u64, tasks: TaskNumbers, trace: &[u64]) -> String {
    Query::Replay(x(shortest), tasks, encode(trace)).line()
}

/// The line of a plan file with m first.
fn plan_bytes(bytes: &[u8]) -> String {
    let line = Answer::from(plan(Form::WithShortest, bytes)).to_string();
    let query = Query::Plan(Form::WithShortest, bytes.to_vec()).line();
    assert_eq!(query, line);
    line
}

fn plan_numbers(numbers: &[u64]) -> String {
    plan_bytes(&encode(numbers))
}

/// "Some window is shorter than m": two ticks are not shorter than 2.
#[test]
fn x_at_every_edge_of_m() {
    assert_eq!(outage(8, &X, 0, 1), "OUTAGE 3");
    assert_eq!(outage(8, &X, 0, 2), "OUTAGE 3");
    for shortest in [3, 4, 8, 9, 65_535, 65_536] {
        assert_eq!(outage(8, &X, 0, shortest), "REFUSED 12 at 0");
    }
    for shortest in OUT_OF_RANGE {
        assert_eq!(outage(8, &X, 0, shortest), "REFUSED 12 at 64");
    }
}

/// At m = 2 every entry answers for X as it does without m; at m = 3 and at m = 0 none does.
#[test]
fn every_entry() {
    let records = TaskNumbers::Records(W7.to_vec());
    let lines = |shortest| {
        let x = || x(shortest);
        let trace = [0, 0, 1, 9, 0, 1, 2, 9, 1, 0, 10, 1, 1, 15];
        let jobs = [2, 0, 1, 2, 1, 2];
        [
            Query::LeastSupply(x(), 5).line(),
            Query::CriticalPartition(x(), 4).line(),
            Query::Delay(x()).line(),
            Query::Outage(x()).line(),
            Query::Margin(x(), triples(&W6), 6).line(),
            Query::Margin(x(), records.clone(), 7).line(),
            Query::Verdict(x(), triples(&W6)).line(),
            Query::Verdict(x(), records.clone()).line(),
            Query::Bound(x(), triples(&[[1, 4, 4], [1, 8, 8]]), 1).line(),
            Query::Bound(x(), records.clone(), 0).line(),
            run(shortest, triples(&W7), 10, &jobs, 2),
            run(shortest, records.clone(), 10, &jobs, 3),
            replay(shortest, triples(&W7), &trace),
        ]
    };
    let answers = [
        "AMOUNT 2",
        "WINDOWS 2 BUFFER 3 5 6 8",
        "DELAY 12 of 4",
        "OUTAGE 3",
        "MARGIN -1",
        // Three ticks of any seven; the first task asks for one of them, the second for two.
        "MARGIN 0",
        "MISS length 6 start 2 demand 3 supply 2",
        "MEETS cycle 8",
        "BOUND 7",
        "BOUND 4",
        "MET backlog 2 BUFFER 4 7",
        "MET backlog 2 BUFFER 4 7 7",
        "SAME",
    ];
    assert_eq!(lines(1), answers);
    assert_eq!(lines(2), answers);
    for (shortest, refused) in [(3, "REFUSED 12 at 0"), (0, "REFUSED 12 at 64")] {
        for (line, answer) in lines(shortest).iter().zip(answers) {
            // Nothing is written.
            let buffer = match answer {
                "WINDOWS 2 BUFFER 3 5 6 8" => " BUFFER 7 7 7 7",
                "MET backlog 2 BUFFER 4 7" => " BUFFER 7 7",
                "MET backlog 2 BUFFER 4 7 7" => " BUFFER 7 7 7",
                _ => "",
            };
            assert_eq!(*line, format!("{refused}{buffer}"));
        }
    }
}

/// The windows of the whole list count, whoever is asked for.
#[test]
fn the_other_team_s_sliver() {
    // Owner 1's window has one tick, owner 0's have two each.
    let windows = [[0, 2, 0], [3, 4, 1], [5, 7, 0]];
    assert_eq!(outage(8, &windows, 0, 1), "OUTAGE 3");
    assert_eq!(outage(8, &windows, 1, 1), "OUTAGE 7");
    for owner in 0..2 {
        assert_eq!(outage(8, &windows, owner, 2), "REFUSED 12 at 1");
        assert_eq!(outage(8, &windows, owner, 3), "REFUSED 12 at 0");
    }
    // Windows that touch are still two: one of three ticks and one of two.
    let touching = [[0, 3, 1], [3, 5, 0]];
    assert_eq!(outage(8, &touching, 1, 2), "OUTAGE 5");
    assert_eq!(outage(8, &touching, 1, 3), "REFUSED 12 at 1");
    assert_eq!(outage(8, &touching, 0, 3), "REFUSED 12 at 1");
    assert_eq!(outage(8, &touching, 0, 4), "REFUSED 12 at 0");
    // And so are those that join over midnight.
    let ends = [[0, 1, 0], [6, 8, 0]];
    assert_eq!(outage(8, &ends, 0, 1), "OUTAGE 5");
    assert_eq!(outage(8, &ends, 0, 2), "REFUSED 12 at 0");
}

/// "With the lowest index", which is not the shortest window's.
#[test]
fn several_slivers() {
    let falling = [[0, 3, 0], [4, 6, 1], [7, 8, 0]];
    assert_eq!(outage(12, &falling, 1, 1), "OUTAGE 10");
    assert_eq!(outage(12, &falling, 1, 2), "REFUSED 12 at 2");
    assert_eq!(outage(12, &falling, 1, 3), "REFUSED 12 at 1");
    assert_eq!(outage(12, &falling, 1, 4), "REFUSED 12 at 0");
    let rising = [[0, 1, 0], [2, 4, 1], [5, 8, 0]];
    for shortest in 2..6 {
        assert_eq!(outage(12, &rising, 0, shortest), "REFUSED 12 at 0");
    }
    // "m outside its range is 12 at place 64, before that."
    for shortest in OUT_OF_RANGE {
        assert_eq!(outage(12, &falling, 0, shortest), "REFUSED 12 at 64");
        assert_eq!(outage(12, &[[0, 12, 0]], 0, shortest), "REFUSED 12 at 64");
    }
}

#[test]
fn m_at_its_limits() {
    let full = [[0, 65_536, 1]];
    for shortest in [1, 2, 65_535, 65_536] {
        assert_eq!(outage(65_536, &full, 1, shortest), "OUTAGE 0");
    }
    assert_eq!(outage(65_536, &full, 1, 65_537), "REFUSED 12 at 64");
    let short = [[1, 65_536, 1]];
    assert_eq!(outage(65_536, &short, 1, 65_535), "OUTAGE 1");
    assert_eq!(outage(65_536, &short, 1, 65_536), "REFUSED 12 at 0");
    assert_eq!(outage(1, &[[0, 1, 0]], 0, 1), "OUTAGE 0");
    assert_eq!(outage(1, &[[0, 1, 0]], 0, 2), "REFUSED 12 at 0");
}

/// 64 windows of two ticks, a tick apart, but for the last, which has one tick.
#[test]
fn a_sliver_at_index_63() {
    let windows: Vec<[u64; 3]> = (0..64)
        .map(|i| [3 * i, 3 * i + 2 - i / 63, u64::from(i == 63)])
        .collect();
    // Owner 0 has no tick of 188 to 191, owner 1 has 189 alone.
    assert_eq!(outage(192, &windows, 0, 1), "OUTAGE 4");
    assert_eq!(outage(192, &windows, 1, 1), "OUTAGE 191");
    for owner in 0..2 {
        assert_eq!(outage(192, &windows, owner, 2), "REFUSED 12 at 63");
        assert_eq!(outage(192, &windows, owner, 3), "REFUSED 12 at 0");
        assert_eq!(outage(192, &windows, owner, 0), "REFUSED 12 at 64");
    }
    // One window more is 1, whatever m is.
    let many = [&windows[..], &[[191, 192, 0]]].concat();
    for shortest in [0, 1, 2, 65_537] {
        assert_eq!(outage(192, &many, 0, shortest), "REFUSED 1 at 0");
    }
}

/// "Exactly when the table is legal by 3"; an absent owner's 1 comes just after 3.
#[test]
fn what_comes_before_12() {
    let asked = |frame, windows: &[u64], owner| {
        let line = |shortest| Query::Outage(table(frame, windows, owner, shortest)).line();
        // In range with a sliver, and out of range.
        for shortest in [65_536, 0, 65_537, GREATEST] {
            assert_eq!(line(shortest), line(4));
        }
        line(4)
    };
    assert_eq!(asked(8, &[], 0), "REFUSED 1 at 0");
    assert_eq!(asked(0, &[0, 1, 0, 2], 0), "REFUSED 1 at 0");
    assert_eq!(asked(0, &[0, 1, 0], 1), "REFUSED 2 at 0");
    assert_eq!(asked(65_537, &[0, 1, 0], 0), "REFUSED 2 at 0");
    // A sliver before the window that breaks its rule, and one after it.
    assert_eq!(asked(8, &[0, 1, 0, 1, 8, 0], 0), "REFUSED 3 at 1");
    assert_eq!(asked(8, &[0, 9, 0], 1), "REFUSED 3 at 0");
    assert_eq!(asked(8, &[0, 4, 2, 5, 6, 0], 0), "REFUSED 3 at 0");
    assert_eq!(asked(8, &[5, 5, 0], 0), "REFUSED 3 at 0");
    assert_eq!(asked(8, &[0, 1, 0, 7, 5, 1], 2), "REFUSED 3 at 1");
    // Legal by 3, with a sliver, but the owner has no window or does not exist.
    for owner in [1, 2, 256, GREATEST] {
        assert_eq!(asked(8, &[0, 1, 0], owner), "REFUSED 1 at 0");
    }
    assert_eq!(outage(8, &[[0, 1, 0]], 0, 4), "REFUSED 12 at 0");
}

/// "It stands after 3 and before 4."
#[test]
fn what_comes_after_12() {
    // Each is refused otherwise at m = 2, by 12 at 0 at m = 3 and by 12 at 64 at m = 0.
    let later = |line: &dyn Fn(u64) -> String, otherwise: &str| {
        let buffer = otherwise.find(" BUFFER").map_or("", |at| &otherwise[at..]);
        assert_eq!(line(2), otherwise);
        assert_eq!(line(3), format!("REFUSED 12 at 0{buffer}"));
        assert_eq!(line(0), format!("REFUSED 12 at 64{buffer}"));
    };
    let not_in_threes = || TaskNumbers::Triples(vec![1, 4]);
    let too_many = || TaskNumbers::Records(vec![[1, 8, 8]; 33]);
    let late = || triples(&[[1, 4, 4], [1, 4, 5]]);
    let long_cycle = || triples(&[[1, 999_999, 999_999]]);
    let four = "REFUSED 4 at 0";
    later(&|m| Query::Verdict(x(m), not_in_threes()).line(), four);
    later(&|m| Query::Margin(x(m), too_many(), 1).line(), four);
    later(&|m| Query::Bound(x(m), too_many(), 40).line(), four);
    later(&|m| Query::Verdict(x(m), late()).line(), "REFUSED 5 at 1");
    let six = "REFUSED 6 at 0";
    later(&|m| Query::Verdict(x(m), long_cycle()).line(), six);
    let seven = "REFUSED 7 at 0";
    later(&|m| Query::LeastSupply(x(m), 1_000_001).line(), seven);
    later(&|m| Query::Margin(x(m), late(), 9).line(), "REFUSED 5 at 1");
    later(
        &|m| Query::Margin(x(m), triples(&W7), GREATEST).line(),
        seven,
    );
    later(&|m| Query::Bound(x(m), triples(&W7), 2).line(), seven);
    let eight = "REFUSED 8 at 4 BUFFER 7 7 7";
    later(&|m| Query::CriticalPartition(x(m), 3).line(), eight);

    // A job list that is not in threes, one of a task that is absent, and one with too little room.
    let jobs = |m, jobs: &[u64]| run(m, triples(&W7), 10, jobs, 1);
    later(&|m| jobs(m, &[0, 0]), "REFUSED 10 at 0 BUFFER 7");
    later(
        &|m| jobs(m, &[0, 0, 1, 1, 2, 1]),
        "REFUSED 11 at 1 BUFFER 7",
    );
    later(&|m| jobs(m, &[0, 0, 1, 1, 1, 1]), "REFUSED 8 at 2 BUFFER 7");
    let long = |m| run(m, triples(&W7), 1_100_001, &[], 0);
    later(&long, "REFUSED 10 at 0 BUFFER");
    let bad_group = |m| run(m, late(), 1_100_001, &[], 1);
    later(&bad_group, "REFUSED 5 at 1 BUFFER 7");

    // A stamp that goes back is nearly 2^32 ticks later; task 2 is absent.
    let records = |m, trace: &[u64]| replay(m, triples(&W7), trace);
    later(&|m| records(m, &[1, 0, 5, 1, 0, 4]), "REFUSED 10 at 0");
    later(
        &|m| records(m, &[0, 0, 1, 5, 0, 2, 1, 6]),
        "REFUSED 11 at 1",
    );
    later(&|m| replay(m, late(), &[0, 0, 1, 5]), "REFUSED 5 at 1");
    // "9 before all others."
    for shortest in [0, 2, 3, 65_537] {
        assert_eq!(records(shortest, &[1, 0]), "REFUSED 9 at 2");
        assert_eq!(records(shortest, &[1, 0, 5, 2]), "REFUSED 9 at 3");
    }
}

/// Document 01's plan with m before P.
#[test]
fn plan_files_with_m_first() {
    let old = [8, 2, 0, 2, 5, 7, 2, 1, 4, 4, 2, 8, 6];
    let with = |shortest: u64| plan_numbers(&[&[shortest], &old[..]].concat());
    let missed = "MISS length 6 start 2 demand 3 supply 2";
    assert_eq!(with(1), missed);
    assert_eq!(with(2), missed);
    for shortest in [3, 127, 128, 65_535, 65_536] {
        assert_eq!(with(shortest), "REFUSED 12 at 0");
    }
    for shortest in OUT_OF_RANGE {
        assert_eq!(with(shortest), "REFUSED 12 at 64");
    }
    // The second window alone has one tick.
    let second = |m| plan_numbers(&[m, 8, 2, 0, 2, 5, 6, 0]);
    assert_eq!(second(1), "MEETS cycle 8");
    assert_eq!(second(2), "REFUSED 12 at 1");
    assert_eq!(second(3), "REFUSED 12 at 0");
    // Two ticks of work are due after one.
    let full = |m| plan_numbers(&[m, 65_536, 1, 0, 65_536, 1, 2, 65_536, 1]);
    let missed = "MISS length 1 start 0 demand 2 supply 1";
    assert_eq!(full(65_536), missed);
    assert_eq!(full(65_537), "REFUSED 12 at 64");
}

/// "Old plan files read as m = 1", and neither form is the other.
#[test]
fn both_forms_of_a_plan_file() {
    let old = |numbers: &[u64]| Query::Plan(Form::Old, encode(numbers)).line();
    assert_eq!(old(&[8, 1, 0, 1, 0]), "MEETS cycle 8");
    assert_eq!(plan_numbers(&[1, 8, 1, 0, 1, 0]), "MEETS cycle 8");
    // m = 8, P = 1 and a window count of 0.
    assert_eq!(plan_numbers(&[8, 1, 0, 1, 0]), "REFUSED 1 at 0");
    // P = 1, eight windows, and three of their numbers.
    assert_eq!(old(&[1, 8, 1, 0, 1, 0]), "REFUSED 9 at 6");
    // m = 2, P = 2, window (0,2) and no task; in the old form P = 2, windows (1,0) and (2,0), and
    // no count of tasks, which one number more is.
    assert_eq!(plan_numbers(&[2, 2, 1, 0, 2, 0]), "MEETS cycle 2");
    assert_eq!(old(&[2, 2, 1, 0, 2, 0]), "REFUSED 9 at 6");
    assert_eq!(old(&[2, 2, 1, 0, 2, 0, 0]), "REFUSED 3 at 0");
    assert_eq!(plan_numbers(&[2, 2, 1, 0, 2, 0, 0]), "REFUSED 9 at 6");
    assert_eq!(Form::of_settings(0), Some(Form::Old));
    assert_eq!(Form::of_settings(1), Some(Form::WithShortest));
    assert_eq!(Form::of_settings(2), None);
}

/// Refusal 9 names the offset in the whole file: m's bytes count too.
#[test]
fn damaged_plan_files_with_m_first() {
    // m = 65,536 in three bytes, then W4's plan with T = 300 in two.
    let whole = [128, 128, 4, 8, 2, 0, 2, 5, 7, 1, 1, 172, 2, 4];
    assert_eq!(plan_bytes(&whole), "REFUSED 12 at 0");
    let bad = [0, 0, 0, 3, 4, 5, 6, 7, 8, 9, 10, 11, 11, 13];
    for (end, offset) in bad.into_iter().enumerate() {
        let refused = format!("REFUSED 9 at {offset}");
        assert_eq!(plan_bytes(&whole[..end]), refused, "{end} bytes");
    }
    let left_over = [&whole[..], &[0]].concat();
    assert_eq!(plan_bytes(&left_over), "REFUSED 9 at 14");
    // m padded, too large and too long, before X without tasks.
    let with = |m: &[u8]| plan_bytes(&[m, &[8, 2, 0, 2, 5, 7, 0]].concat());
    assert_eq!(with(&[2]), "MEETS cycle 8");
    assert_eq!(with(&[0x82, 0x00]), "REFUSED 9 at 0");
    assert_eq!(with(&[0x80, 0x00]), "REFUSED 9 at 0");
    assert_eq!(with(&[0xff, 0xff, 0xff, 0xff, 0x0f]), "REFUSED 12 at 64");
    assert_eq!(with(&[0x80, 0x80, 0x80, 0x80, 0x10]), "REFUSED 9 at 0");
    assert_eq!(with(&[0x82, 0x80, 0x80, 0x80, 0x20]), "REFUSED 9 at 0");
    assert_eq!(
        with(&[0x82, 0x80, 0x80, 0x80, 0x80, 0x01]),
        "REFUSED 9 at 0"
    );
    // P padded, after an m in two bytes.
    let frame = [200, 1, 136, 0, 2, 0, 2, 5, 7, 0];
    assert_eq!(plan_bytes(&frame), "REFUSED 9 at 2");
}

/// 9 and the early 1 and 4, then 2 and 3, then 12, then 5 and 6.
#[test]
fn refusals_of_a_plan_file_in_order() {
    for shortest in [0, 4, 65_537, GREATEST] {
        let with = |rest: &[u64]| plan_numbers(&[&[shortest], rest].concat());
        // "As soon as it is read", and the rest is not read.
        assert_eq!(with(&[8, 0]), "REFUSED 1 at 0");
        assert_eq!(with(&[0, 65, 9]), "REFUSED 1 at 0");
        assert_eq!(with(&[0, 1, 9, 9, 33]), "REFUSED 4 at 0");
        assert_eq!(with(&[8, 1, 0, 1, 33, 0]), "REFUSED 4 at 0");
        // Left over, and cut short: m may have up to five bytes.
        let bytes = encode(&[shortest]).len();
        let left_over = format!("REFUSED 9 at {}", bytes + 5);
        assert_eq!(with(&[8, 1, 0, 1, 0, 7]), left_over);
        let cut_short = format!("REFUSED 9 at {}", bytes + 7);
        assert_eq!(with(&[8, 1, 0, 1, 1, 1, 4]), cut_short);
        assert_eq!(with(&[0, 1, 0, 1, 0]), "REFUSED 2 at 0");
        assert_eq!(with(&[65_537, 1, 0, 1, 0]), "REFUSED 2 at 0");
        assert_eq!(with(&[8, 1, 0, 9, 0]), "REFUSED 3 at 0");
        assert_eq!(with(&[8, 2, 0, 1, 1, 3, 0]), "REFUSED 3 at 1");
    }
    // D over T, and a cycle of 7,999,992.
    let late = |m| plan_numbers(&[m, 8, 2, 0, 2, 5, 7, 1, 1, 4, 5]);
    let long_cycle = |m| plan_numbers(&[m, 8, 2, 0, 2, 5, 7, 1, 1, 999_999, 9]);
    assert_eq!(late(2), "REFUSED 5 at 0");
    assert_eq!(long_cycle(2), "REFUSED 6 at 0");
    assert_eq!(late(3), "REFUSED 12 at 0");
    assert_eq!(long_cycle(3), "REFUSED 12 at 0");
    assert_eq!(late(0), "REFUSED 12 at 64");
    assert_eq!(long_cycle(65_537), "REFUSED 12 at 64");
}
