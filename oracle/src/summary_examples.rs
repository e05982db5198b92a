//! Summaries, and amounts and margins from them (document 02, request 6): X alone, X beside another
//! team, and refusals worked out by hand.

use crate::query::{MarginNumbers, Query};
use crate::table::TableNumbers;
use crate::tasks::TaskNumbers;

const GREATEST: u64 = 4_294_967_295;

/// X as owner 0's: least supply 0, 0, 0, 0, 1, 2, 2, 3, 4 (W1), critical windows (3,5) and (6,8)
/// (W2), delay 12 with A = 4 (W3).
const X: [u64; 6] = [0, 2, 0, 5, 7, 0];
const OF_X: [u64; 7] = [4, 12, 2, 3, 5, 6, 8];

/// X beside owner 1, who has ticks 2, 3, 4 and 7: least supply 0, 0, 0, 1, 1, 1, 2, 3, 4, and
/// 4*5 - 8*1 is the greatest of 4*t - 8*(least supply of t).
const SHARED: [u64; 12] = [0, 2, 0, 2, 5, 1, 5, 7, 0, 7, 8, 1];
const OF_OWNER_1: [u64; 7] = [4, 12, 2, 2, 3, 5, 8];

const W6: [u64; 6] = [1, 4, 4, 2, 8, 6];

fn table(frame: u64, windows: &[u64], owner: u64) -> TableNumbers {
    TableNumbers::threes(frame, windows.to_vec(), owner)
}

fn with_shortest(table: TableNumbers, shortest: u64) -> TableNumbers {
    TableNumbers {
        shortest: Some(shortest),
        ..table
    }
}

fn x() -> TableNumbers {
    table(8, &X, 0)
}

fn make(table: TableNumbers, room: u64) -> String {
    Query::MakeSummary(table, room).line()
}

fn amount(table: TableNumbers, summary: &[u64], t: u64) -> String {
    Query::SummaryAmount(table, summary.to_vec(), t).line()
}

fn margins(
    table: TableNumbers,
    summary: &[u64],
    tasks: &[u64],
    lengths: &[u64],
    room: u64,
) -> String {
    Query::Margins(MarginNumbers {
        table,
        summary: summary.to_vec(),
        tasks: TaskNumbers::Triples(tasks.to_vec()),
        lengths: lengths.to_vec(),
        room,
    })
    .line()
}

#[test]
fn summaries_of_x() {
    let line = "SUMMARY 7 BUFFER 4 12 2 3 5 6 8";
    assert_eq!(make(x(), 7), line);
    assert_eq!(make(with_shortest(x(), 2), 7), line);
    assert_eq!(make(table(8, &SHARED, 0), 7), line);
    // The rest is kept.
    let line = "SUMMARY 7 BUFFER 4 12 2 3 5 6 8 7 7";
    assert_eq!(make(x(), 9), line);
    let line = "SUMMARY 7 BUFFER 4 12 2 2 3 5 8";
    assert_eq!(make(table(8, &SHARED, 1), 7), line);
}

#[test]
fn summaries_of_other_tables() {
    // Every tick supplied: no delay, one critical window, the frame.
    let full = "SUMMARY 5 BUFFER 8 0 1 0 8";
    assert_eq!(make(table(8, &[0, 8, 0], 0), 5), full);
    let full = "SUMMARY 5 BUFFER 1 0 1 0 1";
    assert_eq!(make(table(1, &[0, 1, 1], 1), 5), full);
    // The lab's window: six silent ticks, and 2*6 - 8*0.
    let lab = "SUMMARY 5 BUFFER 2 12 1 6 8";
    assert_eq!(make(table(8, &[3, 5, 0], 0), 5), lab);
    // Every second tick: 1*t - 2*(least supply of t) is 1 at t = 1 in a frame of 2, and with the
    // same ticks in a frame of 6 it is 3*t - 6*(least supply of t).
    let second = "SUMMARY 5 BUFFER 1 1 1 1 2";
    assert_eq!(make(table(2, &[0, 1, 0], 0), 5), second);
    let second = "SUMMARY 9 BUFFER 3 3 3 1 2 3 4 5 6";
    let windows = [0, 1, 0, 2, 3, 0, 4, 5, 0];
    assert_eq!(make(table(6, &windows, 0), 9), second);
    // The longest frame, half of it in one window: the delay is 32,768^2.
    let half = "SUMMARY 5 BUFFER 32768 1073741824 1 32768 65536";
    assert_eq!(make(table(65_536, &[0, 32_768, 0], 0), 5), half);
}

#[test]
fn refusals_of_a_making_in_order() {
    // 8 names the numbers needed, and nothing is written.
    assert_eq!(make(x(), 6), "REFUSED 8 at 7 BUFFER 7 7 7 7 7 7");
    assert_eq!(make(x(), 0), "REFUSED 8 at 7 BUFFER");
    let full = table(8, &[0, 8, 0], 0);
    assert_eq!(make(full, 4), "REFUSED 8 at 5 BUFFER 7 7 7 7");
    // What a table gets comes before, in its order.
    let refused = |table, refusal: &str| {
        assert_eq!(make(table, 1), format!("REFUSED {refusal} BUFFER 7"));
    };
    refused(table(0, &[], 2), "1 at 0");
    refused(table(0, &[0, 2, 0, 5], 2), "1 at 0");
    refused(table(0, &[0, 0, 0], 2), "2 at 0");
    refused(table(65_537, &[0, 2, 0], 2), "2 at 0");
    refused(table(8, &[0, 2, 0, 2, 4, 0], 1), "3 at 1");
    refused(with_shortest(table(8, &X, 1), 0), "1 at 0");
    refused(with_shortest(table(8, &X, 2), 3), "1 at 0");
    refused(with_shortest(x(), 0), "12 at 64");
    refused(with_shortest(x(), 65_537), "12 at 64");
    refused(with_shortest(x(), 3), "12 at 0");
    refused(with_shortest(table(8, &SHARED, 0), 2), "12 at 3");
}

#[test]
fn amounts_from_a_summary() {
    let of = |owner, summary: &[u64], expected: [u64; 9]| {
        for (t, amount_of) in (0..).zip(expected) {
            let line = amount(table(8, &SHARED, owner), summary, t);
            assert_eq!(line, format!("AMOUNT {amount_of}"));
            let line = amount(table(8, &SHARED, owner), summary, t + 16);
            assert_eq!(line, format!("AMOUNT {}", amount_of + 8));
        }
    };
    of(0, &OF_X, [0, 0, 0, 0, 1, 2, 2, 3, 4]);
    of(1, &OF_OWNER_1, [0, 0, 0, 1, 1, 1, 2, 3, 4]);
    assert_eq!(amount(x(), &OF_X, 4), "AMOUNT 1");
    assert_eq!(amount(with_shortest(x(), 2), &OF_X, 5), "AMOUNT 2");
    // 125,000 frames, and all but one tick of them.
    assert_eq!(amount(x(), &OF_X, 1_000_000), "AMOUNT 500000");
    assert_eq!(amount(x(), &OF_X, 999_999), "AMOUNT 499999");
    assert_eq!(amount(x(), &OF_X, 1_000_001), "REFUSED 7 at 0");
    assert_eq!(amount(x(), &OF_X, GREATEST), "REFUSED 7 at 0");
}

#[test]
fn summaries_that_belong_and_that_do_not() {
    let is_refused = |summary: &[u64]| {
        let line = amount(x(), summary, 4);
        assert!(line == "AMOUNT 1" || line == "REFUSED 14 at 0", "{line}");
        line != "AMOUNT 1"
    };
    // "What follows is not looked at."
    assert!(!is_refused(&OF_X));
    assert!(!is_refused(&[4, 12, 2, 3, 5, 6, 8, 7]));
    assert!(!is_refused(&[4, 12, 2, 3, 5, 6, 8, 9, 9, GREATEST]));
    // "A lent memory that is too short for it does not belong."
    for end in 0..OF_X.len() {
        assert!(is_refused(&OF_X[..end]), "{end} numbers");
    }
    // Every number counts.
    for index in 0..OF_X.len() {
        for other in [OF_X[index] - 1, OF_X[index] + 1, 0, 256, GREATEST] {
            let mut summary = OF_X;
            summary[index] = other;
            assert!(is_refused(&summary), "{other} at {index}");
            assert!(is_refused(&[&summary[..], &[7]].concat()));
        }
    }
    assert!(is_refused(&[12, 4, 2, 3, 5, 6, 8]), "A is first");
    assert!(is_refused(&[4, 12, 3, 5, 6, 8]), "the count is missing");
    assert!(is_refused(&[4, 12, 4, 3, 5, 6, 8]), "numbers, not windows");
    assert!(is_refused(&[4, 12, 1, 3, 5]), "a window less");
    assert!(is_refused(&[4, 12, 2, 6, 8, 3, 5]), "in order");
    assert!(is_refused(&[4, 12, 2, 0, 2, 5, 7]), "the table's own");
    assert!(is_refused(&[4, 12, 2, 3, 2, 6, 2]), "lengths, not ends");
    // Windows that would be one supply the same, but a making writes one.
    let full = table(8, &[0, 8, 0], 0);
    assert_eq!(amount(full.clone(), &[8, 0, 1, 0, 8], 3), "AMOUNT 3");
    let cut = [8, 0, 2, 0, 4, 4, 8];
    assert_eq!(amount(full, &cut, 3), "REFUSED 14 at 0");
    // It is one owner's, and both have windows here.
    let shared = |owner| table(8, &SHARED, owner);
    assert_eq!(amount(shared(0), &OF_X, 3), "AMOUNT 0");
    assert_eq!(amount(shared(1), &OF_OWNER_1, 3), "AMOUNT 1");
    assert_eq!(amount(shared(1), &OF_X, 3), "REFUSED 14 at 0");
    assert_eq!(amount(shared(0), &OF_OWNER_1, 3), "REFUSED 14 at 0");
    // It belongs to every table with the same critical partition, as X turned around is.
    let turned = table(8, &[1, 3, 0, 6, 8, 0], 0);
    assert_eq!(amount(turned, &OF_X, 4), "AMOUNT 1");
}

#[test]
fn refusals_of_an_amount_in_order() {
    let wrong = &OF_X[..6];
    let long = 1_000_001;
    assert_eq!(amount(x(), wrong, long), "REFUSED 14 at 0");
    assert_eq!(amount(x(), &[], 0), "REFUSED 14 at 0");
    assert_eq!(amount(x(), &OF_X, long), "REFUSED 7 at 0");
    let refused = |table, refusal: &str| {
        assert_eq!(amount(table, wrong, long), format!("REFUSED {refusal}"));
    };
    refused(table(0, &[0, 2, 0, 5], 2), "1 at 0");
    refused(table(0, &[0, 0, 0], 2), "2 at 0");
    refused(table(8, &[0, 2, 0, 1, 4, 1], 2), "3 at 1");
    refused(with_shortest(table(8, &X, 2), 0), "1 at 0");
    refused(with_shortest(x(), 0), "12 at 64");
    refused(with_shortest(x(), 3), "12 at 0");
}

/// W6's group has the demand 0 up to length 3, 1 at 4 and 5, 3 at 6 and 7, 4 at 8 and 5 at 12.
#[test]
fn margins_from_a_summary() {
    let line = margins(x(), &OF_X, &W6, &[0, 3, 4, 5, 6, 7, 8, 12], 8);
    // The least supply is 0, 0, 1, 2, 2, 3, 4 and, at 12, 5.
    assert_eq!(line, "MARGINS 8 BUFFER 0 0 0 1 -1 0 0 0");
    // In the order asked, each as often as it is; the rest is kept.
    let line = margins(x(), &OF_X, &W6, &[6, 5, 6, 0], 6);
    assert_eq!(line, "MARGINS 4 BUFFER -1 1 -1 0 7 7");
    let line = margins(table(8, &SHARED, 1), &OF_OWNER_1, &W6, &[3, 6, 2], 3);
    assert_eq!(line, "MARGINS 3 BUFFER 1 -1 0");
    // No length, no task.
    assert_eq!(margins(x(), &OF_X, &W6, &[], 0), "MARGINS 0 BUFFER");
    assert_eq!(margins(x(), &OF_X, &W6, &[], 2), "MARGINS 0 BUFFER 7 7");
    let line = margins(x(), &OF_X, &[], &[8, 1_000_000], 2);
    assert_eq!(line, "MARGINS 2 BUFFER 4 500000");
    // 32 tasks that release 1,000,000 ticks of work at every tick.
    let most = [1_000_000, 1, 1].repeat(32);
    let line = margins(x(), &OF_X, &most, &[1_000_000, 1], 2);
    assert_eq!(line, "MARGINS 2 BUFFER -31999999500000 -32000000");
}

#[test]
fn refusals_of_margins_in_order() {
    let wrong = &[4, 12, 2, 3, 5, 6, 9][..];
    let long = &[4, 1_000_001][..];
    let short = "BUFFER 7";
    let asked = |table, summary: &[u64], tasks: &[u64], lengths: &[u64]| {
        let line = margins(table, summary, tasks, lengths, 1);
        let refusal = line.strip_suffix(short).unwrap_or(&line);
        refusal.trim_end().to_string()
    };
    // Every fault but those before it.
    assert_eq!(
        asked(table(0, &[1], 2), wrong, &[1], long),
        "REFUSED 1 at 0"
    );
    assert_eq!(
        asked(table(0, &[1, 1, 0], 2), wrong, &[1], long),
        "REFUSED 2 at 0"
    );
    assert_eq!(
        asked(table(8, &[1, 1, 0], 2), wrong, &[1], long),
        "REFUSED 3 at 0"
    );
    let absent = with_shortest(table(8, &X, 1), 3);
    assert_eq!(asked(absent, wrong, &[1], long), "REFUSED 1 at 0");
    let sliver = with_shortest(x(), 3);
    assert_eq!(asked(sliver, wrong, &[1], long), "REFUSED 12 at 0");
    assert_eq!(asked(x(), wrong, &[1], long), "REFUSED 4 at 0");
    let many = [0, 4, 4].repeat(33);
    assert_eq!(asked(x(), wrong, &many, long), "REFUSED 4 at 0");
    let bad = [1, 4, 4, 1, 4, 5];
    assert_eq!(asked(x(), wrong, &bad, long), "REFUSED 5 at 1");
    assert_eq!(asked(x(), wrong, &W6, long), "REFUSED 14 at 0");
    assert_eq!(asked(x(), &OF_X, &W6, long), "REFUSED 7 at 0");
    assert_eq!(asked(x(), &OF_X, &W6, &[1_000_001, 4]), "REFUSED 7 at 0");
    assert_eq!(asked(x(), &OF_X, &W6, &[4, 5]), "REFUSED 8 at 2");
    assert_eq!(asked(x(), &OF_X, &W6, &[5]), "MARGINS 1 BUFFER 1");
    // No cycle is needed: 6 is not among them.
    let line = asked(x(), &OF_X, &[1, 999_999, 9], &[9]);
    assert_eq!(line, "MARGINS 1 BUFFER 3");
    // The length that is too long may be any of them.
    for place in 0..5 {
        let mut lengths = [8; 5];
        lengths[place] = GREATEST;
        let line = margins(x(), &OF_X, &W6, &lengths, 5);
        assert_eq!(line, "REFUSED 7 at 0 BUFFER 7 7 7 7 7");
    }
}
