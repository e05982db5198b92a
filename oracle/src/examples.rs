//! Document 01's marked examples, limits, four errors and plan, copied by hand, and outages and
//! replays by document 02's requests 1 and 2, worked out by hand.

use crate::answer::Answer;
use crate::numbers::encode;
use crate::plan::{plan, Form};
use crate::query::{Query, RunNumbers};
use crate::replay::replay_on_plan;
use crate::table::TableNumbers;
use crate::tasks::TaskNumbers;

fn table(frame: u64, windows: &[u64]) -> TableNumbers {
    TableNumbers::pairs(frame, windows.to_vec())
}

fn x() -> TableNumbers {
    table(8, &[0, 2, 5, 7])
}

fn triples(group: &[[u64; 3]]) -> TaskNumbers {
    TaskNumbers::Triples(group.concat())
}

fn records(group: &[[u64; 3]]) -> TaskNumbers {
    TaskNumbers::Records(group.to_vec())
}

fn outage(frame: u64, windows: &[u64]) -> String {
    Query::Outage(table(frame, windows)).line()
}

/// The verdict on X, the same in triples, in records and from a plan file.
fn verdict(group: &[[u64; 3]]) -> String {
    let line = Query::Verdict(x(), triples(group)).line();
    assert_eq!(Query::Verdict(x(), records(group)).line(), line);
    let mut numbers = vec![8, 2, 0, 2, 5, 7, group.len() as u64];
    numbers.extend(group.concat());
    let bytes = crate::numbers::encode(&numbers);
    assert_eq!(plan_line(&bytes), line);
    line
}

fn bounds(table: &TableNumbers, group: &[[u64; 3]]) -> Vec<String> {
    let bound = |i| Query::Bound(table.clone(), records(group), i).line();
    (0..group.len() as u64).map(bound).collect()
}

fn plan_line(bytes: &[u8]) -> String {
    Answer::from(plan(Form::Old, bytes)).to_string()
}

fn run(group: &[[u64; 3]], ticks: u64, jobs: &[u64], room: u64) -> String {
    let on = |tasks| {
        Query::Run(RunNumbers {
            table: x(),
            tasks,
            ticks,
            jobs: jobs.to_vec(),
            room,
        })
        .line()
    };
    assert_eq!(on(triples(group)), on(records(group)));
    on(triples(group))
}

/// Of a trace's bytes, on any table and group.
fn replay_bytes(table: TableNumbers, tasks: TaskNumbers, bytes: &[u8]) -> String {
    Query::Replay(table, tasks, bytes.to_vec()).line()
}

/// Of a trace's numbers, on X.
fn replay(group: &[[u64; 3]], trace: &[u64]) -> String {
    replay_bytes(x(), triples(group), &encode(trace))
}

const W7: [[u64; 3]; 2] = [[1, 4, 4], [2, 8, 7]];

#[test]
fn w1_least_supply() {
    let expected = [0, 0, 0, 0, 1, 2, 2, 3, 4];
    for (t, supply) in expected.iter().enumerate() {
        let line = Query::LeastSupply(x(), t as u64).line();
        assert_eq!(line, format!("AMOUNT {supply}"));
        let line = Query::LeastSupply(x(), t as u64 + 8).line();
        assert_eq!(line, format!("AMOUNT {}", supply + 4));
    }
}

#[test]
fn w2_critical_partition() {
    let on_x = |room| Query::CriticalPartition(x(), room).line();
    assert_eq!(on_x(4), "WINDOWS 2 BUFFER 3 5 6 8");
    assert_eq!(on_x(6), "WINDOWS 2 BUFFER 3 5 6 8 7 7");
    assert_eq!(on_x(5), "WINDOWS 2 BUFFER 3 5 6 8 7");
    assert_eq!(on_x(3), "REFUSED 8 at 4 BUFFER 7 7 7");
    assert_eq!(on_x(0), "REFUSED 8 at 4 BUFFER");
}

#[test]
fn w3_delay() {
    assert_eq!(Query::Delay(x()).line(), "DELAY 12 of 4");
}

/// "The example now reads 6, and X still reads 3."
#[test]
fn outage_over_endless_frames() {
    // Ticks 2 to 4. Tick 7 is silent too, but the next frame begins with supply.
    assert_eq!(Query::Outage(x()).line(), "OUTAGE 3");
    // Ticks 5 to 7, then 0 to 2 of the next frame.
    assert_eq!(outage(8, &[3, 5]), "OUTAGE 6");
    // "0 if every tick is supplied."
    assert_eq!(outage(8, &[0, 8]), "OUTAGE 0");
    // Ticks 10 and 11 and then 0 are 3, but ticks 3 to 7 inside the frame are 5.
    assert_eq!(outage(12, &[1, 3, 8, 10]), "OUTAGE 5");
}

/// Ticks 4 to 7 inside the frame are 4; tick 10 to the end joins ticks 0 and 1.
#[test]
fn outage_joined_shorter_equal_and_longer() {
    let windows = [2, 4, 8, 10];
    assert_eq!(outage(11, &windows), "OUTAGE 4", "1 and 2 join");
    assert_eq!(outage(12, &windows), "OUTAGE 4", "2 and 2 join");
    assert_eq!(outage(13, &windows), "OUTAGE 5", "3 and 2 join");
}

#[test]
fn outage_with_a_window_at_an_end() {
    // A window that ends at P: nothing is silent there to join ticks 0 and on.
    assert_eq!(outage(8, &[5, 8]), "OUTAGE 5", "0 to 4");
    assert_eq!(outage(8, &[4, 5, 7, 8]), "OUTAGE 4", "0 to 3, then 5 and 6");
    assert_eq!(outage(8, &[2, 3, 6, 8]), "OUTAGE 3", "0 and 1, then 3 to 5");
    // One that starts at 0: nothing is silent there to join the end.
    assert_eq!(outage(8, &[0, 3]), "OUTAGE 5", "3 to 7");
    assert_eq!(outage(8, &[0, 1, 3, 4]), "OUTAGE 4", "1 and 2, then 4 to 7");
    assert_eq!(outage(8, &[0, 2, 5, 6]), "OUTAGE 3", "2 to 4, then 6 and 7");
    // Both.
    assert_eq!(outage(8, &[0, 1, 7, 8]), "OUTAGE 6", "1 to 6");
}

#[test]
fn outage_at_the_limits() {
    // A frame of one tick can only be full; in one of two, every other tick is silent.
    assert_eq!(outage(1, &[0, 1]), "OUTAGE 0");
    assert_eq!(outage(2, &[0, 1]), "OUTAGE 1");
    assert_eq!(outage(2, &[1, 2]), "OUTAGE 1");
    // The longest frame: all ticks but one are silent, wherever that one is.
    assert_eq!(outage(65_536, &[0, 1]), "OUTAGE 65535");
    assert_eq!(outage(65_536, &[30_000, 30_001]), "OUTAGE 65535");
    assert_eq!(outage(65_536, &[65_535, 65_536]), "OUTAGE 65535");
    // Only its last tick and tick 0 are silent; then none is.
    assert_eq!(outage(65_536, &[1, 65_535]), "OUTAGE 2");
    assert_eq!(outage(65_536, &[0, 65_536]), "OUTAGE 0");
    // 64 windows: ticks 1, 3 and on to 127. Tick 128, if there is one, joins tick 0.
    let odd: Vec<u64> = (0..64).flat_map(|i| [2 * i + 1, 2 * i + 2]).collect();
    assert_eq!(outage(128, &odd), "OUTAGE 1");
    assert_eq!(outage(129, &odd), "OUTAGE 2");
}

/// Frames join, but a window may still not run from one frame into the next.
#[test]
fn outage_refused_as_before() {
    assert_eq!(outage(8, &[3]), "REFUSED 1 at 0");
    assert_eq!(outage(0, &[3, 5]), "REFUSED 2 at 0");
    assert_eq!(outage(65_537, &[3, 5]), "REFUSED 2 at 0");
    assert_eq!(outage(8, &[6, 9]), "REFUSED 3 at 0");
    assert_eq!(outage(8, &[3, 4, 6, 2]), "REFUSED 3 at 1");
}

#[test]
fn w4_to_w10_verdicts() {
    assert_eq!(verdict(&[[1, 4, 4]]), "MEETS cycle 8");
    let w5 = "MISS length 3 start 2 demand 1 supply 0";
    assert_eq!(verdict(&[[1, 4, 3]]), w5);
    let w6 = "MISS length 6 start 2 demand 3 supply 2";
    assert_eq!(verdict(&[[1, 4, 4], [2, 8, 6]]), w6);
    assert_eq!(verdict(&[[1, 4, 4], [2, 8, 7]]), "MEETS cycle 8");
    let w8 = "MISS length 8 start 0 demand 5 supply 4";
    assert_eq!(verdict(&[[5, 8, 8]]), w8);
    let w9 = "MISS length 24 start 0 demand 13 supply 12";
    assert_eq!(verdict(&[[13, 24, 24]]), w9);
    assert_eq!(verdict(&[]), "MEETS cycle 8");
}

#[test]
fn w6_margin() {
    let w6 = [[1, 4, 4], [2, 8, 6]];
    let margin = |t| Query::Margin(x(), triples(&w6), t).line();
    assert_eq!(margin(6), "MARGIN -1");
    assert_eq!(margin(0), "MARGIN 0");
    assert_eq!(margin(7), "MARGIN 0");
    assert_eq!(margin(1_000_001), "REFUSED 7 at 0");
    assert_eq!(Query::Demand(records(&w6), 6).line(), "DEMAND 3");
}

#[test]
fn w11_and_w12_bounds() {
    let w11 = [[1, 4, 4], [1, 8, 8]];
    assert_eq!(bounds(&x(), &w11), ["BOUND 4", "BOUND 7"]);
    let w12 = [
        [1, 10, 10],
        [1, 5, 5],
        [1, 15, 15],
        [2, 10, 10],
        [2, 30, 30],
    ];
    let expected = ["BOUND 1", "BOUND 2", "BOUND 3", "BOUND 5", "BOUND 8"];
    assert_eq!(bounds(&table(1, &[0, 1]), &w12), expected);
    assert_eq!(bounds(&x(), &[[1, 4, 3]]), ["NO BOUND"]);
    let absent = Query::Bound(x(), triples(&w11), 2).line();
    assert_eq!(absent, "REFUSED 7 at 0");
}

#[test]
fn w13_run() {
    let w7 = [[1, 4, 4], [2, 8, 7]];
    let jobs = [2, 0, 1, 2, 1, 2];
    assert_eq!(run(&w7, 10, &jobs, 2), "MET backlog 2 BUFFER 4 7");
    assert_eq!(run(&w7, 10, &jobs, 3), "MET backlog 2 BUFFER 4 7 7");
    assert_eq!(run(&w7, 10, &jobs, 1), "REFUSED 8 at 2 BUFFER 7");
    assert_eq!(run(&w7, 8, &jobs, 2), "MET backlog 2 BUFFER 4 0");
    assert_eq!(run(&w7, 0, &[], 1), "MET backlog 0 BUFFER 7");
    assert_eq!(run(&w7, 3, &[], 0), "MET backlog 0 BUFFER");
}

#[test]
fn runs_that_miss() {
    let w6 = [[1, 4, 4], [2, 8, 6]];
    let jobs = [2, 0, 1, 2, 1, 2];
    let missed = "MISSED instant 8 job 1 backlog 2 BUFFER 4 0";
    assert_eq!(run(&w6, 10, &jobs, 2), missed);
    // The deadline, 8, falls in a run of 8 ticks but not in one of 7.
    assert_eq!(run(&w6, 8, &jobs, 2), missed);
    assert_eq!(run(&w6, 7, &jobs, 2), "MET backlog 2 BUFFER 4 0");
    // Both are due at 5 with no supply from 2: the lower job index, though not the lower task.
    let both = [[1, 4, 2], [1, 4, 3]];
    let jobs = [2, 1, 1, 3, 0, 1];
    let missed = "MISSED instant 5 job 0 backlog 2 BUFFER 0 0";
    assert_eq!(run(&both, 9, &jobs, 2), missed);
}

#[test]
fn illegal_job_lists() {
    let w7 = [[1, 4, 4], [2, 8, 7]];
    let refused = |ticks, jobs: &[u64]| run(&w7, ticks, jobs, 0);
    let list = "REFUSED 10 at 0 BUFFER";
    assert_eq!(refused(10, &[2, 0]), list);
    assert_eq!(refused(1_100_001, &[]), list);
    assert_eq!(refused(10, &[0; 3 * 4_097]), list);
    let at_1 = "REFUSED 11 at 1 BUFFER";
    assert_eq!(refused(10, &[2, 0, 1, 1, 1, 1]), at_1, "falls");
    assert_eq!(refused(10, &[2, 1, 1, 2, 0, 1]), at_1, "falls in a tick");
    assert_eq!(refused(10, &[2, 0, 1, 2, 0, 1]), at_1, "same again");
    assert_eq!(refused(10, &[2, 0, 1, 2, 2, 1]), at_1, "no such task");
    assert_eq!(refused(10, &[2, 0, 1, 2, 1, 3]), at_1, "work over C");
    assert_eq!(refused(10, &[2, 0, 1, 2, 1, 0]), at_1, "no work");
    assert_eq!(refused(10, &[2, 0, 1, 10, 1, 1]), at_1, "release at n");
    assert_eq!(refused(10, &[2, 0, 1, 5, 0, 1]), at_1, "nearer than T");
    let apart = "REFUSED 8 at 2 BUFFER";
    assert_eq!(refused(10, &[2, 0, 1, 6, 0, 1]), apart, "exactly T");
    let no_tasks = run(&[], 10, &[0, 0, 1], 1);
    assert_eq!(no_tasks, "REFUSED 11 at 0 BUFFER 7");
}

#[test]
fn at_the_limits() {
    assert_eq!(outage(8, &[0, 2, 2, 4]), "REFUSED 3 at 1");
    assert_eq!(verdict(&[[1, 1_000_000, 1_000_000]]), "MEETS cycle 1000000");
    assert_eq!(verdict(&[[1, 999_999, 999_999]]), "REFUSED 6 at 0");
}

#[test]
fn four_errors_we_have_seen() {
    // Counting supply from tick 0.
    let first = verdict(&[[2, 8, 3]]);
    assert_eq!(first, "MISS length 3 start 2 demand 2 supply 0");
    // Testing lengths up to P only: W9. Reading demand as floor(t/T)*C: W5. Both above.
    // Trying starts at window starts: at length 4 on X the least start is 1.
    let third = verdict(&[[2, 4, 4]]);
    assert_eq!(third, "MISS length 4 start 1 demand 2 supply 1");
}

#[test]
fn the_plan_and_its_line() {
    let bytes = [8, 2, 0, 2, 5, 7, 2, 1, 4, 4, 2, 8, 6];
    let line = "MISS length 6 start 2 demand 3 supply 2";
    assert_eq!(plan_line(&bytes), line);
    // A number missing whole: the file's length.
    for end in 0..bytes.len() {
        assert_eq!(plan_line(&bytes[..end]), format!("REFUSED 9 at {end}"));
    }
    // The first byte left over.
    let left_over = [&bytes[..], &[0x80, 1]].concat();
    assert_eq!(plan_line(&left_over), "REFUSED 9 at 13");
    // The first byte of a padded and of an unfinished number.
    assert_eq!(plan_line(&[8, 2, 0, 0x82, 0, 5, 7, 0]), "REFUSED 9 at 3");
    assert_eq!(plan_line(&[8, 2, 0, 2, 5, 0x80]), "REFUSED 9 at 5");
    assert_eq!(plan_line(&[8, 2, 0, 2, 2, 4, 0]), "REFUSED 3 at 1");
}

#[test]
fn early_answers_of_a_plan_file() {
    assert_eq!(plan_line(&[0, 0, 0x80]), "REFUSED 1 at 0");
    assert_eq!(plan_line(&[0, 65]), "REFUSED 1 at 0");
    assert_eq!(plan_line(&[0, 64]), "REFUSED 9 at 2");
    assert_eq!(plan_line(&[0x80, 0, 0]), "REFUSED 9 at 0");
    assert_eq!(plan_line(&[0, 1, 9, 3, 33, 0x80]), "REFUSED 4 at 0");
    assert_eq!(plan_line(&[0, 1, 9, 3, 32]), "REFUSED 9 at 5");
    assert_eq!(plan_line(&[0, 1, 9, 3, 0]), "REFUSED 2 at 0");
    assert_eq!(plan_line(&[0, 1, 9, 3, 0, 0]), "REFUSED 9 at 5");
}

#[test]
fn refusals_in_order() {
    let group = triples(&[[1, 4, 4], [1, 4, 5]]);
    let asked = |frame, windows: &[u64], tasks: &TaskNumbers| {
        Query::Margin(table(frame, windows), tasks.clone(), 1_000_001).line()
    };
    assert_eq!(asked(0, &[9], &group), "REFUSED 1 at 0");
    assert_eq!(asked(8, &[], &group), "REFUSED 1 at 0");
    assert_eq!(asked(0, &[9, 9], &group), "REFUSED 2 at 0");
    assert_eq!(asked(65_537, &[0, 9], &group), "REFUSED 2 at 0");
    assert_eq!(asked(8, &[0, 1, 9, 9], &group), "REFUSED 3 at 1");
    assert_eq!(asked(8, &[0, 9], &group), "REFUSED 3 at 0");
    let odd = TaskNumbers::Triples(vec![0; 4]);
    assert_eq!(asked(8, &[0, 8], &odd), "REFUSED 4 at 0");
    let many = TaskNumbers::Triples(vec![0; 99]);
    assert_eq!(asked(8, &[0, 8], &many), "REFUSED 4 at 0");
    assert_eq!(asked(8, &[0, 8], &group), "REFUSED 5 at 1");
    let large = triples(&[[1_000_001, 4, 4]]);
    assert_eq!(asked(8, &[0, 8], &large), "REFUSED 5 at 0");
    // Only the verdict makes 6.
    let over = triples(&[[1, 999_999, 4]]);
    assert_eq!(asked(8, &[0, 8], &over), "REFUSED 7 at 0");
    assert_eq!(Query::Bound(x(), over, 0).line(), "BOUND 4");
    // A window that ends at P beside one that starts at 0 touches none.
    assert_eq!(outage(8, &[0, 1, 7, 8]), "OUTAGE 6");
    // 64 windows and 65, 32 tasks and 33.
    let ticks = |count| {
        (0..count)
            .flat_map(|i| [2 * i, 2 * i + 1])
            .collect::<Vec<u64>>()
    };
    assert_eq!(outage(200, &ticks(64)), "OUTAGE 73");
    assert_eq!(outage(200, &ticks(65)), "REFUSED 1 at 0");
    let line = |count| Query::Demand(triples(&vec![[1, 1, 1]; count]), 1).line();
    assert_eq!(line(32), "DEMAND 32");
    assert_eq!(line(33), "REFUSED 4 at 0");
}

/// W7's tasks, both released in full at run tick 0. Task 0 is due at 4, task 1 at 7: tick 0 is
/// task 0's last work, so it is complete at instant 1; ticks 1 and 5 are task 1's, which is
/// complete at instant 6.
#[test]
fn replay_the_same() {
    let from = |stamp: u64| {
        let at = |instant: u64| (stamp + instant) % (1 << 32);
        let releases = [0, 0, 1, at(0), 0, 1, 2, at(0)];
        let completions = [1, 0, at(1), 1, 1, at(6)];
        replay(&W7, &[&releases[..], &completions].concat())
    };
    assert_eq!(from(0), "SAME");
    assert_eq!(from(100), "SAME");
    // The counter goes past its top: between all pairs in turn, and never.
    assert_eq!(from(4_294_967_295), "SAME", "before instant 1");
    assert_eq!(from(4_294_967_294), "SAME", "between 1 and 6");
    assert_eq!(from(4_294_967_290), "SAME", "at instant 6");
    assert_eq!(from(4_294_967_289), "SAME", "after it");
    // The same, with the stamps written out.
    let top = 4_294_967_295;
    let wraps = [0, 0, 1, top, 0, 1, 2, top, 1, 0, 0, 1, 1, 5];
    assert_eq!(replay(&W7, &wraps), "SAME");
}

/// What is later than the last record is not compared.
#[test]
fn replay_up_to_the_last_record() {
    let releases = [0, 0, 1, 9, 0, 1, 2, 9];
    assert_eq!(replay(&W7, &releases), "SAME", "up to instant 0");
    let one = [&releases[..], &[1, 0, 10]].concat();
    assert_eq!(replay(&W7, &one), "SAME", "up to instant 1");
    // Task 0 again at instant 5: task 1 is complete at 6 (it is due at 7, task 0 at 9).
    let at_5 = [&one[..], &[0, 0, 1, 14]].concat();
    assert_eq!(replay(&W7, &at_5), "SAME");
    // At instant 6 the machine has a completion that the trace has not.
    let at_6 = [&one[..], &[0, 0, 1, 15]].concat();
    let none = "DIFFERS trace none machine instant 6 task 1";
    assert_eq!(replay(&W7, &at_6), none);
    let both = [&one[..], &[1, 1, 15, 0, 0, 1, 15]].concat();
    assert_eq!(replay(&W7, &both), "SAME");
    // No completion at all, and a release at instant 4.
    let at_4 = [&releases[..], &[0, 0, 1, 13]].concat();
    let none = "DIFFERS trace none machine instant 1 task 0";
    assert_eq!(replay(&W7, &at_4), none);
}

#[test]
fn replay_that_differs() {
    let releases = [0, 0, 1, 9, 0, 1, 2, 9];
    let after = |completions: &[u64]| replay(&W7, &[&releases, completions].concat());
    let late = "DIFFERS trace instant 7 task 1 machine instant 6 task 1";
    assert_eq!(after(&[1, 0, 10, 1, 1, 16]), late);
    // One tick early: the machine's is after the last record.
    let early = "DIFFERS trace instant 5 task 1 machine none";
    assert_eq!(after(&[1, 0, 10, 1, 1, 14]), early);
    // But not where task 0 is released at 6.
    let early = "DIFFERS trace instant 5 task 1 machine instant 6 task 1";
    assert_eq!(after(&[1, 0, 10, 1, 1, 14, 0, 0, 1, 15]), early);
    let other = "DIFFERS trace instant 1 task 1 machine instant 1 task 0";
    assert_eq!(after(&[1, 1, 10]), other);
    // Both differ: the first pair is named, the second is not looked at.
    let first = "DIFFERS trace instant 2 task 0 machine instant 1 task 0";
    assert_eq!(after(&[1, 0, 11, 1, 1, 16]), first);
    // The first is missing: the k-th is held against the k-th.
    let moved = "DIFFERS trace instant 6 task 1 machine instant 1 task 0";
    assert_eq!(after(&[1, 1, 15]), moved);
    // One too many.
    let third = "DIFFERS trace instant 7 task 0 machine none";
    assert_eq!(after(&[1, 0, 10, 1, 1, 15, 1, 0, 16]), third);
    let third = "DIFFERS trace instant 6 task 2 machine none";
    assert_eq!(after(&[1, 0, 10, 1, 1, 15, 1, 2, 15]), third);
    // A task that is absent is only another task.
    let absent = "DIFFERS trace instant 1 task 4294967295 machine instant 1 task 0";
    assert_eq!(after(&[1, 4_294_967_295, 10]), absent);
}

/// The first record is at run tick 0, whatever it is: nothing can be complete there.
#[test]
fn replay_that_begins_with_a_completion() {
    let alone = "DIFFERS trace instant 0 task 0 machine none";
    assert_eq!(replay(&W7, &[1, 0, 77]), alone);
    assert_eq!(replay(&[], &[1, 0, 77]), alone);
    let first = "DIFFERS trace instant 0 task 0 machine instant 1 task 0";
    assert_eq!(replay(&W7, &[1, 0, 7, 0, 0, 1, 7, 1, 0, 8]), first);
    // A trace that begins later than the board's start has other run ticks: this release is at
    // tick 0 and complete at 1, not at 2 + 4 as on the board.
    let late = "DIFFERS trace instant 4 task 0 machine instant 1 task 0";
    assert_eq!(replay(&W7, &[0, 0, 1, 2, 1, 0, 6]), late);
}

/// Task 1 is released at tick 2 and due at 5; ticks 2, 3 and 4 have no supply. A miss at 5.
#[test]
fn replay_that_misses() {
    let group = [[1, 4, 4], [1, 4, 3]];
    let before = [0, 0, 1, 0, 1, 0, 1, 0, 1, 1, 2];
    let then = |more: &[u64]| replay(&group, &[&before, more].concat());
    let missed = "MISSED instant 5 job 1";
    assert_eq!(then(&[]), "SAME");
    // Nothing differs up to a release of task 0 at 4, nor up to one at 5, but that is the miss.
    assert_eq!(then(&[0, 0, 1, 4]), "SAME");
    assert_eq!(then(&[0, 0, 1, 5]), missed);
    // A completion one before the miss, at its instant and one after it. The machine's run ends.
    let differs = "DIFFERS trace instant 4 task 1 machine none";
    assert_eq!(then(&[1, 1, 4]), differs);
    assert_eq!(then(&[1, 1, 4, 0, 0, 1, 9]), differs);
    assert_eq!(then(&[1, 1, 5]), missed);
    assert_eq!(then(&[1, 1, 6]), missed);
    assert_eq!(then(&[1, 1, 6, 0, 0, 1, 7, 1, 0, 9]), missed);
    // An earlier difference is named though the trace goes past the miss.
    let late = [0, 0, 1, 0, 1, 0, 2, 0, 1, 1, 2, 1, 1, 6];
    let differs = "DIFFERS trace instant 2 task 0 machine instant 1 task 0";
    assert_eq!(replay(&group, &late), differs);
    // The lesser instant is the machine's, 1, also where the trace's is after the miss.
    let never = [0, 0, 1, 0, 0, 1, 1, 2, 1, 1, 6];
    let differs = "DIFFERS trace instant 6 task 1 machine instant 1 task 0";
    assert_eq!(replay(&group, &never), differs);
    let never = [0, 0, 1, 0, 0, 1, 1, 2, 0, 0, 1, 6];
    let differs = "DIFFERS trace none machine instant 1 task 0";
    assert_eq!(replay(&group, &never), differs);
}

/// Both are due at 1. Tick 0 is task 0's: at instant 1 it is complete and task 1 is missed.
#[test]
fn replay_that_completes_and_misses_at_one_instant() {
    let group = [[1, 4, 1], [1, 4, 1]];
    let releases = [0, 0, 1, 50, 0, 1, 1, 50];
    let missed = "MISSED instant 1 job 1";
    assert_eq!(replay(&group, &releases), "SAME");
    assert_eq!(
        replay(&group, &[&releases[..], &[1, 0, 51]].concat()),
        missed
    );
    assert_eq!(
        replay(&group, &[&releases[..], &[1, 1, 51]].concat()),
        missed
    );
    assert_eq!(
        replay(&group, &[&releases[..], &[1, 0, 52]].concat()),
        missed
    );
    // A difference before it names the machine's completion at the miss, if that is up to the
    // last record's instant.
    let first = [&[1, 0, 50], &releases[..]].concat();
    let alone = "DIFFERS trace instant 0 task 0 machine none";
    assert_eq!(replay(&group, &first), alone);
    let both = "DIFFERS trace instant 0 task 0 machine instant 1 task 0";
    assert_eq!(replay(&group, &[&first[..], &[1, 0, 51]].concat()), both);
    // Task 1 is due one tick after its release, here in tick 5, which is its own.
    let group = [[1, 2, 2], [1, 4, 1]];
    let trace = [
        0, 0, 1, 0, 1, 0, 1, 0, 0, 1, 5, 0, 1, 1, 5, 1, 1, 6, 1, 0, 7,
    ];
    assert_eq!(replay(&group, &trace), "SAME");
    // Both are due at 4, without supply. The lower job is the second release, the third record.
    let trace = [0, 0, 1, 0, 1, 0, 1, 0, 0, 1, 2, 0, 1, 1, 3, 0, 0, 1, 4];
    assert_eq!(replay(&group, &trace), "MISSED instant 4 job 1");
    let trace = [0, 0, 1, 0, 1, 0, 1, 0, 1, 1, 3, 1, 1, 4];
    assert_eq!(replay(&group, &trace), "MISSED instant 4 job 1");
}

#[test]
fn replay_of_an_empty_trace() {
    assert_eq!(replay(&W7, &[]), "SAME");
    assert_eq!(replay(&[], &[]), "SAME");
    let no_table = table(8, &[0, 2, 2, 4]);
    let refused = replay_bytes(no_table, triples(&W7), &[]);
    assert_eq!(refused, "REFUSED 3 at 1");
    assert_eq!(replay(&[[1, 4, 4], [1, 4, 5]], &[]), "REFUSED 5 at 1");
}

#[test]
fn replay_of_too_long_a_run() {
    // n is 1,100,000: the second release is at the last tick there is. One more is too many.
    let long = |stamp| replay(&W7, &[0, 0, 1, 0, 1, 0, 1, 0, 0, 1, stamp]);
    assert_eq!(long(1_099_999), "SAME");
    assert_eq!(long(1_100_000), "REFUSED 10 at 0");
    // From 10 back to 9 is 2^32 - 1 ticks.
    let back = [0, 0, 1, 10, 1, 0, 9];
    assert_eq!(replay(&W7, &back), "REFUSED 10 at 0");
    // Half of 2^32 ticks, and half again: the last record is not at run tick 0.
    let half = 1 << 31;
    let around = [0, 0, 1, 0, 1, 0, half, 1, 0, 0];
    assert_eq!(replay(&W7, &around), "REFUSED 10 at 0");
    let around = [0, 0, 1, 5, 1, 0, 4, 1, 0, 3, 1, 0, 2, 1, 0, 6];
    assert_eq!(replay(&W7, &around), "REFUSED 10 at 0");
}

/// 32 tasks of one tick at each of the ticks 0 to 127 are 4,096 releases. Every tick is supplied;
/// at instant 1 the first job is complete and the others are missed.
#[test]
fn replay_of_too_many_releases() {
    let group = vec![[1, 1, 1]; 32];
    let job = |index: u64| [0, index % 32, 1, index / 32];
    let jobs = |count: u64| {
        let numbers: Vec<u64> = (0..count).flat_map(job).collect();
        replay_bytes(table(1, &[0, 1]), triples(&group), &encode(&numbers))
    };
    assert_eq!(jobs(32), "SAME", "up to instant 0");
    assert_eq!(jobs(33), "MISSED instant 1 job 1");
    assert_eq!(jobs(4_096), "MISSED instant 1 job 1");
    assert_eq!(jobs(4_097), "REFUSED 10 at 0");
    // Completions are not counted: 5,000 of them, task after task, all at instant 0.
    let numbers: Vec<u64> = (0..5_000).flat_map(|task| [1, task, 3]).collect();
    let many = "DIFFERS trace instant 0 task 0 machine none";
    assert_eq!(replay(&W7, &numbers), many);
}

/// Refusal 11 has the index of the record, not that of the job or of the number.
#[test]
fn replay_of_illegal_records() {
    let run = [0, 0, 1, 0, 0, 1, 2, 0, 1, 0, 1, 1, 1, 6];
    let then = |more: &[u64]| replay(&W7, &[&run, more].concat());
    let at_4 = "REFUSED 11 at 4";
    assert_eq!(then(&[0, 0, 1, 8]), "SAME");
    assert_eq!(then(&[0, 0, 2, 8]), at_4, "work over C");
    assert_eq!(then(&[0, 0, 0, 8]), at_4, "no work");
    assert_eq!(then(&[0, 2, 1, 8]), at_4, "no such task");
    assert_eq!(then(&[0, 4_294_967_295, 1, 8]), at_4, "no such task");
    assert_eq!(then(&[0, 1, 1, 7]), at_4, "nearer than T");
    assert_eq!(then(&[0, 1, 1, 8]), "SAME", "exactly T");
    assert_eq!(then(&[1, 1, 6]), at_4, "a completion twice");
    assert_eq!(then(&[1, 0, 6]), at_4, "completions fall");
    assert_eq!(then(&[0, 0, 1, 8, 1, 0, 8]), "REFUSED 11 at 5", "kinds");
    assert_eq!(then(&[0, 0, 1, 8, 0, 0, 1, 8]), "REFUSED 11 at 5");
    assert_eq!(then(&[0, 1, 1, 8, 0, 0, 1, 8]), "REFUSED 11 at 5");
    // Releases of two tasks at one instant, after a completion at it.
    let both = [0, 0, 1, 0, 1, 0, 1, 0, 1, 2, 1];
    assert_eq!(replay(&W7, &both), "SAME");
    // The first record, and an earlier record before a later one.
    assert_eq!(replay(&W7, &[0, 2, 1, 0]), "REFUSED 11 at 0");
    assert_eq!(replay(&[], &[0, 0, 1, 0]), "REFUSED 11 at 0");
    assert_eq!(
        replay(&W7, &[1, 1, 0, 1, 0, 0, 0, 9, 9, 0]),
        "REFUSED 11 at 1"
    );
    assert_eq!(
        replay(&W7, &[1, 0, 0, 1, 9, 0, 0, 9, 9, 0]),
        "REFUSED 11 at 2"
    );
}

#[test]
fn replay_of_damaged_bytes() {
    let on_x = |bytes: &[u8]| replay_bytes(x(), triples(&W7), bytes);
    assert_eq!(on_x(&[0]), "REFUSED 9 at 1");
    assert_eq!(on_x(&[0, 0, 1]), "REFUSED 9 at 3");
    assert_eq!(on_x(&[0, 0, 1, 0x80]), "REFUSED 9 at 3");
    assert_eq!(on_x(&[0, 0, 0x81, 0x00, 5]), "REFUSED 9 at 2");
    assert_eq!(
        on_x(&[1, 0, 0xff, 0xff, 0xff, 0xff, 0x10]),
        "REFUSED 9 at 2"
    );
    assert_eq!(on_x(&[0, 0, 1, 5, 2]), "REFUSED 9 at 4");
    assert_eq!(on_x(&[0, 0, 1, 5, 0x80, 0x01, 0, 0]), "REFUSED 9 at 4");
    // Another kind comes before an earlier record's other faults and before a later number's.
    assert_eq!(on_x(&[0, 9, 9, 5, 3, 0x80, 0x00]), "REFUSED 9 at 4");
}

#[test]
fn replay_refusals_in_order() {
    let bad_group = triples(&[[1, 4, 4], [1, 4, 5]]);
    let odd_group = TaskNumbers::Triples(vec![1, 4, 4, 1]);
    // Bytes, then n, then the task are bad; then without the first; then without the second.
    let nine = encode(&[0, 9, 1, 1, 1, 0, 0, 2]);
    let ten = encode(&[0, 9, 1, 1, 1, 0, 0]);
    let eleven = encode(&[0, 9, 1, 1, 1, 0, 2]);
    let asked = |frame, windows: &[u64], tasks: &TaskNumbers, trace: &[u8]| {
        replay_bytes(table(frame, windows), tasks.clone(), trace)
    };
    assert_eq!(asked(0, &[9], &bad_group, &nine), "REFUSED 9 at 7");
    assert_eq!(asked(0, &[9], &bad_group, &ten), "REFUSED 1 at 0");
    assert_eq!(asked(0, &[9, 9], &bad_group, &ten), "REFUSED 2 at 0");
    assert_eq!(asked(8, &[0, 1, 9, 9], &bad_group, &ten), "REFUSED 3 at 1");
    assert_eq!(asked(8, &[0, 8], &odd_group, &ten), "REFUSED 4 at 0");
    assert_eq!(asked(8, &[0, 8], &bad_group, &ten), "REFUSED 5 at 1");
    let good = triples(&W7);
    assert_eq!(asked(8, &[0, 8], &good, &ten), "REFUSED 10 at 0");
    assert_eq!(asked(8, &[0, 8], &good, &eleven), "REFUSED 11 at 0");
    // No verdict, so no 6: H would be 7,999,992.
    let long = [[1, 999_999, 999_999]];
    assert_eq!(replay(&long, &[0, 0, 1, 3, 1, 0, 4]), "SAME");
}

#[test]
fn replay_with_a_plan_file() {
    let plan = [8, 2, 0, 2, 5, 7, 2, 1, 4, 4, 2, 8, 7];
    let line = |plan: &[u8], trace: &[u8]| Answer::from(replay_on_plan(plan, trace)).to_string();
    let trace = [0, 0, 1, 9, 0, 1, 2, 9, 1, 0, 10, 1, 1, 15];
    assert_eq!(line(&plan, &trace), "SAME");
    assert_eq!(line(&plan, &[]), "SAME");
    // The plan's bytes and early answers before the trace's, the trace's 9 before the table's.
    let bad = [3];
    assert_eq!(line(&plan[..12], &bad), "REFUSED 9 at 12");
    assert_eq!(line(&[8, 0], &bad), "REFUSED 1 at 0");
    assert_eq!(line(&[8, 1, 0, 2, 33], &bad), "REFUSED 4 at 0");
    assert_eq!(line(&[0, 1, 0, 2, 0], &bad), "REFUSED 9 at 0");
    assert_eq!(line(&[0, 1, 0, 2, 0], &trace), "REFUSED 2 at 0");
    assert_eq!(line(&[8, 1, 0, 9, 0], &[]), "REFUSED 3 at 0");
}
