//! Boards that pay for a switch (document 02, request 7): a table of two windows that keeps X's
//! ticks, turned by one, where each window loses one, and refusals, worked out by hand.

use crate::answer::Answer;
use crate::edit::{Edit, Kind};
use crate::lost::Switch;
use crate::numbers::encode;
use crate::plan::{plan, Form};
use crate::query::{EditNumbers, MarginNumbers, Query, RunNumbers};
use crate::table::TableNumbers;
use crate::tasks::TaskNumbers;

const GREATEST: u64 = 4_294_967_295;
/// What an edit gives that does not use a number.
const ANY: u64 = 9;

/// Rule 1 with q above 0, rules that are neither 1 nor 2, and q out of its range: some are in order
/// in a byte or in 16 bits.
const NO_BOARD_S: [[u64; 2]; 16] = [
    [1, 1],
    [1, 65_535],
    [1, 65_536],
    [1, GREATEST],
    [0, 0],
    [0, 1],
    [3, 0],
    [3, 1],
    [256 + 1, 0],
    [65_536 + 2, 1],
    [GREATEST, 0],
    [2, 65_536],
    [2, 65_537],
    [2, 131_072],
    [2, GREATEST],
    [GREATEST, GREATEST],
];

/// In a frame of 8, two windows of three ticks that join over midnight. Ticks 3 and 4 are silent
/// without a loss. Where each loses one, 1, 2, 6 and 7 remain: X, P = 8 with windows (0,2) and
/// (5,7), a tick later. Where each loses two, 2 and 7 remain.
const Z: [[u64; 3]; 2] = [[0, 3, 0], [5, 8, 0]];

/// Least supply 0, 0, 0, 1, 2, 3, 4, 5, 6, and 6*2 - 8*0 is the delay.
const OF_Z_WHOLE: [u64; 5] = [6, 12, 1, 2, 8];
/// X's, by W1 to W3: it does not count where the frame begins.
const OF_Z_WITHOUT_1: [u64; 7] = [4, 12, 2, 3, 5, 6, 8];
/// Silent 3 to 6, and 3 to 9 hold one tick: least supply 0, 0, 0, 0, 0, 1, 1, 1, 2, and 2*4 - 8*0
/// is the delay.
const OF_Z_WITHOUT_2: [u64; 7] = [2, 8, 2, 4, 5, 7, 8];

const W6: [[u64; 3]; 2] = [[1, 4, 4], [2, 8, 6]];
const W7: [[u64; 3]; 2] = [[1, 4, 4], [2, 8, 7]];
const W11: [[u64; 3]; 2] = [[1, 4, 4], [1, 8, 8]];

/// Rule 2 with so many lost ticks.
fn losing(lost: u64) -> [u64; 2] {
    [2, lost]
}

const WHOLE: [u64; 2] = [1, 0];

fn board(frame: u64, windows: &[u64], owner: u64, m: u64, switch: [u64; 2]) -> TableNumbers {
    TableNumbers {
        shortest: Some(m),
        switch: Switch::after_m(&switch),
        ..TableNumbers::threes(frame, windows.to_vec(), owner)
    }
}

/// Z for owner 0, without a shortest allowed window to speak of.
fn z(switch: [u64; 2]) -> TableNumbers {
    board(8, &Z.concat(), 0, 1, switch)
}

/// By the outage.
fn outage(frame: u64, windows: &[[u64; 3]], owner: u64, switch: [u64; 2]) -> String {
    Query::Outage(board(frame, &windows.concat(), owner, 1, switch)).line()
}

fn triples(group: &[[u64; 3]]) -> TaskNumbers {
    TaskNumbers::Triples(group.concat())
}

fn records(group: &[[u64; 3]]) -> TaskNumbers {
    TaskNumbers::Records(group.to_vec())
}

fn run(table: TableNumbers, tasks: TaskNumbers, ticks: u64, jobs: &[u64], room: u64) -> String {
    Query::Run(RunNumbers {
        table,
        tasks,
        ticks,
        jobs: jobs.to_vec(),
        room,
    })
    .line()
}

fn replay(table: TableNumbers, tasks: TaskNumbers, trace: &[u64]) -> String {
    Query::Replay(table, tasks, encode(trace)).line()
}

fn margins(table: TableNumbers, summary: &[u64], tasks: &[u64], lengths: &[u64]) -> String {
    Query::Margins(MarginNumbers {
        table,
        summary: summary.to_vec(),
        tasks: TaskNumbers::Triples(tasks.to_vec()),
        lengths: lengths.to_vec(),
        room: 2,
    })
    .line()
}

fn moved(index: u64, start: u64, end: u64) -> Edit {
    Edit {
        kind: Kind::Move,
        index,
        start,
        end,
        owner: ANY,
    }
}

fn added(index: u64, start: u64, end: u64, owner: u64) -> Edit {
    Edit {
        kind: Kind::Add,
        index,
        start,
        end,
        owner,
    }
}

fn removed(index: u64) -> Edit {
    Edit {
        kind: Kind::Remove,
        index,
        start: ANY,
        end: ANY,
        owner: ANY,
    }
}

/// An edit of all the table's windows, with no room but what the memories hold.
fn edited(table: TableNumbers, summary: &[u64], edit: Edit) -> String {
    Query::Edit(EditNumbers {
        count: table.windows.len() as u64 / 3,
        memory: table,
        summary: summary.to_vec(),
        edit,
    })
    .line()
}

/// The same; both memories are as they were.
fn refused(table: TableNumbers, summary: &[u64], edit: Edit) -> String {
    let after = |numbers: &[u64]| {
        let numbers: Vec<String> = numbers.iter().map(|n| format!(" {n}")).collect();
        format!(" BUFFER{}", numbers.concat())
    };
    let buffers = after(&table.windows) + &after(summary);
    let line = edited(table, summary, edit);
    match line.strip_suffix(&buffers) {
        Some(refusal) => refusal.to_string(),
        None => panic!("{line}"),
    }
}

/// The line of a plan file with m, the rule and q first.
fn plan_bytes(bytes: &[u8]) -> String {
    let line = Answer::from(plan(Form::WithSwitch, bytes)).to_string();
    let query = Query::Plan(Form::WithSwitch, bytes.to_vec()).line();
    assert_eq!(query, line);
    line
}

fn plan_numbers(numbers: &[u64]) -> String {
    plan_bytes(&encode(numbers))
}

/// "A window no longer than q gives nothing": three ticks are no longer than 3.
#[test]
fn z_at_every_q() {
    assert_eq!(outage(8, &Z, 0, WHOLE), "OUTAGE 2");
    assert_eq!(outage(8, &Z, 0, losing(0)), "OUTAGE 2");
    assert_eq!(outage(8, &Z, 0, losing(1)), "OUTAGE 3");
    assert_eq!(outage(8, &Z, 0, losing(2)), "OUTAGE 4");
    for lost in [3, 4, 8, 9, 65_534, 65_535] {
        assert_eq!(outage(8, &Z, 0, losing(lost)), "REFUSED 13 at 0");
    }
    for switch in NO_BOARD_S {
        assert_eq!(outage(8, &Z, 0, switch), "REFUSED 13 at 0", "{switch:?}");
    }
}

#[test]
fn amounts_at_every_length() {
    let of = |switch, expected: [u64; 9]| {
        for (t, amount) in (0..).zip(expected) {
            let line = Query::LeastSupply(z(switch), t).line();
            assert_eq!(line, format!("AMOUNT {amount}"), "{switch:?} {t}");
            // Two frames more hold A twice.
            let line = Query::LeastSupply(z(switch), t + 16).line();
            assert_eq!(line, format!("AMOUNT {}", amount + 2 * expected[8]));
        }
    };
    of(WHOLE, [0, 0, 0, 1, 2, 3, 4, 5, 6]);
    of(losing(0), [0, 0, 0, 1, 2, 3, 4, 5, 6]);
    of(losing(1), [0, 0, 0, 0, 1, 2, 2, 3, 4]);
    of(losing(2), [0, 0, 0, 0, 0, 1, 1, 1, 2]);
}

/// What every entry answers where so many ticks are lost; the buffers have 7 where nothing is
/// written.
fn every_entry(switch: [u64; 2]) -> Vec<String> {
    let z = || z(switch);
    let trace = [0, 0, 1, 9, 0, 1, 2, 9, 1, 0, 11, 1, 1, 16];
    // Both are released in full at tick 3.
    let jobs = [3, 0, 1, 3, 1, 2];
    vec![
        Query::LeastSupply(z(), 5).line(),
        Query::CriticalPartition(z(), 4).line(),
        Query::Delay(z()).line(),
        Query::Outage(z()).line(),
        Query::Margin(z(), triples(&W6), 6).line(),
        Query::Margin(z(), records(&W7), 7).line(),
        Query::Verdict(z(), triples(&W6)).line(),
        Query::Verdict(z(), records(&W7)).line(),
        Query::Bound(z(), triples(&W11), 1).line(),
        Query::Bound(z(), records(&W7), 0).line(),
        run(z(), triples(&W7), 10, &jobs, 2),
        run(z(), records(&W7), 10, &jobs, 3),
        replay(z(), triples(&W7), &trace),
        Query::MakeSummary(z(), 7).line(),
    ]
}

#[test]
fn entries_where_nothing_is_lost() {
    let answers = [
        "AMOUNT 3",
        "WINDOWS 1 BUFFER 2 8 7 7",
        "DELAY 12 of 6",
        "OUTAGE 2",
        // Four ticks of any six; three are asked for.
        "MARGIN 1",
        "MARGIN 2",
        "MEETS cycle 8",
        "MEETS cycle 8",
        // Two ticks, of any four.
        "BOUND 4",
        "BOUND 3",
        // Ticks 5, 6 and 7.
        "MET backlog 2 BUFFER 3 5",
        "MET backlog 2 BUFFER 3 5 7",
        // Task 0 is done in tick 0.
        "DIFFERS trace instant 2 task 0 machine instant 1 task 0",
        "SUMMARY 5 BUFFER 6 12 1 2 8 7 7",
    ];
    assert_eq!(every_entry(WHOLE), answers);
    // "Rule 1 being q = 0."
    assert_eq!(every_entry(losing(0)), answers);
}

#[test]
fn entries_where_one_tick_is_lost() {
    let answers = [
        "AMOUNT 2",
        "WINDOWS 2 BUFFER 3 5 6 8",
        "DELAY 12 of 4",
        "OUTAGE 3",
        "MARGIN -1",
        "MARGIN 0",
        // W6's miss; ticks 0 to 5 hold two as 3 to 8 do.
        "MISS length 6 start 0 demand 3 supply 2",
        "MEETS cycle 8",
        "BOUND 7",
        "BOUND 4",
        // Tick 6, then ticks 7 and 9: W13 a tick later.
        "MET backlog 2 BUFFER 4 7",
        "MET backlog 2 BUFFER 4 7 7",
        // Released at tick 0, done in tick 1 and in ticks 2 and 6.
        "SAME",
        "SUMMARY 7 BUFFER 4 12 2 3 5 6 8",
    ];
    assert_eq!(every_entry(losing(1)), answers);
}

#[test]
fn entries_where_two_ticks_are_lost() {
    let answers = [
        "AMOUNT 1",
        "WINDOWS 2 BUFFER 4 5 7 8",
        "DELAY 8 of 2",
        "OUTAGE 4",
        "MARGIN -2",
        "MARGIN -2",
        // The first of any four ticks is due, and 3 to 6 hold none.
        "MISS length 4 start 3 demand 1 supply 0",
        "MISS length 4 start 3 demand 1 supply 0",
        // Up to length 4 two ticks are wanted, up to length 8 three.
        "NO BOUND",
        // The first is due after four ticks and gets its tick after five.
        "NO BOUND",
        // Tick 7 is too late for the job that is due at 7.
        "MISSED instant 7 job 0 backlog 2 BUFFER 0 0",
        "MISSED instant 7 job 0 backlog 2 BUFFER 0 0 7",
        // Task 0 is done in tick 2; that task 1 is missed at instant 7 comes after that.
        "DIFFERS trace instant 2 task 0 machine instant 3 task 0",
        "SUMMARY 7 BUFFER 2 8 2 4 5 7 8",
    ];
    assert_eq!(every_entry(losing(2)), answers);
}

/// Nothing is written.
#[test]
fn entries_where_all_is_lost() {
    let answers = every_entry(losing(1));
    for switch in [losing(3), losing(65_536), [1, 1], [0, 0]] {
        for (line, answer) in every_entry(switch).iter().zip(&answers) {
            let buffer = match answer.split_once(" BUFFER") {
                Some((_, numbers)) => {
                    let sevens = numbers.split_whitespace().map(|_| " 7");
                    format!(" BUFFER{}", sevens.collect::<String>())
                }
                None => String::new(),
            };
            assert_eq!(*line, format!("REFUSED 13 at 0{buffer}"));
        }
    }
}

/// Windows of one, two and three ticks: each loses its own first ticks.
#[test]
fn windows_of_different_lengths() {
    let windows = [[0, 1, 0], [2, 4, 0], [5, 8, 0]];
    // Silent 8 to 11; then 8 to 14; then all but 7.
    assert_eq!(outage(12, &windows, 0, losing(0)), "OUTAGE 4");
    assert_eq!(outage(12, &windows, 0, losing(1)), "OUTAGE 7");
    assert_eq!(outage(12, &windows, 0, losing(2)), "OUTAGE 11");
    assert_eq!(outage(12, &windows, 0, losing(3)), "REFUSED 13 at 0");
    // A of one frame: 6, 3 and 1.
    let amount = |lost| {
        let table = board(12, &windows.concat(), 0, 1, losing(lost));
        Query::LeastSupply(table, 12).line()
    };
    assert_eq!(amount(0), "AMOUNT 6");
    assert_eq!(amount(1), "AMOUNT 3");
    assert_eq!(amount(2), "AMOUNT 1");
    // The longest window of thirteen ticks, the shortest of two.
    let windows = [[1, 3, 0], [4, 17, 0], [18, 20, 1]];
    assert_eq!(outage(20, &windows, 0, losing(11)), "OUTAGE 18");
    assert_eq!(outage(20, &windows, 0, losing(12)), "OUTAGE 19");
    assert_eq!(outage(20, &windows, 0, losing(13)), "REFUSED 13 at 0");
}

/// "Rule 2 leaves the asked owner no tick": the other team's ticks do not count.
#[test]
fn each_team_pays_for_its_own_windows() {
    // Owner 1's window touches both of owner 0's and is a tick shorter.
    let windows = [[0, 3, 0], [3, 5, 1], [5, 8, 0]];
    assert_eq!(outage(8, &windows, 0, losing(1)), "OUTAGE 3");
    assert_eq!(outage(8, &windows, 1, losing(1)), "OUTAGE 7");
    assert_eq!(outage(8, &windows, 0, losing(2)), "OUTAGE 4");
    assert_eq!(outage(8, &windows, 1, losing(2)), "REFUSED 13 at 0");
    assert_eq!(outage(8, &windows, 0, losing(3)), "REFUSED 13 at 0");
    // The other way round: three ticks, and the other team's five.
    let windows = [[0, 3, 0], [3, 8, 1]];
    assert_eq!(outage(8, &windows, 0, losing(2)), "OUTAGE 7");
    assert_eq!(outage(8, &windows, 0, losing(3)), "REFUSED 13 at 0");
    assert_eq!(outage(8, &windows, 1, losing(3)), "OUTAGE 6");
    assert_eq!(outage(8, &windows, 1, losing(4)), "OUTAGE 7");
    assert_eq!(outage(8, &windows, 1, losing(5)), "REFUSED 13 at 0");
}

#[test]
fn q_at_its_limits() {
    let full = [[0, 65_536, 1]];
    assert_eq!(outage(65_536, &full, 1, WHOLE), "OUTAGE 0");
    assert_eq!(outage(65_536, &full, 1, losing(0)), "OUTAGE 0");
    assert_eq!(outage(65_536, &full, 1, losing(1)), "OUTAGE 1");
    assert_eq!(outage(65_536, &full, 1, losing(65_534)), "OUTAGE 65534");
    assert_eq!(outage(65_536, &full, 1, losing(65_535)), "OUTAGE 65535");
    assert_eq!(outage(65_536, &full, 1, losing(65_536)), "REFUSED 13 at 0");
    let short = [[1, 65_536, 1]];
    assert_eq!(outage(65_536, &short, 1, losing(65_534)), "OUTAGE 65535");
    assert_eq!(outage(65_536, &short, 1, losing(65_535)), "REFUSED 13 at 0");
    assert_eq!(outage(1, &[[0, 1, 0]], 0, losing(0)), "OUTAGE 0");
    assert_eq!(outage(1, &[[0, 1, 0]], 0, losing(1)), "REFUSED 13 at 0");
}

/// 64 windows of two ticks, a tick apart, but for the last, which has three.
#[test]
fn one_tick_left_of_64_windows() {
    let windows: Vec<[u64; 3]> = (0..64).map(|i| [3 * i, 3 * i + 2 + i / 63, 0]).collect();
    // Ticks 1, 4 and on to 187; then 190 and 191.
    assert_eq!(outage(192, &windows, 0, losing(1)), "OUTAGE 2");
    assert_eq!(outage(192, &windows, 0, losing(2)), "OUTAGE 191");
    assert_eq!(outage(192, &windows, 0, losing(3)), "REFUSED 13 at 0");
}

/// 1, 2, 3, 1 for an absent owner and 12, in their order, whatever the rule and q are.
#[test]
fn what_comes_before_13() {
    let asked = |frame, windows: &[u64], owner, m| {
        let line = |switch| Query::Outage(board(frame, windows, owner, m, switch)).line();
        for switch in NO_BOARD_S.into_iter().chain([losing(8), losing(1)]) {
            assert_eq!(line(switch), line(WHOLE));
        }
        line(WHOLE)
    };
    assert_eq!(asked(8, &[], 0, 1), "REFUSED 1 at 0");
    assert_eq!(asked(0, &[0, 1, 0, 2], 0, 0), "REFUSED 1 at 0");
    assert_eq!(asked(0, &[0, 1, 0], 1, 0), "REFUSED 2 at 0");
    assert_eq!(asked(8, &[0, 1, 0, 1, 8, 0], 0, 0), "REFUSED 3 at 1");
    assert_eq!(asked(8, &[0, 9, 0], 1, 0), "REFUSED 3 at 0");
    for owner in [1, 2, 256, GREATEST] {
        assert_eq!(asked(8, &[0, 1, 0], owner, 0), "REFUSED 1 at 0");
    }
    for m in [0, 65_537, GREATEST] {
        assert_eq!(asked(8, &Z.concat(), 0, m), "REFUSED 12 at 64");
    }
    assert_eq!(asked(8, &Z.concat(), 0, 4), "REFUSED 12 at 0");
    // The other team's sliver, too.
    let shared = [0, 3, 0, 3, 5, 1, 5, 8, 0];
    assert_eq!(asked(8, &shared, 0, 3), "REFUSED 12 at 1");
    assert_eq!(asked(8, &shared, 1, 3), "REFUSED 12 at 1");
}

/// m is about a whole window, not about what remains of it.
#[test]
fn m_reads_whole_windows() {
    let at = |m, lost| Query::Outage(board(8, &Z.concat(), 0, m, losing(lost))).line();
    assert_eq!(at(3, 2), "OUTAGE 4");
    assert_eq!(at(3, 3), "REFUSED 13 at 0");
    assert_eq!(at(4, 0), "REFUSED 12 at 0");
    // A window that gives nothing counts as well.
    let windows = [0, 1, 0, 3, 8, 0];
    let at = |m| Query::Outage(board(8, &windows, 0, m, losing(2))).line();
    assert_eq!(at(1), "OUTAGE 5");
    assert_eq!(at(2), "REFUSED 12 at 0");
}

/// "It stands after 12 and before 4."
#[test]
fn what_comes_after_13() {
    // Each is refused otherwise where one tick is lost, and by 13 where three are or where the rule
    // is no board's.
    let later = |line: &dyn Fn(TableNumbers) -> String, otherwise: &str| {
        let buffer = otherwise.find(" BUFFER").map_or("", |at| &otherwise[at..]);
        assert_eq!(line(z(losing(1))), otherwise);
        let refused = format!("REFUSED 13 at 0{buffer}");
        for switch in NO_BOARD_S.into_iter().chain([losing(3)]) {
            assert_eq!(line(z(switch)), refused, "{switch:?}");
        }
    };
    let not_in_threes = || TaskNumbers::Triples(vec![1, 4]);
    let too_many = || TaskNumbers::Records(vec![[1, 8, 8]; 33]);
    let late = || triples(&[[1, 4, 4], [1, 4, 5]]);
    let long_cycle = || triples(&[[1, 999_999, 999_999]]);
    let four = "REFUSED 4 at 0";
    later(&|z| Query::Verdict(z, not_in_threes()).line(), four);
    later(&|z| Query::Margin(z, too_many(), 1).line(), four);
    later(&|z| Query::Bound(z, too_many(), 40).line(), four);
    later(&|z| Query::Verdict(z, late()).line(), "REFUSED 5 at 1");
    later(&|z| Query::Margin(z, late(), 9).line(), "REFUSED 5 at 1");
    let six = "REFUSED 6 at 0";
    later(&|z| Query::Verdict(z, long_cycle()).line(), six);
    let seven = "REFUSED 7 at 0";
    later(&|z| Query::LeastSupply(z, 1_000_001).line(), seven);
    later(&|z| Query::Margin(z, triples(&W7), GREATEST).line(), seven);
    later(&|z| Query::Bound(z, triples(&W7), 2).line(), seven);
    let eight = "REFUSED 8 at 4 BUFFER 7 7 7";
    later(&|z| Query::CriticalPartition(z, 3).line(), eight);
    let eight = "REFUSED 8 at 7 BUFFER 7";
    later(&|z| Query::MakeSummary(z, 1).line(), eight);

    let jobs = |z, jobs: &[u64]| run(z, triples(&W7), 10, jobs, 1);
    later(&|z| jobs(z, &[0, 0]), "REFUSED 10 at 0 BUFFER 7");
    let absent_task = [0, 0, 1, 1, 2, 1];
    later(&|z| jobs(z, &absent_task), "REFUSED 11 at 1 BUFFER 7");
    let two_jobs = [0, 0, 1, 1, 1, 1];
    later(&|z| jobs(z, &two_jobs), "REFUSED 8 at 2 BUFFER 7");

    // A stamp that goes back is nearly 2^32 ticks later; task 2 is absent.
    let records = |z, trace: &[u64]| replay(z, triples(&W7), trace);
    later(&|z| records(z, &[1, 0, 5, 1, 0, 4]), "REFUSED 10 at 0");
    let absent_task = [0, 0, 1, 5, 0, 2, 1, 6];
    later(&|z| records(z, &absent_task), "REFUSED 11 at 1");
    later(&|z| replay(z, late(), &[0, 0, 1, 5]), "REFUSED 5 at 1");
    later(&|z| replay(z, late(), &[]), "REFUSED 5 at 1");
    // "9 before all others."
    for switch in [losing(3), [0, 0], [1, 1]] {
        assert_eq!(records(z(switch), &[1, 0]), "REFUSED 9 at 2");
        assert_eq!(records(z(switch), &[1, 0, 5, 2]), "REFUSED 9 at 3");
    }

    // What belongs to nothing, too long a length, and too little room.
    let wrong = &OF_Z_WITHOUT_1[..6];
    let fourteen = "REFUSED 14 at 0";
    let amount = |z| Query::SummaryAmount(z, wrong.to_vec(), 1_000_001).line();
    later(&amount, fourteen);
    let lengths = &[1, 2, 1_000_001];
    let buffer = " BUFFER 7 7";
    let of_margins = |tasks: &'static [u64]| move |z| margins(z, wrong, tasks, lengths);
    later(&of_margins(&[1]), &format!("{four}{buffer}"));
    later(&of_margins(&[1, 4, 5]), &format!("REFUSED 5 at 0{buffer}"));
    later(&of_margins(&[1, 4, 4]), &format!("{fourteen}{buffer}"));
}

/// Each q has its own summary, and answers are from the remaining ticks.
#[test]
fn summaries_of_what_remains() {
    let of: [(_, &[u64]); 4] = [
        (WHOLE, &OF_Z_WHOLE),
        (losing(0), &OF_Z_WHOLE),
        (losing(1), &OF_Z_WITHOUT_1),
        (losing(2), &OF_Z_WITHOUT_2),
    ];
    for (switch, fresh) in of {
        let numbers: Vec<String> = fresh.iter().map(u64::to_string).collect();
        let made = format!("SUMMARY {} BUFFER {}", fresh.len(), numbers.join(" "));
        let room = fresh.len() as u64;
        assert_eq!(Query::MakeSummary(z(switch), room).line(), made);
        for (other, summary) in of {
            let line = Query::SummaryAmount(z(switch), summary.to_vec(), 5).line();
            let plain = Query::LeastSupply(z(switch), 5).line();
            match summary == fresh {
                true => assert_eq!(line, plain, "{switch:?} {other:?}"),
                false => assert_eq!(line, "REFUSED 14 at 0", "{switch:?} {other:?}"),
            }
        }
    }
    // W6 at lengths 6 and 5: least supply 2, 2 where one tick is lost, and 1, 1 where two are.
    let of = |lost, summary: &[u64]| margins(z(losing(lost)), summary, &W6.concat(), &[6, 5]);
    assert_eq!(of(1, &OF_Z_WITHOUT_1), "MARGINS 2 BUFFER -1 1");
    assert_eq!(of(2, &OF_Z_WITHOUT_2), "MARGINS 2 BUFFER -2 0");
    assert_eq!(of(2, &OF_Z_WITHOUT_1), "REFUSED 14 at 0 BUFFER 7 7");
    // Half of the longest frame is lost: the delay is 32,768^2.
    let full = board(65_536, &[0, 65_536, 0], 0, 65_536, losing(32_768));
    let half = "SUMMARY 5 BUFFER 32768 1073741824 1 32768 65536";
    assert_eq!(Query::MakeSummary(full, 5).line(), half);
}

#[test]
fn edits_of_what_remains() {
    let of_z = |lost, summary, edit| edited(z(losing(lost)), summary, edit);
    // Ticks 1, 2, 5, 6 and 7: silent 3 and 4, three of 0 to 4. Least supply 0, 0, 0, 1, 2, 2, 3, 4,
    // 5; 5*2 - 8*0.
    let line = "EDITED count 2 summary 7 BUFFER 0 3 0 4 8 0 BUFFER 5 10 2 2 4 5 8";
    assert_eq!(of_z(1, &OF_Z_WITHOUT_1, moved(1, 4, 8)), line);
    // Ticks 1 and 2 alone remain of the first window: by a removal, and by a window of one tick.
    let line = "EDITED count 1 summary 5 BUFFER 0 3 0 5 8 0 BUFFER 2 12 1 6 8 6 8";
    assert_eq!(of_z(1, &OF_Z_WITHOUT_1, removed(1)), line);
    let line = "EDITED count 2 summary 5 BUFFER 0 3 0 7 8 0 BUFFER 2 12 1 6 8 6 8";
    assert_eq!(of_z(1, &OF_Z_WITHOUT_1, moved(1, 7, 8)), line);
    // Tick 2 alone.
    let line = "EDITED count 2 summary 5 BUFFER 0 3 0 6 8 0 BUFFER 1 7 1 7 8 7 8";
    assert_eq!(of_z(2, &OF_Z_WITHOUT_2, moved(1, 6, 8)), line);
    // Adding a window that is no longer than q, or the other team's, changes nothing that remains.
    let roomy = |switch| board(8, &[&Z.concat()[..], &[ANY; 3]].concat(), 0, 1, switch);
    let add = |lost, summary: &[u64], edit| {
        Query::Edit(EditNumbers {
            memory: roomy(losing(lost)),
            count: 2,
            summary: summary.to_vec(),
            edit,
        })
        .line()
    };
    let line = "REFUSED 3 at 1 BUFFER 0 3 0 5 8 0 9 9 9 BUFFER 4 12 2 3 5 6 8";
    assert_eq!(add(1, &OF_Z_WITHOUT_1, added(1, 3, 4, 0)), line);
    let line = "EDITED count 3 summary 7 BUFFER 0 3 0 3 5 1 5 8 0 BUFFER 4 12 2 3 5 6 8";
    assert_eq!(add(1, &OF_Z_WITHOUT_1, added(1, 3, 5, 1)), line);
    let line = "EDITED count 3 summary 7 BUFFER 0 3 0 3 5 1 5 8 0 BUFFER 2 8 2 4 5 7 8";
    assert_eq!(add(2, &OF_Z_WITHOUT_2, added(1, 3, 5, 1)), line);
    let one = board(8, &[5, 8, 0, ANY, ANY, ANY], 0, 1, losing(1));
    let short = Query::Edit(EditNumbers {
        memory: one,
        count: 1,
        summary: vec![2, 12, 1, 6, 8],
        edit: added(0, 2, 3, 0),
    });
    let line = "EDITED count 2 summary 5 BUFFER 2 3 0 5 8 0 BUFFER 2 12 1 6 8";
    assert_eq!(short.line(), line);
}

/// "The old table is checked whole first": 13 after its 12 and before 14.
#[test]
fn refusals_of_the_old_table() {
    let wrong = &OF_Z_WITHOUT_1[..6];
    let old = |owner, m, switch| board(8, &Z.concat(), owner, m, switch);
    // Each before 14 and 7.
    let at = |table| refused(table, wrong, removed(64));
    for switch in NO_BOARD_S.into_iter().chain([losing(3)]) {
        assert_eq!(at(old(1, 0, switch)), "REFUSED 1 at 0");
        assert_eq!(at(old(0, 0, switch)), "REFUSED 12 at 64");
        assert_eq!(at(old(0, 4, switch)), "REFUSED 12 at 0");
        assert_eq!(at(old(0, 3, switch)), "REFUSED 13 at 0");
    }
    assert_eq!(at(old(0, 3, losing(1))), "REFUSED 14 at 0");
    // An edit that would leave a tick can't mend it; the summary is that of the table as it would
    // be.
    let lost = board(8, &[0, 2, 0], 0, 1, losing(2));
    let tick = [1, 7, 1, 7, 8];
    assert_eq!(refused(lost, &tick, moved(0, 0, 3)), "REFUSED 13 at 0");
}

/// "An edit of request 6 whose new table gets 12 or 13 is refused so, after 1 and 3."
#[test]
fn refusals_of_the_new_table() {
    let tick = [1, 7, 1, 7, 8];
    // One window of three ticks, which loses two.
    let one = |m| board(8, &[0, 3, 0], 0, m, losing(2));
    assert_eq!(refused(one(1), &tick, moved(0, 4, 6)), "REFUSED 13 at 0");
    assert_eq!(refused(one(2), &tick, moved(0, 4, 6)), "REFUSED 13 at 0");
    assert_eq!(refused(one(3), &tick, moved(0, 4, 6)), "REFUSED 12 at 0");
    assert_eq!(refused(one(3), &tick, moved(0, 6, 9)), "REFUSED 3 at 0");
    assert_eq!(refused(one(3), &tick, moved(0, 6, 6)), "REFUSED 3 at 0");
    assert_eq!(refused(one(1), &tick, removed(0)), "REFUSED 1 at 0");
    // 14 and 7 come before.
    assert_eq!(
        refused(one(1), &tick[..4], moved(0, 4, 6)),
        "REFUSED 14 at 0"
    );
    assert_eq!(refused(one(1), &tick, moved(1, 4, 6)), "REFUSED 7 at 0");
    let line = "EDITED count 1 summary 5 BUFFER 4 7 0 BUFFER 1 7 1 7 8";
    assert_eq!(edited(one(3), &tick, moved(0, 4, 7)), line);
    // A window of two ticks is left when that of three goes: 13; where it is the other team's, an
    // absent owner's 1.
    let both = |owner| board(8, &[0, 2, owner, 4, 7, 0], 0, 1, losing(2));
    assert_eq!(refused(both(0), &tick, removed(1)), "REFUSED 13 at 0");
    assert_eq!(refused(both(1), &tick, removed(1)), "REFUSED 1 at 0");
    let line = "EDITED count 1 summary 5 BUFFER 4 7 0 4 7 0 BUFFER 1 7 1 7 8";
    assert_eq!(edited(both(0), &tick, removed(0)), line);
    assert_eq!(edited(both(1), &tick, removed(0)), line);
    // The other team's windows may well give nothing.
    let line = "EDITED count 2 summary 5 BUFFER 2 3 1 4 7 0 BUFFER 1 7 1 7 8";
    assert_eq!(edited(both(1), &tick, moved(0, 2, 3)), line);
    // What is left has ticks, and then 8.
    assert_eq!(refused(both(1), &tick, added(2, 7, 8, 1)), "REFUSED 8 at 9");
    assert_eq!(refused(both(0), &tick, added(1, 3, 4, 1)), "REFUSED 8 at 9");
    // For a summary: ticks 2 and 6 of (0,3) and (4,7) have the critical windows (3,4) and (7,8).
    let line = refused(both(0), &tick, moved(0, 0, 3));
    assert_eq!(line, "REFUSED 8 at 7");
}

/// Document 01's plan with m, the rule and q before P, and Z with W6's and W7's groups.
#[test]
fn plan_files_with_m_rule_and_q_first() {
    let x = [8, 2, 0, 2, 5, 7, 2, 1, 4, 4, 2, 8, 6];
    let of_x = |m, [rule, lost]: [u64; 2]| plan_numbers(&[&[m, rule, lost], &x[..]].concat());
    let missed = "MISS length 6 start 2 demand 3 supply 2";
    assert_eq!(of_x(1, WHOLE), missed);
    assert_eq!(of_x(2, losing(0)), missed);
    // Ticks 1 and 6: 2 to 5 hold none.
    let missed = "MISS length 4 start 2 demand 1 supply 0";
    assert_eq!(of_x(2, losing(1)), missed);
    assert_eq!(of_x(2, losing(2)), "REFUSED 13 at 0");
    assert_eq!(of_x(3, losing(2)), "REFUSED 12 at 0");
    assert_eq!(of_x(0, losing(2)), "REFUSED 12 at 64");
    for switch in NO_BOARD_S {
        assert_eq!(of_x(2, switch), "REFUSED 13 at 0", "{switch:?}");
        assert_eq!(of_x(3, switch), "REFUSED 12 at 0", "{switch:?}");
        assert_eq!(of_x(65_537, switch), "REFUSED 12 at 64", "{switch:?}");
    }
    let z = |lost, group: [[u64; 3]; 2]| {
        let front = [3, 2, lost, 8, 2, 0, 3, 5, 8, 2];
        plan_numbers(&[&front[..], &group.concat()].concat())
    };
    assert_eq!(z(0, W6), "MEETS cycle 8");
    assert_eq!(z(1, W6), "MISS length 6 start 0 demand 3 supply 2");
    assert_eq!(z(1, W7), "MEETS cycle 8");
    assert_eq!(z(2, W7), "MISS length 4 start 3 demand 1 supply 0");
    assert_eq!(z(3, W7), "REFUSED 13 at 0");
    // No task: the last tick of the longest frame.
    let full = |lost| plan_numbers(&[65_536, 2, lost, 65_536, 1, 0, 65_536, 0]);
    assert_eq!(full(65_535), "MEETS cycle 65536");
    assert_eq!(full(65_536), "REFUSED 13 at 0");
}

/// "Old plan files are rule 1", and no form is another.
#[test]
fn forms_of_a_plan_file() {
    let of = |form, numbers: &[u64]| Query::Plan(form, encode(numbers)).line();
    assert_eq!(of(Form::Old, &[8, 1, 0, 1, 0]), "MEETS cycle 8");
    let numbers = [1, 8, 1, 0, 1, 0];
    assert_eq!(of(Form::WithShortest, &numbers), "MEETS cycle 8");
    let numbers = [1, 1, 0, 8, 1, 0, 1, 0];
    assert_eq!(of(Form::WithSwitch, &numbers), "MEETS cycle 8");
    // m = 1, P = 1 and a window count of 0; P = 1, one window (0,8) and one task (0,1,0).
    assert_eq!(of(Form::WithShortest, &numbers), "REFUSED 1 at 0");
    assert_eq!(of(Form::Old, &numbers), "REFUSED 3 at 0");
    // m = 1, rule 8, q = 1, P = 0, one window that starts at 0, and no more.
    assert_eq!(of(Form::WithSwitch, &[1, 8, 1, 0, 1, 0]), "REFUSED 9 at 6");
    assert_eq!(Form::of_settings(3), Some(Form::WithSwitch));
    assert_eq!(Form::of_settings(2), None);
    assert_eq!(Form::of_settings(4), None);
}

/// Refusal 9 names the offset in the whole file, whichever number is damaged.
#[test]
fn damaged_plan_files_with_m_rule_and_q_first() {
    // m = 3, rule 2, q = 65,535 in three bytes, then Z and a task with T = 300 in two.
    let whole = [3, 2, 255, 255, 3, 8, 2, 0, 3, 5, 8, 1, 1, 172, 2, 4];
    assert_eq!(plan_bytes(&whole), "REFUSED 13 at 0");
    let bad = [0, 1, 2, 2, 2, 5, 6, 7, 8, 9, 10, 11, 12, 13, 13, 15];
    for (end, offset) in bad.into_iter().enumerate() {
        let refused = format!("REFUSED 9 at {offset}");
        assert_eq!(plan_bytes(&whole[..end]), refused, "{end} bytes");
    }
    let left_over = [&whole[..], &[0]].concat();
    assert_eq!(plan_bytes(&left_over), "REFUSED 9 at 16");
    // Each number of Z's plan with W4's task is one byte: padded, too large, too long.
    let numbers = [1, 2, 1, 8, 2, 0, 3, 5, 8, 1, 1, 4, 4];
    assert_eq!(plan_bytes(&numbers), "MEETS cycle 8");
    let damaged: [&[u8]; 4] = [
        &[0x81, 0x00],
        &[0x80, 0x80, 0x80, 0x80, 0x10],
        &[0x82, 0x80, 0x80, 0x80, 0x20],
        &[0x82, 0x80, 0x80, 0x80, 0x80, 0x01],
    ];
    for index in 0..numbers.len() {
        for bad in damaged {
            let bytes = [&numbers[..index], bad, &numbers[index + 1..]].concat();
            assert_eq!(plan_bytes(&bytes), format!("REFUSED 9 at {index}"));
        }
    }
    // The greatest number is no damage.
    let greatest = &[0xff, 0xff, 0xff, 0xff, 0x0f];
    for (index, refusal) in [
        (0, "12 at 64"),
        (1, "13 at 0"),
        (2, "13 at 0"),
        (3, "2 at 0"),
    ] {
        let bytes = [&numbers[..index], greatest, &numbers[index + 1..]].concat();
        assert_eq!(plan_bytes(&bytes), format!("REFUSED {refusal}"));
    }
}

/// 9 and the early 1 and 4, then 2 and 3, then 12, then 13, then 5 and 6.
#[test]
fn refusals_of_a_plan_file_in_order() {
    for [rule, lost] in NO_BOARD_S.into_iter().chain([losing(2)]) {
        let settings = [2, rule, lost];
        let with = |rest: &[u64]| plan_numbers(&[&settings, rest].concat());
        // "As soon as it is read", and the rest is not read.
        assert_eq!(with(&[8, 0]), "REFUSED 1 at 0");
        assert_eq!(with(&[0, 65, 9]), "REFUSED 1 at 0");
        assert_eq!(with(&[0, 1, 9, 9, 33]), "REFUSED 4 at 0");
        assert_eq!(with(&[8, 1, 0, 2, 33, 0]), "REFUSED 4 at 0");
        // Left over, and cut short: the settings may have up to eleven bytes.
        let bytes = encode(&settings).len();
        let left_over = format!("REFUSED 9 at {}", bytes + 5);
        assert_eq!(with(&[8, 1, 0, 2, 0, 7]), left_over);
        let cut_short = format!("REFUSED 9 at {}", bytes + 7);
        assert_eq!(with(&[8, 1, 0, 2, 1, 1, 4]), cut_short);
        assert_eq!(with(&[0, 1, 0, 2, 0]), "REFUSED 2 at 0");
        assert_eq!(with(&[8, 1, 0, 9, 0]), "REFUSED 3 at 0");
        assert_eq!(with(&[8, 2, 0, 2, 3, 4, 0]), "REFUSED 12 at 1");
        // D over T, and a cycle of 7,999,992.
        assert_eq!(with(&[8, 1, 0, 2, 1, 1, 4, 5]), "REFUSED 13 at 0");
        assert_eq!(with(&[8, 1, 0, 2, 1, 1, 999_999, 9]), "REFUSED 13 at 0");
    }
    let late = |lost| plan_numbers(&[2, 2, lost, 8, 1, 0, 2, 1, 1, 4, 5]);
    assert_eq!(late(1), "REFUSED 5 at 0");
    assert_eq!(late(2), "REFUSED 13 at 0");
    let long_cycle = |lost| plan_numbers(&[2, 2, lost, 8, 1, 0, 2, 1, 1, 999_999, 9]);
    assert_eq!(long_cycle(1), "REFUSED 6 at 0");
    assert_eq!(long_cycle(2), "REFUSED 13 at 0");
}
