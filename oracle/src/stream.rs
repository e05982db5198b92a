//! A stream of queries (docs/ASK.md).

use crate::numbers::Cursor;
use crate::query::Query;

/// Only so many bytes of a stream are used.
pub const MOST_BYTES: usize = 65_536;

/// The complete queries of a stream and, if it has one, the offset of its BAD QUERY.
pub struct Stream {
    pub queries: Vec<Query>,
    pub bad: Option<usize>,
    /// Where the last complete query ends.
    pub complete: usize,
}

pub fn read(bytes: &[u8]) -> Stream {
    let used = &bytes[..bytes.len().min(MOST_BYTES)];
    let mut cursor = Cursor::new(used);
    let mut queries = Vec::new();
    let mut complete = 0;
    let mut bad = None;
    // In a stream with more bytes a further query is always begun: at 65,536 it is missing whole.
    while bad.is_none() && (!cursor.at_end() || bytes.len() > MOST_BYTES) {
        match Query::read(&mut cursor) {
            Ok(query) => {
                queries.push(query);
                complete = cursor.offset();
            }
            Err(offset) => bad = Some(offset),
        }
    }
    Stream {
        queries,
        bad,
        complete,
    }
}

impl Stream {
    /// The lines that answer it, without their newlines.
    pub fn lines(&self) -> impl Iterator<Item = String> + '_ {
        let bad = self.bad.map(|offset| format!("BAD QUERY at {offset}"));
        self.queries.iter().map(Query::line).chain(bad)
    }
}

#[cfg(test)]
mod tests {
    use super::*;
    use crate::numbers::encode;

    fn answers(bytes: &[u8]) -> Vec<String> {
        read(bytes).lines().collect()
    }

    fn answer(numbers: &[u64]) -> Vec<String> {
        answers(&encode(numbers))
    }

    /// Demand of no tasks at length 0: three bytes.
    const SHORT: [u8; 3] = [5, 0, 0];

    #[test]
    fn no_query() {
        assert!(answers(&[]).is_empty());
    }

    #[test]
    fn lines_of_earlier_queries_stand() {
        assert_eq!(answers(&[5, 0, 0, 0]), ["DEMAND 0", "BAD QUERY at 3"]);
        assert_eq!(answers(&[5, 0, 0, 5, 0]), ["DEMAND 0", "BAD QUERY at 5"]);
    }

    #[test]
    fn unknown_codes() {
        for code in [0, 24, 127, 128, 4_294_967_295] {
            assert_eq!(answer(&[code, 0, 0]), ["BAD QUERY at 0"]);
        }
        // These stand under 16 only.
        for code in crate::query::ONLY_ON_A_BOARD {
            let query = [code, 8, 3, 0, 8, 0, 5, 8, 0, 1, 0, 8, 3, 0, 0, 0];
            assert_eq!(answer(&query), ["BAD QUERY at 0"], "{code}");
        }
    }

    #[test]
    fn damaged_and_unfinished_numbers() {
        assert_eq!(answers(&[0x85, 0x00, 0, 0]), ["BAD QUERY at 0"]);
        assert_eq!(answers(&[5, 0, 0x80, 0x00]), ["BAD QUERY at 2"]);
        assert_eq!(answers(&[5, 0, 0xff, 0xff]), ["BAD QUERY at 2"]);
        let too_large = [5, 0, 0x80, 0x80, 0x80, 0x80, 0x10];
        assert_eq!(answers(&too_large), ["BAD QUERY at 2"]);
        let greatest = [5, 0, 0xff, 0xff, 0xff, 0xff, 0x0f];
        assert_eq!(answers(&greatest), ["REFUSED 7 at 0"]);
    }

    #[test]
    fn a_stream_that_ends_within_a_query() {
        let whole = encode(&[9, 8, 2, 0, 300, 3, 1, 4, 4, 10, 3, 2, 0, 1, 1]);
        for end in 1..whole.len() {
            // The end of the frame, 300, has two bytes, at 4 and 5.
            let offset = if end == 5 { 4 } else { end };
            let bad = format!("BAD QUERY at {offset}");
            assert_eq!(answers(&whole[..end]), [bad]);
        }
    }

    fn list(before: &[u64], count: u64, each: u64, after: &[u64]) -> Vec<u64> {
        let mut numbers = before.to_vec();
        numbers.push(count);
        numbers.extend(std::iter::repeat_n(each, count as usize));
        numbers.extend(after);
        numbers
    }

    #[test]
    fn counts_at_and_over_their_limits() {
        let windows = |count| answer(&list(&[4, 8], count, 1, &[]));
        assert_eq!(windows(200), ["REFUSED 1 at 0"]);
        assert_eq!(windows(201), ["BAD QUERY at 2"]);
        let tasks = |count| answer(&list(&[5], count, 1, &[0]));
        assert_eq!(tasks(200), ["REFUSED 4 at 0"]);
        assert_eq!(tasks(201), ["BAD QUERY at 1"]);
        let run = [9, 1, 2, 0, 1, 3, 1, 1, 1, 5];
        let jobs = |count| answer(&list(&run, count, 1, &[0]));
        assert_eq!(jobs(12_400), ["REFUSED 10 at 0 BUFFER"]);
        assert_eq!(jobs(12_401), ["BAD QUERY at 10"]);
        let room = |room| answer(&[2, 0, 2, 0, 1, room]);
        let sevens = " 7".repeat(12_400);
        assert_eq!(room(12_400), [format!("REFUSED 2 at 0 BUFFER{sevens}")]);
        assert_eq!(room(12_401), ["BAD QUERY at 5"]);
        assert_eq!(
            answer(&[&run[..], &[0, 12_401]].concat()),
            ["BAD QUERY at 11"]
        );
        for code in [10, 18, 19] {
            let plan = |count| answer(&list(&[code], count, 0, &[]));
            assert_eq!(plan(4_096), ["REFUSED 1 at 0"]);
            assert_eq!(plan(4_097), ["BAD QUERY at 1"]);
            assert_eq!(plan(0), ["REFUSED 9 at 0"]);
            assert_eq!(answer(&[code, 2, 255, 255]), ["REFUSED 9 at 0"]);
            assert_eq!(answer(&[code, 2, 255, 256]), ["BAD QUERY at 4"]);
            assert_eq!(answer(&[code, 2, 255]), ["BAD QUERY at 4"]);
        }
        let records = |count: u64| {
            let mut numbers = vec![11, count];
            numbers.extend(std::iter::repeat_n(1, 3 * count as usize));
            numbers.push(1);
            answer(&numbers)
        };
        assert_eq!(records(0), ["DEMAND 0"]);
        assert_eq!(records(32), ["DEMAND 32"]);
        assert_eq!(records(33), ["REFUSED 4 at 0"]);
        assert_eq!(records(40), ["REFUSED 4 at 0"]);
        assert_eq!(records(41), ["BAD QUERY at 1"]);
    }

    /// Code 17 has limits of its own; those of codes 1 to 15 are above.
    #[test]
    fn limits_of_a_replay() {
        let windows = |count| answer(&list(&[17, 8], count, 1, &[0, 0]));
        assert_eq!(windows(400), ["REFUSED 1 at 0"]);
        assert_eq!(windows(401), ["BAD QUERY at 2"]);
        let tasks = |count| answer(&list(&[17, 8, 2, 0, 8], count, 1, &[0]));
        assert_eq!(tasks(96), ["SAME"]);
        assert_eq!(tasks(400), ["REFUSED 4 at 0"]);
        assert_eq!(tasks(401), ["BAD QUERY at 5"]);
        let trace = |count, byte| answer(&list(&[17, 8, 2, 0, 8, 0], count, byte, &[]));
        assert_eq!(trace(0, 0), ["SAME"]);
        assert_eq!(trace(20_000, 2), ["REFUSED 9 at 0"]);
        // 5,000 releases of task 0, work 0, at tick 0.
        assert_eq!(trace(20_000, 0), ["REFUSED 10 at 0"]);
        assert_eq!(trace(20_001, 0), ["BAD QUERY at 6"]);
        assert_eq!(trace(2, 255), ["REFUSED 9 at 0"]);
        assert_eq!(trace(2, 256), ["BAD QUERY at 7"]);
        // No other code is known yet.
        assert_eq!(answer(&[29, 8, 2, 0, 8, 0, 0]), ["BAD QUERY at 0"]);
    }

    /// Code 16 has one setting, the owner; two, the owner and m; or four, the owner, m, the rule
    /// and q.
    #[test]
    fn settings_of_a_board() {
        let full = [4, 8, 3, 0, 8, 1];
        let of = |settings: &[u64]| answer(&[&[16], settings, &full].concat());
        assert_eq!(of(&[1, 1]), ["OUTAGE 0"]);
        assert_eq!(of(&[1, 0]), ["REFUSED 1 at 0"]);
        assert_eq!(of(&[1, 4_294_967_295]), ["REFUSED 1 at 0"]);
        assert_eq!(of(&[2, 1, 8]), ["OUTAGE 0"]);
        assert_eq!(of(&[2, 1, 9]), ["REFUSED 12 at 0"]);
        assert_eq!(of(&[2, 1, 4_294_967_295]), ["REFUSED 12 at 64"]);
        assert_eq!(of(&[2, 0, 8]), ["REFUSED 1 at 0"]);
        assert_eq!(of(&[4, 1, 8, 1, 0]), ["OUTAGE 0"]);
        assert_eq!(of(&[4, 1, 8, 2, 0]), ["OUTAGE 0"]);
        assert_eq!(of(&[4, 1, 8, 2, 7]), ["OUTAGE 7"]);
        assert_eq!(of(&[4, 1, 8, 2, 8]), ["REFUSED 13 at 0"]);
        assert_eq!(of(&[4, 1, 8, 4_294_967_295, 0]), ["REFUSED 13 at 0"]);
        assert_eq!(of(&[4, 1, 8, 2, 4_294_967_295]), ["REFUSED 13 at 0"]);
        assert_eq!(of(&[4, 1, 9, 0, 0]), ["REFUSED 12 at 0"]);
        assert_eq!(of(&[4, 0, 0, 0, 0]), ["REFUSED 1 at 0"]);
        for count in [0, 3, 5, 6, 260, 4_294_967_295] {
            assert_eq!(of(&[count, 1, 1, 1, 0]), ["BAD QUERY at 1"]);
        }
        assert_eq!(answers(&[16]), ["BAD QUERY at 1"]);
        assert_eq!(answers(&[16, 0x81, 0x00, 1]), ["BAD QUERY at 1"]);
        assert_eq!(answers(&[16, 1]), ["BAD QUERY at 2"]);
        assert_eq!(answers(&[16, 1, 0x80]), ["BAD QUERY at 2"]);
        assert_eq!(answers(&[16, 1, 0]), ["BAD QUERY at 3"]);
        assert_eq!(answers(&[16, 2]), ["BAD QUERY at 2"]);
        assert_eq!(answers(&[16, 2, 0]), ["BAD QUERY at 3"]);
        assert_eq!(answers(&[16, 2, 0, 0x80]), ["BAD QUERY at 3"]);
        assert_eq!(answers(&[16, 2, 0, 0x81, 0x00]), ["BAD QUERY at 3"]);
        assert_eq!(answers(&[16, 2, 0, 1]), ["BAD QUERY at 4"]);
        // After each of four settings, and within each.
        for end in 2..7 {
            let whole = [16, 4, 0, 1, 2, 1, 4];
            let bad = format!("BAD QUERY at {end}");
            assert_eq!(answers(&whole[..end]), [bad.clone()]);
            let unfinished = [&whole[..end], &[0x81]].concat();
            assert_eq!(answers(&unfinished), [bad.clone()]);
            let padded = [&whole[..end], &[0x81, 0x00, 1, 1, 1, 1]].concat();
            assert_eq!(answers(&padded), [bad]);
        }
        let second = answer(&[&[5, 0, 0, 16, 3], &full[..]].concat());
        assert_eq!(second, ["DEMAND 0", "BAD QUERY at 4"]);
    }

    #[test]
    fn codes_on_a_board() {
        let table = [8, 3, 0, 8, 1];
        // A list of one number is no task.
        let no_tasks = "REFUSED 4 at 0";
        for (code, rest, line) in [
            (1, &[3][..], "AMOUNT 3"),
            (2, &[2], "WINDOWS 1 BUFFER 0 8"),
            (3, &[], "DELAY 0 of 8"),
            (4, &[], "OUTAGE 0"),
            (6, &[1, 1, 0], no_tasks),
            (7, &[1, 1], no_tasks),
            (8, &[1, 1, 0], no_tasks),
            (9, &[1, 1, 0, 0, 0], "REFUSED 4 at 0 BUFFER"),
            (12, &[1, 2, 2, 2, 2], "MARGIN 0"),
            (13, &[1, 2, 2, 2], "MEETS cycle 8"),
            (14, &[1, 2, 2, 2, 0], "BOUND 2"),
            (15, &[1, 2, 2, 2, 0, 0, 0], "MET backlog 0 BUFFER"),
            (17, &[0, 0], "SAME"),
            (20, &[5], "SUMMARY 5 BUFFER 8 0 1 0 8"),
            (21, &[5, 8, 0, 1, 0, 8, 9], "AMOUNT 9"),
            (
                22,
                &[5, 8, 0, 1, 0, 8, 3, 2, 2, 2, 2, 3, 4, 3],
                "MARGINS 2 BUFFER 1 0 7",
            ),
        ] {
            let four = [&[4, 1, 1, 1, 0][..], &[4, 1, 8, 2, 0]];
            for settings in [&[1, 1][..], &[2, 1, 1], &[2, 1, 8], four[0], four[1]] {
                let query = [&[16], settings, &[code], &table, rest].concat();
                assert_eq!(answer(&query), [line], "{code}");
            }
        }
        let others = [0, 5, 10, 11, 16, 18, 19].into_iter().chain(24..40);
        for code in others.chain([127, 128, 4_294_967_295]) {
            let query = [&[16, 1, 1, code], &table[..]].concat();
            assert_eq!(answer(&query), ["BAD QUERY at 3"], "{code}");
            // An owner in two bytes, and in five.
            let query = [&[16, 1, 300, code], &table[..]].concat();
            assert_eq!(answer(&query), ["BAD QUERY at 4"], "{code}");
            let query = [&[16, 1, 4_294_967_295, code], &table[..]].concat();
            assert_eq!(answer(&query), ["BAD QUERY at 7"], "{code}");
            // m in one byte, and in three.
            let query = [&[16, 2, 1, 8, code], &table[..]].concat();
            assert_eq!(answer(&query), ["BAD QUERY at 4"], "{code}");
            let query = [&[16, 2, 1, 65_536, code], &table[..]].concat();
            assert_eq!(answer(&query), ["BAD QUERY at 6"], "{code}");
            // q in one byte, and in three.
            let query = [&[16, 4, 1, 8, 2, 1, code], &table[..]].concat();
            assert_eq!(answer(&query), ["BAD QUERY at 6"], "{code}");
            let query = [&[16, 4, 1, 8, 2, 65_535, code], &table[..]].concat();
            assert_eq!(answer(&query), ["BAD QUERY at 8"], "{code}");
        }
    }

    #[test]
    fn limits_on_a_board() {
        let windows = |count| answer(&list(&[16, 1, 0, 4, 8], count, 1, &[]));
        assert_eq!(windows(201), ["REFUSED 1 at 0"]);
        assert_eq!(windows(400), ["REFUSED 1 at 0"]);
        assert_eq!(windows(401), ["BAD QUERY at 5"]);
        let tasks = |count| answer(&list(&[16, 1, 0, 7, 8, 3, 0, 8, 0], count, 1, &[]));
        assert_eq!(tasks(201), ["REFUSED 4 at 0"]);
        assert_eq!(tasks(400), ["REFUSED 4 at 0"]);
        assert_eq!(tasks(401), ["BAD QUERY at 9"]);
        let records = |count: u64| {
            let mut numbers = vec![16, 1, 0, 13, 8, 3, 0, 8, 0, count];
            numbers.extend(std::iter::repeat_n(1, 3 * count as usize));
            answer(&numbers)
        };
        assert_eq!(records(40), ["REFUSED 4 at 0"]);
        assert_eq!(records(41), ["BAD QUERY at 9"]);
        let replay = |count| answer(&list(&[16, 1, 0, 17, 8], count, 1, &[0, 0]));
        assert_eq!(replay(400), ["REFUSED 1 at 0"]);
        assert_eq!(replay(401), ["BAD QUERY at 5"]);
        let with_shortest = |count| answer(&list(&[16, 2, 0, 8, 4, 8], count, 1, &[]));
        assert_eq!(with_shortest(400), ["REFUSED 1 at 0"]);
        assert_eq!(with_shortest(401), ["BAD QUERY at 6"]);
        let with_switch = |count| answer(&list(&[16, 4, 0, 8, 2, 1, 4, 8], count, 1, &[]));
        assert_eq!(with_switch(400), ["REFUSED 1 at 0"]);
        assert_eq!(with_switch(401), ["BAD QUERY at 8"]);
        // What stands alone keeps its limits, also after code 16.
        let alone = [&[16, 1, 0, 4, 8, 3, 0, 8, 0, 4, 8, 201][..], &[1; 201]].concat();
        assert_eq!(answer(&alone), ["OUTAGE 0", "BAD QUERY at 11"]);
    }

    /// Codes 20 to 22 have windows and tasks as the others do, code 23 has windows memory; and a
    /// summary, lengths and room have limits of their own.
    #[test]
    fn limits_of_summaries_and_edits() {
        let board = [16, 1, 0];
        let full = [8, 3, 0, 8, 0];
        for code in [20, 21, 22] {
            let before = [&board[..], &[code, 8]].concat();
            let after = [0, 0, 0, 0, 0];
            let windows = |count| answer(&list(&before, count, 1, &after)).remove(0);
            assert!(windows(400).starts_with("REFUSED 1 at 0"), "{code}");
            assert_eq!(windows(401), "BAD QUERY at 5", "{code}");
        }
        let room = |room| answer(&[&board[..], &[20], &full, &[room]].concat()).remove(0);
        assert!(room(12_400).starts_with("SUMMARY 5 BUFFER 8 0 1 0 8 7 7 "));
        assert_eq!(room(12_401), "BAD QUERY at 9");
        let wrong = "REFUSED 14 at 0";
        for (code, after, line) in [
            (21, &[4][..], wrong.to_string()),
            (22, &[0, 0, 1], format!("{wrong} BUFFER 7")),
        ] {
            let before = [&board[..], &[code], &full].concat();
            let summary = |count| answer(&list(&before, count, 1, after));
            assert_eq!(summary(9_000), [line], "{code}");
            assert_eq!(summary(9_001), ["BAD QUERY at 9"], "{code}");
        }
        let summary = [5, 8, 0, 1, 0, 8];
        let before = [&board[..], &[22], &full, &summary].concat();
        let tasks = |count| answer(&list(&before, count, 1, &[0, 0]));
        assert_eq!(tasks(96), ["MARGINS 0 BUFFER"]);
        assert_eq!(tasks(400), ["REFUSED 4 at 0 BUFFER"]);
        assert_eq!(tasks(401), ["BAD QUERY at 15"]);
        let before = [&before[..], &[0]].concat();
        let lengths = |count| answer(&list(&before, count, 1, &[0])).remove(0);
        assert_eq!(lengths(1_000), "REFUSED 8 at 1000 BUFFER");
        assert_eq!(lengths(1_001), "BAD QUERY at 16");
        let room = |room| answer(&[&before[..], &[1, 3, room]].concat()).remove(0);
        assert!(room(12_400).starts_with("MARGINS 1 BUFFER 3 7 7 "));
        assert_eq!(room(12_401), "BAD QUERY at 18");
    }

    #[test]
    fn limits_of_edits() {
        let removal = [2, 0, 0, 0, 0];
        let board = [16, 1, 0, 23, 8];
        let edit = |count, windows: u64, summary: u64, edit: &[u64]| {
            let before = list(&[&board[..], &[count]].concat(), windows, 1, &[]);
            let line = answer(&list(&before, summary, 1, edit)).remove(0);
            line.split(" BUFFER").next().unwrap_or("").to_string()
        };
        // The windows memory, the summary memory, and the kind; any count.
        assert_eq!(edit(1, 400, 0, &removal), "REFUSED 3 at 0");
        assert_eq!(edit(1, 401, 0, &removal), "BAD QUERY at 6");
        assert_eq!(edit(1, 3, 9_000, &removal), "REFUSED 3 at 0");
        assert_eq!(edit(1, 3, 9_001, &removal), "BAD QUERY at 10");
        assert_eq!(edit(4_294_967_295, 3, 0, &removal), "REFUSED 1 at 0");
        for kind in [3, 4, 256, 4_294_967_295] {
            assert_eq!(edit(1, 3, 1, &[kind, 0, 0, 0, 0]), "BAD QUERY at 12");
        }
        // Every number of the edit is read, of every kind.
        for kind in 0..3 {
            let any = [kind, 4_294_967_295, 4_294_967_295, 4_294_967_295, 0];
            assert_eq!(edit(1, 3, 1, &any), "REFUSED 3 at 0");
            for end in 0..5 {
                let bytes = encode(&any[..end]).len();
                let bad = format!("BAD QUERY at {}", 12 + bytes);
                assert_eq!(edit(1, 3, 1, &any[..end]), bad);
            }
        }
        // One line has both memories, also where one is empty, and then the next query's.
        let moved = [
            16, 1, 0, 23, 8, 1, 3, 0, 8, 0, 5, 8, 0, 1, 0, 8, 0, 0, 2, 8, 9,
        ];
        let two = [&moved[..], &[5, 0, 0]].concat();
        let line = "EDITED count 1 summary 5 BUFFER 2 8 0 BUFFER 6 12 1 2 8";
        assert_eq!(answer(&two), [line, "DEMAND 0"]);
        let empty = [&board[..], &[0, 0, 0], &removal].concat();
        assert_eq!(answer(&empty), ["REFUSED 1 at 0 BUFFER BUFFER"]);
    }

    #[test]
    fn only_the_first_65536_bytes_are_used() {
        // 21,844 short queries take 65,532 bytes; the next takes four and ends the room.
        let mut bytes = SHORT.repeat(21_844);
        bytes.extend([5, 0, 0x80, 0x01]);
        assert_eq!(bytes.len(), MOST_BYTES);
        let all = answers(&bytes);
        assert_eq!(all.len(), 21_845);
        assert!(all.iter().all(|line| line == "DEMAND 0"));
        // One byte more and the next query is missing whole.
        bytes.push(5);
        assert_eq!(answers(&bytes).len(), 21_846);
        assert_eq!(answers(&bytes)[21_845], "BAD QUERY at 65536");
        // A number cut by the end is unfinished.
        let mut cut = SHORT.repeat(21_844);
        cut.extend([5, 0, 0, 5, 0x80, 0x01]);
        assert_eq!(answers(&cut)[21_845], "BAD QUERY at 65536");
        let mut cut = SHORT.repeat(21_844);
        cut.extend([5, 0, 0x80, 0x80, 0x01]);
        assert_eq!(answers(&cut)[21_844], "BAD QUERY at 65534");
    }

    #[test]
    fn queries_are_read_as_they_are_written() {
        let mut random = crate::random::Random::new(5);
        for _ in 0..20_000 {
            let query = crate::generate::query(&mut random);
            let stream = read(&encode(&query.numbers()));
            assert_eq!(stream.bad, None);
            assert_eq!(stream.queries, [query]);
        }
    }
}
