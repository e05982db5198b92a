//! Streams of random queries; some end in a BAD QUERY, some are longer than what is used.

use std::iter;

use crate::generate;
use crate::large;
use crate::numbers::{encode, GREATEST};
use crate::query::{
    Query, BOARD, MOST_LENGTHS, MOST_NEW_NUMBERS, MOST_OLD_NUMBERS, MOST_SUMMARY_NUMBERS,
    ONLY_ON_A_BOARD,
};
use crate::random::Random;
use crate::spoil;
use crate::stream::MOST_BYTES;

/// A stream of up to `most` good queries that ends before the bytes that are used do.
pub fn good_stream(r: &mut Random, most: u64) -> Vec<u8> {
    stream_of((0..most).map(|_| generate::query(r)))
}

/// A stream of up to `most` queries on large frames, of up to `most_steps` steps each.
pub fn large_stream(r: &mut Random, most: u64, most_steps: u64) -> Vec<u8> {
    let queries = iter::repeat_with(|| large::queries(r, most_steps));
    stream_of(queries.flatten().take(most as usize))
}

/// The queries, up to the first that does not end before the bytes that are used do.
fn stream_of(queries: impl Iterator<Item = Query>) -> Vec<u8> {
    let mut bytes = Vec::new();
    for query in queries {
        let query = encode(&query.numbers());
        if bytes.len() + query.len() >= MOST_BYTES {
            break;
        }
        bytes.extend(query);
    }
    bytes
}

/// A stream for a comparison: half of them end in a BAD QUERY, a few are too long.
pub fn any_stream(r: &mut Random, most: u64) -> Vec<u8> {
    let mut bytes = good_stream(r, most);
    match r.below(60) {
        0..=29 => bytes.extend(bad_end(r)),
        30 => fill_exactly(r, &mut bytes),
        31 => overflow(r, &mut bytes),
        _ => {}
    }
    bytes
}

/// Bytes that begin no complete query.
fn bad_end(r: &mut Random) -> Vec<u8> {
    let numbers = generate::query(r).numbers();
    match r.below(9) {
        0 => {
            let index = r.index(numbers.len());
            spoil::with_bad_number(r, &numbers, index)
        }
        1 => {
            let mut cut = encode(&numbers);
            // Often within the settings of code 16.
            let most = r.one_of(&[6, GREATEST]) as usize;
            cut.truncate(1 + r.index((cut.len() - 1).min(most)));
            cut
        }
        2..=4 => with_bad_code(r, numbers),
        5 => over_a_limit(r),
        _ => over_a_limit_of_a_summary(r),
    }
}

/// A query with a code that is not known where it stands, or with another count of settings.
fn with_bad_code(r: &mut Random, mut numbers: Vec<u64>) -> Vec<u8> {
    match numbers[0] {
        BOARD if r.once_in(2) => {
            let count = r.one_of(&[0, 0, 3, 3, 3, 5, 5, 257, 260, GREATEST]);
            let settings = 2..2 + numbers[1] as usize;
            numbers[1] = count;
            if count < 6 && r.once_in(2) {
                // As many settings as it says.
                numbers.splice(settings, vec![1; count as usize]);
            }
        }
        BOARD => {
            let code = 2 + numbers[1] as usize;
            if ONLY_ON_A_BOARD.contains(&numbers[code]) && r.once_in(2) {
                // Alone.
                numbers.drain(..code);
            } else {
                let others = [
                    0, 5, 10, 11, 16, 18, 18, 19, 24, 24, 25, 27, 28, 30, 129, GREATEST,
                ];
                numbers[code] = r.one_of(&others);
            }
        }
        _ if r.once_in(3) => numbers[0] = r.one_of(&ONLY_ON_A_BOARD),
        _ => numbers[0] = r.one_of(&[0, 24, 26, 127, 128, 255, 256, 275, GREATEST]),
    }
    encode(&numbers)
}

/// A query with a count, a room or a byte over its limit; almost half of them are under code 16,
/// where some codes are bad already.
fn over_a_limit(r: &mut Random) -> Vec<u8> {
    let (mut numbers, table, most): (Vec<u64>, &[u64], u64) = match r.below(7) {
        0 => (vec![BOARD, 1, 0], &[8, 3, 0, 8, 0], MOST_NEW_NUMBERS),
        1 => (vec![BOARD, 2, 0, 8], &[8, 3, 0, 8, 0], MOST_NEW_NUMBERS),
        2 => (
            vec![BOARD, 4, 0, 8, 2, 7],
            &[8, 3, 0, 8, 0],
            MOST_NEW_NUMBERS,
        ),
        _ => (Vec::new(), &[8, 2, 0, 8], MOST_OLD_NUMBERS),
    };
    let jobs: &[u64] = &[10, 3, 2, 0, 1];
    let (before, limit): (Vec<u64>, u64) = match r.below(16) {
        0 => (vec![r.between(1, 4), 8], most),
        1 => (vec![r.between(6, 9), 8], most),
        2 => (vec![r.between(12, 15), 8], most),
        3 => (vec![5], most),
        4 => ([&[r.between(6, 9)], table].concat(), most),
        5 => (vec![11], 40),
        6 => ([&[r.between(12, 15)], table].concat(), 40),
        7 => ([&[2], table].concat(), 12_400),
        8 => ([&[9], table, &[3, 1, 4, 4, 10]].concat(), 12_400),
        9 => ([&[9], table, &[3, 1, 4, 4], jobs].concat(), 12_400),
        10 => ([&[15], table, &[1, 1, 4, 4], jobs].concat(), 12_400),
        11 => (vec![17, 8], MOST_NEW_NUMBERS),
        12 => ([&[17], table].concat(), MOST_NEW_NUMBERS),
        13 => ([&[17], table, &[3, 1, 4, 4]].concat(), 20_000),
        14 => ([&[17], table, &[0, 3, 1, 0]].concat(), 255),
        _ if r.once_in(2) => (vec![r.one_of(&[10, 18, 19])], 4_096),
        _ => (vec![r.one_of(&[10, 18, 19]), 3, 8], 255),
    };
    numbers.extend(before);
    announced(r, numbers, limit)
}

/// The numbers and one over its limit.
fn announced(r: &mut Random, mut numbers: Vec<u64>, limit: u64) -> Vec<u8> {
    let over = r.one_of(&[limit + 1, limit + 1, 2 * limit, GREATEST]);
    numbers.push(over);
    // Sometimes what the count announces is there.
    if over < 500 && r.once_in(2) {
        numbers.resize(numbers.len() + 3 * over as usize, 1);
    }
    encode(&numbers)
}

/// A query under code 16 with a list, a room or a kind of codes 20 to 23 over its limit.
fn over_a_limit_of_a_summary(r: &mut Random) -> Vec<u8> {
    let settings: &[u64] = match r.below(3) {
        0 => &[BOARD, 1, 0],
        1 => &[BOARD, 2, 0, 8],
        _ => &[BOARD, 4, 0, 8, 2, 7],
    };
    let table: &[u64] = &[8, 3, 0, 8, 0];
    let summary: &[u64] = &[5, 8, 0, 1, 0, 8];
    let tasks: &[u64] = &[3, 1, 4, 4];
    // One window in the memory.
    let memory = [&table[..1], &[1], &table[1..]].concat();
    let (before, limit) = match r.below(13) {
        0 => (vec![r.between(20, 22), 8], MOST_NEW_NUMBERS),
        1 => ([&[20], table].concat(), 12_400),
        2 => ([&[21], table].concat(), MOST_SUMMARY_NUMBERS),
        3 => ([&[22], table].concat(), MOST_SUMMARY_NUMBERS),
        4 => ([&[22], table, summary].concat(), MOST_NEW_NUMBERS),
        5 => ([&[22], table, summary, tasks].concat(), MOST_LENGTHS),
        6 => {
            let lengths = [2, 3, GREATEST];
            ([&[22], table, summary, tasks, &lengths].concat(), 12_400)
        }
        7 => (vec![23, 8, r.below(99)], MOST_NEW_NUMBERS),
        8 => ([&[23], &memory[..]].concat(), MOST_SUMMARY_NUMBERS),
        _ => ([&[23], &memory[..], summary].concat(), 2),
    };
    announced(r, [settings, &before].concat(), limit)
}

/// Queries up to the last byte used, then nothing, or a byte or a query more.
fn fill_exactly(r: &mut Random, bytes: &mut Vec<u8>) {
    if bytes.len() + 9 > MOST_BYTES {
        return;
    }
    // Plans of 100 bytes while there is much room, then demands of no tasks, 4 or 3 bytes each.
    while bytes.len() + 120 < MOST_BYTES {
        bytes.extend([10, 100]);
        bytes.extend([1; 100]);
    }
    while !(MOST_BYTES - bytes.len()).is_multiple_of(3) {
        bytes.extend([5, 0, 0x80, 0x01]);
    }
    while bytes.len() < MOST_BYTES {
        bytes.extend([5, 0, 1]);
    }
    match r.below(3) {
        0 => {}
        1 => bytes.push(r.one_of(&[0, 1, 5, 0x80]) as u8),
        _ => bytes.extend([5, 0, 1]),
    }
}

/// Random queries until there are more bytes than are used.
fn overflow(r: &mut Random, bytes: &mut Vec<u8>) {
    while bytes.len() <= MOST_BYTES {
        bytes.extend(encode(&generate::query(r).numbers()));
    }
}

#[cfg(test)]
mod tests {
    use super::*;
    use crate::stream;

    #[test]
    fn bad_ends_are_bad() {
        let mut random = Random::new(37);
        for _ in 0..3_000 {
            let bytes = bad_end(&mut random);
            let stream = stream::read(&bytes);
            assert!(
                stream.queries.is_empty() && stream.bad.is_some(),
                "{bytes:?}"
            );
        }
    }

    /// Each limit of codes 20 to 23, under every count of settings.
    #[test]
    fn limits_of_summaries_are_asked() {
        let mut random = Random::new(38);
        let mut asked = std::collections::BTreeSet::new();
        for _ in 0..3_000 {
            let bytes = over_a_limit_of_a_summary(&mut random);
            let settings = usize::from(bytes[1]);
            asked.insert((settings, bytes[2 + settings], stream::read(&bytes).bad));
        }
        // 20 windows and room, 21 windows and summary, 22 windows, summary, tasks, lengths and
        // room, 23 windows, summary and kind.
        assert_eq!(asked.len(), 3 * (2 + 2 + 5 + 3), "{asked:?}");
    }
}
