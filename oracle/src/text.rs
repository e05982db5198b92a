//! A readable text of a stream: decimal numbers, `xHH` for one raw byte, `#` before a comment.

use crate::numbers::{push_number, GREATEST};
use crate::query::Query;
use crate::stream;

/// The bytes of a text, or what is wrong in which line.
pub fn encode(text: &str) -> Result<Vec<u8>, String> {
    let mut bytes = Vec::new();
    for (index, line) in text.lines().enumerate() {
        let numbers = line.split('#').next().unwrap_or("");
        for token in numbers.split_whitespace() {
            push_token(&mut bytes, token)
                .ok_or_else(|| format!("line {}: {token} is not a number", index + 1))?;
        }
    }
    Ok(bytes)
}

fn push_token(bytes: &mut Vec<u8>, token: &str) -> Option<()> {
    if let Some(hex) = token.strip_prefix('x') {
        let is_byte = hex.len() == 2 && hex.bytes().all(|digit| digit.is_ascii_hexdigit());
        bytes.push(u8::from_str_radix(hex, 16).ok().filter(|_| is_byte)?);
    } else {
        let is_decimal = token.bytes().all(|digit| digit.is_ascii_digit());
        let number = token
            .parse()
            .ok()
            .filter(|&n| is_decimal && n <= GREATEST)?;
        push_number(bytes, number);
    }
    Some(())
}

/// One query a line, then what follows the last complete query as raw bytes.
pub fn decode(bytes: &[u8]) -> String {
    let stream = stream::read(bytes);
    let mut text: String = stream.queries.iter().map(|q| query(q) + "\n").collect();
    if let Some(offset) = stream.bad {
        text += &format!("# BAD QUERY at {offset}\n");
        text += &raw(&bytes[stream.complete..]);
        text += "\n";
    }
    text
}

pub fn query(query: &Query) -> String {
    let numbers: Vec<String> = query.numbers().iter().map(u64::to_string).collect();
    numbers.join(" ")
}

pub fn raw(bytes: &[u8]) -> String {
    let bytes: Vec<String> = bytes.iter().map(|byte| format!("x{byte:02x}")).collect();
    bytes.join(" ")
}

#[cfg(test)]
mod tests {
    use super::*;

    #[test]
    fn text_to_bytes() {
        let text = "1 8 # X\n4 0 2\t5 7\n\n# nothing\n300 x80 xFf\n";
        let bytes = [1, 8, 4, 0, 2, 5, 7, 0xac, 0x02, 0x80, 0xff];
        assert_eq!(encode(text), Ok(bytes.to_vec()));
    }

    #[test]
    fn errors_name_the_line() {
        for bad in ["-1", "+1", "4294967296", "x8", "x080", "x+1", "é", "1,2"] {
            let error = encode(&format!("1 2\n3 {bad}\n")).unwrap_err();
            assert!(error.starts_with("line 2: "), "{error}");
        }
    }

    #[test]
    fn decoding_and_encoding_again_keeps_the_bytes() {
        let bytes = [5, 0, 0, 1, 8, 2, 0, 0xac, 0x02, 3, 10, 2, 0x80];
        assert_eq!(encode(&decode(&bytes)), Ok(bytes.to_vec()));
        let long = [5, 0, 0].repeat(30_000);
        assert_eq!(encode(&decode(&long)), Ok(long));
    }
}
