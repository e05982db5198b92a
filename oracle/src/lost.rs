//! Boards that pay for a switch: the first q ticks of every window are lost (document 02, request
//! 7).

use crate::answer::{Reason, Refusal};
use crate::table::TableNumbers;

/// "Rule 1 boards give the task the whole window."
pub const WHOLE: u64 = 1;
/// "Rule 2 boards lose the first q ticks of every window."
pub const PAYS: u64 = 2;
/// "q from 0 to 65,535."
pub const MOST_LOST: u64 = 65_535;

/// A board's rule and q, the ticks that every window loses, as they are lent: any numbers.
#[derive(Clone, Copy, Debug, PartialEq, Eq)]
pub struct Switch {
    pub rule: u64,
    pub lost: u64,
}

/// Those of a table that sets none: "old plan files are rule 1", which "is q = 0".
const NOT_SET: Switch = Switch {
    rule: WHOLE,
    lost: 0,
};

impl Switch {
    /// "A plan gives its rule and q after m": what these numbers are, unless nothing stands there.
    pub fn after_m(numbers: &[u64]) -> Option<Switch> {
        match *numbers {
            [rule, lost] => Some(Switch { rule, lost }),
            _ => None,
        }
    }

    pub fn numbers(self) -> [u64; 2] {
        [self.rule, self.lost]
    }

    fn is_legal(self) -> bool {
        match self.rule {
            WHOLE => self.lost == 0,
            PAYS => self.lost <= MOST_LOST,
            _ => false,
        }
    }
}

/// How many ticks every window of the table loses; or refusal 13 where "the rule is neither 1 nor
/// 2, q is out of range, or rule 1 comes with q above 0".
pub fn check(table: &TableNumbers) -> Result<u64, Refusal> {
    let switch = table.switch.unwrap_or(NOT_SET);
    Reason::Switch.check(!switch.is_legal(), 0)?;
    Ok(switch.lost)
}
