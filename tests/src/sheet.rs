//! Sheets: what the readers of a group may see of a value (manual, 7.2).

use crate::groups::{Group, Groups};
use crate::limits::SHEET_BYTES;
use crate::script::{Side, Term};

/// The kind of closed objects.
pub const CLOSED: u8 = 5;
/// The kind of literals, the only one with a number.
pub const NUMBER: u8 = 6;

/// The value's records for the readers of group g, in the script's order: kind, r, ir, 0, number. Kinds are 0 unit, 1
/// first, 2 second, 3 pair, 4 function, 5 closed and 6 number; the number is 0 of all but a shown literal.
pub fn sheet_of(groups: &Groups, value: &Term, g: Group) -> Vec<[u8; SHEET_BYTES]> {
    // A function's body isn't shown: it has no parts here.
    let (kind, marks, number, parts) = match value {
        Term::Unit(marks) => (0, marks, 0, vec![]),
        Term::Injection(Side::First, marks, _, a) => (1, marks, 0, vec![a]),
        Term::Injection(Side::Second, marks, _, a) => (2, marks, 0, vec![a]),
        Term::Pair(marks, a, b) => (3, marks, 0, vec![a, b]),
        Term::Function(marks, _, _) => (4, marks, 0, vec![]),
        Term::Literal(marks, number) => (NUMBER, marks, *number, vec![]),
        _ => panic!("question 26: a value"),
    };
    let [low, high] = number.to_le_bytes();
    // An object with r ⋢ g is closed, its groups 0, and stands for every part of it too.
    if !groups.below(marks.r, g) {
        return vec![[CLOSED, 0, 0, 0, 0, 0]];
    }
    let mut records = vec![[kind, marks.r, marks.ir, 0, low, high]];
    for part in parts {
        records.extend(sheet_of(groups, part, g));
    }
    records
}
