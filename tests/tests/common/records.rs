//! Script records with all groups 0, for scripts written out record by record.
#![allow(dead_code)]

use wigneld_tests::cases::record;
use wigneld_tests::limits::SCRIPT_BYTES;
use wigneld_tests::script::{operand_count, Record as Fields};

pub type Record = [u8; SCRIPT_BYTES];

/// A record of this kind, all its other bytes 0.
pub const fn bare(kind: u8) -> Record {
    let mut record = [0; SCRIPT_BYTES];
    record[0] = kind;
    record
}

pub const UNIT: Record = bare(1);
pub const PAIR: Record = bare(3);
pub const APPLY: Record = bare(6);
pub const PROJECT: Record = bare(7);
pub const PROJECT_SECOND: Record = bare(8);
pub const PROTECT: Record = bare(10);
/// The sum of two numbers.
pub const ADD: Record = bare(13);
/// A case that finds its own type.
pub const OWN_CASE: Record = [9, 0, 0, 0, 255, 255, 0, 0];

pub fn variable(number: u16) -> Record {
    record(0, 0, 0, number)
}

pub fn function(parameter: u16) -> Record {
    record(2, 0, 0, parameter)
}

pub fn first(sum: u16) -> Record {
    record(4, 0, 0, sum)
}

pub fn second(sum: u16) -> Record {
    record(5, 0, 0, sum)
}

pub fn case(result: u16) -> Record {
    record(9, 0, 0, result)
}

pub fn recursion(function: u16) -> Record {
    record(11, 0, 0, function)
}

pub fn literal(number: u16) -> Record {
    record(12, 0, 0, number)
}

/// First less than second, over this sum of units.
pub fn less(sum: u16) -> Record {
    record(14, 0, 0, sum)
}

/// The depth of each record of a term, by what stands around it: the operands of a case that finds its type
/// are two levels deeper than it, all others one.
pub fn depths(records: &[Record]) -> Vec<usize> {
    let mut depths = Vec::new();
    // Each with the operands that are still to come, and the depth that they have.
    let mut around: Vec<(usize, usize)> = Vec::new();
    for record in records {
        let depth = around.last().map_or(1, |&(_, depth)| depth);
        depths.push(depth);
        let own_type = Fields::read(record).finds_own_type();
        around.push((operand_count(record[0]), depth + if own_type { 2 } else { 1 }));
        while around.last().is_some_and(|&(left, _)| left == 0) {
            around.pop();
            if let Some((left, _)) = around.last_mut() {
                *left -= 1;
            }
        }
    }
    depths
}
