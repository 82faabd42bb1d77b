//! The preview of a step, and the move that takes it back (manual, 6.6).

use crate::calls::{step, StepReport};
use crate::limits::SCRIPT_BYTES;
use crate::refusal::{ask, Answer};
use crate::script::read_script;
use crate::steps::{self, End};
use crate::types::read_tables;

/// The end, the record count after the step, which is the script's own unless the end is 1, and the number of steps so
/// far. What is handed back to a move may be any numbers.
#[derive(Debug, Clone, Copy, PartialEq, Eq)]
pub struct Preview {
    pub end: u64,
    pub records: u64,
    pub steps: u64,
}

/// The preview of the step that would write to a buffer of this length. It writes nothing. The number of steps so far
/// is the caller's and is repeated.
pub fn preview(
    groups: &[u8],
    types: &[u8],
    script: &[u8],
    length: u64,
    steps: u64,
) -> Answer<Preview> {
    let tables = read_tables(groups, types)?;
    let term = read_script(&tables, script, &[])?;
    let room = length / SCRIPT_BYTES as u64;
    let (end, next) = steps::step(&tables, &term, room as usize);
    Ok(Preview { end: end as u64, records: next.size() as u64, steps })
}

/// What a move gives: what its step reports, and the number of steps after it.
#[derive(Debug, Clone, Copy, PartialEq, Eq)]
pub struct MoveReport {
    pub step: StepReport,
    pub steps: u64,
}

/// The move is given a preview's numbers back, and makes the step of the script.
pub fn move_on(
    groups: &[u8],
    types: &[u8],
    script: &[u8],
    given: Preview,
    written: &mut [u8],
) -> Answer<MoveReport> {
    let now = preview(groups, types, script, written.len() as u64, given.steps)?;
    // 35. Are the end and the count those of the step of this script into this buffer? (0)
    ask(given.end == now.end && given.records == now.records, 35, 0)?;
    let step = step(groups, types, script, written)?;
    // A move with end 1 raises the number of steps by one, and the largest number stays.
    let raised = step.end == End::Moved && given.steps != u64::MAX;
    let steps = if raised { given.steps + 1 } else { given.steps };
    Ok(MoveReport { step, steps })
}
