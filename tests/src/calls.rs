//! Every call as its caller sees it: byte slices and numbers in, an answer and lent bytes out.
//!
//! A refusal leaves all lent memory as it was, but for the work buffer of a call that has begun typing (questions 20 to
//! 24 and 31), which is left all zeros, and for the run buffers of a packet refused by 27 (manual, 9.4).

use crate::groups::{read_groups, Group};
use crate::limits::{ANSWER_BYTES, SCRIPT_BYTES, SHEET_BYTES, WORK_BYTES};
use crate::refusal::{ask, Answer};
use crate::script::{read_script, Term};
use crate::sheet::sheet_of;
use crate::steps::{self, is_value, End};
use crate::types::{self, read_tables, Comparison, Tables};
use crate::typing::type_of;

pub use crate::in_force::in_force;
pub use crate::office::{export, import, write_office_callers};
pub use crate::packet::{packet, Lent, PacketReport, Request};
pub use crate::preview::{move_on, preview, MoveReport, Preview};
pub use crate::rewriting::{rewrite_script, rewrite_types, write_callers};
pub use crate::script::subterm;
pub use crate::strip::{strip_script, strip_types};

/// Questions 2 to 7.
pub fn groups_check(groups: &[u8]) -> Answer<()> {
    read_groups(groups).map(|_| ())
}

/// Questions 2 to 12.
pub fn types_check(groups: &[u8], types: &[u8]) -> Answer<()> {
    read_tables(groups, types).map(|_| ())
}

/// The comparison of the types at two indexes: questions 2 to 12 and 25.
pub fn compare(groups: &[u8], types: &[u8], i: u64, j: u64) -> Answer<Comparison> {
    let tables = read_tables(groups, types)?;
    // 25. Is a given index or group in its table? (0, or 1 for a second one)
    ask(tables.types.has(i), 25, 0)?;
    ask(tables.types.has(j), 25, 1)?;
    let (s, t) = (tables.types.at(i as usize), tables.types.at(j as usize));
    Ok(types::compare(&tables.groups, &s, &t))
}

/// Checking, questions 1 to 24: the type's record count. The type fills the front of the answer buffer, later bytes
/// stay, and the work buffer is filled with zeros.
pub fn check(
    groups: &[u8],
    types: &[u8],
    script: &[u8],
    work: &mut [u8],
    answer: &mut [u8],
) -> Answer<u32> {
    buffers_asked(work, answer)?;
    check_over(&read_tables(groups, types)?, script, work, answer)
}

/// 1. Are work and answer buffer at least 96,768 and 378 bytes? (place 0)
fn buffers_asked(work: &[u8], answer: &[u8]) -> Answer<()> {
    ask(work.len() >= WORK_BYTES && answer.len() >= ANSWER_BYTES, 1, 0)
}

/// Checking with 39 after 19, at the first record that is a recursion (manual, 7.6).
pub fn check_profile(
    groups: &[u8],
    types: &[u8],
    script: &[u8],
    work: &mut [u8],
    answer: &mut [u8],
) -> Answer<u32> {
    buffers_asked(work, answer)?;
    let tables = read_tables(groups, types)?;
    let term = read_script(&tables, script, &[])?;
    recursion_asked(script)?;
    find(&tables, &term, work, answer)
}

/// 39, of a script that has passed 13 to 19.
pub fn recursion_asked(script: &[u8]) -> Answer<()> {
    let recursion = script.chunks(SCRIPT_BYTES).position(|record| record[0] == 11);
    ask(recursion.is_none(), 39, recursion.unwrap_or(0))
}

/// Checking from question 13 on.
pub fn check_over(
    tables: &Tables,
    script: &[u8],
    work: &mut [u8],
    answer: &mut [u8],
) -> Answer<u32> {
    let term = read_script(tables, script, &[])?;
    find(tables, &term, work, answer)
}

/// Checking from question 20 on: typing has begun, whatever it answers.
fn find(tables: &Tables, term: &Term, work: &mut [u8], answer: &mut [u8]) -> Answer<u32> {
    work.fill(0);
    let found = type_of(tables, term)?;
    let bytes = found.write();
    answer[..bytes.len()].copy_from_slice(&bytes);
    Ok(found.size() as u32)
}

/// A step's end and record count, the script's own unless it moved.
#[derive(Debug, Clone, Copy, PartialEq, Eq)]
pub struct StepReport {
    pub end: End,
    pub records: u32,
}

/// A step, questions 2 to 19. On end 1 the new term fills the front of the written buffer and later bytes keep their
/// content; otherwise nothing is written.
pub fn step(groups: &[u8], types: &[u8], script: &[u8], written: &mut [u8]) -> Answer<StepReport> {
    let tables = read_tables(groups, types)?;
    let term = read_script(&tables, script, &[])?;
    let (end, next) = steps::step(&tables, &term, written.len() / SCRIPT_BYTES);
    if end == End::Moved {
        let bytes = next.write();
        written[..bytes.len()].copy_from_slice(&bytes);
    }
    Ok(StepReport { end, records: next.size() as u32 })
}

/// A run's end, the steps made and the last term's record count.
#[derive(Debug, Clone, Copy, PartialEq, Eq)]
pub struct RunReport {
    pub end: End,
    pub steps: u64,
    pub records: u32,
}

/// A run, questions 2 to 19. Afterwards the first buffer holds the last term, then zeros, and the scratch is all zeros.
/// Too big is judged with the shorter of the two buffers.
pub fn run(
    groups: &[u8],
    types: &[u8],
    script: &[u8],
    budget: u64,
    first: &mut [u8],
    scratch: &mut [u8],
) -> Answer<RunReport> {
    run_over(&read_tables(groups, types)?, script, budget, first, scratch)
}

/// A run from question 13 on.
pub fn run_over(
    tables: &Tables,
    script: &[u8],
    budget: u64,
    first: &mut [u8],
    scratch: &mut [u8],
) -> Answer<RunReport> {
    let term = read_script(tables, script, &[first.len(), scratch.len()])?;
    let room = first.len().min(scratch.len()) / SCRIPT_BYTES;
    let ran = steps::run(tables, &term, budget, room);
    let bytes = ran.last.write();
    first.fill(0);
    first[..bytes.len()].copy_from_slice(&bytes);
    scratch.fill(0);
    Ok(RunReport { end: ran.end, steps: ran.steps, records: ran.last.size() as u32 })
}

/// A value's sheet, questions 2 to 19, 25, 26 and 27: its record count. Bytes past the sheet keep their content.
pub fn sheet(
    groups: &[u8],
    types: &[u8],
    value: &[u8],
    group: u64,
    sheet: &mut [u8],
) -> Answer<u32> {
    let tables = read_tables(groups, types)?;
    let term = read_script(&tables, value, &[])?;
    // 25. Is a given index or group in its table? (0, or 1 for a second one)
    ask(tables.groups.has(group), 25, 0)?;
    // 26. Is the script a value? (0)
    ask(is_value(&term), 26, 0)?;
    let records = sheet_of(&tables.groups, &term, group as Group);
    // 27. Does the answer fit? (0)
    ask(records.len() * SHEET_BYTES <= sheet.len(), 27, 0)?;
    let bytes = records.concat();
    sheet[..bytes.len()].copy_from_slice(&bytes);
    Ok(records.len() as u32)
}
