//! Scripts of the old office program (manual, 7.9 and 7.10): records of 10 bytes, the first six of a script record,
//! then two 16-bit names, lowest byte first. Import, export, and the callers that are put into recursions saved
//! without.

use std::rc::Rc;

use crate::limits::{
    are_whole, MOST_OFFICE_RECORDS, OFFICE_BYTES, OLD_SCRIPT_BYTES, SCRIPT_BYTES, TYPE_BYTES,
};
use crate::refusal::{ask, Answer};
use crate::rewriting::put;
use crate::script::{read_form, read_script, Record, Term};
use crate::types::{read_tables, Tables};

/// A record of the old program: the six bytes with c and ic as group 0, and its names.
#[derive(Debug, Clone, Copy, PartialEq, Eq)]
pub struct OfficeRecord {
    pub record: Record,
    pub first: u16,
    pub second: u16,
}

impl OfficeRecord {
    pub fn read(bytes: &[u8]) -> OfficeRecord {
        let name = |at: usize| u16::from_le_bytes([bytes[at], bytes[at + 1]]);
        let record = Record::read(&[&bytes[..OLD_SCRIPT_BYTES], &[0; 2]].concat());
        OfficeRecord { record, first: name(6), second: name(8) }
    }

    /// The old form has no c and ic.
    pub fn write(&self) -> [u8; OFFICE_BYTES] {
        let mut bytes = [0; OFFICE_BYTES];
        bytes[..OLD_SCRIPT_BYTES].copy_from_slice(&self.record.write()[..OLD_SCRIPT_BYTES]);
        bytes[6..8].copy_from_slice(&self.first.to_le_bytes());
        bytes[8..].copy_from_slice(&self.second.to_le_bytes());
        bytes
    }
}

/// A variable has its name in the first; a function and a recursion bind the first, a case's branches the first and
/// the second.
pub fn uses_first(kind: u8) -> bool {
    matches!(kind, 0 | 2 | 9 | 11)
}

pub fn uses_second(kind: u8) -> bool {
    kind == 9
}

/// Question 28. Are there 1 to 6,000 whole records? (0)
fn office_records(bytes: &[u8]) -> Answer<Vec<OfficeRecord>> {
    ask(are_whole(bytes.len(), OFFICE_BYTES, MOST_OFFICE_RECORDS), 28, 0)?;
    Ok(bytes.chunks(OFFICE_BYTES).map(OfficeRecord::read).collect())
}

/// Question 29. Are the unused names and a variable's number 0?
fn unused(records: &[OfficeRecord]) -> Answer<()> {
    for (index, &OfficeRecord { record, first, second }) in records.iter().enumerate() {
        let kind = record.kind;
        let clean = (uses_first(kind) || first == 0)
            && (uses_second(kind) || second == 0)
            && (kind != 0 || record.number == 0);
        ask(clean, 29, index)?;
    }
    Ok(())
}

/// Question 30. Has a variable's name a binder? Gives the term that the records from `index` on mean under the
/// binders of these names, the outermost first, and the index after it: a variable means the nearest binder of
/// its name. Records stand in the order of this walk.
fn meant(
    records: &[OfficeRecord],
    index: usize,
    names: &mut Vec<u16>,
) -> Answer<(Rc<Term>, usize)> {
    let OfficeRecord { record, first, second } = records[index];
    if record.kind == 0 {
        let number = names.iter().rev().position(|&name| name == first);
        ask(number.is_some(), 30, index)?;
        let number = number.expect("asked") as u16;
        return Ok((Rc::new(Term::Variable(number)), index + 1));
    }
    // The operands' binders, as the present form has them; only a case's third has the second name.
    let binds = |operand: usize| match record.kind {
        2 | 11 => Some(first),
        9 if operand == 1 => Some(first),
        9 if operand == 2 => Some(second),
        _ => None,
    };
    let mut operands = Vec::new();
    let mut at = index + 1;
    for operand in 0..crate::script::operand_count(record.kind) {
        names.extend(binds(operand));
        let (term, end) = meant(records, at, names)?;
        names.truncate(names.len() - binds(operand).iter().count());
        operands.push(term);
        at = end;
    }
    Ok((Rc::new(Term::build(record, operands)), at))
}

/// Questions 28, 14 to 18, 29 and 30: the term that is imported.
pub fn read_office_script(tables: &Tables, old: &[u8]) -> Answer<Rc<Term>> {
    let records = office_records(old)?;
    let plain: Vec<Record> = records.iter().map(|record| record.record).collect();
    read_form(tables, &plain)?;
    unused(&records)?;
    Ok(meant(&records, 0, &mut Vec::new())?.0)
}

/// Questions 2 to 12, 28, 14 to 18, 29, 30 and 27: the record count written. Bytes past them stay.
pub fn import(groups: &[u8], types: &[u8], old: &[u8], script: &mut [u8]) -> Answer<u32> {
    let tables = read_tables(groups, types)?;
    let term = read_office_script(&tables, old)?;
    put(&term.write(), SCRIPT_BYTES, script)
}

/// The old records of a term in which each binder is named by its count of binders outside it; `outside` are
/// outside of this term.
pub fn named(term: &Term, outside: u16) -> Vec<u8> {
    let whole = term.record();
    let record = Record { number: if whole.kind == 0 { 0 } else { whole.number }, ..whole };
    let first = match whole.kind {
        // The nearest binder has all but one outside it.
        0 => outside - 1 - whole.number,
        kind if uses_first(kind) => outside,
        _ => 0,
    };
    let second = if uses_second(whole.kind) { outside } else { 0 };
    let mut bytes = OfficeRecord { record, first, second }.write().to_vec();
    for (operand, binders) in term.operands() {
        bytes.extend(named(operand, outside + binders as u16));
    }
    bytes
}

/// Questions 2 to 19, 28, which asks whether there are at most 6,000 records, and 27: the record count written. Bytes
/// past them stay.
pub fn export(groups: &[u8], types: &[u8], script: &[u8], old: &mut [u8]) -> Answer<u32> {
    let tables = read_tables(groups, types)?;
    let term = read_script(&tables, script, &[])?;
    ask(term.size() <= MOST_OFFICE_RECORDS, 28, 0)?;
    put(&named(&term, 0), OFFICE_BYTES, old)
}

/// Puts r of its type into each recursion, in place, over types of the present form (manual, 7.12). Nothing is
/// asked. Gives how many records were written.
pub fn write_office_callers(types: &[u8], old: &mut [u8]) -> u64 {
    let types: Vec<&[u8]> = types.chunks_exact(TYPE_BYTES).collect();
    let mut written = 0;
    for bytes in old.chunks_exact_mut(OFFICE_BYTES).filter(|bytes| bytes[0] == 11) {
        if let Some(own) = types.get(u16::from_le_bytes([bytes[4], bytes[5]]) as usize) {
            bytes[1] = own[1];
            written += 1;
        }
    }
    written
}
