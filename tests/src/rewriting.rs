//! The old form: types of 4-byte records and scripts of 6-byte ones, as forms 1 and 2 have them (manual, 7.11), and the
//! three calls that read them: `write_callers`, which brings form 1 to form 2, `rewrite_types` and `rewrite_script`.

use std::rc::Rc;

use crate::groups::read_groups;
use crate::limits::{
    are_whole, MOST_SCRIPT_RECORDS, MOST_TABLE_RECORDS, OLD_SCRIPT_BYTES, OLD_TYPE_BYTES,
    SCRIPT_BYTES, TYPE_BYTES,
};
use crate::refusal::{ask, Answer};
use crate::rules::Rules;
use crate::script::{read_records, Record, Term};
use crate::types::{read_type_records, Tables};

/// Puts r of its type into each recursion, in place: into each whole record of kind 11 whose number is that of a
/// whole record of the table. Nothing is asked, and all other bytes stay. Gives how many records were written.
pub fn write_callers(types: &[u8], script: &mut [u8]) -> u64 {
    let types: Vec<&[u8]> = types.chunks_exact(OLD_TYPE_BYTES).collect();
    let mut written = 0;
    for bytes in script.chunks_exact_mut(OLD_SCRIPT_BYTES) {
        let number = u16::from_le_bytes([bytes[4], bytes[5]]);
        match types.get(number as usize) {
            Some(own) if bytes[0] == 11 => {
                bytes[1] = own[1];
                written += 1;
            }
            _ => {}
        }
    }
    written
}

/// Records of the old form with group 0 as c and ic, which follow all other bytes of types and scripts.
fn widened(old: &[u8], old_width: usize) -> Vec<u8> {
    old.chunks(old_width).flat_map(|record| [record, &[0; 2]].concat()).collect()
}

/// A types table of the old form in the new one.
pub fn widened_types(old: &[u8]) -> Vec<u8> {
    widened(old, OLD_TYPE_BYTES)
}

/// A script of the old form in the new one.
pub fn widened_script(old: &[u8]) -> Vec<u8> {
    widened(old, OLD_SCRIPT_BYTES)
}

/// Questions 2 to 12 of a types table of the old form, then both tables. Only 8 asks for its width;
/// to the others it is the table with c = ic = 0.
pub fn read_old_tables(groups: &[u8], types: &[u8]) -> Answer<Tables> {
    let groups = read_groups(groups)?;
    ask(are_whole(types.len(), OLD_TYPE_BYTES, MOST_TABLE_RECORDS), 8, 0)?;
    let types = read_type_records(&groups, &widened_types(types))?;
    Ok(Tables { groups, types, rules: Rules::Now })
}

/// Questions 13 to 19 of a script of the old form, then the term. Only 13 asks for its width.
pub fn read_old_script(tables: &Tables, script: &[u8]) -> Answer<Rc<Term>> {
    ask(are_whole(script.len(), OLD_SCRIPT_BYTES, MOST_SCRIPT_RECORDS), 13, 0)?;
    let records: Vec<Record> =
        widened_script(script).chunks(SCRIPT_BYTES).map(Record::read).collect();
    read_records(tables, &records)
}

/// The new form to the front of the buffer: 27, and nothing is written before. Gives the record count
/// and keeps the bytes past it.
pub fn put(new: &[u8], width: usize, rewritten: &mut [u8]) -> Answer<u32> {
    // 27. Does the answer fit? (0)
    ask(new.len() <= rewritten.len(), 27, 0)?;
    rewritten[..new.len()].copy_from_slice(new);
    Ok((new.len() / width) as u32)
}

/// Rewrites a types table of 4-byte records: questions 2 to 12 and 27.
pub fn rewrite_types(groups: &[u8], types: &[u8], rewritten: &mut [u8]) -> Answer<u32> {
    read_old_tables(groups, types)?;
    put(&widened_types(types), TYPE_BYTES, rewritten)
}

/// Rewrites a script of 6-byte records over such a table: questions 2 to 19 and 27.
pub fn rewrite_script(
    groups: &[u8],
    types: &[u8],
    script: &[u8],
    rewritten: &mut [u8],
) -> Answer<u32> {
    let tables = read_old_tables(groups, types)?;
    read_old_script(&tables, script)?;
    put(&widened_script(script), SCRIPT_BYTES, rewritten)
}
