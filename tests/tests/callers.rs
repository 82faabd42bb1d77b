//! What writing the callers leaves in scripts that were saved in form 1 (manual, 7.12): 6-byte records over types of
//! 4-byte records. `creators.rs` has how they are checked and run.

mod common;

use common::*;
use wigneld_tests::cases;
use wigneld_tests::generate::*;
use wigneld_tests::limits::{OLD_SCRIPT_BYTES as SCRIPT_BYTES, OLD_TYPE_BYTES as TYPE_BYTES};

const RECURSION: u8 = 11;

fn rewritten(types: &[u8], script: &[u8]) -> Vec<u8> {
    let mut script = script.to_vec();
    write_callers(types, &mut script);
    script
}

// ---------------------------------------------------------------------------------------------
// What is written

/// Types whose r tells them apart: record i has r = i + 1. No question is asked of them.
fn numbered_types(count: u8) -> Vec<u8> {
    (0..count).flat_map(|index| [9, index + 1, 7, 5]).collect()
}

/// Recursions, each with its group and the number of its type.
fn recursions(all: impl IntoIterator<Item = (u8, u16)>) -> Vec<u8> {
    let record = |(r, number): (u8, u16)| {
        let [low, high] = number.to_le_bytes();
        [RECURSION, r, 0, 0, low, high]
    };
    all.into_iter().flat_map(record).collect()
}

fn writes(types: &[u8], before: &[u8], count: usize, after: &[u8]) {
    let mut script = before.to_vec();
    assert_eq!(write_callers(types, &mut script), count as u64);
    assert_eq!(script, after);
}

#[test]
fn recursions_of_a_type_are_written_and_nothing_else() {
    let types = numbered_types(3);
    for kind in 0..=255 {
        let before = [kind, 200, 201, 202, 2, 0];
        if kind == RECURSION {
            writes(&types, &before, 1, &[RECURSION, 3, 201, 202, 2, 0]);
        } else {
            writes(&types, &before, 0, &before);
        }
    }
    // Each by its own type, whatever group it had; a number past the table, a wide one too, names none.
    let before = recursions([(0, 0), (9, 1), (0, 2), (0, 3), (9, 256), (0, 258), (9, 65_535)]);
    let after = recursions([(1, 0), (2, 1), (3, 2), (0, 3), (9, 256), (0, 258), (9, 65_535)]);
    writes(&types, &before, 3, &after);
}

#[test]
fn records_cut_short_are_left() {
    let types = numbered_types(3);
    let (before, after) = (recursions([(0, 1), (0, 2)]), recursions([(2, 1), (3, 2)]));
    // The first `count` of them written.
    let with = |count: usize| {
        let end = count * SCRIPT_BYTES;
        [&after[..end], &before[end..]].concat()
    };
    for length in 0..=before.len() {
        let whole = length / SCRIPT_BYTES;
        writes(&types, &before[..length], whole, &with(whole)[..length]);
    }
    for length in 0..=types.len() {
        // Type 0 is nobody's.
        let named = (length / TYPE_BYTES).saturating_sub(1);
        writes(&types[..length], &before, named, &with(named));
    }
}

#[test]
fn tables_and_scripts_of_any_length() {
    writes(&[], &[], 0, &[]);
    // More types than a number can name, and more records than a script may have.
    let count = 70_000;
    let r = |index: usize| (index % 251) as u8;
    let types: Vec<u8> = (0..count).flat_map(|index| [0, r(index), 0, 0]).collect();
    let numbers = || (0..count).map(|at| at as u16);
    let before = recursions(numbers().map(|number| (0, number)));
    let after = recursions(numbers().map(|number| (r(number.into()), number)));
    writes(&types, &before, count, &after);
}

#[test]
fn cases_are_rewritten_to_what_they_are() {
    let mut recursions = 0;
    for (letter, inputs) in cases::all() {
        let own = old_form(&inputs);
        let before = saved_before(&inputs);
        assert_eq!(rewritten(&before.types, &before.script), own.script, "case {letter}");
        recursions += write_callers(&before.types, &mut before.script.clone());
    }
    assert_eq!(recursions, 2, "G and I");
    // Without it, I isn't for the group that is now read from it.
    check_refuses(&cases::i_called_as(0), 21, 1);
    check_refuses(&cases::i(), 23, 1);
}

/// Chance bytes of any length; many records are recursions, with numbers about the end of a table of
/// `count` types.
fn raw_script(rng: &mut Rng, count: usize) -> Vec<u8> {
    let length = rng.below(80);
    let mut script = rng.bytes(length);
    for record in script.chunks_mut(SCRIPT_BYTES) {
        if rng.one_in(2) {
            record[0] = RECURSION;
        }
        if !rng.one_in(4) {
            // A last record that is cut short has a part of its number at most.
            let number = (rng.below(count + 3) as u16).to_le_bytes();
            record.iter_mut().skip(4).zip(number).for_each(|(byte, part)| *byte = part);
        }
    }
    script
}

#[test]
fn all_other_bytes_stay() {
    let (mut written, mut left) = (0, 0);
    let enough = examples(6000, |rng| {
        let length = rng.below(40);
        let types = rng.bytes(length);
        let count = types.len() / TYPE_BYTES;
        let before = raw_script(rng, count);
        let mut after = before.clone();
        let told = write_callers(&types, &mut after);
        assert_eq!(after.len(), before.len());
        let mut changed = 0;
        for (at, &byte) in after.iter().enumerate() {
            let start = at / SCRIPT_BYTES * SCRIPT_BYTES;
            let own = before.get(start..start + SCRIPT_BYTES).filter(|own| own[0] == RECURSION);
            let named = own.map(|own| u16::from_le_bytes([own[4], own[5]]) as usize);
            match named.filter(|&index| index < count && at == start + 1) {
                Some(index) => {
                    assert_eq!(byte, types[index * TYPE_BYTES + 1]);
                    changed += 1;
                }
                None => assert_eq!(byte, before[at]),
            }
        }
        assert_eq!(told, changed);
        assert_eq!(rewritten(&types, &after), after, "once is enough");
        let tally = if changed > 0 { &mut written } else { &mut left };
        *tally += 1;
    });
    assert!(!enough || written > 0 && left > 0, "both were drawn");
}
