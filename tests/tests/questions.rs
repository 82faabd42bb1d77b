//! Each question 1 to 27, and 36: its place, the order between them, and every lent byte after a no. `own_type.rs` has 31; here is
//! its place among the others.

mod common;

use common::records::*;
use common::*;
use wigneld_tests::cases::{self, made, record, set, type_record, Inputs, UNIT_TYPE};
use wigneld_tests::generate::*;
use wigneld_tests::limits::*;
use wigneld_tests::refusal::Refusal;
use wigneld_tests::script::{names_number, operand_count, Side, Term, OPERANDS};
use wigneld_tests::types::Comparison;

use std::rc::Rc;

/// Four groups, 1 and 2 side by side.
fn diamond_groups() -> Vec<u8> {
    words(&[15, 10, 12, 8])
}

/// Is g at or below h, of these four?
fn below(g: u8, h: u8) -> bool {
    g == h || g == 0 || h == 3
}

/// Records: 0 sum of units, 3 function of units, 6 pair of units, 9 unit (3,3), 10 function (3,3)
/// of units, 13 sum of unit and unit (3,3), 16 sum of a unit made by 1 and unit, 19 function from unit
/// to a unit made by 1, 22 number, 23 sum of unit and number, 26 sum of number and unit, 29 function of
/// numbers, all other groups 0.
#[rustfmt::skip] // one type on each line
fn some_types() -> Vec<u8> {
    [
        type_record(1, 0, 0), UNIT_TYPE, UNIT_TYPE,
        type_record(3, 0, 0), UNIT_TYPE, UNIT_TYPE,
        type_record(2, 0, 0), UNIT_TYPE, UNIT_TYPE,
        type_record(0, 3, 3),
        type_record(3, 3, 3), UNIT_TYPE, UNIT_TYPE,
        type_record(1, 0, 0), UNIT_TYPE, type_record(0, 3, 3),
        type_record(1, 0, 0), made(UNIT_TYPE, 1, 0), UNIT_TYPE,
        type_record(3, 0, 0), UNIT_TYPE, made(UNIT_TYPE, 1, 0),
        NUMBER_TYPE,
        type_record(1, 0, 0), UNIT_TYPE, NUMBER_TYPE,
        type_record(1, 0, 0), NUMBER_TYPE, UNIT_TYPE,
        type_record(3, 0, 0), NUMBER_TYPE, NUMBER_TYPE,
    ]
    .concat()
}

const TYPE_COUNT: u16 = 32;
/// The type record of a number, all groups 0.
const NUMBER_TYPE: [u8; TYPE_BYTES] = [4, 0, 0, 0, 0, 0];

fn with(script: Vec<u8>) -> Inputs {
    Inputs { groups: diamond_groups(), types: some_types(), script }
}

fn of(records: &[Record]) -> Inputs {
    with(records.concat())
}

fn accepted(inputs: &Inputs) {
    let (result, _, _) = check_in(inputs, WORK_BYTES, ANSWER_BYTES);
    assert!(result.is_ok(), "{result:?}");
}

/// The meet of two of these four groups.
fn meet(g: u8, h: u8) -> u8 {
    if below(g, h) {
        g
    } else if below(h, g) {
        h
    } else {
        0
    }
}

/// All pairs of these four groups.
fn pairs() -> impl Iterator<Item = (u8, u8)> {
    (0..4).flat_map(|g| (0..4).map(move |h| (g, h)))
}

/// The rewriting of inputs whose creators are 0 asks what the other calls ask of them, but for the widths in 8 and 13.
fn refused_in_old_form(inputs: &Inputs, question: u32, place: u32) {
    let plain = |bytes: &[u8], width: usize| {
        bytes.len() % width == 0 && bytes.chunks(width).all(|record| record[width - 2..] == [0; 2])
    };
    if plain(&inputs.types, TYPE_BYTES) && plain(&inputs.script, SCRIPT_BYTES) {
        // A buffer that is too short is asked about later.
        for room in [0, 700] {
            rewriting_refuses(&old_form(inputs), room, question, place);
            if question <= 12 {
                rewriting_of_types_refuses(&old_form(inputs), room, question, place);
            }
        }
    }
}

/// A no before typing, by every call that asks it.
fn refused_by_all(inputs: &Inputs, question: u32, place: u32) {
    check_refuses(inputs, question, place);
    run_refuses(inputs, question, place);
    let (stepped, written) = step_in(inputs, 700);
    assert_eq!(stepped, no(question, place));
    assert_eq!(written, filled(700));
    // A group outside the table and a buffer too short are asked about later.
    let (seen, sheet) = sheet_in(inputs, 99, 3);
    assert_eq!(seen, no(question, place));
    assert_eq!(sheet, filled(3));
    refused_in_old_form(inputs, question, place);
}

#[test]
fn the_tables_here_are_accepted() {
    assert_eq!(types_check(&diamond_groups(), &some_types()), Ok(()));
    assert_eq!(some_types().len(), TYPE_COUNT as usize * TYPE_BYTES);
    accepted(&of(&[UNIT]));
}

// ---------------------------------------------------------------------------------------------
// 1

#[test]
fn question_1_work_and_answer_buffer() {
    assert_eq!((WORK_BYTES, ANSWER_BYTES), (96_768, 378));
    let whole = of(&[UNIT]);
    let broken = Inputs { groups: vec![], types: vec![], script: vec![] };
    for inputs in [&whole, &broken] {
        for (work, answer) in [
            (96_767, 378),
            (96_768, 377),
            (96_767, 377),
            (0, 378),
            (96_768, 0),
            (0, 0),
            (378, 96_768),
            // As much as types of 4-byte records would take.
            (64_512, 252),
        ] {
            let (result, work_after, answer_after) = check_in(inputs, work, answer);
            assert_eq!(result, no(1, 0));
            assert_eq!((work_after, answer_after), (filled(work), filled(answer)));
        }
    }
    let (result, work, answer) = check_in(&whole, 96_768, 378);
    assert_eq!(result, Ok(1));
    assert_eq!(work, vec![0; 96_768]);
    assert_eq!(answer, [&UNIT_TYPE, &filled(378)[TYPE_BYTES..]].concat());
    // The whole of a longer buffer is zeroed.
    let (_, work, _) = check_in(&whole, 100_001, 400);
    assert_eq!(work, vec![0; 100_001]);
}

// ---------------------------------------------------------------------------------------------
// 2 to 7

fn groups_refused(groups: &[u8], question: u32, place: u32) {
    assert_eq!(groups_check(groups), no(question, place));
    assert_eq!(types_check(groups, &[]), no(question, place));
    assert_eq!(compare(groups, &[], 0, 0), no(question, place));
    refused_by_all(
        &Inputs { groups: groups.to_vec(), types: vec![], script: vec![] },
        question,
        place,
    );
}

#[test]
fn question_2_whole_rows() {
    for length in [0, 1, 2, 3, 5, 6, 7, 9, 127, 129, 132, 133, 4096] {
        groups_refused(&vec![0xFF; length], 2, 0);
    }
    groups_refused(&chain_groups(33), 2, 0);
    assert_eq!(groups_check(&chain_groups(32)), Ok(()));
    assert_eq!(groups_check(&chain_groups(1)), Ok(()));
    for count in 1..=32 {
        assert_eq!(groups_check(&chain_groups(count)), Ok(()));
    }
}

#[test]
fn question_3_bits_past_the_rows() {
    for count in 1..32 {
        for row in 0..count {
            for bit in [count, (count + 31) / 2, 31] {
                let mut groups = chain_groups(count);
                groups[row * 4 + bit / 8] |= 1 << (bit % 8);
                assert_eq!(groups_check(&groups), no(3, row as u32));
                // The lower row counts, whichever bit it is.
                let later = count - 1;
                groups[later * 4 + 3] |= 0x80;
                assert_eq!(groups_check(&groups), no(3, row as u32));
                if count <= 3 {
                    groups_refused(&groups, 3, row as u32);
                }
            }
        }
    }
    // All rows are tried before question 4: row 0 fails that one.
    groups_refused(&words(&[0, 2, 4 | 8]), 3, 2);
}

#[test]
fn question_4_lowest_bit_of_its_row() {
    groups_refused(&words(&[0]), 4, 0);
    groups_refused(&words(&[3, 0]), 4, 1);
    groups_refused(&words(&[3, 3]), 4, 1);
    groups_refused(&words(&[2, 2]), 4, 0);
    groups_refused(&words(&[7, 6, 6]), 4, 2);
    groups_refused(&words(&[7, 4, 0]), 4, 1);
    // The numbering runs upward: 1 ⊑ 0 is not written.
    groups_refused(&words(&[1, 3]), 4, 1);
    // Before question 5, which row 0 fails.
    groups_refused(&words(&[0b0011, 0b0110, 0b0100, 0b1001]), 4, 3);
}

#[test]
fn question_5_rows_within_rows() {
    groups_refused(&words(&[0b011, 0b110, 0b100]), 5, 0);
    groups_refused(&words(&[0b1111, 0b0110, 0b1100, 0b1000]), 5, 1);
    groups_refused(&words(&[0b11111, 0b11110, 0b01100, 0b11000, 0b10000]), 5, 2);
    // Before question 6: 0 and 1 have nothing in common.
    groups_refused(&words(&[0b00001, 0b00010, 0b01100, 0b11000, 0b10000]), 5, 2);
}

#[test]
fn question_6_joins() {
    groups_refused(&words(&[1, 2]), 6, 0);
    // 0 and 1 are fine, 1 and 2 have two lowest upper bounds, 3 and 4.
    groups_refused(&words(&[0b111111, 0b111010, 0b111100, 0b101000, 0b110000, 0b100000]), 6, 1);
    // No top: 1 and 2 have nothing in common.
    groups_refused(&words(&[0b111, 0b010, 0b100]), 6, 1);
    // 2 and 3 have nothing in common.
    groups_refused(&words(&[0b1111, 0b1110, 0b0100, 0b1000]), 6, 2);
    // The smaller of the first failing pair: 0 with 3, before 1 with 2.
    groups_refused(&words(&[0b0001, 0b0010, 0b0100, 0b1000]), 6, 0);
    // Before question 7: row 0 has not all bits either.
    groups_refused(&words(&[0b0011, 0b0010, 0b1100, 0b1000]), 6, 0);
    assert_eq!(groups_check(&diamond_groups()), Ok(()));
}

#[test]
fn question_7_row_0() {
    groups_refused(&words(&[5, 6, 4]), 7, 0);
    groups_refused(&words(&[0b1001, 0b1010, 0b1100, 0b1000]), 7, 0);
    assert_eq!(groups_check(&words(&[0b1111, 0b1010, 0b1100, 0b1000])), Ok(()));
}

// ---------------------------------------------------------------------------------------------
// 8 to 12

fn types_refused(types: &[u8], question: u32, place: u32) {
    let groups = diamond_groups();
    assert_eq!(types_check(&groups, types), no(question, place));
    assert_eq!(compare(&groups, types, u64::MAX, u64::MAX), no(question, place));
    refused_by_all(&Inputs { groups, types: types.to_vec(), script: vec![] }, question, place);
}

fn types_accepted(types: &[u8]) {
    assert_eq!(types_check(&diamond_groups(), types), Ok(()));
}

#[test]
fn question_8_whole_records() {
    for length in [0, 1, 4, 5, 7, 8, 4096 * 6 - 2, 4096 * 6 + 1, 4097 * 6] {
        types_refused(&vec![0; length], 8, 0);
        types_refused(&vec![9; length], 8, 0);
    }
    types_accepted(&unit_types(4096));
    types_accepted(&unit_types(1));
}

#[test]
fn question_9_kind_zero_and_groups() {
    let good = some_types();
    for place in 0..TYPE_COUNT as usize {
        let outside = [4, 32, 255];
        for (byte, values) in [
            (0, [5, 6, 255]),
            (1, outside),
            (2, outside),
            (3, [1, 128, 255]),
            (4, outside),
            (5, outside),
        ] {
            for value in values {
                let mut types = good.clone();
                types[place * TYPE_BYTES + byte] = value;
                types_refused(&types, 9, place as u32);
            }
        }
    }
    // Before question 10, which record 0 fails, and 11, which the last record would.
    types_refused(
        &[type_record(0, 0, 1), type_record(0, 0, 0), type_record(5, 0, 0)].concat(),
        9,
        2,
    );
    // A number passes where a unit does.
    for place in (0..TYPE_COUNT as usize).filter(|place| good[place * TYPE_BYTES] == 0) {
        let mut types = good.clone();
        types[place * TYPE_BYTES] = 4;
        types_accepted(&types);
    }
}

#[test]
fn question_10_ir_below_r() {
    for place in 0..TYPE_COUNT as usize {
        for (r, ir) in [(0, 1), (0, 2), (0, 3), (1, 2), (2, 1), (1, 3), (2, 3)] {
            let mut types = some_types();
            types[place * TYPE_BYTES + 1] = r;
            types[place * TYPE_BYTES + 2] = ir;
            types_refused(&types, 10, place as u32);
        }
        for (r, ir) in [(0, 0), (1, 0), (2, 0), (3, 0), (1, 1), (3, 1), (2, 2), (3, 2), (3, 3)] {
            let mut types = some_types();
            types[place * TYPE_BYTES + 1] = r;
            types[place * TYPE_BYTES + 2] = ir;
            types_accepted(&types);
        }
    }
    // Before question 11.
    types_refused(
        &[type_record(1, 0, 0), type_record(0, 0, 0), type_record(1, 0, 1)].concat(),
        10,
        2,
    );
}

#[test]
fn question_36_of_types() {
    let with = |place: usize, c: u8, ic: u8| {
        let mut types = some_types();
        types[place * TYPE_BYTES + 4..][..2].copy_from_slice(&[c, ic]);
        types
    };
    for place in 0..TYPE_COUNT as usize {
        for (c, ic) in pairs() {
            // Readers play no part: some records are for group 3.
            if below(ic, c) {
                types_accepted(&with(place, c, ic));
            } else {
                types_refused(&with(place, c, ic), 36, place as u32);
            }
        }
    }
    // The first of two such records.
    let mut types = with(3, 1, 2);
    set(&mut types, 5, made(UNIT_TYPE, 0, 1));
    types_refused(&types, 36, 3);
    // All of 9 and all of 10 come before it, of later records too.
    let mut later = with(0, 0, 3);
    set(&mut later, 15, made(type_record(0, 0, 1), 0, 3));
    types_refused(&later, 10, 15);
    set(&mut later, 15, made(UNIT_TYPE, 4, 0));
    types_refused(&later, 9, 15);
    // Before 11 and 12.
    types_refused(&[UNIT_TYPE, made(type_record(1, 0, 0), 1, 2)].concat(), 36, 1);
    types_refused(&[&wide_type(65).write()[..], &made(UNIT_TYPE, 2, 3)].concat(), 36, 65);
}

#[test]
fn question_11_the_last_type_ends() {
    types_refused(&type_record(1, 0, 0), 11, 0);
    types_refused(&[type_record(2, 0, 0), UNIT_TYPE].concat(), 11, 0);
    types_refused(&[UNIT_TYPE, type_record(3, 0, 0), UNIT_TYPE].concat(), 11, 1);
    // A number has no sides.
    types_accepted(&NUMBER_TYPE);
    types_accepted(&NUMBER_TYPE.repeat(4096));
    types_refused(&[type_record(2, 0, 0), NUMBER_TYPE].concat(), 11, 0);
    types_refused(&[NUMBER_TYPE, type_record(3, 0, 0), NUMBER_TYPE].concat(), 11, 1);
    // The outermost unfinished one, not those inside it.
    types_refused(
        &[UNIT_TYPE, type_record(2, 0, 0), UNIT_TYPE, type_record(1, 0, 0), UNIT_TYPE].concat(),
        11,
        1,
    );
    types_refused(
        &[UNIT_TYPE, type_record(2, 0, 0), type_record(1, 0, 0), UNIT_TYPE, UNIT_TYPE].concat(),
        11,
        1,
    );
    types_refused(&[some_types(), type_record(3, 0, 0).to_vec()].concat(), 11, TYPE_COUNT as u32);
    // Before question 12.
    types_refused(&[wide_type(65).write(), type_record(3, 0, 0).to_vec()].concat(), 11, 65);
    types_refused(&type_record(2, 0, 0).repeat(4096), 11, 0);
}

#[test]
fn question_12_at_most_63_records() {
    types_accepted(&wide_type(63).write());
    types_refused(&wide_type(65).write(), 12, 0);
    types_refused(&[unit_types(2), wide_type(65).write()].concat(), 12, 2);
    types_refused(&[wide_type(63).write(), wide_type(65).write()].concat(), 12, 63);
    types_refused(&[wide_type(65).write(), wide_type(67).write()].concat(), 12, 0);
    // The outermost one, though the part that is too large starts later.
    let outer = [&type_record(1, 0, 0)[..], &UNIT_TYPE, &wide_type(65).write()].concat();
    types_refused(&[UNIT_TYPE.to_vec(), outer].concat(), 12, 1);
    // A comb of 63 records, as deep as a type can be, and one of 65.
    let comb = |size: usize| {
        let nodes = (size - 1) / 2;
        let mut types = type_record(3, 0, 0).repeat(nodes);
        types.extend(unit_types(nodes + 1));
        types
    };
    types_accepted(&comb(63));
    types_refused(&comb(65), 12, 0);
    types_refused(&comb(4095), 12, 0);
}

// ---------------------------------------------------------------------------------------------
// 13 to 19

#[test]
fn question_13_whole_records() {
    for length in [0, 1, 6, 7, 9, 12, 18, 8192 * 8 - 1, 8192 * 8 + 1, 8193 * 8] {
        let inputs = with(UNIT.iter().copied().cycle().take(length).collect());
        refused_by_all(&inputs, 13, 0);
        assert_eq!(subterm(&inputs.script, 0), &[] as &[u8]);
    }
    // Before question 14.
    refused_by_all(&with(vec![255; 7]), 13, 0);
}

#[test]
fn question_13_largest_script() {
    with_large_stack(|| {
        let inputs = with(wide(8192).write());
        assert_eq!(inputs.script.len(), 65_536);
        check_finds(&inputs, &UNIT_TYPE);
        let inputs = with(wide(8193).write());
        refused_by_all(&inputs, 13, 0);
    });
}

#[test]
fn question_13_in_a_run_asks_both_buffers() {
    let inputs = cases::b();
    for (first, scratch) in [(55, 56), (56, 55), (0, 56), (56, 0), (0, 0), (55, 9999), (9999, 48)] {
        let (result, first_after, scratch_after) = run_in(&inputs, 1000, first, scratch);
        assert_eq!(result, no(13, 0));
        assert_eq!((first_after, scratch_after), (filled(first), filled(scratch)));
    }
    let (result, _, _) = run_in(&inputs, 1000, 56, 56);
    assert!(result.is_ok());
    // A step's buffer may be shorter than its script; then only the new term has to fit.
    step_reports(&inputs, 24, 1, 3);
    step_reports(&inputs, 23, 4, 7);
    step_reports(&inputs, 0, 4, 7);
    // It comes after the tables' questions and before 14.
    let (result, _, _) = run_in(&Inputs { types: vec![], ..inputs.clone() }, 1, 0, 0);
    assert_eq!(result, no(8, 0));
    let (result, _, _) = run_in(&of(&[[99; SCRIPT_BYTES]]), 1, 7, 8);
    assert_eq!(result, no(13, 0));
}

#[test]
fn question_14_kinds_and_unnamed_fields() {
    let unnamed_r = [0, 10];
    let unnamed_ir = [0, 6, 7, 8, 9, 11, 13, 14];
    let unnamed_number = [1, 3, 6, 7, 8, 10, 13];
    // Kinds 1 to 5 and a literal name both creators, and a protect its indirect ones.
    let unnamed_c = [0, 6, 7, 8, 9, 10, 11, 13, 14];
    let unnamed_ic = [0, 6, 7, 8, 9, 11, 13, 14];
    for kind in 0..=14u8 {
        for byte in 1..SCRIPT_BYTES {
            for value in [1, 2, 255] {
                let mut damaged = bare(kind);
                damaged[byte] = value;
                let unnamed = match byte {
                    1 => unnamed_r.contains(&kind),
                    2 => unnamed_ir.contains(&kind),
                    3 => true,
                    4 | 5 => unnamed_number.contains(&kind),
                    6 => unnamed_c.contains(&kind),
                    _ => unnamed_ic.contains(&kind),
                };
                // Behind a pair and a unit, so that the place is 2.
                let inputs = of(&[PAIR, UNIT, damaged]);
                if unnamed {
                    refused_by_all(&inputs, 14, 2);
                } else {
                    let (result, _, _) = check_in(&inputs, WORK_BYTES, ANSWER_BYTES);
                    assert_ne!(result, no(14, 2));
                }
            }
        }
    }
    for kind in 15..=255u8 {
        refused_by_all(&of(&[UNIT, bare(kind)]), 14, 1);
    }
    // The first record counts; and before 15, which record 0 fails.
    refused_by_all(&of(&[record(1, 9, 0, 0), [15; SCRIPT_BYTES], [16; SCRIPT_BYTES]]), 14, 1);
}

#[test]
fn question_15_named_groups() {
    for kind in 1..=14u8 {
        let object = matches!(kind, 1..=5 | 12);
        for (r, ir) in
            [(4, 0), (0, 4), (4, 4), (255, 0), (0, 255), (32, 32), (0, 1), (1, 2), (3, 3)]
        {
            let (names_r, names_ir) = (kind != 10, object || kind == 10);
            let (r, ir) = (if names_r { r } else { 0 }, if names_ir { ir } else { 0 });
            let inputs = of(&[record(3, 3, 0, 0), UNIT, record(kind, r, ir, 0)]);
            let bad_group = r >= 4 || ir >= 4;
            let bad_order = object && matches!((r, ir), (0, 1) | (1, 2));
            if bad_group || bad_order {
                refused_by_all(&inputs, 15, 2);
            } else {
                let (result, _, _) = check_in(&inputs, WORK_BYTES, ANSWER_BYTES);
                assert_ne!(result, no(15, 2));
            }
        }
    }
    // So are creators, of kinds 1 to 5 and a literal both, and the indirect ones of a protect.
    for kind in (1..=5).chain([10, 12]) {
        for (c, ic) in [(4, 0), (3, 4), (4, 4), (255, 0), (3, 32)] {
            let c = if kind == 10 { 0 } else { c };
            let inputs = of(&[PAIR, UNIT, made(record(kind, 0, 0, 0), c, ic)]);
            if c >= 4 || ic >= 4 {
                refused_by_all(&inputs, 15, 2);
            } else {
                refused_by_all(&inputs, 17, 3);
            }
        }
    }
    // A recursion's group is in the table; which one it is plays no part before typing.
    let recursion = |caller| of(&[record(11, caller, 0, 3), function(4), variable(0)]);
    for caller in 0..4 {
        accepted(&recursion(caller));
    }
    for caller in [4, 5, 31, 32, 128, 255] {
        refused_by_all(&recursion(caller), 15, 0);
    }
    // Before 16: type 0 is no function.
    refused_by_all(&of(&[record(11, 4, 0, 0), UNIT]), 15, 0);
    // A variable names no group. Before 16, which record 0 fails.
    refused_by_all(&of(&[record(2, 0, 0, 99), record(0, 0, 0, 99), record(1, 0, 2, 0)]), 15, 2);
}

#[test]
fn question_36_of_scripts() {
    for kind in (1..=5).chain([12]) {
        for (c, ic) in pairs() {
            // Behind a pair and a unit for others, so that the place is 2; readers play no part.
            let own = made(record(kind, 3, 1, 0), c, ic);
            let inputs = of(&[PAIR, record(1, 2, 0, 0), own]);
            if !below(ic, c) {
                refused_by_all(&inputs, 36, 2);
            } else if operand_count(kind) == 0 {
                accepted(&inputs);
            } else {
                refused_by_all(&inputs, 17, 3);
            }
        }
    }
    // A protect has indirect creators alone, whatever they are.
    for ic in 0..4 {
        accepted(&of(&[made(PROTECT, 0, ic), UNIT]));
    }
    // The first of two such records.
    refused_by_all(&of(&[PAIR, made(UNIT, 0, 1), made(UNIT, 1, 2)]), 36, 1);
    // All of 14 and all of 15 come before it, of later records too.
    let before = |last| of(&[made(PAIR, 0, 1), UNIT, last]);
    refused_by_all(&before(made(PROTECT, 1, 0)), 14, 2);
    refused_by_all(&before(made(variable(0), 0, 1)), 14, 2);
    refused_by_all(&before(record(1, 0, 1, 0)), 15, 2);
    refused_by_all(&before(record(6, 4, 0, 0)), 15, 2);
    refused_by_all(&before(made(PROTECT, 0, 4)), 15, 2);
    // Before 16 of an earlier record, 17, 18 and 19.
    refused_by_all(&of(&[function(99), made(UNIT, 1, 3)]), 36, 1);
    refused_by_all(&of(&[UNIT, made(UNIT, 1, 3)]), 36, 1);
    refused_by_all(&of(&[PAIR, made(UNIT, 1, 3)]), 36, 1);
    let deep = [vec![PROTECT; 300], vec![made(UNIT, 1, 3)]].concat();
    refused_by_all(&of(&deep), 36, 300);
    refused_by_all(&of(&[PAIR, variable(0), made(UNIT, 1, 3)]), 36, 2);
}

#[test]
fn question_16_named_types() {
    for (kind, good) in [
        (2, 0),
        (2, 9),
        (2, 15),
        (4, 0),
        (4, 13),
        (5, 0),
        (9, 9),
        (11, 3),
        (11, 10),
        (14, 0),
        (14, 16),
    ] {
        let inputs = of(&[PAIR, UNIT, record(kind, 0, 0, good)]);
        let (result, _, _) = check_in(&inputs, WORK_BYTES, ANSWER_BYTES);
        assert_eq!(result, no(17, 3), "the type is fine and the term is cut short");
    }
    for kind in [2, 4, 5, 9, 11, 14] {
        for number in [TYPE_COUNT, TYPE_COUNT + 1, 256, 4096, OWN_TYPE - 1, OWN_TYPE] {
            // A case's largest number names no type and passes: only the term is cut short.
            let (question, place) = if (kind, number) == (9, OWN_TYPE) { (17, 3) } else { (16, 2) };
            let inputs = of(&[PAIR, UNIT, record(kind, 0, 0, number)]);
            refused_by_all(&inputs, question, place);
        }
    }
    // Every index there is, by the kind of type it names.
    for number in 0..TYPE_COUNT {
        for kind in [4, 5, 11, 14] {
            let wanted = if kind == 11 { 3 } else { 1 };
            let inputs = of(&[record(kind, 0, 0, number)]);
            // A comparison's sum has units for its sides, whatever their groups.
            let kinds: Vec<u8> = some_types().into_iter().step_by(TYPE_BYTES).collect();
            let units = kind != 14 || kinds[number as usize + 1..].starts_with(&[0, 0]);
            if kinds[number as usize] == wanted && units {
                refused_by_all(&inputs, 17, 1);
            } else {
                refused_by_all(&inputs, 16, 0);
            }
        }
    }
    // A variable's number names no type. Before 17: record 0 is a whole term.
    refused_by_all(&of(&[UNIT, record(0, 0, 0, 999), record(11, 0, 0, 0)]), 16, 2);
}

#[test]
fn question_17_one_whole_term() {
    for (kind, &count) in OPERANDS.iter().enumerate() {
        let number = if kind == 11 { 3 } else { 0 };
        let head = record(kind as u8, 0, 0, number);
        for given in 0..count + 3 {
            let mut records = vec![head];
            records.resize(1 + given, UNIT);
            let inputs = of(&records);
            if given < count {
                refused_by_all(&inputs, 17, 1 + given as u32);
            } else if given > count {
                refused_by_all(&inputs, 17, 1 + count as u32);
            } else if kind != 0 {
                let (result, _) = step_in(&inputs, 0);
                assert!(result.is_ok(), "{result:?}");
                assert_eq!(subterm(&inputs.script, 0), &inputs.script[..]);
            }
            if given != count {
                assert_eq!(subterm(&inputs.script, 0), &[] as &[u8]);
            }
        }
    }
    // Deep inside, too; and before 18 and 19.
    let mut cut = vec![record(10, 0, 0, 0); 300];
    refused_by_all(&of(&cut), 17, 300);
    cut.push(record(0, 0, 0, 0));
    cut.push(UNIT);
    refused_by_all(&of(&cut), 17, 301);
    refused_by_all(&with(record(10, 0, 0, 0).repeat(8192)), 17, 8192);
    refused_by_all(&with(record(9, 0, 0, 0).repeat(8192)), 17, 8192);
}

#[test]
fn question_18_depth() {
    with_large_stack(|| {
        check_finds(&with(deep(256).write()), &UNIT_TYPE);
        refused_by_all(&with(deep(257).write()), 18, 256);
        refused_by_all(&with(deep(8192).write()), 18, 256);
        // The first deeper record, here in the second operand.
        let script = [&PAIR, &deep(255).write()[..], &deep(256).write()].concat();
        refused_by_all(&with(script), 18, 256 + 255);
        let script = [&PAIR, &deep(256).write()[..], &deep(256).write()].concat();
        refused_by_all(&with(script), 18, 256);
        let script = [&PAIR, &deep(255).write()[..], &deep(255).write()].concat();
        accepted(&with(script));
        // Under binders, and before 19: record 1 is unbound.
        let mut records = vec![record(3, 0, 0, 0), record(0, 0, 0, 5)];
        records.resize(2 + 255, record(2, 0, 0, 0));
        records.push(UNIT);
        refused_by_all(&of(&records), 18, 257);
        // The look-up asks no depth.
        let script = deep(8192).write();
        assert_eq!(subterm(&script, 0).len(), script.len());
        assert_eq!(subterm(&script, 8191), UNIT);
    });
}

#[test]
fn question_19_binders() {
    let variable = |number| record(0, 0, 0, number);
    let function = record(2, 0, 0, 0);
    let recursion = record(11, 0, 0, 3);
    let closed = |records: &[Record]| {
        let (result, _) = step_in(&of(records), 0);
        assert!(result.is_ok(), "{result:?}");
    };
    for number in [0, 1, 255, 256, 65_535] {
        refused_by_all(&of(&[variable(number)]), 19, 0);
        if number > 0 {
            refused_by_all(&of(&[function, variable(number)]), 19, 1);
        }
    }
    closed(&[function, variable(0)]);
    closed(&[recursion, variable(0)]);
    closed(&[recursion, function, variable(1)]);
    refused_by_all(&of(&[recursion, function, variable(2)]), 19, 2);
    // A case binds one in each branch and none in what it tests.
    let case = record(9, 0, 0, 0);
    closed(&[case, UNIT, variable(0), variable(0)]);
    refused_by_all(&of(&[case, variable(0), variable(0), variable(0)]), 19, 1);
    refused_by_all(&of(&[case, UNIT, variable(1), variable(0)]), 19, 2);
    refused_by_all(&of(&[case, UNIT, variable(0), variable(1)]), 19, 3);
    closed(&[function, case, variable(0), variable(1), function, variable(2)]);
    refused_by_all(&of(&[function, case, variable(0), variable(1), function, variable(3)]), 19, 5);
    // Nothing else binds.
    for kind in [3, 4, 5, 6, 7, 8, 10, 13, 14] {
        let mut records = vec![record(kind, 0, 0, 0)];
        records.resize(1 + operand_count(kind), variable(0));
        refused_by_all(&of(&records), 19, 1);
        records.insert(0, function);
        closed(&records);
    }
    // A binder ends with its operand.
    refused_by_all(&of(&[record(3, 0, 0, 0), function, variable(0), variable(0)]), 19, 3);
    // 256 is not 0.
    let mut records = vec![function; 255];
    records.push(variable(254));
    closed(&records);
    records[255] = variable(255);
    refused_by_all(&of(&records), 19, 255);
}

// ---------------------------------------------------------------------------------------------
// 20 to 24

/// A no in typing: only checking asks it, so the other calls go on.
fn ill_typed(records: &[Record], question: u32, place: u32) {
    let inputs = of(records);
    check_refuses(&inputs, question, place);
    let (ran, _, _) = run_in(&inputs, 10, REPORT_RUN_BYTES, REPORT_RUN_BYTES);
    assert!(ran.is_ok(), "a run types nothing");
}

fn finds(records: &[Record], types: &[[u8; TYPE_BYTES]]) {
    check_finds(&of(records), &types.concat());
}

fn high_unit() -> Record {
    record(1, 3, 3, 0)
}

#[test]
fn question_20_what_is_taken_apart() {
    // Every kind of first operand under every destructor.
    let objects: [(u8, Vec<Record>); 4] = [
        (0, vec![UNIT]),
        (1, vec![first(0), UNIT]),
        (2, vec![PAIR, UNIT, UNIT]),
        (3, vec![function(1), variable(0)]),
    ];
    for (kind, object) in &objects {
        for (node, wanted, rest) in [
            (APPLY, 3, vec![UNIT]),
            (PROJECT, 2, vec![]),
            (record(8, 0, 0, 0), 2, vec![]),
            (case(1), 1, vec![UNIT, UNIT]),
        ] {
            let records = [vec![PAIR, UNIT, node], object.clone(), rest].concat();
            if *kind == wanted {
                finds(&records, &[type_record(2, 0, 0), UNIT_TYPE, UNIT_TYPE]);
            } else {
                ill_typed(&records, 20, 2);
            }
        }
    }
    // As soon as the first operand has its type: the argument and the branches are worse.
    ill_typed(&[APPLY, UNIT, PROJECT, UNIT], 20, 0);
    ill_typed(&[case(0), UNIT, PROJECT, UNIT, UNIT], 20, 0);
    // But after that operand's own questions.
    ill_typed(&[APPLY, PROJECT, UNIT, PROJECT, UNIT], 20, 1);
}

#[test]
fn question_21_readers() {
    // Object r against the node's r, over the diamond; ir plays no part.
    for object in 0..4 {
        for node in 0..4 {
            for ir in [0, object] {
                let cases: [Vec<Record>; 4] = [
                    vec![record(6, node, 0, 0), record(2, object, ir, 1), variable(0), UNIT],
                    vec![record(7, node, 0, 0), record(3, object, ir, 0), UNIT, UNIT],
                    vec![record(8, node, 0, 0), record(3, object, ir, 0), UNIT, UNIT],
                    vec![record(9, node, 0, 1), record(4, object, ir, 0), UNIT, UNIT, UNIT],
                ];
                for records in cases {
                    if below(object, node) {
                        // The result is raised by ir, not by r.
                        finds(&records, &[type_record(0, ir, ir)]);
                    } else {
                        ill_typed(&records, 21, 0);
                    }
                }
            }
        }
    }
    // Before the argument or a branch is typed; after 20.
    ill_typed(&[APPLY, record(2, 1, 0, 1), variable(0), PROJECT, UNIT], 21, 0);
    ill_typed(&[case(0), record(4, 1, 0, 0), UNIT, PROJECT, UNIT, UNIT], 21, 0);
    ill_typed(&[APPLY, record(3, 1, 0, 0), UNIT, UNIT, UNIT], 20, 0);
}

/// The two kinds that read numbers, with the kind of type that they have.
const COUNTS: [(u8, u8); 2] = [(13, 4), (14, 1)];

#[test]
fn questions_20_and_21_of_each_operand() {
    let objects: [(u8, Vec<Record>); 5] = [
        (0, vec![UNIT]),
        (1, vec![first(0), UNIT]),
        (2, vec![PAIR, UNIT, UNIT]),
        (3, vec![function(1), variable(0)]),
        (4, vec![literal(3)]),
    ];
    for (node, found) in COUNTS {
        // Every kind of operand in either place.
        for (left, one) in &objects {
            for (right, other) in &objects {
                let records = [&[PAIR, UNIT, bare(node)][..], &one[..], &other[..]].concat();
                if (left, right) == (&4, &4) {
                    let sides = if found == 1 { vec![UNIT_TYPE; 2] } else { vec![] };
                    let own = vec![type_record(2, 0, 0), UNIT_TYPE, type_record(found, 0, 0)];
                    finds(&records, &[own, sides].concat());
                } else {
                    ill_typed(&records, 20, 2);
                }
            }
        }
        // r of either against the node's group, over the diamond; ir plays no part.
        for group in 0..4 {
            for (r, s) in pairs() {
                for (ir, is) in [(0, 0), (r, s)] {
                    let records =
                        [record(node, group, 0, 0), record(12, r, ir, 5), record(12, s, is, 5)];
                    let inputs = of(&records);
                    if below(r, group) && below(s, group) {
                        accepted(&inputs);
                    } else {
                        check_refuses(&inputs, 21, 0);
                    }
                }
            }
        }
        let node = bare(node);
        let high = record(12, 1, 0, 7);
        // 20 of the left, 21 of the left, the right's own questions, 20 of the right, 21 of the right.
        ill_typed(&[node, PROJECT, UNIT, PROJECT, UNIT], 20, 1);
        ill_typed(&[node, record(1, 1, 0, 0), PROJECT, UNIT], 20, 0);
        ill_typed(&[node, high, PROJECT, UNIT], 21, 0);
        ill_typed(&[node, high, UNIT], 21, 0);
        ill_typed(&[node, literal(1), PROJECT, high], 20, 2);
        ill_typed(&[node, literal(1), record(1, 1, 0, 0)], 20, 0);
        ill_typed(&[node, literal(1), high], 21, 0);
        // The place is the node, wherever it stands.
        ill_typed(&[ADD, ADD, literal(1), literal(1), node, literal(1), high], 21, 4);
        // What they make is taken apart as what it is.
        ill_typed(&[PROJECT, node, literal(1), literal(1)], 20, 0);
    }
    // A sum is a number, and a comparison none.
    finds(&[ADD, literal(1), ADD, literal(1), literal(1)], &[NUMBER_TYPE]);
    ill_typed(&[ADD, literal(1), less(0), literal(1), literal(1)], 20, 0);
    // A number is below no unit, no unit below a number, and they have no common type.
    ill_typed(&[second(0), literal(1)], 22, 0);
    ill_typed(&[second(23), UNIT], 22, 0);
    finds(&[second(23), literal(1)], &[type_record(1, 0, 0), UNIT_TYPE, NUMBER_TYPE]);
    ill_typed(&[OWN_CASE, first(0), UNIT, UNIT, literal(1)], 31, 0);
    ill_typed(&[OWN_CASE, first(0), UNIT, literal(1), UNIT], 31, 0);
    finds(&[OWN_CASE, first(0), UNIT, literal(1), record(12, 3, 0, 1)], &[type_record(4, 3, 0)]);
    for (i, j) in [(1, 22), (22, 1), (0, 23), (23, 0), (23, 26), (3, 29)] {
        let answer = compare(&diamond_groups(), &some_types(), i, j);
        assert_eq!(answer, Ok(Comparison::Neither));
    }
    assert_eq!(compare(&diamond_groups(), &some_types(), 22, 25), Ok(Comparison::Same));
}

#[test]
fn question_21_at_a_recursion() {
    // r of its type against the written group, over the diamond; ir plays no part, and the written
    // group is none of the type's.
    for r in 0..4 {
        for (written, ir) in (0..4).flat_map(|written| [(written, 0), (written, r)]) {
            let types = [type_record(3, r, ir), UNIT_TYPE, type_record(0, r, ir)].concat();
            let script = [record(11, written, 0, 0), function(1), UNIT].concat();
            let inputs = Inputs { groups: diamond_groups(), types, script };
            if below(r, written) {
                check_finds(&inputs, &inputs.types);
            } else {
                check_refuses(&inputs, 21, 0);
            }
        }
    }
    // Before 23, which type 10 fails, and both before the body, which is worse. The place is the
    // recursion.
    let worse = |written| [PAIR, UNIT, record(11, written, 0, 10), function(11), PROJECT, UNIT];
    for written in 0..3 {
        ill_typed(&worse(written), 21, 2);
    }
    ill_typed(&worse(3), 23, 2);
    // What stands to its left comes first.
    ill_typed(&[PAIR, PROJECT, UNIT, record(11, 0, 0, 10), UNIT], 20, 1);
}

#[test]
fn question_22_what_is_wanted() {
    // An injection's operand at or below its side; the other side is not asked.
    finds(&[second(13), high_unit()], &[type_record(1, 0, 0), UNIT_TYPE, type_record(0, 3, 3)]);
    finds(&[second(13), UNIT], &[type_record(1, 0, 0), UNIT_TYPE, type_record(0, 3, 3)]);
    ill_typed(&[first(13), high_unit()], 22, 0);
    ill_typed(&[PAIR, UNIT, first(0), PAIR, UNIT, UNIT], 22, 2);
    // Its sum's own groups aren't read: the found ones are the injection's.
    finds(&[record(5, 3, 1, 13), UNIT], &[type_record(1, 3, 1), UNIT_TYPE, type_record(0, 3, 3)]);

    // An argument.
    finds(&[APPLY, function(9), variable(0), high_unit()], &[type_record(0, 3, 3)]);
    finds(&[APPLY, function(9), variable(0), UNIT], &[type_record(0, 3, 3)]);
    ill_typed(&[APPLY, function(1), variable(0), high_unit()], 22, 0);
    // After the argument is typed.
    ill_typed(&[APPLY, function(1), variable(0), PROJECT, UNIT], 20, 3);

    // Branches: the first is asked before the second is typed.
    ill_typed(&[case(1), first(0), UNIT, high_unit(), UNIT], 22, 0);
    ill_typed(&[case(1), first(0), UNIT, UNIT, high_unit()], 22, 0);
    ill_typed(&[case(1), first(0), UNIT, high_unit(), PROJECT, UNIT], 22, 0);
    ill_typed(&[case(1), first(0), UNIT, UNIT, PROJECT, UNIT], 20, 4);
    ill_typed(&[case(1), first(0), UNIT, PROJECT, UNIT, high_unit()], 20, 3);
    // The case has its result type, though both branches are lower.
    finds(&[case(9), first(0), UNIT, UNIT, UNIT], &[type_record(0, 3, 3)]);
    // Each branch's variable has its side's type: of type 13, the second side's.
    finds(&[case(9), first(13), UNIT, variable(0), variable(0)], &[type_record(0, 3, 3)]);
    ill_typed(&[case(1), first(13), UNIT, variable(0), variable(0)], 22, 0);
    finds(&[case(1), first(13), UNIT, variable(0), UNIT], &[UNIT_TYPE]);

    // A recursion's body.
    finds(
        &[record(11, 0, 0, 3), function(4), variable(0)],
        &[type_record(3, 0, 0), UNIT_TYPE, UNIT_TYPE],
    );
    ill_typed(&[record(11, 0, 0, 3), record(2, 1, 0, 4), variable(0)], 22, 0);
    ill_typed(&[record(11, 0, 0, 3), UNIT], 22, 0);
    ill_typed(&[record(11, 0, 0, 3), function(4), high_unit()], 22, 0);
    // Parameters the other way round: one that takes more serves, one that takes other things not.
    finds(&[record(11, 0, 0, 3), function(9), UNIT], &[type_record(3, 0, 0), UNIT_TYPE, UNIT_TYPE]);
    ill_typed(&[record(11, 0, 0, 3), function(0), UNIT], 22, 0);
}

/// A unit's type with these creators.
fn unit_made(c: u8, ic: u8) -> [u8; TYPE_BYTES] {
    made(UNIT_TYPE, c, ic)
}

#[test]
fn creators_of_found_types() {
    // Values have their own. Of an injection's sum, the sides'; its own record's aren't read.
    finds(&[made(UNIT, 3, 1)], &[unit_made(3, 1)]);
    finds(
        &[made(PAIR, 2, 0), made(UNIT, 1, 1), UNIT],
        &[made(type_record(2, 0, 0), 2, 0), unit_made(1, 1), UNIT_TYPE],
    );
    finds(
        &[made(function(1), 3, 2), made(UNIT, 1, 0)],
        &[made(type_record(3, 0, 0), 3, 2), UNIT_TYPE, unit_made(1, 0)],
    );
    let types = [made(type_record(1, 0, 0), 3, 3), unit_made(1, 1), unit_made(2, 0)].concat();
    let script = [made(first(0), 2, 0), made(UNIT, 3, 1)].concat();
    let sum = [made(type_record(1, 0, 0), 2, 0), unit_made(1, 1), unit_made(2, 0)].concat();
    check_finds(&Inputs { groups: diamond_groups(), types, script }, &sum);

    // What reads an object meets its ic and the node's group into both; a protect its own.
    for (ic, node) in pairs() {
        let (whole, part) = (|head| made(head, 3, ic), made(UNIT, 3, 1));
        let m = meet(ic, node);
        let found = unit_made(m, meet(1, m));
        finds(&[record(6, node, 0, 0), whole(function(1)), part, UNIT], &[found]);
        finds(&[record(7, node, 0, 0), whole(PAIR), part, UNIT], &[found]);
        finds(&[record(8, node, 0, 0), whole(PAIR), UNIT, part], &[found]);
        finds(&[record(9, node, 0, OWN_TYPE), whole(first(0)), UNIT, part, part], &[found]);
        finds(&[made(PROTECT, 0, m), part], &[found]);
        // The first record alone.
        let inside = [part, part];
        let pair = [&[made(PROTECT, 0, m), made(PAIR, 3, 1)], &inside[..]].concat();
        let first = made(type_record(2, 0, 0), m, meet(1, m));
        finds(&pair, &[first, unit_made(3, 1), unit_made(3, 1)]);
    }
    // A case with a type of the table has that one's, so raised; branches with more serve.
    let types = [case_sum(), unit_made(1, 1).to_vec()].concat();
    let branch = made(UNIT, 3, 1);
    for (node, c) in [(0, 0), (1, 1), (2, 0), (3, 1)] {
        let tested = made(first(0), 3, 3);
        let script = [record(9, node, 0, 3), tested, UNIT, branch, branch].concat();
        let inputs = Inputs { groups: diamond_groups(), types: types.clone(), script };
        check_finds(&inputs, &unit_made(c, c));
    }
    // Two branches: creators in common, by meets.
    finds(&[OWN_CASE, first(0), UNIT, branch, UNIT], &[UNIT_TYPE]);
    let common = |one: Record, other: Record| {
        [record(9, 3, 0, OWN_TYPE), made(first(0), 3, 3), UNIT, one, other]
    };
    finds(&common(made(UNIT, 3, 1), made(UNIT, 1, 1)), &[unit_made(1, 1)]);
    finds(&common(made(UNIT, 1, 1), made(UNIT, 2, 0)), &[unit_made(0, 0)]);
}

/// The sum of two units, all groups 0.
fn case_sum() -> Vec<u8> {
    [type_record(1, 0, 0), UNIT_TYPE, UNIT_TYPE].concat()
}

#[test]
fn creators_are_compared_the_other_way_round() {
    // Units 0 to 3 of each c, a function to each from 4 on, a function from each from 16 on.
    let unit = |c| unit_made(c, 0);
    let function = type_record(3, 0, 0);
    let units = (0..4).flat_map(unit);
    let to = (0..4).flat_map(|c| [function, UNIT_TYPE, unit(c)].concat());
    let from = (0..4).flat_map(|c| [function, unit(c), UNIT_TYPE].concat());
    let types: Vec<u8> = units.chain(to).chain(from).collect();
    let groups = diamond_groups();
    let judged = |low: bool, same: bool| match (same, low) {
        (true, _) => Comparison::Same,
        (false, true) => Comparison::Below,
        (false, false) => Comparison::Neither,
    };
    for (c, d) in pairs() {
        let (i, j) = (u64::from(c), u64::from(d));
        let down = judged(below(d, c), c == d);
        assert_eq!(compare(&groups, &types, i, j), Ok(down));
        assert_eq!(compare(&groups, &types, 4 + 3 * i, 4 + 3 * j), Ok(down));
        let up = judged(below(c, d), c == d);
        assert_eq!(compare(&groups, &types, 16 + 3 * i, 16 + 3 * j), Ok(up));
        // ic alone, too.
        let types = [unit_made(3, c), unit_made(3, d)].concat();
        assert_eq!(compare(&groups, &types, 0, 1), Ok(down));
        // 22 of an argument: one that passed through more hands serves.
        let types = unit_made(d, 0).to_vec();
        let script = [APPLY, bare(2), UNIT, made(UNIT, c, 0)].concat();
        let inputs = Inputs { groups: groups.clone(), types, script };
        if below(d, c) {
            check_finds(&inputs, &UNIT_TYPE);
        } else {
            check_refuses(&inputs, 22, 0);
        }
    }
}

#[test]
fn question_22_parameters_are_compared_the_other_way_round() {
    // Types: 0 function from unit (0,0) to unit; 3 function from unit (3,3) to unit.
    let head = type_record(3, 0, 0);
    let function_of_units = [head, UNIT_TYPE, UNIT_TYPE].concat();
    let function_of_closed = [head, type_record(0, 3, 3), UNIT_TYPE].concat();
    let types = [function_of_units.clone(), function_of_closed.clone()].concat();
    let groups = diamond_groups();
    assert_eq!(compare(&groups, &types, 3, 0), Ok(Comparison::Below));
    assert_eq!(compare(&groups, &types, 0, 3), Ok(Comparison::Neither));
    // Two functions deep the order turns back.
    let deeper = [
        type_record(3, 0, 0).to_vec(),
        function_of_units.clone(),
        UNIT_TYPE.to_vec(),
        type_record(3, 0, 0).to_vec(),
        function_of_closed,
        UNIT_TYPE.to_vec(),
    ]
    .concat();
    assert_eq!(compare(&groups, &deeper, 0, 5), Ok(Comparison::Below));
    assert_eq!(compare(&groups, &deeper, 5, 0), Ok(Comparison::Neither));
}

#[test]
fn question_23_recursion() {
    // Types: function of each (r, ir) to unit of each (r, ir), over the diamond.
    for ir in 0..4 {
        for result in 0..4 {
            let types = [type_record(3, 3, ir), UNIT_TYPE, type_record(0, 3, result)].concat();
            // The body is refused by 20 at 2, but only after 23.
            let script = [record(11, 3, 0, 0), function(1), PROJECT, UNIT].concat();
            let inputs = Inputs { groups: diamond_groups(), types, script };
            if below(ir, result) {
                check_refuses(&inputs, 20, 2);
                let script = [record(11, 3, 0, 0), function(1), UNIT].concat();
                check_finds(&Inputs { script, ..inputs.clone() }, &inputs.types);
            } else {
                check_refuses(&inputs, 23, 0);
            }
        }
    }
    // Type 10 has (3,3) and a result (0,0); the place is the recursion.
    ill_typed(&[PAIR, UNIT, record(11, 3, 0, 10), function(11), UNIT], 23, 2);
    // What stands to its left comes first.
    ill_typed(&[PAIR, PROJECT, UNIT, record(11, 3, 0, 10), UNIT], 20, 1);
}

#[test]
fn question_23_creators() {
    // c of the result against ic of the type met with the written group, over the diamond. c of the
    // type and ic of the result, the highest and the lowest that they can be, play no part.
    for (ic, written) in pairs() {
        for c in 0..4 {
            for (own_c, result_ic) in [(3, 0), (ic, c)] {
                let own = made(type_record(3, 0, 0), own_c, ic);
                let types = [own, UNIT_TYPE, made(UNIT_TYPE, c, result_ic)].concat();
                let recursion = record(11, written, 0, 0);
                // The body is refused by 20 at 2, but only after 23.
                let script = [recursion, function(1), PROJECT, UNIT].concat();
                let inputs = Inputs { groups: diamond_groups(), types, script };
                if below(c, meet(ic, written)) {
                    check_refuses(&inputs, 20, 2);
                    let script = [recursion, made(function(1), 3, 3), made(UNIT, 3, 3)].concat();
                    check_finds(&Inputs { script, ..inputs.clone() }, &inputs.types);
                } else {
                    check_refuses(&inputs, 23, 0);
                }
            }
        }
    }
    // 21 comes before it.
    let types = [made(type_record(3, 1, 0), 3, 0), UNIT_TYPE, made(UNIT_TYPE, 1, 0)].concat();
    let script = [record(11, 2, 0, 0), function(1), UNIT].concat();
    let inputs = Inputs { groups: diamond_groups(), types, script };
    check_refuses(&inputs, 21, 0);
    let script = [record(11, 1, 0, 0), function(1), UNIT].concat();
    check_refuses(&Inputs { script, ..inputs }, 23, 0);
}

#[test]
fn question_24_found_types() {
    // Types: 0 a pair of 61 records, 61 one of 63, 124 one of 59.
    let types = [wide_type(61).write(), wide_type(63).write(), wide_type(59).write()].concat();
    let check = |records: Vec<Record>, expected: Result<u32, u32>| {
        let inputs =
            Inputs { groups: diamond_groups(), types: types.clone(), script: records.concat() };
        match expected {
            Ok(count) => {
                let (result, _, _) = check_in(&inputs, WORK_BYTES, ANSWER_BYTES);
                assert_eq!(result, Ok(count));
            }
            Err(place) => check_refuses(&inputs, 24, place),
        }
    };
    // A function: 1 + 61 + 1 is 63, anything more is too much.
    check(vec![function(0), UNIT], Ok(63));
    check(vec![function(61), UNIT], Err(0));
    check(vec![function(0), PAIR, UNIT, UNIT], Err(0));
    check(vec![function(0), variable(0)], Err(0));
    check(vec![function(124), PAIR, UNIT, UNIT], Ok(63));
    // The inner one first.
    check(vec![function(0), function(0), UNIT], Err(0));
    check(vec![function(61), function(61), UNIT], Err(1));
    // A pair.
    check(vec![function(0), PAIR, variable(0), UNIT], Err(0));
    check(vec![function(61), PAIR, variable(0), UNIT], Err(1));
    check(vec![function(61), PAIR, UNIT, variable(0)], Err(1));
}

#[test]
fn question_24_in_pairs_and_last_of_all() {
    // Nested pairs with 32 units have 63 records, with 33 they have 65.
    let nest = |units: usize| -> Vec<Record> {
        let mut records = Vec::new();
        for _ in 1..units {
            records.extend([PAIR, UNIT]);
        }
        records.push(UNIT);
        records
    };
    let (result, _, answer) = check_in(&of(&nest(32)), WORK_BYTES, ANSWER_BYTES);
    assert_eq!(result, Ok(63));
    assert!(answer.chunks(TYPE_BYTES).all(|record| record[1..] == [0; 5]), "the answer is full");
    ill_typed(&nest(33), 24, 0);
    ill_typed(&nest(35), 24, 4);
    ill_typed(&[vec![PROJECT], nest(33)].concat(), 24, 1);
    // The right operand is typed although the left alone is too much with its pair.
    ill_typed(&[vec![PAIR], nest(32), vec![PROJECT, UNIT]].concat(), 20, 64);
    ill_typed(&[vec![PAIR], nest(32), vec![UNIT]].concat(), 24, 0);
    ill_typed(&[vec![PAIR, PROJECT, UNIT], nest(33)].concat(), 20, 1);
    // Injections, applications, projections, cases and recursions never grow past the table's.
    let types = wide_type(63).write();
    let script = [function(0), variable(0)].concat();
    check_refuses(&Inputs { groups: diamond_groups(), types, script }, 24, 0);
    // A function with a large parameter still types its body.
    let types = wide_type(63).write();
    let script = [function(0), PROJECT, UNIT].concat();
    check_refuses(&Inputs { groups: diamond_groups(), types, script }, 20, 1);
}

// ---------------------------------------------------------------------------------------------
// 25 to 27

#[test]
fn question_25_indexes() {
    let (groups, types) = (diamond_groups(), some_types());
    let count = TYPE_COUNT as u64;
    for past in [count, count + 1, 256, 65_536, 1 << 32, (1 << 32) + 3, u64::MAX] {
        assert_eq!(compare(&groups, &types, past, 0), no(25, 0));
        assert_eq!(compare(&groups, &types, 0, past), no(25, 1));
        assert_eq!(compare(&groups, &types, past, past), no(25, 0));
    }
    assert_eq!(compare(&groups, &types, count - 1, count - 1), Ok(Comparison::Same));
    assert_eq!(compare(&groups, &types, 1, 9), Ok(Comparison::Below));
    assert_eq!(compare(&groups, &types, 9, 1), Ok(Comparison::Neither));
}

#[test]
fn question_25_groups() {
    let inputs = of(&[high_unit()]);
    for past in [4, 5, 31, 32, 255, 256, 257, 65_536, 1 << 32, u64::MAX] {
        let (answer, sheet) = sheet_in(&inputs, past, 40);
        assert_eq!(answer, no(25, 0));
        assert_eq!(sheet, filled(40));
        // Before 26 and 27.
        let (answer, _) = sheet_in(&of(&[PROJECT, UNIT]), past, 0);
        assert_eq!(answer, no(25, 0));
    }
    for group in 0..4 {
        let (answer, sheet) = sheet_in(&inputs, group, 6);
        assert_eq!(answer, Ok(1));
        let shown = if group == 3 { [0, 3, 3, 0, 0, 0] } else { [5, 0, 0, 0, 0, 0] };
        assert_eq!(sheet, shown);
    }
}

#[test]
fn question_26_values() {
    let values: [Vec<Record>; 8] = [
        vec![UNIT],
        vec![literal(7)],
        vec![PAIR, literal(0), second(23), literal(65_535)],
        vec![function(0), APPLY, variable(0), PROJECT, UNIT],
        vec![PAIR, UNIT, PAIR, UNIT, UNIT],
        vec![first(0), function(0), variable(0)],
        vec![second(0), PAIR, UNIT, UNIT],
        vec![PAIR, first(0), UNIT, second(0), UNIT],
    ];
    let others: [Vec<Record>; 12] = [
        vec![ADD, literal(1), literal(2)],
        vec![less(0), literal(1), literal(2)],
        vec![PAIR, literal(1), ADD, literal(1), UNIT],
        vec![APPLY, function(1), variable(0), UNIT],
        vec![PROJECT, PAIR, UNIT, UNIT],
        vec![record(8, 0, 0, 0), PAIR, UNIT, UNIT],
        vec![case(1), first(0), UNIT, UNIT, UNIT],
        vec![record(10, 0, 0, 0), UNIT],
        vec![record(11, 0, 0, 3), function(4), variable(0)],
        vec![PAIR, UNIT, record(10, 0, 0, 0), UNIT],
        vec![PAIR, record(10, 0, 0, 0), UNIT, UNIT],
        vec![first(0), PROJECT, UNIT],
    ];
    for records in values {
        let inputs = of(&records);
        assert!(sheet_in(&inputs, 0, 400).0.is_ok());
        step_reports(&inputs, 600, 0, records.len() as u32);
        run_reports(&inputs, 0, 0, 0, records.len() as u32, Some(&inputs.script));
        run_reports(&inputs, 9, 0, 0, records.len() as u32, Some(&inputs.script));
    }
    for records in others {
        let inputs = of(&records);
        let (answer, sheet) = sheet_in(&inputs, 0, 400);
        assert_eq!(answer, no(26, 0));
        assert_eq!(sheet, filled(400));
        // Before 27.
        assert_eq!(sheet_in(&inputs, 0, 0).0, no(26, 0));
        run_reports(&inputs, 0, 1, 0, records.len() as u32, Some(&inputs.script));
    }
}

#[test]
fn question_27_the_answer_fits() {
    // A pair of a first unit and a function: 4 records, the body not shown.
    let inputs = of(&[PAIR, first(0), UNIT, function(0), PAIR, variable(0), variable(0)]);
    for length in 0..24 {
        let (answer, sheet) = sheet_in(&inputs, 0, length);
        assert_eq!(answer, no(27, 0));
        assert_eq!(sheet, filled(length));
    }
    for length in 24..32 {
        let (answer, sheet) = sheet_in(&inputs, 0, length);
        assert_eq!(answer, Ok(4));
        let shown = [3, 1, 0, 4].map(|kind| [kind, 0, 0, 0, 0, 0]).concat();
        assert_eq!(sheet, [&shown, &filled(length)[24..]].concat());
    }
    assert_eq!(sheet_in(&of(&[UNIT]), 0, 0).0, no(27, 0));
}

#[test]
fn sheets_close_objects_with_their_parts() {
    // A pair (1,0) of a second (2,2) of unit (0,0), and a function (3,1), seen by each group.
    let inputs =
        of(&[record(3, 1, 0, 0), record(5, 2, 2, 0), UNIT, record(2, 3, 1, 0), variable(0)]);
    let shown = |kind, r, ir| [kind, r, ir, 0, 0, 0];
    let closed = shown(5, 0, 0);
    let (pair, second) = (shown(3, 1, 0), shown(2, 2, 2));
    let (unit, function) = (shown(0, 0, 0), shown(4, 3, 1));
    for (group, expected) in [
        (0, vec![closed]),
        (1, vec![pair, closed, closed]),
        (2, vec![closed]),
        (3, vec![pair, second, unit, function]),
    ] {
        // 27 asks for the shorter sheet.
        let length = SHEET_BYTES * expected.len();
        let (answer, sheet) = sheet_in(&inputs, group, length);
        assert_eq!(answer, Ok(expected.len() as u32));
        assert_eq!(sheet, expected.concat());
        let (answer, sheet) = sheet_in(&inputs, group, length - 1);
        assert_eq!(answer, no(27, 0));
        assert_eq!(sheet, filled(length - 1));
    }
}

#[test]
fn question_26_is_asked_inside_closed_objects() {
    // A pair and an injection, closed to group 0, with a protect inside: no value, whatever is seen.
    let protect = record(10, 0, 0, 0);
    for inside in
        [&[record(3, 1, 1, 0), UNIT, protect, UNIT][..], &[record(4, 1, 1, 0), protect, UNIT]]
    {
        let (answer, sheet) = sheet_in(&of(inside), 0, 40);
        assert_eq!(answer, no(26, 0));
        assert_eq!(sheet, filled(40));
    }
}

// ---------------------------------------------------------------------------------------------
// The rewriting of the old form

#[test]
fn the_old_form_is_rewritten_with_group_0() {
    let old = old_form(&of(&[record(6, 3, 0, 0), record(2, 3, 1, 9), variable(0), UNIT]));
    assert_eq!(old.types.len(), TYPE_COUNT as usize * 4);
    assert_eq!(
        old.script,
        [6, 3, 0, 0, 0, 0, 2, 3, 1, 0, 9, 0, 0, 0, 0, 0, 0, 0, 1, 0, 0, 0, 0, 0]
    );
    let script = [record(6, 3, 0, 0), record(2, 3, 1, 9), variable(0), UNIT].concat();
    let (answer, rewritten) = rewrite_script_in(&old, 32);
    assert_eq!((answer, rewritten), (Ok(4), script.clone()));
    let (answer, rewritten) = rewrite_script_in(&old, 50);
    assert_eq!((answer, rewritten), (Ok(4), [&script, &filled(50)[32..]].concat()));
    // Their creators are gone from types 17 and 21; all else stays.
    let mut types = some_types();
    set(&mut types, 17, UNIT_TYPE);
    set(&mut types, 21, UNIT_TYPE);
    let length = types.len();
    let (answer, rewritten) = rewrite_types_in(&old.groups, &old.types, length + 7);
    assert_eq!(answer, Ok(TYPE_COUNT.into()));
    assert_eq!(rewritten, [&types, &filled(length + 7)[length..]].concat());
    // Cases A to L so rewritten, but for those that the questions before refuse.
    for (letter, inputs) in cases::all() {
        let old = old_form(&inputs);
        let room = inputs.script.len();
        match letter {
            'D' => rewriting_refuses(&old, room, 15, 1),
            'F' => rewriting_refuses(&old, room, 19, 0),
            'K' => rewriting_refuses(&old, room, 6, 0),
            'L' => rewriting_refuses(&old, room, 7, 0),
            _ => {
                let (answer, rewritten) = rewrite_script_in(&old, room);
                assert_eq!((answer, rewritten), (Ok(room as u32 / 8), inputs.script));
            }
        }
    }
}

#[test]
fn question_27_of_the_rewriting() {
    let old = old_form(&of(&[PAIR, UNIT, UNIT]));
    // Room for the old form, and all but a byte of the new one.
    for room in [0, 1, 8, 18, 23] {
        rewriting_refuses(&old, room, 27, 0);
    }
    assert_eq!(rewrite_script_in(&old, 24).0, Ok(3));
    let types = TYPE_COUNT as usize * TYPE_BYTES;
    for room in [0, 6, TYPE_COUNT as usize * 4, types - 1] {
        rewriting_of_types_refuses(&old, room, 27, 0);
    }
    assert_eq!(rewrite_types_in(&old.groups, &old.types, types).0, Ok(TYPE_COUNT.into()));
    // The largest of both.
    with_large_stack(|| {
        let most = Inputs {
            groups: diamond_groups(),
            types: unit_types(4096),
            script: wide(8192).write(),
        };
        let old = old_form(&most);
        assert_eq!(rewrite_script_in(&old, 65_536), (Ok(8192), most.script));
        rewriting_refuses(&old, 65_535, 27, 0);
        let (answer, types) = rewrite_types_in(&old.groups, &old.types, 24_576);
        assert_eq!((answer, types), (Ok(4096), most.types));
        rewriting_of_types_refuses(&old, 24_575, 27, 0);
    });
}

#[test]
fn questions_8_and_13_of_the_rewriting_ask_for_the_old_widths() {
    let old = old_form(&of(&[UNIT]));
    for length in [0, 1, 2, 3, 5, 6, 7, 4096 * 4 - 1, 4096 * 4 + 1, 4097 * 4, 4096 * 6] {
        let types = vec![0; length];
        rewriting_of_types_refuses(&Inputs { types: types.clone(), ..old.clone() }, 700, 8, 0);
        rewriting_refuses(&Inputs { types, ..old.clone() }, 700, 8, 0);
    }
    for length in [0, 1, 5, 7, 8, 16, 8192 * 6 - 1, 8192 * 6 + 1, 8193 * 6, 8192 * 8] {
        let script = old.script.iter().copied().cycle().take(length).collect();
        rewriting_refuses(&Inputs { script, ..old.clone() }, 700, 13, 0);
    }
    // 8 comes before 9, 13 before 14, and both after the questions before them.
    rewriting_of_types_refuses(&Inputs { types: vec![255; 6], ..old.clone() }, 700, 8, 0);
    rewriting_refuses(&Inputs { script: vec![255; 8], ..old.clone() }, 700, 13, 0);
    rewriting_refuses(&Inputs { groups: vec![], types: vec![], script: vec![] }, 0, 2, 0);
    rewriting_refuses(&Inputs { types: vec![9; 4], script: vec![], ..old }, 0, 9, 0);
}

#[test]
fn the_rewriting_asks_what_is_asked_today() {
    // A recursion's own group, a case that finds its type and numbers pass in the old form too; other kinds are refused
    // as ever.
    let own_case = record(9, 0, 0, OWN_TYPE);
    for records in [
        vec![record(11, 2, 0, 3), function(4), variable(0)],
        vec![own_case, first(0), UNIT, UNIT, UNIT],
        vec![less(0), ADD, literal(1), literal(65_535), literal(2)],
    ] {
        let inputs = of(&records);
        let (answer, rewritten) = rewrite_script_in(&old_form(&inputs), inputs.script.len());
        assert_eq!((answer, rewritten), (Ok(records.len() as u32), inputs.script));
    }
    let refused = |records: &[Record], question, place| {
        rewriting_refuses(&old_form(&of(records)), 700, question, place);
    };
    refused(&[record(11, 4, 0, 3), function(4), variable(0)], 15, 0);
    refused(&[function(OWN_TYPE), UNIT], 16, 0);
    refused(&[record(10, 1, 0, 0), UNIT], 14, 0);
    refused(&[bare(15)], 14, 0);
    refused(&[less(23), literal(1), literal(2)], 16, 0);
    // Depth counts two for a case that finds its type.
    let deep = [vec![PROTECT; 254], vec![own_case, first(0), UNIT, UNIT, UNIT]].concat();
    refused(&deep, 18, 255);
}

// ---------------------------------------------------------------------------------------------
// Order between the questions

/// A part of a script, and the question it fails when it does.
struct Slot {
    fails: Option<u32>,
    /// Which of the part's records is the place.
    at: usize,
    records: Vec<Record>,
}

fn slot(rng: &mut Rng) -> Slot {
    let make = |question, at, records: &[Record]| Slot {
        fails: Some(question),
        at,
        records: records.to_vec(),
    };
    match rng.below(56) {
        0 => make(14, 0, &[bare(15)]),
        1 => make(14, 1, &[function(0), record(0, 0, 1, 0)]),
        2 => make(15, 0, &[record(1, 4, 0, 0)]),
        3 => make(15, 1, &[function(0), record(1, 0, 1, 0)]),
        4 => make(16, 0, &[function(TYPE_COUNT), UNIT]),
        5 => make(16, 0, &[first(3), UNIT]),
        6 => make(18, 0, &vec![record(10, 0, 0, 0); 300]),
        7 => make(19, 0, &[variable(0)]),
        8 => make(19, 2, &[case(0), UNIT, variable(7), UNIT]),
        9 => make(20, 0, &[PROJECT, UNIT]),
        10 => make(20, 1, &[PROJECT, APPLY, UNIT, UNIT]),
        11 => make(21, 0, &[PROJECT, record(3, 1, 1, 0), UNIT, UNIT]),
        12 => make(22, 0, &[first(0), high_unit()]),
        13 => make(22, 0, &[record(11, 0, 0, 3), UNIT]),
        14 => make(23, 0, &[record(11, 3, 0, 10), function(11), UNIT]),
        15 => make(15, 0, &[record(11, 4, 0, 3), function(4), UNIT]),
        16 => make(21, 0, &[record(11, 1, 0, 10), function(11), UNIT]),
        17 => make(31, 0, &[OWN_CASE, first(0), UNIT, UNIT, PAIR, UNIT, UNIT]),
        18 => make(
            31,
            3,
            &[OWN_CASE, first(0), UNIT, OWN_CASE, first(0), UNIT, UNIT, first(0), UNIT, UNIT],
        ),
        19 => make(16, 0, &[function(OWN_TYPE), UNIT]),
        20 => make(20, 0, &[OWN_CASE, UNIT, UNIT, PROJECT, UNIT]),
        22 => make(36, 0, &[made(UNIT, 1, 2)]),
        23 => make(36, 1, &[function(0), made(UNIT, 0, 1)]),
        24 => make(14, 0, &[made(PROTECT, 1, 0), UNIT]),
        25 => make(15, 0, &[made(PROTECT, 0, 4), UNIT]),
        26 => make(22, 0, &[first(16), UNIT]),
        27 => make(23, 0, &[record(11, 3, 0, 19), function(20), made(UNIT, 1, 0)]),
        28 => make(14, 0, &[record(13, 0, 0, 1), literal(1), literal(2)]),
        29 => make(15, 1, &[ADD, record(12, 0, 1, 7), UNIT]),
        30 => make(36, 2, &[ADD, UNIT, made(literal(7), 1, 2)]),
        31 => make(16, 0, &[less(23), UNIT, UNIT]),
        32 => make(16, 0, &[less(OWN_TYPE), literal(1), literal(2)]),
        33 => make(20, 0, &[ADD, UNIT, PROJECT, UNIT]),
        34 => make(20, 0, &[less(0), literal(1), UNIT]),
        35 => make(21, 0, &[less(0), record(12, 1, 0, 7), UNIT]),
        36 => make(21, 0, &[ADD, literal(1), record(12, 1, 0, 7)]),
        37 => make(20, 2, &[ADD, literal(1), PROJECT, UNIT]),
        38 => make(31, 0, &[OWN_CASE, first(0), UNIT, UNIT, literal(7)]),
        39 => Slot {
            fails: None,
            at: 0,
            records: vec![less(0), ADD, literal(1), literal(2), literal(3)],
        },
        21 => {
            Slot { fails: None, at: 0, records: vec![OWN_CASE, first(0), UNIT, UNIT, high_unit()] }
        }
        _ => Slot { fails: None, at: 0, records: vec![UNIT] },
    }
}

#[test]
fn the_first_no_is_given() {
    let mut seen = [0; LAST_QUESTION + 1];
    with_large_stack(move || {
        let enough = examples(3000, |rng| {
            // A right comb of pairs with a part in each place.
            let count = rng.between(1, 12);
            let mut script = Vec::new();
            // Each with its position. That of 36 isn't its number: it comes after 10, or after 15.
            let mut found: Vec<(u32, u32, u32)> = Vec::new();
            let positioned = |directly_after: u32, question: u32, place: usize| {
                let position = if question == 36 { 2 * directly_after + 1 } else { 2 * question };
                (position, question, place as u32)
            };
            let mut typing = None;
            for place in 0..count {
                let last = place + 1 == count;
                if !last {
                    script.extend(PAIR);
                }
                let Slot { fails, at, mut records } = slot(rng);
                let start = script.len() / SCRIPT_BYTES;
                if fails == Some(18) {
                    // As deep as it takes; its last record must be a unit.
                    records.push(UNIT);
                }
                script.extend(records.concat());
                match fails {
                    Some(18) => {
                        let depth = if last { place + 1 } else { place + 2 };
                        found.push(positioned(15, 18, start + 257 - depth));
                    }
                    Some(question) if (Refusal { question, place: 0 }).is_of_typing() => {
                        // Typing goes left to right, so the first one counts whatever its number.
                        typing = typing.or(Some((question, (start + at) as u32)));
                    }
                    Some(question) => found.push(positioned(15, question, start + at)),
                    None => {}
                }
            }
            if rng.one_in(6) {
                found.push(positioned(15, 17, script.len() / SCRIPT_BYTES));
                script.extend(UNIT);
            }
            if rng.one_in(12) {
                found.push(positioned(15, 13, 0));
                script.push(0);
            }
            let mut inputs = with(script);
            if rng.one_in(8) {
                let bad: [(u32, usize, Vec<u8>); 7] = [
                    (8, 0, vec![0; 9]),
                    (36, 0, made(type_record(1, 0, 0), 0, 1).to_vec()),
                    (10, 1, [made(UNIT_TYPE, 1, 2), type_record(0, 0, 1)].concat()),
                    (9, 1, [type_record(0, 0, 1), type_record(1, 9, 0)].concat()),
                    (10, 1, [UNIT_TYPE, type_record(1, 0, 1)].concat()),
                    (11, 65, [wide_type(65).write(), type_record(1, 0, 0).to_vec()].concat()),
                    (12, 1, [UNIT_TYPE.to_vec(), wide_type(65).write()].concat()),
                ];
                let (question, place, types) = rng.pick(&bad).clone();
                found.push(positioned(10, question, place));
                inputs.types = types;
            }
            if rng.one_in(8) {
                let bad: [(u32, usize, Vec<u8>); 6] = [
                    (2, 0, vec![1, 0, 0]),
                    (3, 1, words(&[1, 6])),
                    (4, 0, words(&[2, 2])),
                    (5, 0, words(&[3, 6, 4])),
                    (6, 1, words(&[7, 2, 4])),
                    (7, 0, words(&[5, 6, 4])),
                ];
                let (question, place, groups) = rng.pick(&bad).clone();
                found.push(positioned(10, question, place));
                inputs.groups = groups;
            }
            found.sort();
            match (found.first(), typing) {
                (Some(&(_, question, place)), _) => {
                    seen[question as usize] += 1;
                    refused_by_all(&inputs, question, place);
                }
                (None, Some((question, place))) => {
                    seen[question as usize] += 1;
                    check_refuses(&inputs, question, place);
                }
                (None, None) => {
                    seen[0] += 1;
                    accepted(&inputs);
                }
            }
        });
        for question in (2..24).chain([0, 31, 36]) {
            assert!(!enough || seen[question] > 0, "question {question} was drawn: {seen:?}");
        }
    });
}

// ---------------------------------------------------------------------------------------------
// Ends

#[test]
fn ends_3_then_2_then_4() {
    // Wrong kind before the reader: a pair of group 3 applied by group 0.
    let inputs = of(&[APPLY, record(3, 3, 0, 0), UNIT, UNIT, UNIT]);
    step_reports(&inputs, 600, 3, 5);
    step_reports(&inputs, 0, 3, 5);
    // The reader before the size.
    let inputs = of(&[APPLY, record(2, 3, 0, 0), variable(0), UNIT]);
    step_reports(&inputs, 600, 2, 4);
    step_reports(&inputs, 0, 2, 4);
    // Only what moves can be too big.
    let inputs = of(&[record(6, 3, 0, 0), record(2, 3, 0, 0), variable(0), UNIT]);
    step_reports(&inputs, 15, 4, 4);
    assert_eq!(step_reports(&inputs, 16, 1, 2), [record(10, 0, 0, 0), UNIT].concat());
}

#[test]
fn a_wrong_function_still_reduces_its_argument_first() {
    let redex = [record(10, 0, 1, 0), UNIT];
    let inputs = of(&[APPLY, UNIT, redex[0], redex[1]]);
    let moved = step_reports(&inputs, 600, 1, 3);
    assert_eq!(moved, [APPLY, UNIT, record(1, 1, 1, 0)].concat());
    run_reports(&inputs, 1000, 3, 1, 3, Some(&moved));
    // And one that may not be read does too.
    let inputs = of(&[APPLY, record(2, 1, 0, 0), variable(0), redex[0], redex[1]]);
    run_reports(&inputs, 1000, 2, 1, 4, None);
    // When the budget is spent only values are told apart.
    run_reports(&of(&[APPLY, UNIT, UNIT]), 0, 1, 0, 3, None);
    run_reports(&of(&[APPLY, UNIT, UNIT]), 1, 3, 0, 3, None);
}

#[test]
fn left_to_right_and_never_under_a_binder() {
    let redex = [record(10, 0, 1, 0), UNIT];
    let done = record(1, 1, 1, 0);
    // A pair: left, then right.
    let inputs = of(&[PAIR, redex[0], redex[1], redex[0], redex[1]]);
    let one = step_reports(&inputs, 600, 1, 4);
    assert_eq!(one, [PAIR, done, redex[0], redex[1]].concat());
    let two = step_reports(&with(one), 600, 1, 3);
    assert_eq!(two, [PAIR, done, done].concat());
    // An application: function, argument, then itself.
    let inputs = of(&[APPLY, record(10, 0, 0, 0), function(0), variable(0), redex[0], redex[1]]);
    let one = step_reports(&inputs, 600, 1, 5);
    assert_eq!(one, [APPLY, function(0), variable(0), redex[0], redex[1]].concat());
    let two = step_reports(&with(one), 600, 1, 4);
    assert_eq!(two, [APPLY, function(0), variable(0), done].concat());
    let three = step_reports(&with(two), 600, 1, 2);
    assert_eq!(three, [record(10, 0, 0, 0), done].concat());
    // Not inside a function's body, nor a branch, nor a recursion's body.
    step_reports(&of(&[function(0), redex[0], redex[1]]), 600, 0, 3);
    let inputs =
        of(&[case(0), second(0), UNIT, redex[0], redex[1], PAIR, variable(0), redex[0], redex[1]]);
    let chosen = step_reports(&inputs, 600, 1, 5);
    assert_eq!(chosen, [record(10, 0, 0, 0), PAIR, UNIT, redex[0], redex[1]].concat());
    let inputs = of(&[record(11, 0, 0, 3), redex[0], redex[1]]);
    assert_eq!(step_reports(&inputs, 600, 1, 2), redex.concat());
    // Inside an injection, a projection, a protect, a tested operand.
    for around in [first(0), PROJECT, record(10, 0, 2, 0)] {
        let inputs = of(&[around, redex[0], redex[1]]);
        assert_eq!(step_reports(&inputs, 600, 1, 2), [around, done].concat());
    }
    let inputs = of(&[case(0), redex[0], redex[1], UNIT, UNIT]);
    assert_eq!(step_reports(&inputs, 600, 1, 4), [case(0), done, UNIT, UNIT].concat());
}

#[test]
fn values_are_raised_at_their_own_record_only() {
    for (value, raised) in [
        (vec![record(1, 1, 0, 0)], vec![record(1, 3, 2, 0)]),
        (vec![record(3, 1, 1, 0), UNIT, UNIT], vec![record(3, 3, 3, 0), UNIT, UNIT]),
        (vec![record(4, 0, 0, 13), UNIT], vec![record(4, 2, 2, 13), UNIT]),
        (vec![record(5, 3, 1, 13), UNIT], vec![record(5, 3, 3, 13), UNIT]),
        (vec![record(2, 2, 0, 9), variable(0)], vec![record(2, 2, 2, 9), variable(0)]),
    ] {
        let inputs = of(&[vec![record(10, 0, 2, 0)], value].concat());
        assert_eq!(step_reports(&inputs, 600, 1, raised.len() as u32), raised.concat());
    }
}

#[test]
fn taking_apart_protects_by_ir() {
    // Object (3,1) opened by group 3: protect 1, for each destructor and side.
    let pair = record(3, 3, 1, 0);
    let (one, two) = (record(1, 2, 0, 0), record(1, 2, 2, 0));
    let protect = record(10, 0, 1, 0);
    let step = |records: &[Record], expected: &[Record]| {
        let moved = step_reports(&of(records), 600, 1, expected.len() as u32);
        assert_eq!(moved, expected.concat());
    };
    step(&[record(7, 3, 0, 0), pair, one, two], &[protect, one]);
    step(&[record(8, 3, 0, 0), pair, one, two], &[protect, two]);
    step(
        &[record(6, 3, 0, 0), record(2, 3, 1, 9), PAIR, variable(0), variable(0), two],
        &[protect, PAIR, two, two],
    );
    step(&[record(9, 3, 0, 9), record(4, 3, 1, 0), one, variable(0), UNIT], &[protect, one]);
    step(&[record(9, 3, 0, 9), record(5, 3, 1, 0), one, UNIT, variable(0)], &[protect, one]);
}

#[test]
fn creators_in_steps() {
    let step = |records: &[Record], expected: &[Record]| {
        let moved = step_reports(&of(records), 600, 1, expected.len() as u32);
        assert_eq!(moved, expected.concat());
    };
    let part = made(record(1, 2, 0, 0), 3, 2);
    for (ic, node) in pairs() {
        // Taking an object (0, 0, 3, ic) apart protects by its ir and by ic ⊓ the node's group.
        let (whole, protect) = (|head| made(head, 3, ic), made(PROTECT, 0, meet(ic, node)));
        step(&[record(6, node, 0, 0), whole(function(9)), variable(0), part], &[protect, part]);
        step(&[record(7, node, 0, 0), whole(PAIR), part, UNIT], &[protect, part]);
        step(&[record(8, node, 0, 0), whole(PAIR), UNIT, part], &[protect, part]);
        step(&[record(9, node, 0, 9), whole(first(0)), part, variable(0), UNIT], &[protect, part]);
        step(
            &[record(9, node, 0, OWN_TYPE), whole(second(0)), part, UNIT, variable(0)],
            &[protect, part],
        );
    }
    // With ir beside it: the two come from the object's indirect groups, not from r and c.
    let pair = made(record(3, 3, 1, 0), 3, 2);
    step(&[record(7, 3, 0, 0), pair, part, UNIT], &[made(record(10, 0, 1, 0), 0, 2), part]);
    // A protect raises its value's own record, here for (3, 0), by just its two.
    for (c, ic) in pairs().filter(|&(c, ic)| below(ic, c)) {
        for (ir, m) in pairs() {
            let protect = made(record(10, 0, ir, 0), 0, m);
            for kind in 1..=5 {
                let number = if names_number(kind) { 13 } else { 0 };
                let value = |ir, c, ic| {
                    let head = made(record(kind, 3, ir, number), c, ic);
                    [vec![head], vec![part; operand_count(kind)]].concat()
                };
                let before = [vec![protect], value(0, c, ic)].concat();
                step(&before, &value(ir, meet(c, m), meet(ic, m)));
            }
        }
    }
    // What a protect is around moves inside it, and it stays as it is.
    let outer = made(record(10, 0, 1, 0), 0, 2);
    step(&[outer, PROTECT, UNIT], &[outer, UNIT]);
    // The unrolled function has all its type's groups.
    let own = made(type_record(3, 3, 1), 3, 2);
    let types = [own, UNIT_TYPE, UNIT_TYPE].concat();
    let script = [record(11, 2, 0, 0), variable(0)].concat();
    let inputs = Inputs { groups: diamond_groups(), types, script };
    let unrolled = [
        made(record(2, 3, 1, 1), 3, 2),
        record(6, 2, 0, 0),
        record(11, 2, 0, 0),
        variable(0),
        variable(0),
    ];
    assert_eq!(step_reports(&inputs, 600, 1, 5), unrolled.concat());
}

#[test]
fn sheets_show_no_creators() {
    let value = |c, ic| of(&[made(record(3, 1, 0, 0), c, ic), made(UNIT, c, ic), high_unit()]);
    for group in 0..4 {
        let plain = sheet_in(&value(0, 0), group, 20);
        for (c, ic) in [(3, 3), (3, 0), (1, 1)] {
            assert_eq!(sheet_in(&value(c, ic), group, 20), plain);
        }
    }
}

#[test]
fn substitution_counts_binders() {
    let value = record(1, 2, 0, 0);
    let inputs = of(&[
        APPLY,
        function(9),
        PAIR,
        variable(0),
        function(0),
        PAIR,
        variable(1),
        case(0),
        variable(0),
        PAIR,
        variable(2),
        variable(1),
        record(11, 0, 0, 3),
        variable(3),
        value,
    ]);
    let expected = [
        record(10, 0, 0, 0),
        PAIR,
        value,
        function(0),
        PAIR,
        value,
        case(0),
        variable(0),
        PAIR,
        value,
        variable(1),
        record(11, 0, 0, 3),
        value,
    ];
    assert_eq!(step_reports(&inputs, 600, 1, 13), expected.concat());
}

#[test]
fn unrolling_is_made_as_the_written_group() {
    // Type 3 is the function (0,0) from type 4, type 10 the function (3,3) from type 11. The unrolled
    // function has its type's groups, the application in it the written one, which the recursion keeps.
    // A step types nothing, so that group may be any.
    for (function, marks) in [(3, 0), (10, 3)] {
        for written in 0..4 {
            let recursion = record(11, written, 0, function);
            let expected = [
                PAIR,
                record(2, marks, marks, function + 1),
                record(6, written, 0, 0),
                recursion,
                PAIR,
                variable(0),
                UNIT,
                variable(0),
                UNIT,
            ];
            let inputs = of(&[recursion, PAIR, variable(0), UNIT]);
            assert_eq!(step_reports(&inputs, 600, 1, 9), expected.concat());
        }
    }
}

#[test]
fn who_a_recursive_call_is_made_as_decides_its_end() {
    // μf. λx. f x of type 10, the function and both applications of group 3: each call but the first
    // is made as the written group, which has to read the function again.
    let apply = record(6, 3, 0, 0);
    for written in 0..4 {
        let own =
            [record(11, written, 0, 10), record(2, 3, 3, 11), apply, variable(1), variable(0)];
        let inputs = of(&[&[apply][..], &own, &[UNIT]].concat());
        let (end, steps, records) = if below(3, written) { (1, 5, 13) } else { (2, 4, 15) };
        run_reports(&inputs, 4, 1, 4, 15, None);
        run_reports(&inputs, 5, end, steps, records, None);
    }
}

#[test]
fn too_big_by_records() {
    with_large_stack(|| {
        // (λx. <x, x>) v: 1 + 1 + 2 v records.
        let doubled = |size: usize, extra: usize| {
            let x = Rc::new(Term::Variable(0));
            let mut body = Rc::new(Term::Pair(LOW, x.clone(), x));
            for _ in 0..extra {
                body = Rc::new(Term::Protect(LOW_RAISE, body));
            }
            let function = Rc::new(Term::Function(LOW, 0, body));
            with(Term::Application(0, function, value_of(size)).write())
        };
        // v of 4,095 records: the new term has 8,192 and fits only just.
        let inputs = doubled(4095, 0);
        step_reports(&inputs, 65_536, 1, 8192);
        step_reports(&inputs, 80_000, 1, 8192);
        step_reports(&inputs, 65_535, 4, 4100);
        step_reports(&doubled(4095, 1), 80_000, 4, 4101);
        run_reports(&inputs, 1, 1, 1, 8192, None);
        let (ran, first, scratch) = run_in(&inputs, 5, 80_000, 65_535);
        let report = ran.expect("not refused");
        assert_eq!((report.end as u8, report.steps, report.records), (4, 0, 4100));
        assert_eq!(first[..inputs.script.len()], inputs.script[..]);
        assert!(first[inputs.script.len()..].iter().chain(&scratch).all(|&byte| byte == 0));
    });
}

/// A value of exactly `size` records (odd): nested pairs of units, halved at each.
fn value_of(size: usize) -> Rc<Term> {
    if size == 1 {
        return unit();
    }
    let left = ((size - 1) / 2) | 1;
    Rc::new(Term::Pair(LOW, value_of(left), value_of(size - 1 - left)))
}

#[test]
fn too_big_by_far() {
    with_large_stack(|| {
        // As many occurrences as a script holds, each replaced by the largest value beside them.
        fn occurrences(count: usize) -> Rc<Term> {
            if count == 1 {
                return Rc::new(Term::Variable(0));
            }
            let half = count / 2;
            Rc::new(Term::Pair(LOW, occurrences(half), occurrences(count - half)))
        }
        let function = Rc::new(Term::Function(LOW, 0, occurrences(2047)));
        let inputs = with(Term::Application(0, function, value_of(4097)).write());
        assert_eq!(inputs.script.len() / SCRIPT_BYTES, 8192);
        step_reports(&inputs, 65_536, 4, 8192);
        run_reports(&inputs, 7, 4, 0, 8192, Some(&inputs.script));
    });
}

#[test]
fn too_big_by_depth() {
    with_large_stack(|| {
        // (λx. protect … x) v, the protects as many as to pass 256 with v's depth or not.
        let application = |protects: usize, depth: usize| {
            let mut body = Rc::new(Term::Variable(0));
            for _ in 0..protects {
                body = Rc::new(Term::Protect(LOW_RAISE, body));
            }
            let mut value = unit();
            for _ in 1..depth {
                value = Rc::new(Term::Injection(Side::First, LOW, 0, value));
            }
            let function = Rc::new(Term::Function(LOW, 0, body));
            with(Term::Application(0, function, value).write())
        };
        // The new term: a protect, the protects, the value.
        let inputs = application(155, 100);
        step_reports(&inputs, 65_536, 1, 256);
        let inputs = application(156, 100);
        step_reports(&inputs, 65_536, 4, 259);
        let inputs = application(253, 255);
        step_reports(&inputs, 65_536, 4, 511);
    });
}

#[test]
fn budgets_have_64_bits() {
    let inputs = cases::b();
    run_reports(&inputs, u64::MAX, 0, 2, 2, None);
    run_reports(&inputs, 1 << 32, 0, 2, 2, None);
    run_reports(&inputs, (1 << 32) + 1, 0, 2, 2, None);
}
