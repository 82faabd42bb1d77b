//! Typing at depth 256 with types of 63 records at every level: binders, first operands, arguments, tested operands and
//! branches, each once accepted and once with a no at its innermost record. Question 1 asks for no byte more than these use. Of
//! cases that find their own type 127 nested ones are as deep.

mod common;

use common::records::*;
use common::*;
use wigneld_tests::cases::{record, type_record, Inputs, UNIT_TYPE};
use wigneld_tests::generate::{wide_type, words};
use wigneld_tests::limits::*;

/// Types, all groups 0: a sum of unit and a pair of 61 records, a function from 31 to 31 records, a pair of 63.
const SUM: u16 = 0;
const RIGHT_OF_SUM: u16 = 2;
const FUNCTION: u16 = 63;
const PARAMETER: u16 = 64;
const LARGE_PAIR: u16 = 126;

fn types() -> Vec<u8> {
    let half = wide_type(31).write();
    [
        [type_record(1, 0, 0), UNIT_TYPE].concat(),
        wide_type(61).write(),
        type_record(3, 0, 0).to_vec(),
        half.clone(),
        half,
        wide_type(63).write(),
    ]
    .concat()
}

/// `levels` times `before`, the innermost records, and as often `after`, inside `outermost` and `last`.
fn nested(
    [outermost, before, innermost, after, last]: [&[Record]; 5],
    levels: usize,
) -> Vec<Record> {
    [
        outermost.to_vec(),
        before.repeat(levels),
        innermost.to_vec(),
        after.repeat(levels),
        last.to_vec(),
    ]
    .concat()
}

/// The depth of the deepest record.
fn depth(records: &[Record]) -> usize {
    depths(records).into_iter().max().expect("a term has records")
}

fn inputs(records: &[Record]) -> Inputs {
    Inputs { groups: words(&[3, 2]), types: types(), script: records.concat() }
}

/// At depth 256, accepted with a type of 63 records, and a run goes on with it.
fn accepted(records: &[Record]) {
    assert_eq!(depth(records), MOST_DEPTH);
    let (result, work, _) = check_in(&inputs(records), WORK_BYTES, ANSWER_BYTES);
    assert_eq!(result, Ok(63));
    assert_eq!(work, vec![0; WORK_BYTES]);
    let (ran, _, _) = run_in(&inputs(records), 3, REPORT_RUN_BYTES, REPORT_RUN_BYTES);
    assert!(ran.is_ok());
}

fn refused(records: &[Record], question: u32, place: usize) {
    assert!(MOST_DEPTH - 1 <= depth(records));
    check_refuses(&inputs(records), question, place as u32);
}

#[test]
fn binders_of_recursions() {
    let all =
        |innermost: Record| nested([&[], &[recursion(FUNCTION)], &[innermost], &[], &[]], 255);
    accepted(&all(variable(0)));
    accepted(&all(variable(254)));
    refused(&all(UNIT), 22, 254);
}

#[test]
fn parameters_of_functions() {
    // The body has its type before its function is too large.
    let all =
        |innermost: Record| nested([&[], &[function(LARGE_PAIR)], &[innermost], &[], &[]], 255);
    refused(&all(variable(0)), 24, 254);
    refused(&all(variable(254)), 24, 254);
    refused(&all(UNIT), 24, 254);
}

#[test]
fn arguments_beside_functions() {
    let outermost = [function(PARAMETER)];
    let level = [APPLY, function(PARAMETER), variable(0)];
    let all =
        |innermost: Record| nested([&outermost, &level, &[PROTECT, innermost], &[], &[]], 253);
    accepted(&all(variable(0)));
    refused(&all(UNIT), 22, 1 + 3 * 252);
}

#[test]
fn first_operands() {
    let outermost = [function(RIGHT_OF_SUM), PROJECT_SECOND, PAIR];
    let all = |innermost: &[Record], levels| {
        nested([&outermost, &[PROJECT, PAIR], innermost, &[UNIT], &[UNIT]], levels)
    };
    accepted(&all(&[variable(0)], 126));
    refused(&all(&[PROJECT, UNIT], 125), 20, 3 + 2 * 125);
}

#[test]
fn tested_operands() {
    let after = [first(SUM), variable(0), second(SUM), variable(0)];
    let all = |innermost: &[Record]| nested([&[], &[case(SUM)], innermost, &after, &[]], 254);
    accepted(&all(&[first(SUM), UNIT]));
    refused(&all(&[PROTECT, UNIT]), 20, 253);
}

#[test]
fn branches() {
    let left = [case(SUM), first(SUM), UNIT];
    let right = [second(SUM), variable(0)];
    let in_first =
        |innermost: Record| nested([&[], &left, &[first(SUM), innermost], &right, &[]], 254);
    accepted(&in_first(variable(0)));
    accepted(&in_first(variable(253)));
    refused(&in_first(record(1, 1, 0, 0)), 22, 3 * 254);
    let before = [case(SUM), first(SUM), UNIT, first(SUM), UNIT];
    let in_second =
        |innermost: Record| nested([&[], &before, &[second(SUM), innermost], &[], &[]], 254);
    accepted(&in_second(variable(0)));
    accepted(&in_second(variable(253)));
    refused(&in_second(UNIT), 22, 5 * 254);
}

/// As many cases that find their type as can stand in one another: their operands are two levels deeper,
/// which leaves depths 255 and 256 for the innermost.
const MOST_OWN_CASES: usize = 127;

/// One level more is too deep, by the first record that is.
fn one_too_many(records: &[Record], place: usize) {
    let inputs = inputs(records);
    check_refuses(&inputs, 18, place as u32);
    run_refuses(&inputs, 18, place as u32);
}

#[test]
fn tested_operands_of_cases_that_find_their_type() {
    let after = [first(SUM), variable(0), second(SUM), variable(0)];
    let all =
        |innermost: &[Record], levels| nested([&[], &[OWN_CASE], innermost, &after, &[]], levels);
    accepted(&all(&[first(SUM), UNIT], MOST_OWN_CASES));
    refused(&all(&[PROTECT, UNIT], MOST_OWN_CASES), 20, MOST_OWN_CASES - 1);
    one_too_many(&all(&[first(SUM), UNIT], MOST_OWN_CASES + 1), MOST_OWN_CASES + 1);
}

#[test]
fn branches_of_cases_that_find_their_type() {
    let left = [OWN_CASE, first(SUM), UNIT];
    let right = [second(SUM), variable(0)];
    let in_first =
        |innermost: &[Record], levels| nested([&[], &left, innermost, &right, &[]], levels);
    let most = MOST_OWN_CASES;
    accepted(&in_first(&[first(SUM), variable(0)], most));
    accepted(&in_first(&[first(SUM), variable(126)], most));
    refused(&in_first(&[PROTECT, UNIT], most), 31, 3 * (most - 1));
    refused(&in_first(&[first(SUM), record(1, 1, 0, 0)], most), 22, 3 * most);
    one_too_many(&in_first(&[first(SUM), variable(0)], most + 1), 3 * most + 1);
    // The first branch's type is kept on every level while the second is typed.
    let before = [OWN_CASE, first(SUM), UNIT, first(SUM), UNIT];
    let in_second =
        |innermost: &[Record], levels| nested([&[], &before, innermost, &[], &[]], levels);
    accepted(&in_second(&[second(SUM), variable(0)], most));
    accepted(&in_second(&[second(SUM), variable(126)], most));
    refused(&in_second(&[PROTECT, UNIT], most), 31, 5 * (most - 1));
    refused(&in_second(&[second(SUM), UNIT], most), 22, 5 * most);
    one_too_many(&in_second(&[second(SUM), variable(0)], most + 1), 5 * most + 1);
}

#[test]
fn cases_that_find_their_type_among_binders() {
    // A recursion and such a case in turn, 84 of each: three levels for the two, and three protects more.
    let level = [recursion(FUNCTION), OWN_CASE, first(SUM), UNIT, variable(1)];
    let all = |innermost: Record| {
        nested([&[], &level, &[PROTECT, PROTECT, PROTECT, innermost], &[], &[]], 84)
    };
    // The nearest recursion's own type, and the outermost's.
    accepted(&all(variable(1)));
    accepted(&all(variable(167)));
    refused(&all(variable(0)), 31, 5 * 83 + 1);
}
