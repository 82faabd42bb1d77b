//! The worked cases A to L (manual, 10), each whole, and the report's text.

mod common;

use common::*;
use wigneld_tests::cases::{self, made, record, set, type_record, Inputs, UNIT_TYPE};
use wigneld_tests::generate::words;
use wigneld_tests::groups::read_groups;
use wigneld_tests::report::report;

fn report_of(inputs: &Inputs) -> String {
    String::from_utf8(report(None, &inputs.groups, &inputs.types, &inputs.script))
        .expect("plain text")
}

#[test]
fn shared_inputs_are_the_manuals() {
    let inputs = cases::b();
    assert_eq!(inputs.groups, [3, 0, 0, 0, 2, 0, 0, 0]);
    assert_eq!(
        inputs.types,
        [
            1, 0, 0, 0, 0, 0, 0, 0, 0, 0, 0, 0, 0, 0, 0, 0, 0, 0, // sum of units
            3, 0, 0, 0, 0, 0, 0, 0, 0, 0, 0, 0, 0, 0, 0, 0, 0,
            0, // function from unit to unit
        ]
    );
    assert_eq!(inputs.script.len(), 7 * 8);
    assert_eq!(types_check(&inputs.groups, &inputs.types), Ok(()));
}

#[test]
fn case_a() {
    check_refuses(&cases::a(), 21, 0);
    run_reports(&cases::a(), 1000, 2, 0, 7, Some(&cases::a().script));
    step_reports(&cases::a(), 600, 2, 7);
    assert_eq!(report_of(&cases::a()), "refused 21 at 0\n");
}

#[test]
fn case_b() {
    check_finds(&cases::b(), &[type_record(1, 1, 1), UNIT_TYPE, UNIT_TYPE].concat());
    let value = [record(4, 1, 1, 0), record(1, 0, 0, 0)].concat();
    run_reports(&cases::b(), 1000, 0, 2, 2, Some(&value));
    // The closed injection has one line, and its part none.
    assert_eq!(report_of(&cases::b()), "accepted 3\nend 0 steps 2 records 2\nclosed 0 0\n");
}

#[test]
fn case_b_with_its_own_type() {
    let inputs = cases::b_with_own_type();
    check_finds(&inputs, &[type_record(1, 1, 1), UNIT_TYPE, UNIT_TYPE].concat());
    let value = [record(4, 1, 1, 0), record(1, 0, 0, 0)].concat();
    run_reports(&inputs, 1000, 0, 2, 2, Some(&value));
    assert_eq!(report_of(&inputs), report_of(&cases::b()));
    check_refuses(&cases::no_common_type(), 31, 0);
    assert_eq!(report_of(&cases::no_common_type()), "refused 31 at 0\n");
    assert_eq!(report_of(&cases::own_type_of_a_function()), "refused 16 at 0\n");
}

#[test]
fn case_b_sheets() {
    let value = [record(4, 1, 1, 0), record(1, 0, 0, 0)].concat();
    let inputs = Inputs { script: value, ..cases::b() };
    let (answer, sheet) = sheet_in(&inputs, 0, 7);
    assert_eq!(answer, Ok(1));
    assert_eq!(sheet, [&[5, 0, 0, 0, 0, 0], &filled(7)[6..]].concat());
    let (answer, sheet) = sheet_in(&inputs, 1, 12);
    assert_eq!(answer, Ok(2));
    assert_eq!(sheet, [1, 1, 1, 0, 0, 0, 0, 0, 0, 0, 0, 0]);
}

#[test]
fn case_c() {
    check_finds(&cases::c(), &[type_record(1, 0, 0), UNIT_TYPE, UNIT_TYPE].concat());
    let value = [record(4, 0, 0, 0), record(1, 0, 0, 0)].concat();
    run_reports(&cases::c(), 1000, 0, 2, 2, Some(&value));
    assert_eq!(
        report_of(&cases::c()),
        "accepted 3\nend 0 steps 2 records 2\nfirst 0 0\nunit 0 0\n"
    );
}

#[test]
fn case_d() {
    check_refuses(&cases::d(), 15, 1);
    run_refuses(&cases::d(), 15, 1);
    assert_eq!(report_of(&cases::d()), "refused 15 at 1\n");
}

#[test]
fn case_e() {
    let protected = [record(10, 0, 1, 0), record(4, 0, 0, 0), record(1, 0, 0, 0)].concat();
    run_reports(&cases::b(), 1, 1, 1, 3, Some(&protected));
    let moved = step_reports(&cases::b(), 56, 1, 3);
    assert_eq!(moved, protected);
    // Budget 0 makes no step; budget 2 is all the run needs.
    run_reports(&cases::b(), 0, 1, 0, 7, Some(&cases::b().script));
    run_reports(&cases::b(), 2, 0, 2, 2, None);
}

#[test]
fn case_f() {
    check_refuses(&cases::f(), 19, 0);
    run_refuses(&cases::f(), 19, 0);
    assert_eq!(report_of(&cases::f()), "refused 19 at 0\n");
}

#[test]
fn case_g() {
    let inputs = cases::g();
    assert_eq!(inputs.script.len(), 7 * 8);
    check_finds(&inputs, &UNIT_TYPE);
    // The recursion and what stands for f: (λy : type 4. (recursion y)_0)_(0,0).
    let recursion = &inputs.script[8..48];
    let own =
        [&record(2, 0, 0, 4)[..], &record(6, 0, 0, 0), recursion, &record(0, 0, 0, 0)].concat();
    let (apply, protect) = (record(6, 0, 0, 0), record(10, 0, 0, 0));
    let (variable, unit) = (record(0, 0, 0, 0), record(1, 0, 0, 0));

    let one = [&apply[..], &record(2, 0, 0, 4), &apply, &own, &variable, &unit].concat();
    run_reports(&inputs, 1, 1, 1, 13, Some(&one));
    let two = [&protect[..], &apply, &own, &unit].concat();
    run_reports(&inputs, 2, 1, 2, 11, Some(&two));
    let three = [&protect[..], &protect, &apply, recursion, &unit].concat();
    run_reports(&inputs, 3, 1, 3, 9, Some(&three));
    // Each three steps leave two more protects; unrolled under 248 of them it has depth 257.
    run_reports(&inputs, 1000, 4, 372, 255, None);
    run_reports(&inputs, 372, 1, 372, 255, None);
    assert_eq!(report_of(&inputs), "accepted 1\nend 4 steps 372 records 255\n");
}

#[test]
fn case_h() {
    let inputs = cases::g();
    for (first, scratch) in [(96, 96), (96, 6000), (6000, 96), (103, 104), (104, 103)] {
        let (result, first, scratch) = run_in(&inputs, 1000, first, scratch);
        let report = result.expect("not refused: 56 bytes fit");
        assert_eq!((report.end as u8, report.steps, report.records), (4, 0, 7));
        assert_eq!(first[..56], inputs.script[..]);
        assert!(first[56..].iter().chain(&scratch).all(|&byte| byte == 0));
    }
    let (result, _, _) = run_in(&inputs, 1, 104, 104);
    let report = result.expect("not refused");
    assert_eq!((report.end as u8, report.steps, report.records), (1, 1, 13));
    step_reports(&inputs, 96, 4, 7);
    step_reports(&inputs, 103, 4, 7);
    step_reports(&inputs, 104, 1, 13);
}

#[test]
fn case_i() {
    let inputs = cases::i();
    assert_eq!(inputs.types[18..24], [3, 1, 1, 0, 0, 0]);
    assert_eq!(inputs.script[..16], [record(6, 1, 0, 0), record(11, 1, 0, 3)].concat());
    check_refuses(&inputs, 23, 1);
    // With group 0 written, which may not read the recursion's type, 21 comes first.
    check_refuses(&cases::i_called_as(0), 21, 1);
    // A run types nothing, so it goes on.
    run_reports(&inputs, 1, 1, 1, 13, None);
    // With the result's groups at (1,1) the condition holds.
    let mut types = inputs.types.clone();
    set(&mut types, 5, type_record(0, 1, 1));
    // The body calls itself as group 0, which may not read a function of group 1.
    check_refuses(&Inputs { types: types.clone(), ..inputs.clone() }, 21, 3);
    let mut script = inputs.script.clone();
    set(&mut script, 3, record(6, 1, 0, 0));
    check_finds(&Inputs { types, script, ..inputs }, &type_record(0, 1, 1));
}

#[test]
fn case_j() {
    let inputs = cases::j();
    assert_eq!(inputs.groups, words(&[15, 10, 12, 8]));
    assert_eq!(groups_check(&inputs.groups), Ok(()));
    let groups = read_groups(&inputs.groups).expect("accepted");
    assert_eq!(groups.join(1, 2), 3);
    assert_eq!(groups.join(2, 1), 3);
    assert!(!groups.below(1, 2) && groups.below(1, 3) && groups.below(2, 3));
    // The same join in typing and in a step: a unit of group 1 protected by group 2.
    let script = [record(10, 0, 2, 0), record(1, 1, 1, 0)].concat();
    let inputs = Inputs { script, ..inputs };
    check_finds(&inputs, &type_record(0, 3, 3));
    run_reports(&inputs, 1000, 0, 1, 1, Some(&record(1, 3, 3, 0)));
    // And it decides an end: a pair of group 1 protected by group 2 is for group 3, not for the larger of the two.
    let inputs = cases::joined_readers(2);
    check_refuses(&inputs, 21, 0);
    run_reports(&inputs, 1000, 2, 1, 4, None);
    assert_eq!(report_of(&inputs), "refused 21 at 0\n");
    let inputs = cases::joined_readers(3);
    assert_eq!(report_of(&inputs), "accepted 1\nend 0 steps 3 records 1\nclosed 0 0\n");
    check_finds(&inputs, &type_record(0, 3, 3));
    run_reports(&inputs, 1000, 0, 3, 1, Some(&record(1, 3, 3, 0)));
}

#[test]
fn case_k() {
    assert_eq!(groups_check(&words(&[1, 2])), no(6, 0));
    check_refuses(&cases::k(), 6, 0);
    run_refuses(&cases::k(), 6, 0);
    assert_eq!(report_of(&cases::k()), "refused 6 at 0\n");
}

#[test]
fn case_l() {
    assert_eq!(groups_check(&words(&[5, 6, 4])), no(7, 0));
    check_refuses(&cases::l(), 7, 0);
    run_refuses(&cases::l(), 7, 0);
    assert_eq!(report_of(&cases::l()), "refused 7 at 0\n");
}

#[test]
fn a_page_with_creators() {
    let inputs = cases::creators();
    check_finds(
        &inputs,
        &[
            type_record(2, 0, 0),
            made(type_record(2, 0, 0), 1, 1),
            UNIT_TYPE,
            made(type_record(1, 0, 0), 2, 2),
            UNIT_TYPE,
            UNIT_TYPE,
            made(UNIT_TYPE, 1, 0),
        ]
        .concat(),
    );
    let value = [
        record(3, 0, 0, 0),
        made(record(3, 0, 0, 0), 1, 1),
        made(record(1, 0, 0, 0), 2, 0),
        made(record(5, 0, 0, 0), 2, 2),
        record(1, 0, 0, 0),
        made(record(1, 0, 0, 0), 1, 0),
    ]
    .concat();
    run_reports(&inputs, 1000, 0, 6, 6, Some(&value));
    // The sheet shows none of them.
    let shown = "pair 0 0\npair 0 0\nunit 0 0\nsecond 0 0\nunit 0 0\nunit 0 0\n";
    assert_eq!(report_of(&inputs), format!("accepted 7\nend 0 steps 6 records 6\n{shown}"));
    for (changed, refused) in [
        (cases::creators_of_a_type(), "refused 36 at 5\n"),
        (cases::creators_of_an_object(), "refused 36 at 5\n"),
        (cases::creators_of_a_recursion(), "refused 23 at 10\n"),
        (cases::creators_of_an_argument(), "refused 22 at 9\n"),
    ] {
        assert_eq!(report_of(&changed), refused);
    }
}

#[test]
fn a_page_with_numbers() {
    let inputs = cases::numbers();
    let number = type_record(4, 1, 1);
    let sides = [made(type_record(0, 1, 0), 2, 0), made(UNIT_TYPE, 3, 3)];
    let sum = made(type_record(1, 0, 0), 1, 1);
    check_finds(&inputs, &[type_record(2, 0, 0), number, sum, sides[0], sides[1]].concat());
    let value = [
        record(3, 0, 0, 0),
        record(12, 1, 1, 42),
        made(record(5, 0, 0, 0), 1, 1),
        made(record(1, 0, 0, 0), 3, 3),
    ]
    .concat();
    run_reports(&inputs, 1000, 0, 3, 4, Some(&value));
    let shown = "pair 0 0\nclosed 0 0\nsecond 0 0\nunit 0 0\n";
    assert_eq!(report_of(&inputs), format!("accepted 5\nend 0 steps 3 records 4\n{shown}"));
    let shown = "pair 0 0\nnumber 0 0 10\npair 0 0\nnumber 0 0 0\nnumber 0 0 65535\n";
    let totals = format!("accepted 5\nend 0 steps 5 records 5\n{shown}");
    assert_eq!(report_of(&cases::totals()), totals);
    for (place, changed, refused) in [
        (3, record(1, 0, 0, 0), "refused 20 at 1\n"),
        (1, record(13, 1, 0, 0), "refused 21 at 1\n"),
        (4, record(14, 1, 0, 6), "refused 16 at 4\n"),
        (2, made(record(12, 1, 1, 40), 1, 2), "refused 36 at 2\n"),
        (1, record(13, 3, 0, 1), "refused 14 at 1\n"),
    ] {
        assert_eq!(report_of(&cases::numbers_with(place, changed)), refused);
    }
}

#[test]
fn a_missing_file_is_empty() {
    let whole = cases::b();
    assert_eq!(report_of(&Inputs { groups: vec![], ..whole.clone() }), "refused 2 at 0\n");
    assert_eq!(report_of(&Inputs { types: vec![], ..whole.clone() }), "refused 8 at 0\n");
    assert_eq!(report_of(&Inputs { script: vec![], ..whole }), "refused 13 at 0\n");
}

#[test]
fn every_word_is_printed() {
    assert_eq!(
        report_of(&cases::every_word()),
        "accepted 15\nend 0 steps 0 records 12\npair 0 0\npair 0 0\nfirst 0 0\nunit 0 0\n\
         second 0 0\nunit 0 0\npair 0 0\nfunction 0 0\npair 0 0\nnumber 0 0 300\nclosed 0 0\n"
    );
}
