//! The check of scripts that always finish (manual, 7.6): checking with 39 after 19, at the first record that is a
//! recursion.

mod common;

use std::rc::Rc;

use common::records::*;
use common::*;
use wigneld_tests::cases::{self, Inputs};
use wigneld_tests::generate::*;
use wigneld_tests::limits::*;
use wigneld_tests::refusal::{Answer, Refusal};
use wigneld_tests::script::Term;
use wigneld_tests::steps::End;

const RECURSION: u8 = 11;

/// The profile check and checking, in equal buffers.
fn both(inputs: &Inputs, work: usize, answer: usize) -> [(Answer<u32>, Vec<u8>, Vec<u8>); 2] {
    [
        check_profile_with(inputs, filled(work), filled(answer)),
        check_with(inputs, filled(work), filled(answer)),
    ]
}

fn profile_refuses(inputs: &Inputs, question: u32, place: u32) {
    let [(result, work, answer), _] = both(inputs, WORK_BYTES + 3, ANSWER_BYTES + 5);
    assert_eq!(result, no(question, place));
    assert_eq!(answer, filled(ANSWER_BYTES + 5), "a refusal writes no answer");
    if (Refusal { question, place }).is_of_typing() {
        assert!(work.iter().all(|&byte| byte == 0), "typing leaves the work buffer all zeros");
    } else {
        assert_eq!(work, filled(WORK_BYTES + 3), "unchanged before typing");
    }
}

fn first_recursion(inputs: &Inputs) -> Option<usize> {
    inputs.script.chunks(SCRIPT_BYTES).position(|record| record[0] == RECURSION)
}

fn inputs_of(world: &World, term: &Term) -> Inputs {
    Inputs { groups: world.groups.clone(), types: world.types.clone(), script: term.write() }
}

// ---------------------------------------------------------------------------------------------
// Written out, over case G's tables, whose type 3 is a function

fn of(records: &[Record]) -> Inputs {
    Inputs { script: records.concat(), ..cases::g() }
}

/// A recursion of type 3 whose body is a function: three records.
fn rule() -> [Record; 3] {
    [recursion(3), function(4), variable(1)]
}

#[test]
fn the_first_recursion_is_told_wherever_it_stands() {
    let [r, f, v] = rule();
    profile_refuses(&of(&[r, f, v]), 39, 0);
    profile_refuses(&of(&[PAIR, r, f, v, r, f, v]), 39, 1);
    profile_refuses(&of(&[PAIR, UNIT, r, f, v]), 39, 2);
    // In the body of another.
    profile_refuses(&of(&[r, f, r, f, v]), 39, 0);
}

#[test]
fn it_comes_after_19_and_before_typing() {
    let [r, f, v] = rule();
    profile_refuses(&of(&[PAIR, r, f, v, variable(0)]), 19, 4);
    profile_refuses(&of(&[PAIR, APPLY, UNIT, UNIT, r, f, v]), 39, 4);
    profile_refuses(&of(&[APPLY, UNIT, UNIT]), 20, 0);
    let [(result, ..), _] = both(&of(&[r, f, v]), WORK_BYTES - 1, ANSWER_BYTES);
    assert_eq!(result, no(1, 0));
}

// ---------------------------------------------------------------------------------------------
// Drawn

/// Without a recursion it is checking; with one, what comes before 39 is asked as ever.
#[test]
fn the_profile_check_is_checking_but_for_39() {
    let (mut same, mut refused, mut earlier) = (0, 0, 0);
    let enough = examples(2000, |rng| {
        let world = World::random(rng);
        let fuel = rng.below(80);
        let term: Rc<Term> = match rng.below(3) {
            0 => untyped_script(rng, &world.tables, fuel),
            1 => typed_recursion(rng, &world.tables, fuel)
                .unwrap_or_else(|| some_typed(rng, &world.tables, fuel)),
            _ => some_typed(rng, &world.tables, fuel),
        };
        let mut inputs = inputs_of(&world, &term);
        if rng.one_in(3) {
            inputs.script = near_miss(rng, &world.tables, &inputs.script);
        }
        let [profile, plain] =
            both(&inputs, WORK_BYTES + rng.below(9), ANSWER_BYTES + rng.below(9));
        let early = plain.0.err().is_some_and(|no| !no.is_of_typing());
        match first_recursion(&inputs) {
            Some(place) if !early => {
                assert_eq!(profile.0, no(39, place as u32));
                assert_eq!(profile.1, filled(profile.1.len()), "nothing is written");
                assert_eq!(profile.2, filled(profile.2.len()), "nothing is written");
                refused += 1;
            }
            found => {
                earlier += usize::from(found.is_some());
                assert_eq!(profile, plain);
                same += 1;
            }
        }
    });
    assert!(!enough || (same > 0 && refused > 0 && earlier > 0), "{same} {refused} {earlier}");
}

/// What it accepts comes to a value after some number of steps: with a budget that no drawn script uses up, each run
/// ends with a value or at a limit.
#[test]
fn accepted_scripts_in_the_profile_finish() {
    let (mut values, mut limits, mut longest) = (0, 0, 0);
    let enough = examples(2000, |rng| {
        let world = World::random(rng);
        let fuel = rng.below(200);
        let inputs = inputs_of(&world, &some_typed(rng, &world.tables, fuel));
        let [(result, ..), _] = both(&inputs, WORK_BYTES, ANSWER_BYTES);
        if result.is_err() {
            return;
        }
        let (report, ..) = run_in(&inputs, 100_000, REPORT_RUN_BYTES, REPORT_RUN_BYTES);
        let report = report.expect("a script that passes 2 to 19 runs");
        assert!(matches!(report.end, End::Value | End::TooBig), "{report:?}");
        values += usize::from(report.end == End::Value);
        limits += usize::from(report.end == End::TooBig);
        longest = longest.max(report.steps);
    });
    assert!(
        !enough || (values > 0 && longest > 1),
        "{values} values, {limits} limits, {longest} steps"
    );
}
