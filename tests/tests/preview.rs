//! Previews and the moves that take them back (manual, 6.6). What a preview gives and that nothing is written but by a
//! move that moves; question 35, its place and its order; stale and forged previews; the number of steps so far.

mod common;

use common::records::*;
use common::*;
use wigneld_tests::calls::Preview;
use wigneld_tests::cases::{self, record, Inputs};
use wigneld_tests::generate::*;
use wigneld_tests::limits::*;
use wigneld_tests::script::Term;
use wigneld_tests::steps::End;

const LARGEST: u64 = u64::MAX;

fn of(records: &[Record]) -> Inputs {
    Inputs { script: records.concat(), ..cases::b() }
}

fn inputs_of(world: &World, term: &Term) -> Inputs {
    Inputs { groups: world.groups.clone(), types: world.types.clone(), script: term.write() }
}

/// A protect that its step takes away.
fn moving() -> Inputs {
    of(&[PROTECT, UNIT])
}

/// A script for each end of a step into this much room: its record count after the step.
fn each_end() -> [(u64, Inputs, usize, u64); 5] {
    let read = [APPLY, record(2, 1, 0, 0), variable(0), UNIT];
    [
        (0, of(&[PAIR, UNIT, UNIT]), 0, 3),
        (1, moving(), 8, 1),
        (2, of(&read), 600, 4),
        (3, of(&[APPLY, UNIT, UNIT]), 600, 3),
        (4, moving(), 7, 2),
    ]
}

/// Other ends and counts than these: near ones, and those that are the same in their lowest 8, 16 or 32 bits.
fn others(end: u64, records: u64) -> Vec<(u64, u64)> {
    let ends =
        (0..6).filter(|&other| other != end).chain([8, 16, 32, 63].map(|bit| end + (1 << bit)));
    let near = [records - 1, records + 1, 0, LARGEST];
    let counts = near.into_iter().chain([8, 16, 32, 63].map(|bit| records + (1 << bit)));
    ends.map(|other| (other, records)).chain(counts.map(|other| (end, other))).collect()
}

// ---------------------------------------------------------------------------------------------
// Previews

#[test]
fn a_preview_gives_the_end_the_count_and_the_steps() {
    for (end, inputs, length, records) in each_end() {
        for steps in [0, 7, LARGEST] {
            let shown = preview_of(&inputs, length as u64, steps);
            assert_eq!(shown, Ok(Preview { end, records, steps }));
        }
    }
    // Case B: a step into a pair of bytes less is too big, into any more it moves; no length is too large to be asked.
    let b = cases::b();
    for (length, end, records) in
        [(24, 1, 3), (23, 4, 7), (0, 4, 7), (1 << 32, 1, 3), (LARGEST, 1, 3)]
    {
        assert_eq!(preview_of(&b, length, 5), Ok(Preview { end, records, steps: 5 }));
    }
}

#[test]
fn a_preview_is_refused_as_the_step_is() {
    for (_, inputs) in cases::all() {
        let (step, _) = step_in(&inputs, 600);
        let shown = preview_of(&inputs, 600, 3).map(|shown| (shown.end, shown.records));
        assert_eq!(shown, step.map(|report| (report.end as u64, report.records.into())));
    }
}

// ---------------------------------------------------------------------------------------------
// Moves

#[test]
fn a_move_with_each_end() {
    for (end, inputs, length, records) in each_end() {
        for steps in [0, 1, 255, 256, (1 << 32) - 1, LARGEST - 1, LARGEST] {
            let (result, written) = move_in(&inputs, Preview { end, records, steps }, length);
            let moved = result.expect("its own preview is taken");
            assert_eq!((moved.step.end as u64, u64::from(moved.step.records)), (end, records));
            let raised = if end == 1 && steps != LARGEST { steps + 1 } else { steps };
            assert_eq!(moved.steps, raised, "from {steps} with end {end}");
            let (step, as_stepped) = step_in(&inputs, length);
            assert_eq!((step, written), (Ok(moved.step), as_stepped));
        }
    }
}

#[test]
fn question_35_of_each_other_end_and_count() {
    for (end, inputs, length, records) in each_end() {
        for (end, records) in others(end, records) {
            for steps in [0, LARGEST] {
                move_refuses(&inputs, Preview { end, records, steps }, length, 35, 0);
            }
        }
    }
}

#[test]
fn question_35_comes_after_19_and_36() {
    let tables = cases::b();
    let good = [PAIR, UNIT, UNIT];
    let refused: [(Inputs, u32, u32); 10] = [
        (Inputs { groups: vec![], ..tables.clone() }, 2, 0),
        (Inputs { groups: words(&[5, 6, 4]), ..tables.clone() }, 7, 0),
        (Inputs { types: vec![], ..tables.clone() }, 8, 0),
        (Inputs { script: vec![], ..tables.clone() }, 13, 0),
        (of(&[bare(99)]), 14, 0),
        (of(&[PAIR, UNIT, record(1, 0, 1, 0)]), 15, 2),
        (of(&[function(99), UNIT]), 16, 0),
        (of(&good[..2]), 17, 2),
        (of(&[UNIT, UNIT]), 17, 1),
        (cases::f(), 19, 0),
    ];
    for (inputs, question, place) in refused {
        for (end, records) in [(0, 3), (1, 1), (5, 0), (LARGEST, LARGEST)] {
            move_refuses(&inputs, Preview { end, records, steps: 4 }, 600, question, place);
        }
    }
    // 36 of a script record, and of a type record.
    let creators = of(&[PAIR, UNIT, [1, 0, 0, 0, 0, 0, 0, 1]]);
    move_refuses(&creators, Preview { end: 5, records: 9, steps: 0 }, 600, 36, 2);
    // Questions of typing are none of a move's: what the check refuses with 20 is previewed and moved.
    let untyped = of(&[APPLY, UNIT, UNIT]);
    check_refuses(&untyped, 20, 0);
    let shown = preview_of(&untyped, 600, 0).expect("not refused");
    assert!(move_in(&untyped, shown, 600).0.is_ok());
}

#[test]
fn a_stale_preview_is_taken_where_end_and_count_are_the_same() {
    // Shown of one script and handed back with another: the step of the other is made, or refused where it shows.
    let (one, two) = (of(&[PROTECT, UNIT]), of(&[PROTECT, literal(9)]));
    let shown = preview_of(&one, 600, 12).expect("not refused");
    let (result, written) = move_in(&two, shown, 600);
    let moved = result.expect("the same end and count");
    assert_eq!((moved.step.end, moved.step.records, moved.steps), (End::Moved, 1, 13));
    assert_eq!(written[..SCRIPT_BYTES], literal(9));
    let longer = of(&[PROTECT, PAIR, UNIT, UNIT]);
    move_refuses(&longer, shown, 600, 35, 0);
    // Handed back twice, it is that of a script which is a value by now.
    let (_, written) = move_in(&one, shown, 600);
    let value = Inputs { script: written[..SCRIPT_BYTES].to_vec(), ..one };
    move_refuses(&value, shown, 600, 35, 0);
}

#[test]
fn a_buffer_of_another_length_is_refused_only_where_end_or_count_differ() {
    let b = cases::b();
    let roomy = preview_of(&b, 600, 0).expect("not refused");
    for length in [24, 25, 100, 600, 70_000] {
        let (result, _) = move_in(&b, roomy, length);
        assert_eq!(result.expect("the same end and count").step.end, End::Moved);
    }
    for length in [0, 1, 16, 23] {
        move_refuses(&b, roomy, length, 35, 0);
    }
    let narrow = preview_of(&b, 23, 0).expect("not refused");
    for length in [0, 8, 23] {
        assert_eq!(move_in(&b, narrow, length).0.expect("the same").step.end, End::TooBig);
    }
    for length in [24, 600] {
        move_refuses(&b, narrow, length, 35, 0);
    }
    // What doesn't move needs no room, and goes by none.
    for (end, inputs, _, records) in each_end() {
        if end != 1 && end != 4 {
            for length in [0, 7, 8, 600] {
                assert!(move_in(&inputs, Preview { end, records, steps: 0 }, length).0.is_ok());
            }
        }
    }
}

/// Moves, each with what its preview gave, until one doesn't move or there were `most`: the last script, its end, and the steps.
fn moved_through(inputs: &Inputs, length: usize, most: u64) -> (Vec<u8>, u64, u64) {
    let mut reached = inputs.clone();
    let mut steps = 0;
    loop {
        let shown =
            preview_of(&reached, length as u64, steps).expect("a reached term isn't refused");
        if shown.end != 1 || steps == most {
            return (reached.script, shown.end, steps);
        }
        let (moved, written) = move_in(&reached, shown, length);
        steps = moved.expect("its own preview is taken").steps;
        reached.script = written[..shown.records as usize * SCRIPT_BYTES].to_vec();
    }
}

#[test]
fn case_g_goes_on_and_on() {
    let (script, end, steps) = moved_through(&cases::g(), 6000, 100);
    let last =
        run_reports(&cases::g(), 100, 1, 100, (script.len() / SCRIPT_BYTES) as u32, Some(&script));
    assert_eq!((last, end, steps), (script, 1, 100));
    // Case H: nothing in 72 bytes.
    let (script, end, steps) = moved_through(&cases::g(), 72, 100);
    assert_eq!((script, end, steps), (cases::g().script, 4, 0));
}

// ---------------------------------------------------------------------------------------------
// Drawn

/// A script of any kind, over drawn tables.
fn drawn_script(rng: &mut Rng) -> Inputs {
    let world = World::random(rng);
    let fuel = rng.below(60);
    let term = match rng.below(4) {
        0 => some_typed(rng, &world.tables, fuel),
        1 => untyped_value(rng, &world.tables, fuel),
        _ => untyped_script(rng, &world.tables, fuel),
    };
    let mut inputs = inputs_of(&world, &term);
    if rng.one_in(8) {
        inputs.script = near_miss(rng, &world.tables, &inputs.script);
    }
    inputs
}

/// A length of a written buffer: short, about as long as the script, or longer.
fn drawn_length(rng: &mut Rng, script: usize) -> usize {
    match rng.below(4) {
        0 => rng.below(script + 1),
        1 => script + rng.below(17),
        _ => script + rng.below(900),
    }
}

#[test]
fn a_preview_and_a_move_are_the_step() {
    let mut ends = [0; 5];
    let enough = examples(1500, |rng| {
        let inputs = drawn_script(rng);
        let length = drawn_length(rng, inputs.script.len());
        let steps = rng.word();
        let buffer = rng.bytes(length);
        let (step, as_stepped) = step_with(&inputs, buffer.clone());
        match preview_of(&inputs, length as u64, steps) {
            Ok(shown) => {
                let (moved, written) = move_with(&inputs, shown, buffer);
                let moved = moved.expect("its own preview is taken");
                assert_eq!((Ok(moved.step), written), (step, as_stepped));
                assert_eq!(
                    (moved.step.end as u64, u64::from(moved.step.records)),
                    (shown.end, shown.records)
                );
                assert_eq!(moved.steps, steps + u64::from(shown.end == 1 && steps != LARGEST));
                ends[shown.end as usize] += 1;
            }
            Err(refusal) => assert_eq!(step, Err(refusal)),
        }
    });
    assert!(!enough || ends.iter().all(|&count| count > 0), "all five ends were drawn: {ends:?}");
}

#[test]
fn other_previews_are_refused_35() {
    let (mut taken, mut refused) = (0, 0);
    let enough = examples(1500, |rng| {
        let inputs = drawn_script(rng);
        let lengths = [0; 2].map(|_| drawn_length(rng, inputs.script.len()));
        let Ok(shown) = preview_of(&inputs, lengths[0] as u64, rng.word()) else { return };
        let given = handed_back(rng, shown);
        let now = preview_of(&inputs, lengths[1] as u64, given.steps).expect("not refused");
        let buffer = rng.bytes(lengths[1]);
        let (step, as_stepped) = step_with(&inputs, buffer.clone());
        let (moved, written) = move_with(&inputs, given, buffer.clone());
        if (given.end, given.records) == (now.end, now.records) {
            assert_eq!((moved.map(|moved| moved.step), written), (step, as_stepped));
            taken += 1;
        } else {
            assert_eq!((moved, written), (no(35, 0), buffer));
            refused += 1;
        }
    });
    assert!(!enough || (taken > 0 && refused > 0), "{taken} taken, {refused} refused");
}

#[test]
fn moves_are_the_run() {
    examples(400, |rng| {
        let world = World::random(rng);
        let fuel = rng.below(60);
        let inputs = inputs_of(&world, &untyped_script(rng, &world.tables, fuel));
        let most = rng.below(20) as u64;
        let length = inputs.script.len() + rng.below(900);
        let (script, end, steps) = moved_through(&inputs, length, most);
        let (run, first, _) = run_in(&inputs, most, length, length);
        let run = run.expect("not refused");
        // Of a term that is no value a spent run doesn't say what its next step would.
        let run_end = if steps == most && end != 0 { 1 } else { end };
        assert_eq!((run.end as u64, run.steps), (run_end, steps));
        assert_eq!(run.records as usize * SCRIPT_BYTES, script.len());
        assert_eq!(first[..script.len()], script);
    });
}
