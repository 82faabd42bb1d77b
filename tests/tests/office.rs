//! Scripts of the old office program (manual, 7.9 and 7.10): questions 28 to 30 with their places and order, what a
//! name means, import and export back and forth, and the callers that are put into them.

mod common;

use std::rc::Rc;

use common::*;
use wigneld_tests::calls;
use wigneld_tests::cases::{self, Inputs};
use wigneld_tests::generate::*;
use wigneld_tests::limits::*;
use wigneld_tests::office::{named, read_office_script, OfficeRecord};
use wigneld_tests::refusal::Answer;
use wigneld_tests::script::{Record, Term};
use wigneld_tests::types::read_tables;

// ---------------------------------------------------------------------------------------------
// Records

/// kind, r, number, first name, second name.
fn record(kind: u8, r: u8, number: u16, first: u16, second: u16) -> Vec<u8> {
    let record = Record { kind, r, ir: 0, zero: 0, number, c: 0, ic: 0 };
    OfficeRecord { record, first, second }.write().to_vec()
}

fn variable(name: u16) -> Vec<u8> {
    record(0, 0, 0, name, 0)
}

fn unit_record() -> Vec<u8> {
    record(1, 0, 0, 0, 0)
}

fn pair() -> Vec<u8> {
    record(3, 0, 0, 0, 0)
}

/// A function from unit: type 4 of case types.
fn function(name: u16) -> Vec<u8> {
    record(2, 0, 4, name, 0)
}

fn case(first: u16, second: u16) -> Vec<u8> {
    record(9, 0, 0, first, second)
}

fn injection() -> Vec<u8> {
    [record(4, 0, 0, 0, 0), unit_record()].concat()
}

fn over(old: &[Vec<u8>]) -> Inputs {
    Inputs { groups: cases::two_groups(), types: cases::case_types(), script: old.concat() }
}

fn new(kind: u8, number: u16) -> Vec<u8> {
    Record { kind, r: 0, ir: 0, zero: 0, number, c: 0, ic: 0 }.write().to_vec()
}

fn imports(old: &[Vec<u8>], expected: &[Vec<u8>]) {
    let inputs = over(old);
    let expected = expected.concat();
    let room = expected.len() + 7;
    let (answer, script) = import_in(&inputs, room);
    assert_eq!(answer, Ok((expected.len() / SCRIPT_BYTES) as u32));
    assert_eq!(&script[..expected.len()], expected);
    assert_eq!(script[expected.len()..], filled(room)[expected.len()..], "bytes past it stay");
    // As much room as it takes, and a byte less.
    assert_eq!(import_in(&inputs, expected.len()).0, answer);
    refuses(old, expected.len() - 1, 27, 0);
}

fn refuses(old: &[Vec<u8>], room: usize, question: u32, place: u32) {
    assert_eq!(import_in(&over(old), room), (no(question, place), filled(room)));
}

fn refused(old: &[Vec<u8>], question: u32, place: u32) {
    refuses(old, 400, question, place);
    // 27 comes last.
    refuses(old, 0, question, place);
}

// ---------------------------------------------------------------------------------------------
// What a name means

#[test]
fn a_variable_means_the_nearest_binder_of_its_name() {
    let (f, v) = (new(2, 4), |n| new(0, n));
    imports(&[function(7), variable(7)], &[f.clone(), v(0)]);
    imports(&[function(7), function(8), variable(7)], &[f.clone(), f.clone(), v(1)]);
    imports(&[function(7), function(7), variable(7)], &[f.clone(), f.clone(), v(0)]);
    imports(
        &[function(7), function(8), function(7), function(9), variable(8)],
        &[f.clone(), f.clone(), f.clone(), f.clone(), v(2)],
    );
    // A recursion binds its first name too.
    imports(&[record(11, 0, 3, 7, 0), function(8), variable(7)], &[new(11, 3), f.clone(), v(1)]);
    // Both bytes of a name count, and every name is one, 0 and 65,535 too.
    imports(&[function(263), function(7), variable(263)], &[f.clone(), f.clone(), v(1)]);
    imports(&[function(256), function(0), variable(256)], &[f.clone(), f.clone(), v(1)]);
    imports(&[function(0), function(9), variable(0)], &[f.clone(), f.clone(), v(1)]);
    imports(&[function(65_535), function(0), variable(65_535)], &[f.clone(), f, v(1)]);
    refused(&[function(5), variable(0)], 30, 1);
    refused(&[function(0), variable(256)], 30, 1);
}

#[test]
fn a_name_holds_in_its_operand_alone() {
    let (f, v, c) = (new(2, 4), |n| new(0, n), new(9, 0));
    let tested = [new(4, 0), new(1, 0)].concat();
    refused(&[pair(), function(7), variable(7), variable(7)], 30, 3);
    imports(
        &[case(7, 8), injection(), variable(7), variable(8)],
        &[c.clone(), tested.clone(), v(0), v(0)],
    );
    imports(
        &[case(7, 7), injection(), variable(7), variable(7)],
        &[c.clone(), tested.clone(), v(0), v(0)],
    );
    // The first name in the first branch only, the second in the second only.
    refused(&[case(7, 8), injection(), variable(8), variable(8)], 30, 3);
    refused(&[case(7, 8), injection(), variable(7), variable(7)], 30, 4);
    // Neither in the tested operand, where an outer one of that name is meant.
    refused(&[case(7, 8), variable(7), unit_record(), unit_record()], 30, 1);
    refused(&[case(7, 8), variable(8), unit_record(), unit_record()], 30, 1);
    imports(
        &[function(7), case(7, 7), variable(7), variable(7), variable(7)],
        &[f.clone(), c.clone(), v(0), v(0), v(0)],
    );
    imports(
        &[function(8), case(7, 6), variable(8), variable(8), variable(8)],
        &[f, c, v(0), v(1), v(1)],
    );
}

// ---------------------------------------------------------------------------------------------
// Questions 28 to 30

#[test]
fn question_28() {
    refused(&[], 28, 0);
    refused(&[unit_record(), vec![1]], 28, 0);
    refused(&[unit_record()[..9].to_vec()], 28, 0);
    // 6,000 records are not too many: pairs of units, cut short by one.
    let many = |count: usize| {
        let pairs = (count - 1) / 2;
        [vec![pair(); pairs], vec![unit_record(); count - pairs]].concat()
    };
    let inputs = over(&many(5999));
    with_large_stack(move || {
        // Deep to the left, so 18 is the first no: the length passes.
        assert_eq!(import_in(&inputs, 0).0, no(18, 256));
        assert_eq!(import_in(&over(&many(6000)), 0).0, no(17, 5999));
        assert_eq!(import_in(&over(&many(6001)), 0).0, no(28, 0));
        assert_eq!(import_in(&over(&many(8193)), 0).0, no(28, 0));
    });
}

/// A script of exactly this many records, shallow.
fn sized(size: usize) -> Inputs {
    Inputs { script: wide(size).write(), ..over(&[]) }
}

#[test]
fn six_thousand_records_go_back_and_forth() {
    for size in [1, 2, MOST_OFFICE_RECORDS - 1, MOST_OFFICE_RECORDS] {
        let inputs = sized(size);
        let (answer, old) = export_in(&inputs, OFFICE_BYTES * size);
        assert_eq!(answer, Ok(size as u32));
        let (answer, script) =
            import_in(&Inputs { script: old, ..inputs.clone() }, SCRIPT_BYTES * size);
        assert_eq!((answer, script), (Ok(size as u32), inputs.script));
    }
    for size in [MOST_OFFICE_RECORDS + 1, MOST_SCRIPT_RECORDS] {
        let inputs = sized(size);
        assert_eq!(export_in(&inputs, 0), (no(28, 0), vec![]));
        assert_eq!(export_in(&inputs, 11 * size), (no(28, 0), filled(11 * size)));
    }
}

#[test]
fn question_29() {
    // Each kind with each name field set, over what makes it a term of the right form.
    let one = |head: Vec<u8>| vec![head, unit_record()];
    let two = |head: Vec<u8>| vec![head, unit_record(), unit_record()];
    for name in [1, 255, 256, 65_535] {
        for (first, second) in [(name, 0), (0, name), (name, name)] {
            refused(&[record(1, 0, 0, first, second)], 29, 0);
            refused(&two(record(3, 0, 0, first, second)), 29, 0);
            refused(&one(record(4, 0, 0, first, second)), 29, 0);
            refused(&one(record(5, 0, 0, first, second)), 29, 0);
            refused(&two(record(6, 0, 0, first, second)), 29, 0);
            refused(&one(record(7, 0, 0, first, second)), 29, 0);
            refused(&one(record(8, 0, 0, first, second)), 29, 0);
            refused(&one(record(10, 0, 0, first, second)), 29, 0);
            refused(&[record(12, 0, 9, first, second)], 29, 0);
            refused(&two(record(13, 0, 0, first, second)), 29, 0);
            refused(&two(record(14, 0, 0, first, second)), 29, 0);
        }
        refused(&[function(3), record(0, 0, 0, 3, name)], 29, 1);
        refused(&[record(2, 0, 4, 3, name), variable(3)], 29, 0);
        refused(&[record(11, 0, 3, 3, name), function(4), variable(4)], 29, 0);
        // 14 passes a variable's number, and 29 takes it.
        refused(&[function(3), record(0, 0, name, 3, 0)], 29, 1);
        refused(&[record(0, 0, name, 3, 0)], 29, 0);
    }
    // A literal's number is its own.
    imports(&[record(12, 0, 9, 0, 0)], &[new(12, 9)]);
}

#[test]
fn one_question_after_another() {
    // Tables first, then the length.
    let mut inputs = over(&[]);
    inputs.groups[0] = 1;
    assert_eq!(import_in(&inputs, 0).0, no(6, 0));
    let mut inputs = over(&[]);
    inputs.types[3] = 1;
    assert_eq!(import_in(&inputs, 0).0, no(9, 0));
    // 14 to 18 of all records before 29 of any.
    let unnamed = record(1, 0, 0, 9, 0);
    refused(&[pair(), unnamed.clone(), record(1, 0, 1, 0, 0)], 14, 2);
    refused(&[pair(), unnamed.clone(), record(1, 2, 0, 0, 0)], 15, 2);
    refused(&[pair(), unnamed.clone(), record(2, 0, 6, 0, 0), variable(0)], 16, 2);
    refused(&[pair(), unnamed.clone()], 17, 2);
    refused(&[unnamed.clone(), unit_record()], 17, 1);
    // 29 of all records before 30 of any; each at the first such record.
    refused(&[pair(), variable(7), unnamed.clone()], 29, 2);
    refused(&[pair(), unnamed.clone(), unnamed], 29, 1);
    refused(&[pair(), pair(), unit_record(), variable(7), variable(8)], 30, 3);
    // What is asked of 19 isn't asked: no number is read.
    imports(&[function(7), variable(7)], &[new(2, 4), new(0, 0)]);
}

#[test]
fn deep_scripts_are_imported() {
    with_large_stack(|| {
        for depth in [255, 256] {
            // Functions around a variable that means the outermost, and the innermost.
            for name in [0, depth as u16 - 2] {
                let binders = (0..depth as u16 - 1).map(function);
                let old: Vec<Vec<u8>> = binders.chain([variable(name)]).collect();
                let number = depth as u16 - 2 - name;
                let f = vec![new(2, 4); depth - 1];
                imports(&old, &[f, vec![new(0, number)]].concat());
            }
        }
        let old: Vec<Vec<u8>> = (0..256).map(function).chain([variable(0)]).collect();
        refused(&old, 18, 256);
    });
}

// ---------------------------------------------------------------------------------------------
// Export

#[test]
fn export_names_each_binder_by_those_outside_it() {
    let f = new(2, 4);
    let script = [f.clone(), new(3, 0), f.clone(), new(0, 1), f, new(0, 0)].concat();
    let inputs = Inputs { script, ..over(&[]) };
    let expected =
        [function(0), pair(), function(1), variable(0), function(1), variable(1)].concat();
    let (answer, old) = export_in(&inputs, expected.len() + 3);
    assert_eq!(answer, Ok(6));
    assert_eq!(&old[..expected.len()], expected);
    assert_eq!(old[expected.len()..], filled(expected.len() + 3)[expected.len()..]);
    let short = expected.len() - 1;
    assert_eq!(export_in(&inputs, short), (no(27, 0), filled(short)));
    // Both names of a case, by its count and not by its depth.
    let tested = [new(4, 0), new(1, 0)].concat();
    let script = [new(2, 4), new(7, 0), new(3, 0), new(9, 0), tested, new(0, 0), new(0, 1)];
    let inputs = Inputs { script: [script.concat(), new(1, 0)].concat(), ..over(&[]) };
    let expected = [
        function(0),
        record(7, 0, 0, 0, 0),
        pair(),
        case(1, 1),
        injection(),
        variable(1),
        variable(0),
        unit_record(),
    ];
    assert_eq!(export_in(&inputs, expected.concat().len()), (Ok(9), expected.concat()));
}

#[test]
fn export_asks_2_to_19_first() {
    let refused = |script: Vec<u8>, question, place| {
        let inputs = Inputs { script, ..over(&[]) };
        assert_eq!(export_in(&inputs, 40), (no(question, place), filled(40)));
    };
    refused(vec![], 13, 0);
    refused(new(0, 0), 19, 0);
    refused([new(1, 0), new(1, 0)].concat(), 17, 1);
}

// ---------------------------------------------------------------------------------------------
// Random scripts

fn world_and_term(rng: &mut Rng) -> (World, Rc<Term>) {
    let world = World::random(rng);
    let fuel = rng.below(80);
    let term = match rng.below(3) {
        0 => untyped_script(rng, &world.tables, fuel),
        _ => some_typed(rng, &world.tables, fuel),
    };
    (world, term)
}

fn inputs_of(world: &World, script: Vec<u8>) -> Inputs {
    Inputs { groups: world.groups.clone(), types: world.types.clone(), script }
}

/// The script without creators.
fn uncreated(script: &[u8]) -> Vec<u8> {
    let mut script = script.to_vec();
    script.chunks_exact_mut(SCRIPT_BYTES).for_each(|record| record[6..].fill(0));
    script
}

#[test]
fn importing_an_export_gives_back_the_script() {
    with_large_stack(|| {
        examples(3000, |rng| {
            let (world, term) = world_and_term(rng);
            let inputs = inputs_of(&world, term.write());
            let records = term.size();
            let room = OFFICE_BYTES * records + rng.below(9);
            let (answer, old) = export_in(&inputs, room);
            assert_eq!(answer, Ok(records as u32));
            let old = old[..OFFICE_BYTES * records].to_vec();
            assert_eq!(old, named(&term, 0));
            let (answer, script) = import_in(&inputs_of(&world, old), SCRIPT_BYTES * records + 4);
            assert_eq!(answer, Ok(records as u32));
            assert_eq!(&script[..SCRIPT_BYTES * records], uncreated(&inputs.script));
            assert_eq!(
                script[SCRIPT_BYTES * records..],
                filled(SCRIPT_BYTES * records + 4)[SCRIPT_BYTES * records..]
            );
        });
    });
}

/// What is at each record: its binders' names from the outermost, found anew for every variable.
fn meanings(old: &[u8]) -> Vec<Option<u16>> {
    let records: Vec<OfficeRecord> = old.chunks(OFFICE_BYTES).map(OfficeRecord::read).collect();
    // For each record: its node, and which operand of it.
    let mut parents: Vec<Option<(usize, usize)>> = vec![None; records.len()];
    let mut open: Vec<(usize, usize)> = Vec::new();
    for at in 0..records.len() {
        while let Some(&(node, done)) = open.last() {
            if done < wigneld_tests::script::operand_count(records[node].record.kind) {
                break;
            }
            open.pop();
        }
        if let Some(last) = open.last_mut() {
            parents[at] = Some(*last);
            last.1 += 1;
        }
        open.push((at, 0));
    }
    let meaning = |at: usize| {
        let (mut passed, mut here) = (0, at);
        while let Some((node, operand)) = parents[here] {
            let OfficeRecord { record, first, second } = records[node];
            let name = match (record.kind, operand) {
                (2 | 11, 0) | (9, 1) => Some(first),
                (9, 2) => Some(second),
                _ => None,
            };
            if name == Some(records[at].first) {
                return Some(passed);
            }
            passed += name.is_some() as u16;
            here = node;
        }
        None
    };
    (0..records.len()).filter(|&at| records[at].record.kind == 0).map(meaning).collect()
}

#[test]
fn chance_names_mean_what_a_search_outward_finds() {
    let whole = with_large_stack(|| {
        let mut seen = [0; 3];
        let whole = examples(4000, |rng| {
            let (world, term) = world_and_term(rng);
            let old = office_script(rng, &term);
            let inputs = inputs_of(&world, old.clone());
            let (answer, script) = import_in(&inputs, SCRIPT_BYTES * term.size());
            let meant = meanings(&old);
            match answer {
                Ok(records) => {
                    assert_eq!(records as usize, term.size());
                    let numbers = script
                        .chunks(SCRIPT_BYTES)
                        .map(Record::read)
                        .filter(|record| record.kind == 0)
                        .map(|record| Some(record.number));
                    assert_eq!(numbers.collect::<Vec<_>>(), meant);
                    // The imported script passes the questions of a check.
                    let again = inputs_of(&world, script);
                    let (answer, _) = step_in(&again, 0);
                    assert!(answer.is_ok(), "{answer:?}");
                    seen[0] += 1;
                }
                Err(refusal) => match refusal.question {
                    29 => seen[1] += 1,
                    30 => {
                        let unbound = meant.iter().position(Option::is_none);
                        let variables = old.chunks(OFFICE_BYTES).enumerate();
                        let mut variables = variables.filter(|(_, record)| record[0] == 0);
                        let first = unbound.and_then(|at| variables.nth(at));
                        assert_eq!(first.map(|(place, _)| place as u32), Some(refusal.place));
                        seen[2] += 1;
                    }
                    _ => panic!("{refusal:?}"),
                },
            }
        });
        (whole, seen)
    });
    let (whole, seen) = whole;
    assert!(!whole || seen.iter().all(|&count| count > 20), "{seen:?}");
}

#[test]
fn renamed_binders_mean_the_same() {
    with_large_stack(|| {
        examples(2000, |rng| {
            let (world, term) = world_and_term(rng);
            let old = named(&term, 0);
            // Another name for each, distinct ones for distinct ones.
            let (by, turn) = (rng.word() as u16, rng.word() as u16 | 1);
            let renamed: Vec<u8> = old
                .chunks(OFFICE_BYTES)
                .map(OfficeRecord::read)
                .flat_map(|mut record| {
                    let kind = record.record.kind;
                    let other = |name: u16| name.wrapping_mul(turn).wrapping_add(by);
                    if wigneld_tests::office::uses_first(kind) {
                        record.first = other(record.first);
                    }
                    if wigneld_tests::office::uses_second(kind) {
                        record.second = other(record.second);
                    }
                    record.write()
                })
                .collect();
            let room = SCRIPT_BYTES * term.size();
            let plain = import_in(&inputs_of(&world, old), room);
            assert_eq!(import_in(&inputs_of(&world, renamed), room), plain);
            assert!(plain.0.is_ok());
        });
    });
}

#[test]
fn callers_are_put_into_old_scripts() {
    with_large_stack(|| {
        examples(2000, |rng| {
            let world = World::random(rng);
            let fuel = rng.below(60);
            let term = match typed_recursion(rng, &world.tables, fuel) {
                Some(term) if !rng.one_in(3) => term,
                _ => untyped_script(rng, &world.tables, fuel),
            };
            let mut old = office_script(rng, &term);
            // As the old program saved it.
            for record in old.chunks_exact_mut(OFFICE_BYTES).filter(|record| record[0] == 11) {
                record[1] = 0;
            }
            if rng.one_in(3) {
                old = damaged(rng, &old);
                for record in old.chunks_exact_mut(OFFICE_BYTES).filter(|record| record[0] == 11) {
                    record[1] = 0;
                }
            }
            let room = SCRIPT_BYTES * old.len() / OFFICE_BYTES + 8;
            let before = import_in(&inputs_of(&world, old.clone()), room);
            let mut called = old.clone();
            write_office_callers(&world.types, &mut called);
            let after = import_in(&inputs_of(&world, called), room);
            assert_eq!(after.0, before.0, "refused alike, or as many records");
            let mut expected = before.1;
            if let Ok(records) = before.0 {
                let length = SCRIPT_BYTES * records as usize;
                for record in expected[..length].chunks_mut(SCRIPT_BYTES) {
                    if record[0] == 11 {
                        let number = u16::from_le_bytes([record[4], record[5]]) as usize;
                        record[1] = world.types[TYPE_BYTES * number + 1];
                    }
                }
            }
            assert_eq!(after.1, expected);
        });
    });
}

#[test]
fn old_recursions_of_a_type_are_written_and_nothing_else() {
    let types = cases::case_types();
    let mut types_of_1 = types.clone();
    types_of_1[TYPE_BYTES * 3 + 1] = 1;
    let mut old = [
        record(11, 0, 3, 7, 8),
        record(11, 0, 6, 7, 0),
        record(9, 0, 3, 7, 0),
        vec![11, 0, 0, 0, 3, 0, 0, 0, 0],
    ]
    .concat();
    let mut expected = old.clone();
    expected[1] = 1;
    assert_eq!(write_office_callers(&types_of_1, &mut old), 1);
    assert_eq!(old, expected);
    assert_eq!(write_office_callers(&[], &mut old), 0);
    assert_eq!(old, expected);
}

/// The second implementation alone: import's term is that of the script that it writes.
#[test]
fn the_imported_term_is_what_is_written() {
    with_large_stack(|| {
        examples(500, |rng| {
            let (world, term) = world_and_term(rng);
            let old = office_script(rng, &term);
            let tables = read_tables(&world.groups, &world.types).expect("tables of a world");
            let found: Answer<Rc<Term>> = read_office_script(&tables, &old);
            let mut script = vec![0; SCRIPT_BYTES * term.size()];
            let answer = calls::import(&world.groups, &world.types, &old, &mut script);
            assert_eq!(answer.is_ok(), found.is_ok());
            if let Ok(found) = found {
                assert_eq!(script, found.write());
            }
        });
    });
}
