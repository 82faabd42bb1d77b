//! Random scripts and tables as form 1 saves them are rewritten, and then checked, run and compared as the rules of
//! form 1 do (manual, 7.12); what the rewriting calls write; and that creators decide nothing but types.

mod common;

use std::rc::Rc;

use common::*;
use wigneld_tests::calls::{check_over, run_over};
use wigneld_tests::cases::Inputs;
use wigneld_tests::generate::*;
use wigneld_tests::limits::*;
use wigneld_tests::refusal::{Answer, Refusal};
use wigneld_tests::rewriting::{read_old_script, read_old_tables, widened_script, widened_types};
use wigneld_tests::rules::Rules;
use wigneld_tests::script::{Record, Term};
use wigneld_tests::types::{self, Comparison, Tables};

/// Any of the generators' terms: typed or closed, many with recursions.
fn some_term(rng: &mut Rng, tables: &Tables) -> Rc<Term> {
    let fuel = rng.below(60);
    let term = match rng.below(4) {
        0 => Some(untyped_script(rng, tables, fuel)),
        1 => None,
        _ => typed_recursion(rng, tables, fuel),
    };
    term.unwrap_or_else(|| some_typed(rng, tables, fuel))
}

/// A script with its tables, as it is, nearly so, or damaged, as form 1 saves it.
fn some_old_inputs(rng: &mut Rng) -> Inputs {
    let world = World::random(rng);
    let script = some_term(rng, &world.tables).write();
    let mut inputs = Inputs { groups: world.groups.clone(), types: world.types.clone(), script };
    match rng.below(8) {
        0 | 1 => inputs.script = near_miss(rng, &world.tables, &inputs.script),
        2 => inputs.types = near_miss_types(rng, &world),
        _ => {}
    }
    let mut old = saved_before(&inputs);
    match rng.below(12) {
        0 => old.script = damaged(rng, &old.script),
        1 if rng.one_in(4) => old.groups = damaged(rng, &old.groups),
        1 => old.types = damaged(rng, &old.types),
        _ => {}
    }
    // Damage may have made a recursion, whose byte 1 is 0 in form 1.
    for record in old.script.chunks_exact_mut(OLD_SCRIPT_BYTES).filter(|record| record[0] == 11) {
        record[1] = 0;
    }
    old
}

/// The tables of the old form, for the rules of form 1.
fn tables_before(old: &Inputs) -> Answer<Tables> {
    let tables = read_old_tables(&old.groups, &old.types)?;
    Ok(Tables { rules: Rules::Before, ..tables })
}

/// The question, 2 to 19, that the old form is refused by.
fn refused_before(old: &Inputs) -> Option<Refusal> {
    tables_before(old).and_then(|tables| read_old_script(&tables, &old.script)).err()
}

/// The script with its callers written, in the old form.
fn with_callers(types: &[u8], script: &[u8]) -> Vec<u8> {
    let mut script = script.to_vec();
    write_callers(types, &mut script);
    script
}

/// Both rewriting calls, in buffers of just the length: the new form, callers written first.
fn rewritten(old: &Inputs) -> Inputs {
    let records = |bytes: &[u8], width: usize| bytes.len() / width;
    let script = with_callers(&old.types, &old.script);
    let called = Inputs { script, ..old.clone() };
    let (types, script) =
        (records(&old.types, OLD_TYPE_BYTES), records(&old.script, OLD_SCRIPT_BYTES));
    let (answer, new_script) = rewrite_script_in(&called, script * SCRIPT_BYTES);
    assert_eq!(answer, Ok(script as u32));
    let (answer, new_types) = rewrite_types_in(&old.groups, &old.types, types * TYPE_BYTES);
    assert_eq!(answer, Ok(types as u32));
    Inputs { groups: old.groups.clone(), types: new_types, script: new_script }
}

#[test]
fn rewritten_scripts_are_checked_and_run_as_they_were() {
    let (mut accepted, mut refused, mut ends) = (0, [0; LAST_QUESTION + 1], [0; 5]);
    let (mut own_type, mut called) = (0, 0);
    let enough = examples(6000, |rng| {
        let old = some_old_inputs(rng);
        if let Some(refusal) = refused_before(&old) {
            // The rewriting refuses what was refused, with its number and place.
            let room = 2 * old.script.len();
            rewriting_refuses(&old, room, refusal.question, refusal.place);
            if refusal.question <= 12 {
                let Refusal { question, place } = refusal;
                rewriting_of_types_refuses(&old, room, question, place);
            }
            refused[refusal.question as usize] += 1;
            return;
        }
        let tables = tables_before(&old).expect("not refused");
        let before = widened_script(&old.script);
        let after = rewritten(&old);

        // The same question and place, or the same type; the same bytes.
        let (mut work, mut answer) = (filled(WORK_BYTES), filled(ANSWER_BYTES));
        let checked = check_over(&tables, &before, &mut work, &mut answer);
        assert_eq!(check_in(&after, WORK_BYTES, ANSWER_BYTES), (checked, work, answer));

        // The same end, steps and count, or the same refusal, in buffers of as many records; the
        // last term but for the callers, and no creator but group 0 in it.
        let length = before.len();
        let budget = if rng.one_in(10) { 300 } else { rng.below(40) as u64 };
        let lengths = match rng.below(4) {
            0 => [length + rng.below(200), length + rng.below(200)],
            1 => [rng.below(length + 60), rng.below(length + 60)],
            _ => [REPORT_RUN_BYTES; 2],
        };
        let [mut first, mut scratch] = lengths.map(filled);
        let ran = run_over(&tables, &before, budget, &mut first, &mut scratch);
        if let Ok(report) = ran {
            let end = report.records as usize * SCRIPT_BYTES;
            let last = with_callers(&old.types, &old_script(&first[..end]));
            first[..end].copy_from_slice(&widened_script(&last));
        }
        assert_eq!(run_in(&after, budget, lengths[0], lengths[1]), (ran, first, scratch));

        let mut records = after.script.chunks_exact(SCRIPT_BYTES).map(Record::read);
        own_type += records.any(|record| record.finds_own_type()) as u32;
        called += (after.script != before) as u32;
        match checked {
            Ok(_) => accepted += 1,
            Err(refusal) => refused[refusal.question as usize] += 1,
        }
        if let Ok(report) = ran {
            ends[report.end as usize] += 1;
        }
    });
    assert!(!enough || accepted > 0 && ends.iter().all(|&count| count > 0), "drawn: {ends:?}");
    assert!(!enough || own_type > 0, "scripts with cases that find their type were drawn");
    assert!(!enough || called > 0, "callers were written");
    for question in [8, 9, 10, 13, 14, 15, 16, 17, 19, 20, 21, 22, 23] {
        assert!(!enough || refused[question] > 0, "question {question} was drawn: {refused:?}");
    }
}

#[test]
fn rewritten_tables_compare_as_they_did() {
    let mut seen = [0; 3];
    let enough = examples(400, |rng| {
        let world = World::random(rng);
        let old = old_types(&world.types);
        let (answer, new) = rewrite_types_in(&world.groups, &old, world.types.len());
        assert_eq!(answer, Ok(world.tables.types.count() as u32));
        assert_eq!(types_check(&world.groups, &new), Ok(()));
        let inputs = Inputs { groups: world.groups.clone(), types: old, script: vec![] };
        let tables = tables_before(&inputs).expect("accepted");
        for _ in 0..30 {
            let (i, j) = (rng.below(tables.types.count()), rng.below(tables.types.count()));
            let (s, t) = (tables.types.at(i), tables.types.at(j));
            let was = types::compare(tables.security(), &s, &t);
            assert_eq!(compare(&world.groups, &new, i as u64, j as u64), Ok(was));
            seen[was as usize] += 1;
            // Where creators said same or below, so do readers alone.
            let (own, other) = (world.tables.types.at(i), world.tables.types.at(j));
            let now = types::compare(&world.tables.groups, &own, &other);
            assert!(now == Comparison::Neither || was >= now);
        }
    });
    assert!(!enough || seen.iter().all(|&count| count > 0), "all answers were drawn: {seen:?}");
}

/// A length about the one that is needed: short of it, exact, or past it.
fn about(rng: &mut Rng, needed: usize) -> usize {
    match rng.below(5) {
        0 => needed.saturating_sub(1),
        1 => rng.below(needed + 1),
        2 => needed,
        _ => needed + rng.below(40),
    }
}

/// What a rewriting call has to answer and leave in a filled buffer of this length, where the questions before 27 refuse with
/// this: the records of the old form, each with two zeros after it.
fn expected(
    refusal: Option<Refusal>,
    old: &[u8],
    old_width: usize,
    length: usize,
) -> (Answer<u32>, Vec<u8>) {
    let mut after = filled(length);
    let records = old.len() / old_width;
    if let Some(refusal) = refusal {
        return (Err(refusal), after);
    }
    if records * (old_width + 2) > length {
        return (no(27, 0), after);
    }
    for (index, record) in old.chunks(old_width).enumerate() {
        let new = &mut after[index * (old_width + 2)..][..old_width + 2];
        new.fill(0);
        new[..old_width].copy_from_slice(record);
    }
    (Ok(records as u32), after)
}

#[test]
fn the_rewriting_writes_the_new_form_and_nothing_else() {
    let (mut written, mut short, mut other) = (0, 0, 0);
    let enough = examples(4000, |rng| {
        let old = some_old_inputs(rng);
        let room = about(rng, old.script.len() / OLD_SCRIPT_BYTES * SCRIPT_BYTES);
        let wanted = expected(refused_before(&old), &old.script, OLD_SCRIPT_BYTES, room);
        assert_eq!(rewrite_script_in(&old, room), wanted);
        let tally = match wanted.0 {
            Ok(_) => &mut written,
            Err(Refusal { question: 27, .. }) => &mut short,
            Err(_) => &mut other,
        };
        *tally += 1;
        let room = about(rng, old.types.len() / OLD_TYPE_BYTES * TYPE_BYTES);
        let refusal = tables_before(&old).err();
        let wanted = expected(refusal, &old.types, OLD_TYPE_BYTES, room);
        assert_eq!(rewrite_types_in(&old.groups, &old.types, room), wanted);
    });
    let all = written > 0 && short > 0 && other > 0;
    assert!(!enough || all, "drawn: {written}, {short}, {other}");
}

/// The inputs with group 0 as every creator.
fn without_creators(inputs: &Inputs) -> Inputs {
    let Inputs { groups, types, script } = old_form(inputs);
    Inputs { groups, types: widened_types(&types), script: widened_script(&script) }
}

#[test]
fn creators_decide_no_run_and_only_narrow_types() {
    let (mut typed, mut by_creators, mut moved) = (0, 0, 0);
    let enough = examples(2500, |rng| {
        let world = World::random(rng);
        let mut script = some_term(rng, &world.tables).write();
        if rng.one_in(2) {
            script = near_miss(rng, &world.tables, &script);
        }
        let inputs = Inputs { groups: world.groups, types: world.types, script };
        let bare = without_creators(&inputs);

        // What is accepted is accepted without them, and has the same type but for them.
        let (checked, _, answer) = check_in(&inputs, WORK_BYTES, ANSWER_BYTES);
        let (plain, _, plain_answer) = check_in(&bare, WORK_BYTES, ANSWER_BYTES);
        match (checked, plain) {
            (Ok(records), plain) => {
                typed += 1;
                assert_eq!(plain, Ok(records));
                let length = records as usize * TYPE_BYTES;
                let types = |answer: &[u8]| old_types(&answer[..length]);
                assert_eq!(types(&answer), types(&plain_answer));
            }
            (Err(_), Ok(_)) => by_creators += 1,
            (Err(_), Err(_)) => {}
        }

        // No step asks for them: the same end, steps and count, and the last term but for them.
        let room = REPORT_RUN_BYTES;
        let budget = rng.below(60) as u64;
        let (ran, first, _) = run_in(&inputs, budget, room, room);
        let (plain, plain_first, _) = run_in(&bare, budget, room, room);
        if let Ok(report) = ran {
            assert_eq!(plain, Ok(report));
            assert_eq!(old_script(&first), old_script(&plain_first));
            moved += (report.steps > 0 && inputs != bare) as u32;
        }
    });
    assert!(!enough || typed > 0 && by_creators > 0 && moved > 0, "{typed} {by_creators} {moved}");
}
