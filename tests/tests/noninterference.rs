//! Nothing is learned from what may not be seen (manual, 11). In accepted scripts a closed part is exchanged for
//! another of the same reported type; where the type of the whole doesn't let its reader see what the part may
//! influence, runs that end 0 end alike. And its dual: so they do where that type doesn't let others than its indirect
//! creators have had a hand in it, and the part does.

mod common;

use std::rc::Rc;

use common::runs::{over, value_of};
use common::*;
use wigneld_tests::cases::{self, type_record, Inputs, UNIT_TYPE};
use wigneld_tests::exchange::accepted;
use wigneld_tests::generate::*;
use wigneld_tests::groups::{Group, Groups};
use wigneld_tests::limits::*;
use wigneld_tests::refusal::Answer;
use wigneld_tests::script::{Record, Side, Term};
use wigneld_tests::steps::End;
use wigneld_tests::types::{at_or_below, read_type, Form, Marks, Type};
use wigneld_tests::typing::type_of;

/// The type that checking reports.
fn reported(inputs: &Inputs) -> Answer<Type> {
    let (result, _, answer) = check_in(inputs, WORK_BYTES, ANSWER_BYTES);
    result.map(|records| read_type(&answer[..records as usize * TYPE_BYTES]))
}

/// The groups of all records of a type, unless it holds a function.
fn all_marks(s: &Type) -> Option<Vec<Marks>> {
    let mut all = vec![s.marks];
    match &s.form {
        Form::Unit | Form::Number => {}
        Form::Sum(a, b) | Form::Pair(a, b) => {
            all.extend(all_marks(a)?);
            all.extend(all_marks(b)?);
        }
        Form::Function(..) => return None,
    }
    Some(all)
}

/// Which of the two is claimed, of readers or of creators.
#[derive(Debug, Clone, Copy, PartialEq, Eq)]
enum Claim {
    Unseen,
    MadeByOthers,
}

impl Claim {
    /// The lowest type at or above this one whose readers are all ⊑ its outermost ones and whose indirect readers all ⊑
    /// its outermost indirect ones, or whose indirect creators are all ⊒ its outermost ones; unless it holds a
    /// function. A whole script has it by subsumption.
    fn whole(self, groups: &Groups, s: &Type) -> Option<Type> {
        let all = all_marks(s)?;
        let joined =
            |of: fn(&Marks) -> Group| all.iter().fold(0, |g, marks| groups.join(g, of(marks)));
        let marks = match self {
            Claim::Unseen => {
                Marks { r: joined(|marks| marks.r), ir: joined(|marks| marks.ir), ..s.marks }
            }
            Claim::MadeByOthers => {
                let ic = all.iter().fold(highest(groups), |g, marks| groups.meet(g, marks.ic));
                Marks { ic, ..s.marks }
            }
        };
        let whole = Type { marks, form: s.form.clone() };
        assert!(at_or_below(groups, s, &whole));
        Some(whole)
    }

    /// The groups of an object with this one as its ir, or as its ic, if they are ordered.
    fn marks_with(self, groups: &Groups, marks: Marks, g: Group) -> Option<Marks> {
        match self {
            Claim::Unseen => groups.below(g, marks.r).then_some(Marks { ir: g, ..marks }),
            Claim::MadeByOthers => groups.below(g, marks.c).then_some(Marks { ic: g, ..marks }),
        }
    }

    /// May a part of such a type have no influence on such a whole?
    fn parted(self, groups: &Groups, part: Marks, whole: &Type) -> bool {
        match self {
            Claim::Unseen => !groups.below(part.ir, whole.marks.ir),
            Claim::MadeByOthers => !groups.below(whole.marks.ic, part.ic),
        }
    }
}

/// The closed parts of a script that are accepted by themselves: where they start and end, and their types. Not the whole script,
/// whose type always shows its own groups.
fn closed_parts(world: &World, script: &[u8]) -> Vec<(usize, usize, Type)> {
    let part = |at: usize| {
        let part = subterm(script, (at / SCRIPT_BYTES) as u64);
        Some((at, at + part.len(), accepted(&world.tables, part)?))
    };
    (SCRIPT_BYTES..script.len()).step_by(SCRIPT_BYTES).filter_map(part).collect()
}

/// What was drawn of what the theorem speaks of.
#[derive(Debug, Default)]
struct Seen {
    pairs: u32,
    /// Pairs whose parts come to different values,
    different: u32,
    /// pairs of those whose runs make different numbers of steps,
    by_other_steps: u32,
    /// pairs that have the whole's type by subsumption alone,
    by_subsumption: u32,
    /// pairs that end with a number somewhere,
    with_numbers: u32,
    /// and pairs around whose part there is a recursion, a case that finds its type, and what others than group 0 made.
    recursions: u32,
    own_types: u32,
    created: u32,
    /// Pairs of which one run alone ends 0, of which nothing is said.
    one_ended: u32,
    /// Scripts whose type shows what the part may influence, and that end differently.
    told_apart: u32,
}

/// A closed part to exchange, and the type of what is put in its place: mostly one that may not influence a whole of this type.
fn drawn_part(
    rng: &mut Rng,
    world: &World,
    claim: Claim,
    (script, whole): (&[u8], &Type),
) -> Option<(usize, usize, Type)> {
    let groups = &world.tables.groups;
    let parts = closed_parts(world, script);
    if parts.is_empty() {
        return None;
    }
    let (start, end, found) = rng.pick(&parts).clone();
    // Whoever may read the part may read it still, so the nodes around it pass 21.
    let any = rng.one_in(8);
    let all = (0..groups.count() as Group).filter_map(|g| claim.marks_with(groups, found.marks, g));
    let parted = |&marks: &Marks| any || claim.parted(groups, marks, whole);
    let hidden: Vec<Marks> = all.filter(parted).collect();
    if hidden.is_empty() {
        return None;
    }
    Some((start, end, Type { marks: *rng.pick(&hidden), form: found.form }))
}

/// Two scripts of this reported type.
fn drawn_two(rng: &mut Rng, world: &World, own: &Type) -> Option<[Inputs; 2]> {
    let mut draw = || {
        let fuel = rng.below(20);
        typed_exactly(rng, &world.tables, own, fuel).map(|term| over(world, &term.write()))
    };
    let two = [draw()?, draw()?];
    for script in &two {
        assert_eq!(reported(script), Ok(own.clone()));
    }
    Some(two)
}

/// Exchanges a closed part of an accepted script, whose type is `whole`, for two others of one type.
fn exchange(
    rng: &mut Rng,
    world: &World,
    claim: Claim,
    (script, whole): (&[u8], &Type),
    seen: &mut Seen,
) {
    let groups = &world.tables.groups;
    let drawn = drawn_part(rng, world, claim, (script, whole));
    let Some((start, end, secret)) = drawn else { return };
    let Some(parts) = drawn_two(rng, world, &secret) else { return };
    let around = [&script[..start], &script[end..]];
    let put = |part: &Inputs| over(world, &[around[0], &part.script, around[1]].concat());
    let scripts = parts.each_ref().map(put);
    // Either may be too deep. Typing asks of a part nothing but its type.
    let [Ok(found), Ok(other)] = scripts.each_ref().map(reported) else { return };
    assert_eq!(found, other);
    let Some(whole) = claim.whole(groups, &found) else { return };
    let unseen = claim.parted(groups, secret.marks, &whole);
    let ran = scripts.each_ref().map(|script| value_of(rng, script));
    let [Some((value, steps)), Some((other, other_steps))] = &ran else {
        seen.one_ended += (unseen && ran.iter().any(Option::is_some)) as u32;
        return;
    };
    if !unseen {
        seen.told_apart += (value != other) as u32;
        return;
    }

    assert_eq!(value, other, "a part of type {secret:?} is learned of by {whole:?}");
    same_sheets(groups, [value, other].map(|value| over(world, value)));
    let apart = parts.each_ref().map(|part| value_of(rng, part).map(|(value, _)| value));
    let different = apart[0] != apart[1] && apart.iter().all(Option::is_some);
    seen.pairs += 1;
    seen.different += different as u32;
    seen.by_other_steps += (different && steps != other_steps) as u32;
    seen.by_subsumption += (whole != found) as u32;
    count_kinds(value, &around.concat(), seen);
}

/// The sheets for every group are the same.
fn same_sheets(groups: &Groups, values: [Inputs; 2]) {
    for group in 0..groups.count() as u64 {
        let room = values[0].script.len() / SCRIPT_BYTES * SHEET_BYTES;
        let [sheet, other] = values.each_ref().map(|value| sheet_in(value, group, room));
        assert!(sheet.0.is_ok());
        assert_eq!(sheet, other);
    }
}

/// Counts what the value has, and what stands around the exchanged part.
fn count_kinds(value: &[u8], around: &[u8], seen: &mut Seen) {
    let any = |script: &[u8], of: fn(Record) -> bool| {
        script.chunks(SCRIPT_BYTES).any(|record| of(Record::read(record))) as u32
    };
    seen.with_numbers += any(value, |record| record.kind == 12);
    seen.recursions += any(around, |record| record.kind == 11);
    seen.own_types += any(around, |record| record.finds_own_type());
    seen.created += any(around, |record| record.c != 0);
}

/// Tries the claim on so many scripts.
fn tried(claim: Claim, usual: u64) -> (bool, Seen) {
    let mut seen = Seen::default();
    let enough = examples(usual, |rng| {
        let world = World::random(rng);
        let fuel = rng.below(60);
        let script = some_typed(rng, &world.tables, fuel);
        let found = type_of(&world.tables, &script).expect("typed by construction");
        let Some(whole) = claim.whole(&world.tables.groups, &found) else { return };
        for _ in 0..4 {
            exchange(rng, &world, claim, (&script.write(), &whole), &mut seen);
        }
    });
    (enough, seen)
}

#[test]
fn what_may_not_be_seen_changes_no_value() {
    let (enough, seen) = tried(Claim::Unseen, 3000);
    let drawn = [
        (seen.pairs, 300),
        (seen.different, 150),
        (seen.by_other_steps, 100),
        (seen.by_subsumption, 20),
        (seen.with_numbers, 80),
        (seen.recursions, 20),
        (seen.own_types, 100),
        (seen.created, 200),
        (seen.one_ended, 0),
        (seen.told_apart, 100),
    ];
    assert!(!enough || drawn.iter().all(|(count, least)| count > least), "{seen:?}");
}

#[test]
fn what_others_made_changes_no_value() {
    let (enough, seen) = tried(Claim::MadeByOthers, 2000);
    let drawn = [
        (seen.pairs, 150),
        (seen.different, 80),
        (seen.by_other_steps, 50),
        (seen.by_subsumption, 0),
        (seen.with_numbers, 60),
        (seen.recursions, 0),
        (seen.own_types, 80),
        (seen.created, 150),
        (seen.one_ended, 0),
        (seen.told_apart, 60),
    ];
    assert!(!enough || drawn.iter().all(|(count, least)| count > least), "{seen:?}");
}

/// What is not said: whether a run ends, and after how many steps, may tell. ((case secret of loop | unit), 7).2, for group 0.
#[test]
fn whether_a_run_ends_may_tell() {
    let secret = Marks { r: 1, ir: 1, ..LOW };
    // 0 to 2 a sum of units, 3 to 5 a function from unit to unit.
    let types =
        [type_record(1, 0, 0), UNIT_TYPE, UNIT_TYPE, type_record(3, 0, 0), UNIT_TYPE, UNIT_TYPE];
    let of = |side: Side| {
        let flag = Rc::new(Term::Injection(side, secret, 0, unit()));
        let variable = |number| Rc::new(Term::Variable(number));
        let again = Rc::new(Term::Application(0, variable(1), variable(0)));
        let turn = Rc::new(Term::Recursion(0, 3, Rc::new(Term::Function(LOW, 1, again))));
        let turns = Rc::new(Term::Application(0, turn, unit()));
        let case = Rc::new(Term::Case(1, 1, flag, turns, unit()));
        let pair = Rc::new(Term::Pair(LOW, case, Rc::new(Term::Literal(LOW, 7))));
        let script = Term::Projection(Side::Second, 0, pair).write();
        Inputs { groups: cases::two_groups(), types: types.concat(), script }
    };
    let seven = Term::Literal(LOW, 7).write();
    for side in [Side::First, Side::Second] {
        check_finds(&of(side), &type_record(4, 0, 0));
    }
    let (ended, _, _) = run_in(&of(Side::First), 100, REPORT_RUN_BYTES, REPORT_RUN_BYTES);
    assert_eq!(ended.map(|report| (report.end, report.steps)), Ok((End::Moved, 100)));
    run_reports(&of(Side::Second), 100, 0, 4, 1, Some(&seven));
}
