//! Cases that find their own type (manual, 5.8). That the type is the lowest of all at or above both branches, what is
//! asked of such a case and in which order, how deep its operands are, and that steps and stripping keep its number.

mod common;

use std::collections::HashMap;
use std::rc::Rc;

use common::records::*;
use common::*;
use wigneld_tests::cases::{case_types, made, record, type_record, Inputs, UNIT_TYPE};
use wigneld_tests::generate::*;
use wigneld_tests::groups::{read_groups, Group, Groups};
use wigneld_tests::limits::*;
use wigneld_tests::refusal::Answer;
use wigneld_tests::script::{Side, Term};
use wigneld_tests::types::{self, at_or_below, read_type, Bound, Form, Marks, Type};

// ---------------------------------------------------------------------------------------------
// Meets

/// Is the meet of every two groups the greatest of all at or below both?
fn meets_are_greatest(groups: &Groups) {
    let all = 0..groups.count() as Group;
    for (g, h) in all.clone().flat_map(|g| all.clone().map(move |h| (g, h))) {
        let meet = groups.meet(g, h);
        for k in all.clone() {
            let lower = groups.below(k, g) && groups.below(k, h);
            assert_eq!(lower, groups.below(k, meet), "{k} below {g} and {h}");
        }
        assert_eq!(groups.join(g, meet), g, "absorption");
        assert_eq!(groups.meet(g, groups.join(g, h)), g, "absorption");
    }
}

#[test]
fn meets_in_small_lattices() {
    // Case J, M3 and N5 have meets that aren't the smaller of two numbers.
    let mut neither = 0;
    for table in small_lattices() {
        let groups = read_groups(&table).expect("a lattice");
        meets_are_greatest(&groups);
        let all = 0..groups.count() as Group;
        let pairs = all.clone().flat_map(|g| all.clone().map(move |h| (g, h)));
        neither += pairs.filter(|&(g, h)| groups.meet(g, h) < g.min(h)).count();
    }
    assert!(neither > 0);
    let diamond = read_groups(&words(&[15, 10, 12, 8])).expect("case J's groups");
    assert_eq!((diamond.meet(1, 2), diamond.join(1, 2)), (0, 3));
}

#[test]
fn meets_in_drawn_lattices() {
    examples(300, |rng| {
        let groups = read_groups(&random_groups(rng)).expect("a lattice");
        meets_are_greatest(&groups);
    });
}

// ---------------------------------------------------------------------------------------------
// The lowest type at or above both, and the highest at or below both

/// Every shape of up to `most` records without numbers, all groups 0.
fn shapes(most: usize) -> Vec<Type> {
    shapes_of(&[Form::Unit], most)
}

/// Every shape of up to `most` records over these leaves.
fn shapes_of(leaves: &[Form], most: usize) -> Vec<Type> {
    let mut found: Vec<Type> =
        leaves.iter().map(|form| Type { marks: LOW, form: form.clone() }).collect();
    for size in (3..=most).step_by(2) {
        let smaller = found.clone();
        for left in &smaller {
            for right in smaller.iter().filter(|right| left.size() + right.size() + 1 == size) {
                let (left, right) = (Rc::new(left.clone()), Rc::new(right.clone()));
                let forms = [
                    Form::Sum(left.clone(), right.clone()),
                    Form::Pair(left.clone(), right.clone()),
                    Form::Function(left, right),
                ];
                found.extend(forms.map(|form| Type { marks: LOW, form }));
            }
        }
    }
    found
}

/// Every two groups of which the second is at or below the first.
fn ordered(groups: &Groups) -> Vec<(Group, Group)> {
    let all = 0..groups.count() as Group;
    let pairs = all.clone().flat_map(|g| all.clone().map(move |h| (g, h)));
    pairs.filter(|&(g, h)| groups.below(h, g)).collect()
}

/// Every (r, ir), made by group 0.
fn every_readers(groups: &Groups) -> Vec<Marks> {
    ordered(groups).into_iter().map(|(r, ir)| Marks { r, ir, ..LOW }).collect()
}

/// Every (c, ic), for group 0.
fn every_creators(groups: &Groups) -> Vec<Marks> {
    ordered(groups).into_iter().map(|(c, ic)| Marks { c, ic, ..LOW }).collect()
}

/// A few with both.
fn some_marks(rng: &mut Rng, groups: &Groups) -> Vec<Marks> {
    (0..8).map(|_| random_marks(rng, groups)).collect()
}

/// Every type of this shape.
fn of_shape(marks: &[Marks], shape: &Type) -> Vec<Type> {
    let mut found = Vec::new();
    let sides = shape.sides().map(|(a, b)| (of_shape(marks, a), of_shape(marks, b)));
    for &marks in marks {
        let Some((lefts, rights)) = &sides else {
            found.push(Type { marks, form: shape.form.clone() });
            continue;
        };
        for (left, right) in lefts.iter().flat_map(|a| rights.iter().map(move |b| (a, b))) {
            let (left, right) = (Rc::new(left.clone()), Rc::new(right.clone()));
            let form = match shape.kind() {
                1 => Form::Sum(left, right),
                2 => Form::Pair(left, right),
                _ => Form::Function(left, right),
            };
            found.push(Type { marks, form });
        }
    }
    found
}

/// All types of some shapes, and by brute force which of them are on one side of a type.
struct Universe<'a> {
    groups: &'a Groups,
    all: Vec<Type>,
    known: HashMap<(bool, Vec<u8>), Rc<Vec<bool>>>,
}

impl<'a> Universe<'a> {
    fn of(groups: &'a Groups, marks: &[Marks], shapes: &[Type]) -> Universe<'a> {
        let all = shapes.iter().flat_map(|shape| of_shape(marks, shape)).collect();
        Universe { groups, all, known: HashMap::new() }
    }

    /// Which of all types are at or above the type, or at or below it.
    fn beyond(&mut self, bound: Bound, s: &Type) -> Rc<Vec<bool>> {
        let above = bound == Bound::LowestAbove;
        let (groups, all) = (self.groups, &self.all);
        let fits = |w: &Type| match bound {
            Bound::LowestAbove => at_or_below(groups, s, w),
            Bound::HighestBelow => at_or_below(groups, w, s),
        };
        let find = || Rc::new(all.iter().map(fits).collect());
        self.known.entry((above, s.write())).or_insert_with(find).clone()
    }

    /// The types beyond the common type are exactly those beyond both; there is none where no type is. Gives
    /// whether there is one.
    fn holds(&mut self, bound: Bound, s: &Type, t: &Type) -> bool {
        let common = types::common(bound, self.groups, s, t);
        let (one, other) = (self.beyond(bound, s), self.beyond(bound, t));
        let both = one.iter().zip(other.iter()).map(|(&one, &other)| one && other);
        match &common {
            Some(least) => {
                for one in [s, t] {
                    let (low, high) =
                        if bound == Bound::LowestAbove { (one, least) } else { (least, one) };
                    assert!(at_or_below(self.groups, low, high), "{bound:?} {s:?} {t:?}");
                }
                let least = self.beyond(bound, least);
                assert!(both.eq(least.iter().copied()), "{bound:?} {s:?} {t:?}");
            }
            None => assert!(both.into_iter().all(|both| !both), "{bound:?} {s:?} {t:?}"),
        }
        common.is_some()
    }

    /// Of each two of these types, both ways.
    fn holds_of(&mut self, some: &[Type]) {
        let mut without = 0;
        for (at, s) in some.iter().enumerate() {
            for t in &some[at..] {
                for bound in [Bound::LowestAbove, Bound::HighestBelow] {
                    let found = self.holds(bound, s, t);
                    assert_eq!(found, same_shape(s, t), "a common type is one of kinds");
                    without += !found as usize;
                }
                let swapped = types::common(Bound::LowestAbove, self.groups, t, s);
                assert_eq!(types::common(Bound::LowestAbove, self.groups, s, t), swapped);
            }
        }
        assert!(some.windows(2).all(|two| same_shape(&two[0], &two[1])) || without > 0);
    }
}

#[test]
fn common_types_of_all_small_types() {
    // Types of up to three records, over two and three groups.
    for groups in [words(&[3, 2]), words(&[7, 6, 4])] {
        let groups = read_groups(&groups).expect("a lattice");
        for marks in [every_readers(&groups), every_creators(&groups)] {
            let mut universe = Universe::of(&groups, &marks, &shapes(3));
            let all = universe.all.clone();
            universe.holds_of(&all);
        }
    }
}

#[test]
fn common_types_of_units_and_numbers() {
    // Types of up to three records with both, over two groups: a unit and a number have none.
    let groups = read_groups(&words(&[3, 2])).expect("a lattice");
    let shapes = shapes_of(&[Form::Unit, Form::Number], 3);
    assert_eq!(shapes.len(), 2 + 3 * 4);
    for marks in [every_readers(&groups), every_creators(&groups)] {
        let mut universe = Universe::of(&groups, &marks, &shapes);
        let all = universe.all.clone();
        universe.holds_of(&all);
    }
}

/// Some of these types beside all of them.
fn holds_of_some(rng: &mut Rng, groups: &Groups, marks: &[Marks], shapes: &[Type], count: usize) {
    let mut universe = Universe::of(groups, marks, shapes);
    let some: Vec<Type> = (0..count).map(|_| rng.pick(&universe.all).clone()).collect();
    universe.holds_of(&some);
}

/// The same with readers alone, with creators alone, and with both.
fn holds_of_each(rng: &mut Rng, groups: &Groups, shapes: &[Type], count: usize) {
    let both = some_marks(rng, groups);
    for marks in [every_readers(groups), every_creators(groups), both] {
        holds_of_some(rng, groups, &marks, shapes, count);
    }
}

#[test]
fn common_types_two_functions_deep() {
    // Functions of five records, each shape by itself, over two groups: parameters of parameters turn back.
    let groups = read_groups(&words(&[3, 2])).expect("a lattice");
    for shape in shapes(5).into_iter().filter(|s| s.kind() == 3 && s.size() == 5) {
        for marks in [every_readers(&groups), every_creators(&groups)] {
            let mut universe = Universe::of(&groups, &marks, &[shape.clone()]);
            let all = universe.all.clone();
            universe.holds_of(&all);
        }
    }
}

#[test]
fn common_types_over_every_small_lattice() {
    // Some of the types of up to three records, beside all of them.
    for table in small_lattices() {
        let groups = read_groups(&table).expect("a lattice");
        drawn(1, |rng| holds_of_each(rng, &groups, &shapes(3), 60));
    }
}

#[test]
fn common_types_of_functions_over_case_js_groups() {
    // Functions from functions, a few of each shape beside all of the shape.
    let groups = read_groups(&words(&[15, 10, 12, 8])).expect("case J's groups");
    let function = |s: &Type| s.kind() == 3 && s.sides().is_some_and(|(a, _)| a.kind() == 3);
    for shape in shapes(5).into_iter().filter(function) {
        drawn(1, |rng| holds_of_each(rng, &groups, &[shape.clone()], 8));
    }
}

/// λz : s + t. case z of z | z, the case finding its type. Made and taken apart by the highest group, the sum
/// adds nothing, so checking reports the function from the sum to what it finds.
fn either(groups: &[u8], s: &Type, t: &Type) -> Inputs {
    let top = highest(&read_groups(groups).expect("a lattice"));
    let case = record(9, top, 0, OWN_TYPE);
    let sum = made(type_record(1, 0, 0), top, top);
    let script = [function(0), case, variable(0), variable(0), variable(0)].concat();
    Inputs { groups: groups.to_vec(), types: [sum.to_vec(), s.write(), t.write()].concat(), script }
}

/// What checking says of it.
fn checked_either(groups: &[u8], s: &Type, t: &Type) -> bool {
    let inputs = either(groups, s, t);
    let read = read_groups(groups).expect("a lattice");
    match types::common(Bound::LowestAbove, &read, s, t) {
        Some(found) => {
            check_finds(
                &inputs,
                &[type_record(3, 0, 0).to_vec(), inputs.types.clone(), found.write()].concat(),
            );
            true
        }
        None => {
            check_refuses(&inputs, 31, 1);
            false
        }
    }
}

#[test]
fn checking_finds_the_common_type_of_all_small_types() {
    let groups = words(&[3, 2]);
    let read = read_groups(&groups).expect("a lattice");
    for marks in [every_readers(&read), every_creators(&read)] {
        let all = Universe::of(&read, &marks, &shapes(3)).all;
        let pairs = all.iter().flat_map(|s| all.iter().map(move |t| (s, t)));
        let found = pairs.filter(|(s, t)| checked_either(&groups, s, t)).count();
        // Of three kinds with sides, and of units.
        assert_eq!((all.len(), found), (84, 3 * 27 * 27 + 3 * 3));
    }
}

#[test]
fn checking_finds_the_common_type_of_drawn_types() {
    let (mut found, mut none, mut new) = (0, 0, 0);
    let enough = examples(3000, |rng| {
        let groups = random_groups(rng);
        let read = read_groups(&groups).expect("a lattice");
        // The function's type has 3 more than twice their size and the found one's, at most 63.
        let size = 1 + 2 * rng.below(10);
        let s = random_type(rng, &read, size);
        let t = match rng.below(5) {
            0 => random_type(rng, &read, size),
            _ => random_variant(rng, &read, &s),
        };
        let common = types::common(Bound::LowestAbove, &read, &s, &t);
        new += common.is_some_and(|common| common != s && common != t) as u32;
        let tally = if checked_either(&groups, &s, &t) { &mut found } else { &mut none };
        *tally += 1;
    });
    assert!(!enough || found > 0 && none > 0 && new > 0, "drawn: {found}, {none}, {new}");
}

// ---------------------------------------------------------------------------------------------
// Questions

/// Case J's groups. Types: 0 sum of units, 3 unit (1,1), 4 unit (2,2), 5 function from unit (1,1) to unit, 8 from unit (2,2),
/// 11 sum of unit (1,1) and unit, 14 sum of unit (2,2) and unit, all other groups 0.
#[rustfmt::skip] // one type on each line
fn some_types() -> Vec<u8> {
    [
        type_record(1, 0, 0), UNIT_TYPE, UNIT_TYPE,
        type_record(0, 1, 1),
        type_record(0, 2, 2),
        type_record(3, 0, 0), type_record(0, 1, 1), UNIT_TYPE,
        type_record(3, 0, 0), type_record(0, 2, 2), UNIT_TYPE,
        type_record(1, 0, 0), type_record(0, 1, 1), UNIT_TYPE,
        type_record(1, 0, 0), type_record(0, 2, 2), UNIT_TYPE,
    ]
    .concat()
}

const ONE: Record = [1, 1, 1, 0, 0, 0, 0, 0];
const TWO: Record = [1, 2, 2, 0, 0, 0, 0, 0];

fn of(records: &[Record]) -> Inputs {
    Inputs { groups: words(&[15, 10, 12, 8]), types: some_types(), script: records.concat() }
}

/// A case that finds its type, of a first injection of unit, with these branches.
fn own_case(first_branch: &[Record], second_branch: &[Record]) -> Vec<Record> {
    [&[OWN_CASE, first(0), UNIT], first_branch, second_branch].concat()
}

fn finds(records: &[Record], types: &[[u8; TYPE_BYTES]]) {
    check_finds(&of(records), &types.concat());
}

/// A no in typing: the work buffer is all zeros, and a run types nothing.
fn ill_typed(records: &[Record], question: u32, place: u32) {
    check_refuses(&of(records), question, place);
    let (ran, _, _) = run_in(&of(records), 10, REPORT_RUN_BYTES, REPORT_RUN_BYTES);
    assert!(ran.is_ok(), "a run types nothing");
}

/// A no before typing, by a run and a step too.
fn refused_by_all(records: &[Record], question: u32, place: u32) {
    check_refuses(&of(records), question, place);
    run_refuses(&of(records), question, place);
    let (stepped, written) = step_in(&of(records), 700);
    assert_eq!((stepped, written), (no(question, place), filled(700)));
}

#[test]
fn the_lowest_type_is_found() {
    // Case J: 1 ⊔ 2 = 3, whichever comes first.
    finds(&own_case(&[ONE], &[TWO]), &[type_record(0, 3, 3)]);
    finds(&own_case(&[TWO], &[ONE]), &[type_record(0, 3, 3)]);
    finds(&own_case(&[ONE], &[ONE]), &[type_record(0, 1, 1)]);
    finds(&own_case(&[UNIT], &[record(1, 1, 0, 0)]), &[type_record(0, 1, 0)]);
    // Parameters: 1 ⊓ 2 = 0, though 1 is the smaller number.
    finds(
        &own_case(&[function(3), UNIT], &[function(4), TWO]),
        &[type_record(3, 0, 0), type_record(0, 0, 0), type_record(0, 2, 2)],
    );
    // Parameters of parameters turn back: joined.
    finds(
        &own_case(&[function(5), UNIT], &[function(8), UNIT]),
        &[type_record(3, 0, 0), type_record(3, 0, 0), type_record(0, 3, 3), UNIT_TYPE, UNIT_TYPE],
    );
    // Sides of sums and pairs are joined like their own groups.
    finds(
        &own_case(&[record(4, 1, 0, 11), ONE], &[record(5, 2, 2, 14), UNIT]),
        &[type_record(1, 3, 2), type_record(0, 3, 3), UNIT_TYPE],
    );
    finds(
        &own_case(&[PAIR, ONE, UNIT], &[PAIR, TWO, ONE]),
        &[type_record(2, 0, 0), type_record(0, 3, 3), type_record(0, 1, 1)],
    );
    // A branch's variable has its side's type: of type 11, unit (1,1) and unit.
    finds(&[OWN_CASE, first(11), ONE, variable(0), TWO], &[type_record(0, 3, 3)]);
    finds(&[OWN_CASE, first(11), ONE, UNIT, variable(0)], &[UNIT_TYPE]);
}

#[test]
fn it_is_raised_by_the_tested_ones_indirect_readers() {
    for (r, ir) in [(0, 0), (1, 0), (1, 1), (3, 2), (3, 3)] {
        let script = [record(9, 3, 0, OWN_TYPE), record(4, r, ir, 0), UNIT, ONE, UNIT];
        let raised = [1, 1, 3, 3][ir as usize];
        finds(&script, &[type_record(0, raised, raised)]);
    }
}

#[test]
fn question_31_where_shapes_differ() {
    let all: [&[Record]; 6] = [
        &[UNIT],
        &[first(0), UNIT],
        &[PAIR, UNIT, UNIT],
        &[function(1), UNIT],
        &[PAIR, UNIT, PAIR, UNIT, UNIT],
        &[function(0), UNIT],
    ];
    for (i, one) in all.iter().enumerate() {
        for (j, other) in all.iter().enumerate() {
            // Behind a pair and a unit: the place is the case's record.
            let records = [vec![PAIR, UNIT], own_case(one, other)].concat();
            if i == j {
                let (result, _, _) = check_in(&of(&records), WORK_BYTES, ANSWER_BYTES);
                assert!(result.is_ok(), "{result:?}");
            } else {
                ill_typed(&records, 31, 2);
            }
        }
    }
}

#[test]
fn question_31_comes_after_both_branches() {
    let bad = [PROJECT, UNIT];
    // After the second branch's own no, whatever the first is; after the first's before the second's.
    ill_typed(&own_case(&[UNIT], &bad), 20, 4);
    ill_typed(&own_case(&[PAIR, UNIT, UNIT], &bad), 20, 6);
    ill_typed(&own_case(&bad, &[PROJECT, UNIT]), 20, 3);
    ill_typed(&own_case(&[UNIT], &[PAIR, UNIT, first(0), ONE]), 22, 6);
    // In a branch, before the case around it; in both, the first branch's.
    let inner = own_case(&[UNIT], &[PAIR, UNIT, UNIT]);
    ill_typed(&own_case(&inner, &bad), 31, 3);
    ill_typed(&own_case(&[PAIR, UNIT, UNIT], &inner), 31, 6);
    ill_typed(&own_case(&inner, &inner), 31, 3);
    // In a tested operand, before its case's 20.
    ill_typed(&[vec![OWN_CASE], inner.clone(), vec![UNIT, UNIT]].concat(), 31, 1);
    // Before what comes after the case: a pair's right operand, an argument's 22, a function's 24.
    ill_typed(&[vec![PAIR], inner.clone(), bad.to_vec()].concat(), 31, 1);
    ill_typed(&[vec![APPLY, function(0), UNIT], inner].concat(), 31, 3);
}

/// Checking alone: the type's bytes, or the refusal.
fn checked(inputs: &Inputs) -> Answer<Vec<u8>> {
    let (result, _, answer) = check_in(inputs, WORK_BYTES, ANSWER_BYTES);
    result.map(|records| answer[..records as usize * TYPE_BYTES].to_vec())
}

#[test]
fn drawn_branches_answer_as_they_do_alone() {
    let (mut found, mut none, mut refused) = (0, 0, 0);
    let enough = examples(1500, |rng| {
        // The table and a sum of units after it, for what is tested.
        let World { groups, types, tables } = World::random(rng);
        let sum = tables.types.count() as u16;
        let world = World::of(groups, [types, case_types()].concat());
        let with = |script: Vec<u8>| {
            let World { groups, types, .. } = world.clone();
            Inputs { groups, types, script }
        };
        let fuel = rng.below(30);
        let one = some_typed(rng, &world.tables, fuel).write();
        let other = match rng.below(3) {
            0 => some_typed(rng, &world.tables, fuel).write(),
            _ => near_miss(rng, &world.tables, &one),
        };
        // Made and taken apart by the highest group, what is tested adds nothing.
        let top = highest(&world.tables.groups);
        let tested = [record(9, top, 0, OWN_TYPE), made(first(sum), top, top), UNIT].concat();
        let all = with([&tested[..], &one, &other].concat());
        let one = checked(&with(one)).expect("typed by construction");
        let place = (all.script.len() - other.len()) / SCRIPT_BYTES;
        match checked(&with(other)) {
            Ok(other) => {
                let (one, other) = (read_type(&one), read_type(&other));
                match types::common(Bound::LowestAbove, &world.tables.groups, &one, &other) {
                    Some(lowest) => check_finds(&all, &lowest.write()),
                    None => check_refuses(&all, 31, 0),
                }
                let tally = if same_shape(&one, &other) { &mut found } else { &mut none };
                *tally += 1;
            }
            // The second branch's own no comes before 31.
            Err(refusal) if refusal.is_of_typing() => {
                check_refuses(&all, refusal.question, refusal.place + place as u32);
                refused += 1;
            }
            Err(_) => {}
        }
    });
    assert!(!enough || found > 0 && none > 0 && refused > 0, "drawn: {found}, {none}, {refused}");
}

#[test]
fn questions_20_to_22_of_a_case_that_finds_its_type() {
    // 20 and 21 as of any case, before a branch is typed.
    ill_typed(&[OWN_CASE, UNIT, PROJECT, UNIT, UNIT], 20, 0);
    ill_typed(&[OWN_CASE, record(4, 1, 0, 0), UNIT, PROJECT, UNIT, UNIT], 21, 0);
    finds(&[record(9, 1, 0, OWN_TYPE), record(4, 1, 0, 0), UNIT, UNIT, UNIT], &[UNIT_TYPE]);
    // 22 isn't asked of its branches, neither above the other nor beside it; of others it is.
    finds(&own_case(&[ONE], &[UNIT]), &[type_record(0, 1, 1)]);
    finds(&own_case(&[UNIT], &[ONE]), &[type_record(0, 1, 1)]);
    ill_typed(&[case(1), first(0), UNIT, ONE, UNIT], 22, 0);
    ill_typed(&own_case(&[first(0), ONE], &[first(0), UNIT]), 22, 3);
    // What it found is asked by 22 around it.
    let around = |parameter| [vec![APPLY, function(parameter), UNIT], own_case(&[ONE], &[UNIT])];
    finds(&around(3).concat(), &[UNIT_TYPE]);
    ill_typed(&around(4).concat(), 22, 0);
    // And by 24: a pair of two that have 33 records.
    let large = [[PAIR, UNIT].repeat(16), vec![UNIT]].concat();
    let own = own_case(&large, &large);
    ill_typed(&[vec![PAIR], own.clone(), own].concat(), 24, 0);
}

#[test]
fn question_16_passes_the_number_for_a_case_alone() {
    for kind in [2, 4, 5, 11] {
        refused_by_all(&[record(kind, 0, 0, OWN_TYPE), UNIT], 16, 0);
    }
    // The number of a variable is no type's, and where a number is unnamed 14 comes first.
    refused_by_all(&[record(0, 0, 0, OWN_TYPE)], 19, 0);
    for kind in [1, 3, 6, 7, 8, 10] {
        refused_by_all(&[record(kind, 0, 0, OWN_TYPE)], 14, 0);
    }
    refused_by_all(&[record(9, 0, 0, OWN_TYPE - 1), first(0), UNIT, UNIT, UNIT], 16, 0);
    // So it is with as many types as a table may have.
    let types = unit_types(MOST_TABLE_RECORDS);
    let script = [record(2, 0, 0, OWN_TYPE), UNIT].concat();
    check_refuses(&Inputs { types, script, ..of(&[]) }, 16, 0);
    // The fields beside it are named as ever.
    refused_by_all(&[record(9, 0, 1, OWN_TYPE), first(0), UNIT, UNIT, UNIT], 14, 0);
    refused_by_all(&[record(9, 4, 0, OWN_TYPE), first(0), UNIT, UNIT, UNIT], 15, 0);
}

#[test]
fn a_case_of_what_such_a_case_found() {
    // The inner case finds the sum of unit (3,3) and unit, which stands nowhere in the table.
    let inner = own_case(&[first(11), ONE], &[first(14), TWO]);
    finds(&inner, &[type_record(1, 0, 0), type_record(0, 3, 3), UNIT_TYPE]);
    // Its sides are the binders' types of the case around it, and so on.
    let around = |tested: &[Record], branches: &[Record]| [&[OWN_CASE], tested, branches].concat();
    finds(&around(&inner, &[variable(0), UNIT]), &[type_record(0, 3, 3)]);
    finds(&around(&inner, &[UNIT, variable(0)]), &[UNIT_TYPE]);
    finds(
        &around(&inner, &[PAIR, variable(0), UNIT, PAIR, UNIT, TWO]),
        &[type_record(2, 0, 0), type_record(0, 3, 3), type_record(0, 2, 2)],
    );
    let middle = around(&inner, &[first(11), UNIT, second(14), variable(0)]);
    finds(&middle, &[type_record(1, 0, 0), type_record(0, 3, 3), UNIT_TYPE]);
    finds(&around(&middle, &[variable(0), ONE]), &[type_record(0, 3, 3)]);
    // Handed on where unit (1,1) is wanted, unit (3,3) isn't.
    ill_typed(
        &around(&inner, &[first(11), variable(0), first(0), UNIT]),
        22,
        inner.len() as u32 + 1,
    );
    // A case of the table's types around it asks 22 of these binders.
    let given = [&[case(3)], &inner[..], &[variable(0), UNIT]].concat();
    ill_typed(&given, 22, 0);
}

// ---------------------------------------------------------------------------------------------
// Depth

/// Protects above a case that finds its type, with a chain of protects of this depth in one of its operands.
fn below_a_case(protects: usize, operand: usize, depth: usize) -> Vec<Record> {
    let chain = |at: usize| {
        let above = vec![PROTECT; if at == operand { depth - 1 } else { 0 }];
        [above, vec![UNIT]].concat()
    };
    [vec![PROTECT; protects], vec![OWN_CASE], chain(0), chain(1), chain(2)].concat()
}

#[test]
fn question_18_counts_two_for_each_operand() {
    for operand in 0..3 {
        // The case at depth 101, so its operands at 103: 154 more are depth 256.
        let fits = below_a_case(100, operand, 154);
        let (result, _) = step_in(&of(&fits), 0);
        assert!(result.is_ok(), "{result:?}");
        let deeper = below_a_case(100, operand, 155);
        refused_by_all(&deeper, 18, 100 + 1 + operand as u32 + 154);
        // A case at depth 255 or 256 has operands at 257 or 258: its first operand is the place.
        refused_by_all(&below_a_case(254, operand, 1), 18, 255);
        refused_by_all(&below_a_case(255, operand, 1), 18, 256);
        let (result, _) = step_in(&of(&below_a_case(253, operand, 1)), 0);
        assert!(result.is_ok(), "at depth 254 its operands are at 256");
    }
    // A case with a type of the table counts one.
    let mut given = below_a_case(254, 0, 1);
    given[254] = case(0);
    let (result, _) = step_in(&of(&given), 0);
    assert!(result.is_ok());
    // Before 19, and after 17.
    let mut unbound = below_a_case(254, 0, 1);
    unbound[255] = variable(0);
    refused_by_all(&unbound, 18, 255);
    refused_by_all(&unbound[..256], 17, 256);
}

/// The records of a script.
fn records_of(script: &[u8]) -> Vec<Record> {
    script.chunks_exact(SCRIPT_BYTES).map(|record| record.try_into().expect("whole")).collect()
}

#[test]
fn drawn_scripts_of_any_depth() {
    let mut seen = [0; 4];
    with_large_stack(move || {
        let enough = examples(1500, |rng| {
            let world = World::random(rng);
            let depth = rng.between(MOST_DEPTH - 12, MOST_DEPTH + 4);
            let script = deep_script(rng, &world.tables, depth).write();
            let depths = depths(&records_of(&script));
            let inputs = Inputs { groups: world.groups, types: world.types, script };
            let (stepped, written) = step_in(&inputs, REPORT_RUN_BYTES);
            match (depths.iter().position(|&depth| depth > MOST_DEPTH), stepped) {
                (Some(place), stepped) => {
                    assert_eq!(stepped, no(18, place as u32));
                    seen[if depths[place] == MOST_DEPTH + 2 { 1 } else { 0 }] += 1;
                }
                (None, Err(refusal)) => panic!("{refusal:?}"),
                (None, Ok(report)) => {
                    let records = records_of(&written[..report.records as usize * SCRIPT_BYTES]);
                    if report.end as u8 == 1 {
                        assert!(common::records::depths(&records).iter().all(|&d| d <= MOST_DEPTH));
                    }
                    seen[if report.end as u8 == 4 { 3 } else { 2 }] += 1;
                }
            }
        });
        // Too deep at 257, at 258, not too deep, and a step that is too big.
        assert!(!enough || seen.iter().all(|&count| count > 0), "drawn: {seen:?}");
    });
}

#[test]
fn question_19_counts_one_binder_in_each_branch() {
    // The weight is of depth alone.
    refused_by_all(&[OWN_CASE, variable(0), UNIT, UNIT], 19, 1);
    refused_by_all(&[OWN_CASE, UNIT, variable(1), UNIT], 19, 2);
    refused_by_all(&[OWN_CASE, UNIT, UNIT, variable(1)], 19, 3);
    refused_by_all(&[function(0), OWN_CASE, variable(0), variable(1), variable(2)], 19, 4);
}

/// (λx. protect … x) v with these many protects.
fn put_into(protects: usize, value: &[Record]) -> Vec<Record> {
    [&[APPLY, function(1)], &vec![PROTECT; protects][..], &[variable(0)], value].concat()
}

#[test]
fn a_value_brings_its_weight_along() {
    // λy. case y of unit | unit: depth 3 with a type of the table, 4 where it finds its own.
    let value = |head: Record| [function(0), head, variable(0), UNIT, UNIT];
    for (head, depth) in [(case(1), 3), (OWN_CASE, 4)] {
        // The new term: a protect, the protects, the value.
        let fits = put_into(MOST_DEPTH - 1 - depth, &value(head));
        step_reports(&of(&fits), REPORT_RUN_BYTES, 1, fits.len() as u32 - 2);
        let deeper = put_into(MOST_DEPTH - depth, &value(head));
        step_reports(&of(&deeper), REPORT_RUN_BYTES, 4, deeper.len() as u32);
        run_reports(&of(&deeper), 10, 4, 0, deeper.len() as u32, Some(&deeper.concat()));
    }
}

#[test]
fn a_run_ends_4_by_a_weight_that_a_value_brought() {
    // (λf. protect … f) ((λx. x) v): the value goes through a function first, and then too deep.
    let value = [function(0), OWN_CASE, variable(0), UNIT, UNIT];
    let inner = [&[APPLY, function(5), variable(0)][..], &value].concat();
    for (protects, end) in [(251, 0), (252, 4)] {
        let script = put_into(protects, &inner);
        // Two steps reach the value, one puts it in, and the protects go one by one.
        let (steps, records) = match end {
            0 => (2 + 1 + protects as u64 + 1, value.len()),
            _ => (2, put_into(protects, &value).len()),
        };
        run_reports(&of(&script), 1000, end, steps, records as u32, None);
    }
}

#[test]
fn too_big_counts_two_around_a_redex() {
    // A value of depth 3 put into the tested operand of a case: two levels where it finds its type, else one.
    let value = [first(0), first(0), UNIT];
    for (head, weight) in [(case(1), 1), (OWN_CASE, 2)] {
        for (more, end) in [(0, 1), (1, 4)] {
            // The case, a protect, the protects, the value.
            let protects = MOST_DEPTH - weight - 1 - 3 + more;
            let script = [&[head], &put_into(protects, &value)[..], &[UNIT, UNIT]].concat();
            let records = script.len() - if end == 1 { 2 } else { 0 };
            let written = step_reports(&of(&script), REPORT_RUN_BYTES, end, records as u32);
            assert!(end == 4 || written[..SCRIPT_BYTES] == head, "the case's record is kept");
        }
    }
}

#[test]
fn too_big_counts_two_for_a_branch() {
    // A value of depth 3 put into either branch of a case in a function's body.
    let value = [first(0), first(0), UNIT];
    for (head, weight) in [(case(1), 1), (OWN_CASE, 2)] {
        for branch in 0..2 {
            for (more, end) in [(0, 1), (1, 4)] {
                // A protect, the case, the branch's protects, the value.
                let protects = vec![PROTECT; MOST_DEPTH - 1 - weight - 3 + more];
                let deep = [&protects[..], &[variable(1)]].concat();
                let branches = if branch == 0 { [deep, vec![UNIT]] } else { [vec![UNIT], deep] };
                let body = [vec![head, first(0), UNIT], branches.concat()].concat();
                let script = [&[APPLY, function(0)], &body[..], &value].concat();
                let records = script.len() - if end == 1 { 2 } else { 0 };
                step_reports(&of(&script), REPORT_RUN_BYTES, end, records as u32);
            }
        }
    }
}

#[test]
fn a_case_that_steps_takes_its_weight_away() {
    // At depth 256 by its branch, which the step leaves at depth 255.
    let branch = [vec![PROTECT; 253], vec![UNIT]].concat();
    let script = own_case(&branch, &[UNIT]);
    let moved = step_reports(&of(&script), REPORT_RUN_BYTES, 1, 255);
    assert_eq!(moved, [vec![PROTECT], branch].concat().concat());
    // Nor does it count for what is put in: a protect, the branch's protects and a value of depth 2 are 256.
    let branch = [vec![PROTECT; 253], vec![variable(0)]].concat();
    for (value, end) in [(&[first(0), UNIT][..], 1), (&[first(0), first(0), UNIT], 4)] {
        let script = [&[OWN_CASE, first(0)], value, &branch, &[UNIT]].concat();
        let records = if end == 1 { 256 } else { script.len() };
        step_reports(&of(&script), REPORT_RUN_BYTES, end, records as u32);
    }
}

// ---------------------------------------------------------------------------------------------
// Steps and stripping

#[test]
fn steps_keep_the_number() {
    let redex = [record(10, 0, 1, 0), first(0), UNIT];
    // While the tested operand moves.
    let inputs = of(&[&[OWN_CASE], &redex[..], &[UNIT, UNIT]].concat());
    let moved = step_reports(&inputs, 700, 1, 5);
    assert_eq!(moved, [OWN_CASE, record(4, 1, 1, 0), UNIT, UNIT, UNIT].concat());
    // In a body that a value is put into, and in a value that is put in.
    let body = [OWN_CASE, variable(0), variable(1), variable(0)];
    let inputs = of(&[&[APPLY, function(0)], &body[..], &[first(0), UNIT]].concat());
    let moved = step_reports(&inputs, 700, 1, 7);
    let expected = [PROTECT, OWN_CASE, first(0), UNIT, first(0), UNIT, variable(0)];
    assert_eq!(moved, expected.concat());
    // In an unrolled recursion, once in the body and once in what stands for it.
    let inputs = of(&[recursion(5), OWN_CASE, first(0), UNIT, variable(1), variable(1)]);
    let unrolled = [
        function(6),
        APPLY,
        recursion(5),
        OWN_CASE,
        first(0),
        UNIT,
        variable(1),
        variable(1),
        variable(0),
    ];
    let expected = [&[OWN_CASE, first(0), UNIT], &unrolled[..], &unrolled].concat();
    let moved = step_reports(&inputs, 700, 1, expected.len() as u32);
    assert_eq!(moved, expected.concat());
    // It steps to the branch that is chosen, protected by ir, as any other.
    let tested = |kind| [record(9, 1, 0, OWN_TYPE), record(kind, 1, 1, 0), UNIT, ONE, TWO];
    for (kind, branch) in [(4, ONE), (5, TWO)] {
        let moved = step_reports(&of(&tested(kind)), 700, 1, 2);
        assert_eq!(moved, [record(10, 0, 1, 0), branch].concat());
    }
    // Kind before reader, both before size.
    step_reports(&of(&[OWN_CASE, record(3, 1, 1, 0), UNIT, UNIT, UNIT, UNIT]), 700, 3, 6);
    step_reports(&of(&[OWN_CASE, record(4, 1, 1, 0), UNIT, UNIT, UNIT]), 0, 2, 5);
    step_reports(&of(&[OWN_CASE, first(0), UNIT, UNIT, UNIT]), 15, 4, 5);
}

#[test]
fn stripping_keeps_the_number() {
    let mut script = [record(9, 3, 0, OWN_TYPE), record(4, 1, 1, 11), ONE, TWO, UNIT].concat();
    strip_script(&mut script);
    assert_eq!(script, [OWN_CASE, first(11), UNIT, UNIT, UNIT].concat());
}

#[test]
fn only_cases_of_the_number_weigh_two() {
    // Every kind and number about it, by the depth of a term.
    for number in [0, 1, OWN_TYPE - 1, OWN_TYPE] {
        let case = Term::Case(0, number, unit(), unit(), unit());
        assert_eq!(case.depth(), if number == OWN_TYPE { 3 } else { 2 });
        assert_eq!(Term::Function(LOW, number, unit()).depth(), 2);
        assert_eq!(Term::Injection(Side::First, LOW, number, unit()).depth(), 2);
        assert_eq!(Term::Recursion(0, number, unit()).depth(), 2);
    }
}
