//! Numbers (manual, 7.5). What a sum and a comparison of two give, their groups and numbers worked out anew; ends,
//! contexts and the order of their questions; counting recursions; what a sheet and a report show of numbers.

mod common;

use std::rc::Rc;

use common::records::*;
use common::*;
use wigneld_tests::cases::{self, made, record, type_record, Inputs, UNIT_TYPE};
use wigneld_tests::generate::*;
use wigneld_tests::groups::{read_groups, Group, Groups};
use wigneld_tests::limits::*;
use wigneld_tests::refusal::{Answer, Refusal};
use wigneld_tests::report::report;
use wigneld_tests::script::{read_script, Record as Fields, Side, Term};
use wigneld_tests::steps::is_value;
use wigneld_tests::types::{read_type, Form, Marks, Type};

const NUMBER_TYPE: [u8; TYPE_BYTES] = [4, 0, 0, 0, 0, 0];

/// Scripts over case J's groups. Type 0 is a sum (3,3) made by 3 of a unit for 1 made by 2 and a unit made by 3, 3 a function of
/// numbers.
fn of(records: &[Record]) -> Inputs {
    Inputs { types: cases::number_types(), script: records.concat(), ..cases::j() }
}

/// What the groups say of the result of a node of group g that reads these two: they are counted with r = ir, and c = ic.
fn counted(groups: &Groups, g: Group, left: Marks, right: Marks) -> Marks {
    let readers = groups.join(left.ir, right.ir);
    let creators = groups.meet(g, groups.meet(left.ic, right.ic));
    Marks { r: readers, ir: readers, c: creators, ic: creators }
}

fn literal_of(marks: Marks, number: u16) -> Rc<Term> {
    Rc::new(Term::Literal(marks, number))
}

/// The type that checking reports.
fn reported(inputs: &Inputs) -> Answer<Type> {
    let (result, _, answer) = check_in(inputs, WORK_BYTES, ANSWER_BYTES);
    result.map(|records| read_type(&answer[..records as usize * TYPE_BYTES]))
}

fn inputs_of(world: &World, term: &Term) -> Inputs {
    Inputs { groups: world.groups.clone(), types: world.types.clone(), script: term.write() }
}

// ---------------------------------------------------------------------------------------------
// Written out

#[test]
fn totals() {
    for (left, right, total) in [
        (0, 0, 0),
        (1, 2, 3),
        (255, 1, 256),
        (256, 255, 511),
        (65_535, 0, 65_535),
        (0, 65_535, 65_535),
        (65_534, 1, 65_535),
        (32_767, 32_768, 65_535),
        (32_768, 32_768, 65_535),
        (65_535, 1, 65_535),
        (1, 65_535, 65_535),
        (65_535, 65_535, 65_535),
    ] {
        let inputs = of(&[ADD, literal(left), literal(right)]);
        check_finds(&inputs, &NUMBER_TYPE);
        let moved = step_reports(&inputs, 600, 1, 1);
        assert_eq!(moved, literal(total), "{left} + {right}");
        run_reports(&inputs, 1000, 0, 1, 1, Some(&moved));
    }
}

#[test]
fn comparisons() {
    for (left, right) in [
        (0, 0),
        (0, 1),
        (1, 0),
        (255, 256),
        (256, 255),
        (511, 256),
        (256, 511),
        (32_767, 32_768),
        (32_768, 32_767),
        (65_534, 65_535),
        (65_535, 65_534),
        (65_535, 65_535),
        (0, 65_535),
        (65_535, 0),
    ] {
        let inputs = of(&[less(0), literal(left), literal(right)]);
        let sides = [made(type_record(0, 1, 0), 2, 0), made(UNIT_TYPE, 3, 3)];
        // The groups are those of the node, and none of the sum's own.
        check_finds(&inputs, &[type_record(1, 0, 0), sides[0], sides[1]].concat());
        let value = if left < right {
            [first(0), made(record(1, 1, 0, 0), 2, 0)]
        } else {
            [second(0), made(UNIT, 3, 3)]
        };
        let moved = step_reports(&inputs, 600, 1, 2);
        assert_eq!(moved, value.concat(), "{left} < {right}");
        run_reports(&inputs, 1000, 0, 1, 2, Some(&moved));
    }
}

#[test]
fn groups_of_what_is_made() {
    // All indirect groups of both operands over the diamond, read as 3 and as 0; r and c of the operands, which are as high as can
    // be, don't enter.
    let groups = read_groups(&cases::j().groups).expect("case J's groups");
    let all = || (0..4u8).flat_map(|ir| (0..4u8).map(move |ic| (ir, ic)));
    for node in [0, 1, 2, 3] {
        for (ir, ic) in all() {
            for (is, id) in all() {
                let own = [(ir, ic), (is, id)].map(|(ir, ic)| Marks {
                    r: if groups.below(ir, node) { node } else { 3 },
                    ir,
                    c: 3,
                    ic,
                });
                let operands = own.map(|m| made(record(12, m.r, m.ir, 5), m.c, m.ic));
                let readable = own.iter().all(|marks| groups.below(marks.r, node));
                for kind in [13, 14] {
                    let inputs = of(&[record(kind, node, 0, 0), operands[0], operands[1]]);
                    if !readable {
                        check_refuses(&inputs, 21, 0);
                        step_reports(&inputs, 600, 2, 3);
                        continue;
                    }
                    let Marks { r, ir, c, ic } = counted(&groups, node, own[0], own[1]);
                    let found = reported(&inputs).expect("typed");
                    assert_eq!(found.marks, Marks { r, ir, c, ic });
                    let (made_kind, number) = if kind == 13 { (12, 10) } else { (5, 0) };
                    let head = made(record(made_kind, r, ir, number), c, ic);
                    let size = if kind == 13 { 1 } else { 2 };
                    let moved = step_reports(&inputs, 600, 1, size);
                    assert_eq!(moved[..SCRIPT_BYTES], head);
                }
            }
        }
    }
}

#[test]
fn ends_of_what_reads_numbers() {
    let (high, high_unit) = (record(12, 1, 0, 7), record(1, 1, 0, 0));
    let redex = [record(10, 0, 2, 0), literal(1)];
    let done = record(12, 2, 2, 1);
    for node in [ADD, less(0)] {
        let end = |operands: &[Record], end: u8| {
            let records = [&[node], operands].concat();
            step_reports(&of(&records), 600, end, records.len() as u32);
            // Neither asks for room.
            step_reports(&of(&records), 0, end, records.len() as u32);
        };
        // Both kinds before either reader.
        end(&[UNIT, literal(1)], 3);
        end(&[literal(1), UNIT], 3);
        end(&[UNIT, UNIT], 3);
        end(&[high, UNIT], 3);
        end(&[UNIT, high], 3);
        end(&[high_unit, literal(1)], 3);
        end(&[literal(1), high_unit], 3);
        end(&[PAIR, literal(1), literal(2), literal(3)], 3);
        end(&[literal(3), second(0), UNIT], 3);
        end(&[function(4), variable(0), literal(3)], 3);
        end(&[high, literal(1)], 2);
        end(&[literal(1), high], 2);
        end(&[high, high], 2);
        // Both are values first: a wrong kind, or one that may not be read, on the left waits for the right.
        for left in [UNIT, high, literal(4)] {
            let inputs = of(&[node, left, redex[0], redex[1]]);
            assert_eq!(step_reports(&inputs, 600, 1, 3), [node, left, done].concat());
        }
        // Left first.
        let inputs = of(&[node, redex[0], redex[1], redex[0], redex[1]]);
        let one = [node, done, redex[0], redex[1]].concat();
        assert_eq!(step_reports(&inputs, 600, 1, 4), one);
        let two = [node, done, done].concat();
        run_reports(&inputs, 2, 1, 2, 3, Some(&two));
        run_reports(&inputs, 3, 2, 2, 3, Some(&two));
        // A stuck left operand isn't passed.
        let stuck = [node, PROJECT, UNIT, redex[0], redex[1]];
        run_reports(&of(&stuck), 1000, 3, 0, 5, Some(&stuck.concat()));
        // When the budget is spent only values are told apart.
        run_reports(&of(&[node, UNIT, UNIT]), 0, 1, 0, 3, None);
    }
    // What moves needs its room: a record for a sum, two for a comparison.
    let (sum, comparison) = ([ADD, literal(1), literal(2)], [less(0), literal(1), literal(2)]);
    step_reports(&of(&sum), 7, 4, 3);
    step_reports(&of(&sum), 8, 1, 1);
    step_reports(&of(&comparison), 15, 4, 3);
    step_reports(&of(&comparison), 16, 1, 2);
}

#[test]
fn numbers_in_parameters_branches_and_protects() {
    // (λx. x + x) 21, and its protect: one step each.
    let double = [APPLY, function(4), ADD, variable(0), variable(0), literal(21)];
    check_finds(&of(&double), &NUMBER_TYPE);
    let one = [PROTECT, ADD, literal(21), literal(21)].concat();
    run_reports(&of(&double), 1, 1, 1, 4, Some(&one));
    run_reports(&of(&double), 1000, 0, 3, 1, Some(&literal(42)));
    // A literal is raised at its groups and keeps its number.
    let raised = [made(record(10, 0, 2, 0), 0, 2), made(record(12, 1, 0, 65_535), 3, 1)];
    check_finds(&of(&raised), &made(type_record(4, 3, 2), 2, 0));
    run_reports(&of(&raised), 1000, 0, 1, 1, Some(&made(record(12, 3, 2, 65_535), 2, 0)));
    // case 1 < 2 of 3 | 4, with a type and without.
    let chosen = |head: Record| [head, less(0), literal(1), literal(2), literal(3), literal(4)];
    for head in [case(4), OWN_CASE] {
        check_finds(&of(&chosen(head)), &NUMBER_TYPE);
        run_reports(&of(&chosen(head)), 1000, 0, 3, 1, Some(&literal(3)));
    }
    // The largest number of a literal is no type that is found: its depth counts one.
    let deep = [vec![PROTECT; 254], vec![ADD, literal(OWN_TYPE), literal(0)]].concat();
    check_finds(&of(&deep), &NUMBER_TYPE);
    let deeper = [vec![PROTECT; 255], vec![ADD, literal(OWN_TYPE), literal(0)]].concat();
    check_refuses(&of(&deeper), 18, 256);
    // Stripping keeps it, and so does the look-up.
    let mut stripped = made(record(12, 3, 2, 0x1234), 3, 1);
    strip_script(&mut stripped);
    assert_eq!(stripped, literal(0x1234));
    let script = [less(0), ADD, literal(1), literal(2), literal(3)].concat();
    assert_eq!(subterm(&script, 1), [ADD, literal(1), literal(2)].concat());
    assert_eq!(subterm(&script, 4), literal(3));
    let mut types = [made(type_record(4, 3, 2), 3, 1)].concat();
    strip_types(&mut types);
    assert_eq!(types, NUMBER_TYPE);
}

#[test]
fn a_recursion_counts() {
    // (μf. λx. case x < 1000 of f (x + 400) | x) 100: 100, 500, 900, 1300.
    let script = [
        APPLY,
        recursion(3),
        function(4),
        OWN_CASE,
        less(0),
        variable(0),
        literal(1000),
        APPLY,
        variable(2),
        ADD,
        variable(1),
        literal(400),
        variable(1),
        literal(100),
    ];
    check_finds(&of(&script), &NUMBER_TYPE);
    // Of each round: unrolled, applied, compared, chosen; of all but the last also added and called. What takes apart leaves a protect,
    // three a round and two in the last.
    let last = run_reports(&of(&script), 1000, 0, 3 * 6 + 4 + 3 * 3 + 2, 1, None);
    assert_eq!(last, literal(1300));
}

#[test]
fn sheets_of_numbers() {
    let value = [record(3, 0, 0, 0), record(12, 1, 0, 0x0302), literal(0)];
    let inputs = of(&value);
    let shown = |kind, r, ir, low, high| [kind, r, ir, 0, low, high];
    let (pair, zero, closed) = (shown(3, 0, 0, 0, 0), shown(6, 0, 0, 0, 0), shown(5, 0, 0, 0, 0));
    for group in [0, 2] {
        let (answer, sheet) = sheet_in(&inputs, group, 18);
        assert_eq!((answer, sheet), (Ok(3), [pair, closed, zero].concat()));
    }
    for group in [1, 3] {
        let number = shown(6, 1, 0, 2, 3);
        let (answer, sheet) = sheet_in(&inputs, group, 20);
        let expected = [&[pair, number, zero].concat()[..], &filled(20)[18..]].concat();
        assert_eq!((answer, sheet), (Ok(3), expected));
        assert_eq!(sheet_in(&inputs, group, 17), (no(27, 0), filled(17)));
    }
}

// ---------------------------------------------------------------------------------------------
// Drawn

/// A literal of any groups, or now and then another value.
fn drawn_operand(rng: &mut Rng, world: &World, near: u16) -> Rc<Term> {
    if rng.one_in(6) {
        return untyped_value(rng, &world.tables, 2);
    }
    let marks = random_marks(rng, &world.tables.groups);
    literal_of(marks, number_near(rng, near))
}

/// The groups of a literal.
fn marks_of(term: &Term) -> Option<(Marks, u16)> {
    match term {
        Term::Literal(marks, number) => Some((*marks, *number)),
        _ => None,
    }
}

#[test]
fn what_two_numbers_make() {
    let (mut ends, mut turns) = ([0; 5], [0; 4]);
    let enough = examples(6000, |rng| {
        let mut world = World::random(rng);
        // A sum of units at the end of every table.
        let groups = world.tables.groups.clone();
        let mut unit = || Rc::new(Type { marks: random_marks(rng, &groups), form: Form::Unit });
        let form = Form::Sum(unit(), unit());
        let sum = Type { marks: random_marks(rng, &groups), form };
        let index = world.tables.types.count() as u16;
        world = World::of(world.groups.clone(), [world.types.clone(), sum.write()].concat());

        let number = random_number(rng);
        let left = drawn_operand(rng, &world, number);
        let right = drawn_operand(rng, &world, number);
        let node =
            if rng.one_in(2) { highest(&groups) } else { rng.below(groups.count()) as Group };
        let less = rng.one_in(2);
        let term = if less {
            Term::LessThan(node, index, left.clone(), right.clone())
        } else {
            Term::Addition(node, left.clone(), right.clone())
        };
        let inputs = inputs_of(&world, &term);
        let (stepped, written) = step_in(&inputs, inputs.script.len());
        let report = stepped.expect("13 to 19 are met");
        ends[report.end as usize] += 1;

        // Both kinds, then both readers, then what they make.
        let (Some((one, first)), Some((other, second))) = (marks_of(&left), marks_of(&right))
        else {
            assert_eq!(report.end as u8, 3);
            return;
        };
        if !(groups.below(one.r, node) && groups.below(other.r, node)) {
            assert_eq!(report.end as u8, 2);
            check_refuses(&inputs, 21, 0);
            return;
        }
        let marks = counted(&groups, node, one, other);
        let (total, is_less) = (first as u32 + second as u32, first < second);
        let result = if less {
            let (a, b) = sum.sides().expect("a sum has sides");
            let (side, own) = if is_less { (Side::First, a) } else { (Side::Second, b) };
            Term::Injection(side, marks, index, Rc::new(Term::Unit(own.marks)))
        } else {
            Term::Literal(marks, total.min(65_535) as u16)
        };
        assert_eq!(report.end as u8, 1);
        let bytes = result.write();
        assert_eq!(written[..bytes.len()], bytes, "{first} and {second}");
        assert_eq!(written[bytes.len()..], filled(written.len())[bytes.len()..]);
        // Typed as it is stepped.
        let form = if less { sum.form.clone() } else { Form::Number };
        assert_eq!(reported(&inputs), Ok(Type { marks, form }));
        assert_eq!(reported(&inputs_of(&world, &result)), reported(&inputs));
        let turn = match less {
            true => [first.abs_diff(second) == 1 && is_less, first == second],
            false => [total == 65_535, total == 65_536],
        };
        for (at, seen) in turn.into_iter().enumerate() {
            turns[2 * less as usize + at] += seen as u32;
        }
    });
    assert!(!enough || ends[1] > 0 && ends[2] > 0 && ends[3] > 0, "ends drawn: {ends:?}");
    assert!(!enough || turns.iter().all(|&count| count > 0), "limits drawn: {turns:?}");
}

#[test]
fn drawn_operands_answer_as_they_do_alone() {
    let (mut seen, mut own) = ([0; LAST_QUESTION + 1], [0; 5]);
    let enough = examples(6000, |rng| {
        let world = World::random(rng);
        let tables = &world.tables;
        let mut operand = || {
            let wanted = Type { marks: random_marks(rng, &tables.groups), form: Form::Number };
            let mut script = if rng.one_in(6) {
                some_typed(rng, tables, 12).write()
            } else {
                typed_at(rng, tables, &wanted, 12).write()
            };
            if rng.one_in(3) {
                script = near_miss(rng, tables, &script);
            }
            script
        };
        let (left, right) = (operand(), operand());
        let closed = |script: &Vec<u8>| read_script(tables, script, &[]).is_ok();
        if !(closed(&left) && closed(&right)) {
            return;
        }
        let node = if rng.one_in(2) {
            highest(&tables.groups)
        } else {
            rng.below(tables.groups.count()) as Group
        };
        let alone = |script: &[u8]| {
            let (groups, types) = (world.groups.clone(), world.types.clone());
            reported(&Inputs { groups, types, script: script.to_vec() })
        };
        let records = left.len() / SCRIPT_BYTES;
        // 20 and 21 of each, as soon as it has its type; what the operands are refused by, further on.
        let answer = [(&left, 1), (&right, 1 + records)].iter().enumerate().try_fold(
            Vec::new(),
            |mut marks, (side, (script, at))| {
                let found = alone(script).map_err(|refusal| {
                    own[0] += 1;
                    Refusal { place: refusal.place + *at as u32, ..refusal }
                })?;
                if found.form != Form::Number {
                    own[1 + side] += 1;
                    return no(20, 0);
                }
                if !tables.groups.below(found.marks.r, node) {
                    own[3 + side] += 1;
                    return no(21, 0);
                }
                marks.push(found.marks);
                Ok(marks)
            },
        );
        let expected = answer.map(|marks| Type {
            marks: counted(&tables.groups, node, marks[0], marks[1]),
            form: Form::Number,
        });
        let script = [&record(13, node, 0, 0)[..], &left, &right].concat();
        let (groups, types) = (world.groups.clone(), world.types.clone());
        let found = reported(&Inputs { groups, types, script });
        assert_eq!(found, expected);
        seen[found.map_or_else(|refusal| refusal.question as usize, |_| 0)] += 1;
    });
    assert!(!enough || own.iter().all(|&count| count > 0), "of each operand: {own:?}");
    for question in [0, 20, 21, 22] {
        assert!(!enough || seen[question] > 0, "question {question} was drawn: {seen:?}");
    }
}

#[test]
fn drawn_comparisons_name_a_sum_of_units() {
    let mut seen = [0; 3];
    let enough = examples(600, |rng| {
        let world = World::random(rng);
        let types = &world.tables.types;
        for _ in 0..20 {
            let index = rng.below(types.count() + 1);
            let script = [less(index as u16), literal(1), literal(2)].concat();
            let inputs = Inputs { script, ..inputs_of(&world, &unit()) };
            let (stepped, _) = step_in(&inputs, REPORT_RUN_BYTES);
            let kinds: Vec<u8> = world.types.iter().copied().step_by(TYPE_BYTES).collect();
            let fits = kinds[index..].starts_with(&[1, 0, 0]);
            assert_eq!(stepped.err(), (!fits).then_some(Refusal { question: 16, place: 0 }));
            let is_sum = kinds.get(index) == Some(&1);
            seen[if fits { 2 } else { is_sum as usize }] += 1;
        }
    });
    assert!(!enough || seen.iter().all(|&count| count > 0), "drawn: {seen:?}");
}

#[test]
fn drawn_operands_step_left_first() {
    let mut seen = [0; 3];
    let enough = examples(1500, |rng| {
        let world = World::random(rng);
        let operand = |rng: &mut Rng| match rng.below(3) {
            0 => untyped_value(rng, &world.tables, 2),
            1 => untyped_script(rng, &world.tables, 10),
            _ => some_typed(rng, &world.tables, 10),
        };
        let (left, right) = (operand(rng), operand(rng));
        let around = |left: &[u8], right: &[u8]| {
            let script = [&ADD[..], left, right].concat();
            let (groups, types) = (world.groups.clone(), world.types.clone());
            Inputs { groups, types, script }
        };
        let (one, other) = (left.write(), right.write());
        let (focus, is_left) = if is_value(&left) { (&right, false) } else { (&left, true) };
        if is_value(focus) {
            seen[0] += 1;
            return;
        }
        seen[1 + is_left as usize] += 1;
        // What the operand does, the whole does; the other stays.
        let (alone, written) = step_in(&inputs_of(&world, focus), REPORT_RUN_BYTES);
        let alone = alone.expect("closed");
        let end = alone.end as u8;
        let whole = around(&one, &other);
        let records = (whole.script.len() - focus.write().len()) / SCRIPT_BYTES;
        let found = step_reports(&whole, REPORT_RUN_BYTES, end, records as u32 + alone.records);
        if end == 1 {
            let next = &written[..alone.records as usize * SCRIPT_BYTES];
            let wanted = if is_left { around(next, &other) } else { around(&one, next) };
            assert_eq!(found, wanted.script);
        }
    });
    assert!(!enough || seen.iter().all(|&count| count > 0), "drawn: {seen:?}");
}

/// A tree of sums with these many leaves, and its leaves.
fn sums(rng: &mut Rng, groups: &Groups, leaves: usize, all: &mut Vec<(Marks, u16)>) -> Rc<Term> {
    if leaves == 1 {
        let marks = random_marks(rng, groups);
        let number = if rng.one_in(4) { random_number(rng) } else { rng.below(3000) as u16 };
        all.push((marks, number));
        return literal_of(marks, number);
    }
    let half = rng.between(1, leaves - 1);
    let left = sums(rng, groups, half, all);
    let right = sums(rng, groups, leaves - half, all);
    Rc::new(Term::Addition(highest(groups), left, right))
}

#[test]
fn drawn_sums_reach_their_total() {
    let (mut full, mut less) = (0, 0);
    let enough = examples(1000, |rng| {
        let world = World::random(rng);
        let groups = &world.tables.groups;
        let (leaves, mut all) = (rng.between(2, 60), Vec::new());
        let term = sums(rng, groups, leaves, &mut all);
        let inputs = inputs_of(&world, &term);
        let total = all.iter().map(|&(_, number)| number as u64).sum::<u64>();
        let ir = all.iter().fold(0, |join, (marks, _)| groups.join(join, marks.ir));
        let ic = all.iter().fold(highest(groups), |meet, (marks, _)| groups.meet(meet, marks.ic));
        let marks = Marks { r: ir, ir, c: ic, ic };
        assert_eq!(reported(&inputs), Ok(Type { marks, form: Form::Number }));
        let value = Term::Literal(marks, total.min(65_535) as u16).write();
        // One step each, without a protect.
        run_reports(&inputs, 1000, 0, leaves as u64 - 1, 1, Some(&value));
        let tally = if total > 65_535 { &mut full } else { &mut less };
        *tally += 1;
    });
    assert!(!enough || full > 0 && less > 0, "totals drawn: {full}, {less}");
}

#[test]
fn drawn_recursions_count_to_their_limit() {
    let (mut drawn, mut rounds) = (0, [0; 3]);
    let enough = examples(3000, |rng| {
        let world = World::random(rng);
        let most = rng.below(12) as u16;
        let Some(term) = typed_count(rng, &world.tables, most) else { return };
        drawn += 1;
        let inputs = inputs_of(&world, &term);
        let found = reported(&inputs).expect("typed by construction");
        assert_eq!(found.form, Form::Number);
        let numbers: Vec<u16> = inputs
            .script
            .chunks(SCRIPT_BYTES)
            .map(Fields::read)
            .filter(|record| record.kind == 12)
            .map(|record| record.number)
            .collect();
        let [limit, pace, start] = numbers[..] else { panic!("three numbers") };
        let (mut x, mut made) = (start as u32, 0);
        while x < limit as u32 {
            x = (x + pace as u32).min(65_535);
            made += 1;
        }
        rounds[made.min(2)] += 1;
        let (result, first, _) = run_in(&inputs, 100_000, REPORT_RUN_BYTES, REPORT_RUN_BYTES);
        let report = result.expect("accepted");
        assert_eq!((report.end as u8, report.records), (0, 1), "{limit}, {pace}, {start}");
        let last = Fields::read(&first);
        assert_eq!((last.kind, last.number as u32), (12, x));
    });
    assert!(!enough || drawn > 100 && rounds.iter().all(|&n| n > 0), "{drawn} drawn: {rounds:?}");
}

/// A pair of pairs, down to units and literals.
fn folder(rng: &mut Rng, groups: &Groups, leaves: usize) -> Rc<Term> {
    let marks = if rng.one_in(3) { random_marks(rng, groups) } else { LOW };
    if leaves == 1 {
        let number = if rng.one_in(4) { 0 } else { random_number(rng) };
        let unit = rng.one_in(4);
        return if unit { Rc::new(Term::Unit(marks)) } else { literal_of(marks, number) };
    }
    let half = leaves / 2;
    let left = folder(rng, groups, half);
    Rc::new(Term::Pair(marks, left, folder(rng, groups, leaves - half)))
}

/// The lines and the sheet records of such a value for group g.
fn shown(groups: &Groups, value: &Term, g: Group) -> Vec<(String, [u8; SHEET_BYTES])> {
    let line = |word: &str, kind: u8, Marks { r, ir, .. }: Marks| {
        (format!("{word} {r} {ir}\n"), [kind, r, ir, 0, 0, 0])
    };
    let (marks, own, parts) = match value {
        Term::Unit(marks) => (*marks, line("unit", 0, *marks), vec![]),
        Term::Pair(marks, a, b) => (*marks, line("pair", 3, *marks), vec![a, b]),
        Term::Literal(marks, number) => {
            let (word, mut sheet) = line("number", 6, *marks);
            sheet[4..].copy_from_slice(&number.to_le_bytes());
            (*marks, (format!("{} {number}\n", word.trim_end()), sheet), vec![])
        }
        _ => panic!("a pair, a unit or a number"),
    };
    if !groups.below(marks.r, g) {
        return vec![line("closed", 5, LOW)];
    }
    let parts = parts.into_iter().flat_map(|part| shown(groups, part, g));
    std::iter::once(own).chain(parts).collect()
}

#[test]
fn only_shown_literals_have_numbers() {
    let (mut open, mut closed) = (0, 0);
    let enough = examples(1000, |rng| {
        let world = World::random(rng);
        let groups = &world.tables.groups;
        let leaves = rng.between(1, 20);
        let value = folder(rng, groups, leaves);
        let inputs = inputs_of(&world, &value);
        let g = rng.below(groups.count()) as Group;
        let expected = shown(groups, &value, g);
        let length = expected.len() * SHEET_BYTES;
        let (answer, sheet) = sheet_in(&inputs, g.into(), length + 5);
        assert_eq!(answer, Ok(expected.len() as u32));
        let records: Vec<u8> = expected.iter().flat_map(|(_, record)| *record).collect();
        assert_eq!(sheet, [&records[..], &filled(length + 5)[length..]].concat());

        // The report is for group 0.
        let expected = shown(groups, &value, 0);
        let lines: String = expected.iter().map(|(line, _)| line.as_str()).collect();
        let size = value.size();
        let text = format!("accepted {size}\nend 0 steps 0 records {size}\n{lines}");
        let printed = report(None, &inputs.groups, &inputs.types, &inputs.script);
        assert_eq!(String::from_utf8(printed).expect("plain text"), text);
        open += lines.contains("number") as u32;
        closed += lines.contains("closed") as u32;
    });
    assert!(!enough || open > 0 && closed > 0, "drawn: {open}, {closed}");
}
