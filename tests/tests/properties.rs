//! Claims about the second implementation itself, on examples drawn at random.

mod common;

use std::cell::Cell;
use std::rc::Rc;

use common::*;
use wigneld_tests::cases::Inputs;
use wigneld_tests::generate::*;
use wigneld_tests::groups::{read_groups, Group, Groups};
use wigneld_tests::limits::*;
use wigneld_tests::refusal::Refusal;
use wigneld_tests::script::{names_type, read_script, Record, Side, Term, OPERANDS};
use wigneld_tests::sheet::CLOSED;
use wigneld_tests::steps::{is_value, End};
use wigneld_tests::strip::ONE_GROUP;
use wigneld_tests::types::{
    self, raise, read_tables, read_type, Comparison, Form, Marks, Raise, Type,
};

/// The inputs of a term over a world's tables.
fn inputs_of(world: &World, term: &Term) -> Inputs {
    Inputs { groups: world.groups.clone(), types: world.types.clone(), script: term.write() }
}

/// Checking in buffers as long as question 1 asks: the reported type.
fn reported(inputs: &Inputs) -> Result<Type, Refusal> {
    let (result, _, answer) = check_in(inputs, WORK_BYTES, ANSWER_BYTES);
    result.map(|records| read_type(&answer[..records as usize * TYPE_BYTES]))
}

/// A well-typed script of any of the generators' shapes.
fn typed(rng: &mut Rng, world: &World) -> Rc<Term> {
    let fuel = match rng.below(4) {
        0 => rng.below(8),
        1 => rng.below(200),
        _ => rng.below(60),
    };
    some_typed(rng, &world.tables, fuel)
}

/// Is a recursive call of the script made as another group than r of the recursion's type?
fn calls_as_another(inputs: &Inputs) -> bool {
    let Inputs { types, script, .. } = old_form(inputs);
    let mut own = script.clone();
    write_callers(&types, &mut own);
    own != script
}

/// Has the script a case that finds its own type?
fn finds_own_type(script: &[u8]) -> bool {
    script.chunks_exact(SCRIPT_BYTES).any(|record| Record::read(record).finds_own_type())
}

/// Does the script read numbers?
fn counts(script: &[u8]) -> bool {
    script.chunks_exact(SCRIPT_BYTES).any(|record| matches!(record[0], 13 | 14))
}

/// Does the type stand in the table?
fn stands_in(world: &World, found: &Type) -> bool {
    let types = &world.tables.types;
    (0..types.count()).any(|index| types.at(index) == *found)
}

fn groups_of(world: &World) -> &Groups {
    &world.tables.groups
}

fn any_group(rng: &mut Rng, groups: &Groups) -> Group {
    rng.below(groups.count()) as Group
}

// ---------------------------------------------------------------------------------------------
// Groups

#[test]
fn drawn_lattices_are_accepted_and_their_joins_are_least() {
    examples(300, |rng| {
        let bytes = random_groups(rng);
        let groups = read_groups(&bytes).expect("every lattice so numbered is accepted");
        let all = 0..groups.count() as Group;
        for g in all.clone() {
            assert!(groups.below(0, g), "0 is the lowest");
            assert_eq!(groups.join(g, g), g);
            for h in all.clone() {
                if groups.below(g, h) {
                    assert!(g <= h, "numbered upward");
                }
                let join = groups.join(g, h);
                assert_eq!(join, groups.join(h, g));
                assert!(groups.below(g, join) && groups.below(h, join), "an upper bound");
                for k in all.clone() {
                    let upper = groups.below(g, k) && groups.below(h, k);
                    assert_eq!(upper, groups.below(join, k), "the least one");
                }
            }
        }
    });
}

#[test]
fn groups_are_accepted_exactly_when_the_rows_are_such_a_lattice() {
    // Judged again from the order's laws rather than from bits.
    let (yes, no) = (Cell::new(0), Cell::new(0));
    let enough = examples(4000, |rng| {
        let mut bytes = if rng.one_in(2) {
            random_groups(rng)
        } else {
            let count = rng.between(1, 5);
            let rows: Vec<u32> = (0..count)
                .map(|g| {
                    1 << g
                        | 1 << (count - 1)
                        | rng.word() as u32 & ((1 << count) - 1) & !((1 << g) - 1)
                })
                .collect();
            words(&rows)
        };
        if rng.one_in(2) {
            let at = rng.below(bytes.len());
            bytes[at] ^= 1 << rng.below(8);
        }
        let count = bytes.len() / 4;
        let set = |g: usize, h: usize| bytes[g * 4 + h / 8] >> (h % 8) & 1 == 1;
        let all = 0..count;
        let stray = all.clone().any(|g| (count..32).any(|h| set(g, h)));
        let numbered = all.clone().all(|g| set(g, g) && (0..g).all(|h| !set(g, h)));
        let transitive = all.clone().all(|a| {
            all.clone().all(|b| all.clone().all(|c| !(set(a, b) && set(b, c)) || set(a, c)))
        });
        let joins = all.clone().all(|a| {
            all.clone().all(|b| {
                let upper: Vec<usize> = all.clone().filter(|&c| set(a, c) && set(b, c)).collect();
                upper.iter().any(|&least| upper.iter().all(|&c| set(least, c)))
            })
        });
        let bottom = all.clone().all(|h| set(0, h));
        let lattice = !stray && numbered && transitive && joins && bottom;
        assert_eq!(groups_check(&bytes).is_ok(), lattice);
        let tally = if lattice { &yes } else { &no };
        tally.set(tally.get() + 1);
    });
    assert!(!enough || yes.get() > 0 && no.get() > 0, "both answers were drawn");
}

// ---------------------------------------------------------------------------------------------
// Types

#[test]
fn at_or_below_is_a_partial_order() {
    let (above, beside) = (Cell::new(0), Cell::new(0));
    let enough = examples(1500, |rng| {
        let world = World::random(rng);
        let groups = groups_of(&world);
        let size = 1 + 2 * rng.below(6);
        let first = random_type(rng, groups, size);
        let near = |rng: &mut Rng| random_variant(rng, groups, &first);
        let (s, t, u) = (near(rng), near(rng), near(rng));
        for one in [&s, &t, &u] {
            assert!(types::at_or_below(groups, one, one), "reflexive");
        }
        let mut order = [&s, &t, &u];
        for _ in 0..3 {
            order.rotate_left(1);
            let (a, b, c) = (order[0], order[1], order[2]);
            for (a, b, c) in [(a, b, c), (b, a, c)] {
                if types::at_or_below(groups, a, b) && types::at_or_below(groups, b, a) {
                    assert_eq!(a, b, "antisymmetric");
                }
                if types::at_or_below(groups, a, b) && types::at_or_below(groups, b, c) {
                    assert!(types::at_or_below(groups, a, c), "transitive");
                }
            }
        }
        let tally = if types::at_or_below(groups, &s, &t) && s != t { &above } else { &beside };
        tally.set(tally.get() + 1);
    });
    assert!(!enough || above.get() > 0 && beside.get() > 0, "both answers were drawn");
}

#[test]
fn comparison_of_indexes_is_that_of_the_types_there() {
    examples(400, |rng| {
        let world = World::random(rng);
        let types = &world.tables.types;
        for _ in 0..20 {
            let (i, j) = (rng.below(types.count()), rng.below(types.count()));
            let expected = types::compare(groups_of(&world), &types.at(i), &types.at(j));
            let found = compare(&world.groups, &world.types, i as u64, j as u64);
            assert_eq!(found, Ok(expected));
            // Shapes that differ are never comparable.
            if types.at(i).size() != types.at(j).size() {
                assert_eq!(expected, Comparison::Neither);
            }
        }
    });
}

/// The least of the answers for the first records and for both sides, a function's left side turned
/// round; that of different kinds is neither.
fn least(groups: &Groups, s: &Type, t: &Type) -> Comparison {
    let first = |s: &Type| Type { marks: s.marks, form: Form::Unit };
    let own = types::compare(groups, &first(s), &first(t));
    match (s.sides(), t.sides()) {
        _ if s.kind() != t.kind() => Comparison::Neither,
        (Some((a, b)), Some((c, d))) => {
            let (a, c) = if s.kind() == 3 { (c, a) } else { (a, c) };
            own.min(least(groups, a, c)).min(least(groups, b, d))
        }
        _ => own,
    }
}

#[test]
fn comparison_of_types_in_one_table() {
    let tally = [(); 3].map(|_| Cell::new(0));
    let (above, mixed) = (Cell::new(0), Cell::new(0));
    let enough = examples(1500, |rng| {
        let world = World::random(rng);
        let groups = groups_of(&world);
        let size = 1 + 2 * rng.below(8);
        let s = random_type(rng, groups, size);
        // Equal ones too, at indexes of their own; half of them within two functions.
        let t = if rng.one_in(3) { s.clone() } else { random_variant(rng, groups, &s) };
        let (s, t) = if rng.one_in(2) {
            let result = random_type(rng, groups, 1);
            let other = random_variant(rng, groups, &result);
            let marks = s.marks;
            let function = |left: Type, right: Type| Type {
                marks,
                form: Form::Function(Rc::new(left), Rc::new(right)),
            };
            (function(s, result), function(t, other))
        } else {
            (s, t)
        };
        let table = [s.write(), t.write()].concat();
        let (i, j) = (0, s.size() as u64);
        let answer = compare(&world.groups, &table, i, j).expect("a table of two types");
        let back = compare(&world.groups, &table, j, i).expect("a table of two types");
        assert_eq!(compare(&world.groups, &table, i, i), Ok(Comparison::Same));
        assert_eq!(
            answer == Comparison::Same,
            table[..s.size() * TYPE_BYTES] == table[s.size() * TYPE_BYTES..]
        );
        assert_eq!(answer != Comparison::Neither, types::at_or_below(groups, &s, &t));
        assert_eq!(answer == Comparison::Same, answer.min(back) != Comparison::Neither);
        assert_eq!(answer, least(groups, &s, &t));
        tally[answer as usize].set(tally[answer as usize].get() + 1);
        if (answer, back) == (Comparison::Neither, Comparison::Below) {
            above.set(above.get() + 1);
        }
        // A function whose left and right sides are related, but not the same way round.
        if let (Form::Function(a, b), Form::Function(c, d)) = (&s.form, &t.form) {
            let left = types::compare(groups, a, c);
            let right = types::compare(groups, b, d);
            if left == Comparison::Below && right == Comparison::Below {
                assert_eq!(answer, Comparison::Neither);
                mixed.set(mixed.get() + 1);
            }
        }
        // No index past the table passes, however wide.
        for past in
            [(table.len() / TYPE_BYTES) as u64, 256, 65_536, 1 << 32, (1 << 32) + i, u64::MAX]
        {
            assert_eq!(compare(&world.groups, &table, past, j), no(25, 0));
            assert_eq!(compare(&world.groups, &table, i, past), no(25, 1));
        }
    });
    let all = tally.iter().chain([&above, &mixed]).all(|count| count.get() > 0);
    assert!(!enough || all, "every answer was drawn, above and mixed sides too");
}

#[test]
fn raising_is_monotone_and_commutes() {
    // Raising goes up, keeps the order, and is joining: neither order nor repetition matters.
    examples(1500, |rng| {
        let world = World::random(rng);
        let groups = groups_of(&world);
        let size = 1 + 2 * rng.below(6);
        let s = random_type(rng, groups, size);
        let t = random_variant(rng, groups, &s);
        let (g, h) = (random_raise(rng, groups), random_raise(rng, groups));
        let join = Raise { ir: groups.join(g.ir, h.ir), ic: groups.meet(g.ic, h.ic) };
        assert!(types::at_or_below(groups, &s, &raise(groups, &s, g)), "raising raises");
        assert!(types::at_or_below(groups, &raise(groups, &s, g), &raise(groups, &s, join)));
        if types::at_or_below(groups, &s, &t) {
            assert!(types::at_or_below(groups, &raise(groups, &s, g), &raise(groups, &t, join)));
        }
        let both = raise(groups, &raise(groups, &s, g), h);
        assert_eq!(both, raise(groups, &raise(groups, &s, h), g));
        assert_eq!(both, raise(groups, &s, join));
        assert_eq!(both.form, s.form, "nowhere deeper");
        let nothing = Raise { ir: 0, ic: highest(groups) };
        assert_eq!(raise(groups, &s, nothing), s, "no reader more, and no creator less");
        let Marks { r, ir, c, ic } = raise(groups, &s, g).marks;
        assert!(groups.below(ir, r) && groups.below(ic, c), "still ir ⊑ r and ic ⊑ c");
        // Each part by itself: readers are joined, creators met.
        let join = |h| groups.join(h, g.ir);
        let meet = |h| groups.meet(h, g.ic);
        assert_eq!((r, ir), (join(s.marks.r), join(s.marks.ir)));
        assert_eq!((c, ic), (meet(s.marks.c), meet(s.marks.ic)));
    });
}

// ---------------------------------------------------------------------------------------------
// Scripts

#[test]
fn scripts_read_back_as_written() {
    examples(1000, |rng| {
        let world = World::random(rng);
        let fuel = rng.below(80);
        let term = untyped_script(rng, &world.tables, fuel);
        let bytes = term.write();
        assert_eq!(bytes.len(), term.size() * SCRIPT_BYTES);
        let read = read_script(&world.tables, &bytes, &[]).expect("questions 13 to 19 are met");
        assert_eq!(read, term);
        assert_eq!(read.write(), bytes);
    });
}

/// Two groups of which the second isn't at or below the first, unless there is only one group.
fn out_of_order(rng: &mut Rng, groups: &Groups) -> Option<(Group, Group)> {
    let all = 0..groups.count() as Group;
    let pairs = all.clone().flat_map(|g| all.clone().map(move |h| (g, h)));
    let found: Vec<(Group, Group)> = pairs.filter(|&(g, h)| !groups.below(h, g)).collect();
    (!found.is_empty()).then(|| *rng.pick(&found))
}

/// Puts a fault into one type record and gives its question, where one can be.
fn spoil_type(rng: &mut Rng, groups: &Groups, record: &mut [u8]) -> Option<u32> {
    match rng.below(3) {
        0 => {
            record[*rng.pick(&[1, 2, 4, 5])] = groups.count() as u8;
            Some(9)
        }
        1 => {
            (record[1], record[2]) = out_of_order(rng, groups)?;
            Some(10)
        }
        _ => {
            (record[4], record[5]) = out_of_order(rng, groups)?;
            Some(36)
        }
    }
}

/// The same of a script record.
fn spoil_record(rng: &mut Rng, groups: &Groups, record: &mut [u8]) -> Option<u32> {
    let kind = record[0];
    let object = matches!(kind, 1..=5 | 12);
    match rng.below(5) {
        // A protect has no c, and neither has what isn't an object.
        0 if !object => {
            record[6] = rng.below(groups.count()).max(1) as u8;
            Some(14)
        }
        1 if object || kind == 10 => {
            record[if object { *rng.pick(&[1, 2, 6, 7]) } else { 7 }] = groups.count() as u8;
            Some(15)
        }
        2 if object => {
            (record[1], record[2]) = out_of_order(rng, groups)?;
            Some(15)
        }
        3 if object => {
            (record[6], record[7]) = out_of_order(rng, groups)?;
            Some(36)
        }
        _ if names_type(kind) => {
            record[4..6].copy_from_slice(&(OWN_TYPE - 1).to_le_bytes());
            Some(16)
        }
        _ => None,
    }
}

/// Spoils a few records, and gives the first no that is then due: by the order of the questions, then by record.
fn spoiled(
    rng: &mut Rng,
    bytes: &mut [u8],
    width: usize,
    order: &[u32],
    spoil: impl Fn(&mut Rng, &mut [u8]) -> Option<u32>,
) -> Option<Refusal> {
    let mut faults = Vec::new();
    let mut places: Vec<usize> =
        (0..rng.between(1, 4)).map(|_| rng.below(bytes.len() / width)).collect();
    places.sort();
    places.dedup();
    for place in places {
        let question = spoil(rng, &mut bytes[place * width..(place + 1) * width]);
        let position = question.and_then(|question| order.iter().position(|&q| q == question));
        faults.extend(position.map(|position| (position, place as u32)));
    }
    let (position, place) = faults.into_iter().min()?;
    Some(Refusal { question: order[position], place })
}

#[test]
fn each_question_is_put_to_all_records_before_the_next() {
    let mut seen = [0; LAST_QUESTION + 1];
    let enough = examples(3000, |rng| {
        let world = World::random(rng);
        let groups = groups_of(&world);
        let mut types = world.types.clone();
        let due = spoiled(rng, &mut types, TYPE_BYTES, &[9, 10, 36], |rng, record| {
            spoil_type(rng, groups, record)
        });
        assert_eq!(types_check(&world.groups, &types), due.map_or(Ok(()), Err));
        seen[due.map_or(0, |refusal| refusal.question as usize)] += 1;

        let mut inputs = inputs_of(&world, &untyped_script(rng, &world.tables, 40));
        let order = [14, 15, 36, 16];
        let due = spoiled(rng, &mut inputs.script, SCRIPT_BYTES, &order, |rng, record| {
            spoil_record(rng, groups, record)
        });
        let (stepped, _) = step_in(&inputs, 0);
        assert_eq!(stepped.err(), due);
        seen[due.map_or(0, |refusal| refusal.question as usize)] += 1;
    });
    for question in [0, 9, 10, 14, 15, 16, 36] {
        assert!(!enough || seen[question] > 0, "question {question} was drawn: {seen:?}");
    }
}

#[test]
fn a_subterm_is_one_whole_part() {
    examples(500, |rng| {
        let world = World::random(rng);
        let fuel = rng.below(60);
        let term = untyped_script(rng, &world.tables, fuel);
        let script = term.write();
        let count = term.size();
        assert_eq!(subterm(&script, 0), &script[..]);
        // Each node's part is its record, then its operands' parts.
        fn walk(term: &Term, script: &[u8], at: usize) -> usize {
            let part = subterm(script, at as u64);
            assert_eq!(part, term.write());
            assert_eq!(
                part.as_ptr(),
                script[at * SCRIPT_BYTES..].as_ptr(),
                "a part of the caller's script"
            );
            term.operands().iter().fold(at + 1, |at, (operand, _)| walk(operand, script, at))
        }
        assert_eq!(walk(&term, &script, 0), count);
        for past in [count as u64, count as u64 + 1, 1 << 32, u64::MAX] {
            assert_eq!(subterm(&script, past), &[] as &[u8]);
        }
        let cut = script.len() - SCRIPT_BYTES;
        assert_eq!(subterm(&script[..cut], 0), &[] as &[u8], "cut short");
        assert_eq!(subterm(&script[..cut + SCRIPT_BYTES - 1], 0), &[] as &[u8], "no whole records");
        let over = [script.clone(), script.clone()].concat();
        assert_eq!(subterm(&over, 0), &[] as &[u8], "left over");
    });
}

// ---------------------------------------------------------------------------------------------
// Typing, and what runs of accepted scripts keep to

#[test]
fn scripts_made_to_be_typed_are_accepted() {
    let mut seen = [0; OPERANDS.len()];
    let (mut own_type, mut new_type) = (0, 0);
    let enough = examples(1500, |rng| {
        let world = World::random(rng);
        let inputs = inputs_of(&world, &typed(rng, &world));
        let found = reported(&inputs).expect("typed by construction");
        check_finds(&inputs, &found.write());
        for record in inputs.script.chunks(SCRIPT_BYTES) {
            seen[record[0] as usize] += 1;
        }
        let record = Record::read(&inputs.script);
        own_type += finds_own_type(&inputs.script) as u32;
        new_type += (record.finds_own_type() && !stands_in(&world, &found)) as u32;
    });
    assert!(!enough || own_type > 100, "cases that find their type were drawn: {own_type}");
    assert!(!enough || new_type > 0, "and a found type that stands nowhere: {new_type}");
    assert!(
        !enough || seen.iter().all(|&count| count > 0),
        "all fifteen kinds were drawn: {seen:?}"
    );
}

/// The run of an accepted script is not refused and doesn't end 2 or 3, and each term that it reaches is accepted with
/// a type at or below the reported one. Stripped, over the one-group table, it goes the same way.
#[test]
fn drawn_accepted_runs_keep_their_promise() {
    let mut ends = [0; 5];
    let (mut longest, mut by_another, mut own_type, mut creators) = (0, 0, 0, 0);
    let mut counted = 0;
    let enough = examples(900, |rng| {
        let world = World::random(rng);
        let inputs = inputs_of(&world, &typed(rng, &world));
        let found = reported(&inputs).expect("typed by construction");
        let budget = if rng.one_in(10) { 300 } else { rng.below(60) as u64 };
        let room = match rng.below(4) {
            0 => inputs.script.len() + rng.below(400),
            _ => REPORT_RUN_BYTES,
        };

        // Never refused, no end 2 or 3.
        let (result, first, scratch) = run_in(&inputs, budget, room, room);
        let report = result.expect("an accepted script's run is not refused");
        assert!(!matches!(report.end, End::MayNot | End::WrongKind), "{report:?}");
        ends[report.end as usize] += 1;
        longest = longest.max(report.steps);
        by_another += (report.steps > 0 && calls_as_another(&inputs)) as u32;
        own_type += (report.steps > 0 && finds_own_type(&inputs.script)) as u32;
        counted += (report.steps > 0 && counts(&inputs.script)) as u32;
        let made = (found.marks.c, found.marks.ic) != (0, 0);
        creators += (report.steps > 0 && made) as u32;

        // Every reached term is accepted at or below the reported type.
        let mut reached = inputs.clone();
        for step in 0..=report.steps {
            let own = reported(&reached).unwrap_or_else(|refusal| {
                panic!("the term after {step} steps is refused: {refusal:?}")
            });
            assert!(types::at_or_below(groups_of(&world), &own, &found), "after {step} steps");
            if step < report.steps {
                let (moved, written) = step_in(&reached, room);
                let moved = moved.expect("not refused");
                assert_eq!(moved.end, End::Moved);
                reached.script = written[..moved.records as usize * SCRIPT_BYTES].to_vec();
            }
        }
        assert_eq!(first[..reached.script.len()], reached.script[..], "the run is its steps");
        if report.end == End::Value {
            let term = read_script(&world.tables, &reached.script, &[]).expect("accepted");
            assert!(is_value(&term));
        }

        // The stripped run over the stripped types and the one group goes the same way.
        let mut bare = Inputs { groups: ONE_GROUP.to_vec(), ..inputs.clone() };
        strip_types(&mut bare.types);
        strip_script(&mut bare.script);
        let (stripped, bare_first, bare_scratch) = run_in(&bare, budget, room, room);
        assert_eq!(stripped, Ok(report));
        let mut last = first.clone();
        strip_script(&mut last);
        assert_eq!(bare_first, last, "the last term stripped, then zeros");
        assert!(scratch.iter().chain(&bare_scratch).all(|&byte| byte == 0));
    });
    assert!(!enough || ends[0] > 0 && ends[1] > 0 && ends[4] > 0, "all three drawn: {ends:?}");
    assert!(!enough || longest > 50, "some run is long: {longest}");
    assert!(!enough || by_another > 0, "calls were made as a group above r of their type");
    assert!(!enough || own_type > 0, "cases that find their type were run");
    assert!(!enough || counted > 50, "scripts that count were run: {counted}");
    assert!(!enough || creators > 20, "creators were left after steps: {creators}");
}

#[test]
fn drawn_accepted_large_runs_keep_their_promise() {
    let mut largest = 0;
    let enough = long_examples(12, |rng| {
        let world = World::random(rng);
        let most = if rng.one_in(3) { MOST_SCRIPT_RECORDS } else { 2000 };
        let inputs = inputs_of(&world, &large_typed_script(rng, &world.tables, most));
        largest = largest.max(inputs.script.len() / SCRIPT_BYTES);
        let found = reported(&inputs).expect("typed by construction");
        let (result, first, _) = run_in(&inputs, 150, REPORT_RUN_BYTES, REPORT_RUN_BYTES);
        let report = result.expect("an accepted script's run is not refused");
        assert!(!matches!(report.end, End::MayNot | End::WrongKind), "{report:?}");
        let script = first[..report.records as usize * SCRIPT_BYTES].to_vec();
        let last = reported(&Inputs { script, ..inputs.clone() }).expect("the last term is typed");
        assert!(types::at_or_below(groups_of(&world), &last, &found));
        let mut bare = Inputs { groups: ONE_GROUP.to_vec(), ..inputs };
        strip_types(&mut bare.types);
        strip_script(&mut bare.script);
        let (stripped, bare_first, _) = run_in(&bare, 150, REPORT_RUN_BYTES, REPORT_RUN_BYTES);
        assert_eq!(stripped, Ok(report));
        let mut last = first;
        strip_script(&mut last);
        assert_eq!(bare_first, last);
    });
    assert!(!enough || largest > 4000, "some script is large: {largest}");
}

/// Do the readers of the recursion at this place fulfil its condition?
fn readers_recur(inputs: &Inputs, at: Refusal) -> bool {
    let tables = read_tables(&inputs.groups, &inputs.types).expect("accepted");
    let record = Record::read(&inputs.script[at.place as usize * SCRIPT_BYTES..]);
    let own = tables.types.at(record.number.into());
    let (_, result) = own.sides().expect("a function has sides");
    tables.groups.below(own.marks.ir, result.marks.ir)
}

#[test]
fn near_misses_that_pass_keep_the_promise_too() {
    let (mut passed, mut by_another) = (0, 0);
    let (mut refused, mut refused_recursion, mut by_creators) = ([0; LAST_QUESTION + 1], 0, 0);
    let mut refused_numbers = [0; LAST_QUESTION + 1];
    let enough = examples(4000, |rng| {
        let world = World::random(rng);
        let script = typed(rng, &world).write();
        let (script, types) = if rng.one_in(3) {
            (script, near_miss_types(rng, &world))
        } else {
            (near_miss(rng, &world.tables, &script), world.types.clone())
        };
        let inputs = Inputs { script, groups: world.groups.clone(), types };
        match reported(&inputs) {
            Err(refusal) => {
                check_refuses(&inputs, refusal.question, refusal.place);
                let types = inputs.types.len() / TYPE_BYTES;
                let script = inputs.script.len() / SCRIPT_BYTES;
                assert!(refusal.place as usize <= types.max(script));
                refused[refusal.question as usize] += 1;
                let at_recursion =
                    inputs.script.get(refusal.place as usize * SCRIPT_BYTES) == Some(&11);
                refused_recursion += (refusal.question == 21 && at_recursion) as u32;
                let at = inputs.script.get(refusal.place as usize * SCRIPT_BYTES);
                if at.is_some_and(|kind| matches!(kind, 12..=14)) {
                    refused_numbers[refusal.question as usize] += 1;
                }
                by_creators += (refusal.question == 23 && readers_recur(&inputs, refusal)) as u32;
                // What stands before typing is asked by a run too.
                if !refusal.is_of_typing() {
                    run_refuses(&inputs, refusal.question, refusal.place);
                }
            }
            Ok(found) => {
                passed += 1;
                by_another += calls_as_another(&inputs) as u32;
                let (result, first, _) = run_in(&inputs, 40, REPORT_RUN_BYTES, REPORT_RUN_BYTES);
                let report = result.expect("an accepted script's run is not refused");
                assert!(!matches!(report.end, End::MayNot | End::WrongKind), "{report:?}");
                let script = first[..report.records as usize * SCRIPT_BYTES].to_vec();
                let last = reported(&Inputs { script, ..inputs }).expect("the last term is typed");
                assert!(types::at_or_below(groups_of(&world), &last, &found));
            }
        }
    });
    assert!(!enough || passed > 0 && by_another > 0);
    assert!(!enough || refused_recursion > 0, "21 was answered no at a recursion");
    assert!(!enough || by_creators > 0, "23 was answered no by creators alone");
    for question in [9, 10, 14, 15, 16, 17, 19, 20, 21, 22, 23, 31, 36] {
        assert!(!enough || refused[question] > 0, "question {question} was drawn: {refused:?}");
    }
    for question in [14, 15, 16, 20, 21, 36] {
        let drawn = refused_numbers[question] > 0;
        assert!(!enough || drawn, "question {question} at numbers: {refused_numbers:?}");
    }
}

#[test]
fn the_reported_type_does_not_depend_on_how_the_script_is_wrapped() {
    // Protecting raises, projecting a pair gives its part back, applying the identity the same.
    let mut values = 0;
    let enough = examples(500, |rng| {
        let world = World::random(rng);
        let groups = groups_of(&world);
        let term = typed(rng, &world);
        let found = reported(&inputs_of(&world, &term)).expect("typed by construction");
        let marks = random_marks(rng, groups);

        let by = random_raise(rng, groups);
        let protect = Term::Protect(by, term.clone());
        let own = reported(&inputs_of(&world, &protect)).expect("typed");
        assert_eq!(own, raise(groups, &found, by));
        // A value is raised by a step to just that.
        if is_value(&term) {
            let inputs = inputs_of(&world, &protect);
            let script = step_reports(&inputs, REPORT_RUN_BYTES, 1, term.size() as u32);
            assert_eq!(reported(&Inputs { script, ..inputs }), Ok(own));
        }

        if found.size() + 2 <= MOST_TYPE_RECORDS {
            for side in [Side::First, Side::Second] {
                let pair = match side {
                    Side::First => Term::Pair(marks, term.clone(), unit()),
                    Side::Second => Term::Pair(marks, unit(), term.clone()),
                };
                // Any group that may read it: it is met with the pair's ic.
                let node = groups.join(marks.r, any_group(rng, groups));
                let by = Raise { ir: marks.ir, ic: groups.meet(marks.ic, node) };
                let part = Term::Projection(side, node, Rc::new(pair));
                let own = reported(&inputs_of(&world, &part)).expect("typed");
                assert_eq!(own, raise(groups, &found, by));
                // Where it is a value, a step protects it by just that.
                if is_value(&term) {
                    values += 1;
                    let protected = Term::Protect(by, term.clone()).write();
                    let records = term.size() as u32 + 1;
                    let moved =
                        step_reports(&inputs_of(&world, &part), protected.len(), 1, records);
                    assert_eq!(moved, protected);
                }
            }
        }
    });
    assert!(!enough || values > 0, "values were wrapped");
}

#[test]
fn question_23_asks_what_unrolling_needs() {
    // λx. (f x)_g with the groups of f's type s, which is what stands for f once μf : s is unrolled: 23 is answered no
    // exactly where it isn't at or below s.
    let (mut passed, mut by_readers, mut by_creators) = (0, 0, 0);
    let enough = examples(3000, |rng| {
        let bytes = random_groups(rng);
        let groups = read_groups(&bytes).expect("a lattice");
        let mut part = || {
            let size = 1 + 2 * rng.below(2);
            Rc::new(random_type(rng, &groups, size))
        };
        let form = Form::Function(part(), part());
        let s = Type { marks: random_marks(rng, &groups), form };
        let g = groups.join(s.marks.r, any_group(rng, &groups));
        let reported_of = |term: Term| {
            let (groups, types) = (bytes.clone(), s.write());
            reported(&Inputs { groups, types, script: term.write() })
        };

        let call = Term::Application(g, Rc::new(Term::Variable(1)), Rc::new(Term::Variable(0)));
        let own = Rc::new(Term::Function(s.marks, 1, Rc::new(call)));
        let around = reported_of(Term::Function(LOW, 0, own.clone())).expect("typed");
        let (_, found) = around.sides().expect("a function has sides");
        let fits = types::at_or_below(&groups, found, &s);
        let answer = reported_of(Term::Recursion(g, 0, own));
        let expected = if fits { Ok(s.clone()) } else { Err(Refusal { question: 23, place: 0 }) };
        assert_eq!(answer, expected);

        let (_, result) = s.sides().expect("a function has sides");
        let tally = match (fits, groups.below(s.marks.ir, result.marks.ir)) {
            (true, _) => &mut passed,
            (false, true) => &mut by_creators,
            (false, false) => &mut by_readers,
        };
        *tally += 1;
    });
    let all = passed > 0 && by_readers > 0 && by_creators > 0;
    assert!(!enough || all, "drawn: {passed}, {by_readers}, {by_creators}");
}

// ---------------------------------------------------------------------------------------------
// Steps and runs of any closed script

#[test]
fn a_run_is_its_steps() {
    let mut ends = [0; 5];
    let enough = examples(1500, |rng| {
        let world = World::random(rng);
        let fuel = rng.below(100);
        let inputs = inputs_of(&world, &untyped_script(rng, &world.tables, fuel));
        let budget = rng.below(40) as u64;
        let length = inputs.script.len();
        let (first, scratch) = (length + rng.below(900), length + rng.below(900));
        let (result, buffer, _) = run_in(&inputs, budget, first, scratch);
        let report = result.expect("not refused");

        let mut reached = inputs.clone();
        let (mut steps, mut end) = (0, None);
        while steps < budget {
            let (moved, written) = step_in(&reached, first.min(scratch));
            let moved = moved.expect("a reached term is never refused");
            if moved.end != End::Moved {
                end = Some(moved.end);
                assert_eq!(moved.records as usize * SCRIPT_BYTES, reached.script.len());
                break;
            }
            reached.script = written[..moved.records as usize * SCRIPT_BYTES].to_vec();
            steps += 1;
        }
        let end = end.unwrap_or_else(|| {
            let term = read_script(&world.tables, &reached.script, &[]).expect("closed");
            if is_value(&term) {
                End::Value
            } else {
                End::Moved
            }
        });
        ends[end as usize] += 1;
        assert_eq!((report.end, report.steps), (end, steps));
        assert_eq!(report.records as usize * SCRIPT_BYTES, reached.script.len());
        let mut expected = reached.script;
        expected.resize(first, 0);
        assert_eq!(buffer, expected);
    });
    assert!(!enough || ends.iter().all(|&count| count > 0), "all five ends were drawn: {ends:?}");
}

#[test]
fn a_longer_budget_continues_the_run() {
    examples(500, |rng| {
        let world = World::random(rng);
        let fuel = rng.below(60);
        let inputs = inputs_of(&world, &untyped_script(rng, &world.tables, fuel));
        // At least one more step is tried, or a stuck term would count as merely unfinished.
        let (one, more) = (rng.below(10) as u64, rng.between(1, 10) as u64);
        let room = REPORT_RUN_BYTES;
        let (whole, whole_first, _) = run_in(&inputs, one + more, room, room);
        let (half, half_first, _) = run_in(&inputs, one, room, room);
        let (whole, half) = (whole.expect("not refused"), half.expect("not refused"));
        let script = half_first[..half.records as usize * SCRIPT_BYTES].to_vec();
        let (rest, rest_first, _) = run_in(&Inputs { script, ..inputs }, more, room, room);
        let rest = rest.expect("not refused");
        assert_eq!((rest.end, rest.records), (whole.end, whole.records));
        assert_eq!(half.steps + rest.steps, whole.steps);
        assert_eq!(rest_first, whole_first);
    });
}

#[test]
fn stripping_clears_groups_and_nothing_else() {
    examples(2000, |rng| {
        let length = rng.below(60);
        let before = rng.bytes(length);
        let mut script = before.clone();
        strip_script(&mut script);
        let mut types = before.clone();
        strip_types(&mut types);
        assert_eq!((script.len(), types.len()), (length, length));
        for at in 0..length {
            // r, ir, c and ic: kind, zero and number stay.
            let cleared = ![0, 3, 4, 5].contains(&(at % SCRIPT_BYTES));
            assert_eq!(script[at], if cleared { 0 } else { before[at] });
            let cleared = ![0, 3].contains(&(at % TYPE_BYTES));
            assert_eq!(types[at], if cleared { 0 } else { before[at] });
        }
    });
}

#[test]
fn a_stripped_script_keeps_its_shape() {
    examples(500, |rng| {
        let world = World::random(rng);
        let fuel = rng.below(60);
        let mut inputs = inputs_of(&world, &untyped_script(rng, &world.tables, fuel));
        strip_script(&mut inputs.script);
        strip_types(&mut inputs.types);
        inputs.groups = ONE_GROUP.to_vec();
        let world = World::of(inputs.groups.clone(), inputs.types.clone());
        let term = read_script(&world.tables, &inputs.script, &[]).expect("13 to 19 are met");
        let (report, _, _) = run_in(&inputs, 30, REPORT_RUN_BYTES, REPORT_RUN_BYTES);
        assert_ne!(report.expect("not refused").end, End::MayNot, "one group reads everything");
        assert_eq!(term.write(), inputs.script);
    });
}

// ---------------------------------------------------------------------------------------------
// Sheets

/// The sheet of a value for a group, in a buffer with some bytes more, which are kept.
fn whole_sheet(world: &World, value: &Term, group: Group) -> Vec<u8> {
    let inputs = inputs_of(world, value);
    let (count, bytes) = sheet_in(&inputs, group.into(), inputs.script.len() + 4);
    let length = count.expect("a value that fits") as usize * SHEET_BYTES;
    assert_eq!(bytes[length..], filled(inputs.script.len() + 4)[length..]);
    bytes[..length].to_vec()
}

/// How many parts a sheet record is followed by.
fn parts_of(record: &[u8]) -> usize {
    match record[0] {
        1 | 2 => 1,
        3 => 2,
        _ => 0,
    }
}

/// The records of the object that a sheet starts with, and what follows them.
fn object(sheet: &[u8]) -> (&[u8], &[u8]) {
    let (mut pending, mut at) = (1, 0);
    while pending > 0 {
        pending = pending - 1 + parts_of(&sheet[at..at + SHEET_BYTES]);
        at += SHEET_BYTES;
    }
    sheet.split_at(at)
}

/// Is `low` the sheet `full` with the objects that group g may not read closed, and nothing else?
fn is_closed_to(groups: &Groups, g: Group, mut low: &[u8], mut full: &[u8]) -> bool {
    while !full.is_empty() && !low.is_empty() {
        if groups.below(full[1], g) {
            if low[..SHEET_BYTES] != full[..SHEET_BYTES] {
                return false;
            }
            full = &full[SHEET_BYTES..];
        } else {
            if low[..SHEET_BYTES] != [CLOSED, 0, 0, 0, 0, 0] {
                return false;
            }
            full = object(full).1;
        }
        low = &low[SHEET_BYTES..];
    }
    full.is_empty() && low.is_empty()
}

#[test]
fn sheets_show_more_to_higher_groups() {
    examples(800, |rng| {
        let world = World::random(rng);
        let groups = groups_of(&world);
        let fuel = rng.below(40);
        let value = untyped_value(rng, &world.tables, fuel);
        let top = whole_sheet(&world, &value, (groups.count() - 1) as Group);
        assert!(
            top.chunks(SHEET_BYTES).all(|record| record[0] != CLOSED),
            "the top reads everything"
        );
        let (g, h) = (any_group(rng, groups), any_group(rng, groups));
        let (low, high) =
            (whole_sheet(&world, &value, g), whole_sheet(&world, &value, groups.join(g, h)));
        assert!(is_closed_to(groups, g, &low, &top), "closed to g, with all parts, and no other");
        assert!(low.len() <= high.len(), "what g reads, a higher group reads");
    });
}

/// The groups of a value's outermost object.
fn own_marks(value: &Term) -> Marks {
    match value {
        Term::Unit(marks)
        | Term::Literal(marks, _)
        | Term::Function(marks, _, _)
        | Term::Pair(marks, _, _)
        | Term::Injection(_, marks, _, _) => *marks,
        _ => panic!("a value"),
    }
}

/// The value with what stands inside objects that group g may not read drawn anew, kind, groups and
/// size too, and the bodies of open functions.
fn redrawn_inside(rng: &mut Rng, world: &World, value: &Term, g: Group) -> Rc<Term> {
    let closed = |value: &Term| !groups_of(world).below(own_marks(value).r, g);
    if closed(value) {
        // Another value that is closed too; a unit where none is drawn.
        for _ in 0..20 {
            let fuel = rng.below(12);
            let other = untyped_value(rng, &world.tables, fuel);
            if closed(&other) {
                return other;
            }
        }
        return Rc::new(Term::Unit(own_marks(value)));
    }
    Rc::new(match value {
        Term::Unit(_) | Term::Literal(..) => value.clone(),
        Term::Function(marks, parameter, _) => {
            Term::Function(*marks, *parameter, untyped_value(rng, &world.tables, 3))
        }
        Term::Pair(marks, a, b) => {
            let a = redrawn_inside(rng, world, a, g);
            Term::Pair(*marks, a, redrawn_inside(rng, world, b, g))
        }
        Term::Injection(side, marks, sum, a) => {
            Term::Injection(*side, *marks, *sum, redrawn_inside(rng, world, a, g))
        }
        _ => panic!("a value"),
    })
}

#[test]
fn what_is_closed_in_both_leaves_no_trace() {
    let (mut differed, mut longer) = (0, 0);
    let enough = examples(1500, |rng| {
        let world = World::random(rng);
        let groups = groups_of(&world);
        let fuel = rng.below(40);
        let value = untyped_value(rng, &world.tables, fuel);
        let g = any_group(rng, groups);
        let other = redrawn_inside(rng, &world, &value, g);
        assert_eq!(whole_sheet(&world, &value, g), whole_sheet(&world, &other, g));
        // Answers are equal in every room, too short ones too.
        let room = rng.below(inputs_of(&world, &value).script.len() + 8);
        let (one, two) = (
            sheet_in(&inputs_of(&world, &value), g.into(), room),
            sheet_in(&inputs_of(&world, &other), g.into(), room),
        );
        assert_eq!(one, two);
        differed += (value != other) as u32;
        longer += (value.write().len() != other.write().len()) as u32;
    });
    assert!(!enough || differed > 0 && longer > 0, "values that differ were drawn");
}

#[test]
fn only_values_have_sheets() {
    let (mut values, mut others) = (0, 0);
    let enough = examples(800, |rng| {
        let world = World::random(rng);
        let fuel = rng.below(10);
        let term = untyped_script(rng, &world.tables, fuel);
        let inputs = inputs_of(&world, &term);
        let length = inputs.script.len();
        let (answer, bytes) = sheet_in(&inputs, 0, length);
        if is_value(&term) {
            values += 1;
            assert!(answer.is_ok());
        } else {
            others += 1;
            assert_eq!(answer, no(26, 0));
            assert_eq!(bytes, filled(length));
        }
    });
    assert!(!enough || values > 0 && others > 0, "both answers were drawn");
}

// ---------------------------------------------------------------------------------------------
// Damage

#[test]
fn refusals_leave_lent_memory_as_the_manual_says() {
    let mut refused = [0; LAST_QUESTION + 1];
    let enough = examples(6000, |rng| {
        let world = World::random(rng);
        let term = match rng.below(3) {
            0 => typed(rng, &world),
            1 => untyped_value(rng, &world.tables, 12),
            _ => untyped_script(rng, &world.tables, 40),
        };
        let mut inputs = inputs_of(&world, &term);
        match rng.below(6) {
            0 => inputs.groups = damaged(rng, &inputs.groups),
            1 => inputs.types = damaged(rng, &inputs.types),
            _ => inputs.script = damaged(rng, &inputs.script),
        }
        let (work, answer) = match rng.below(12) {
            0 => (WORK_BYTES - 1, ANSWER_BYTES),
            1 => (WORK_BYTES, ANSWER_BYTES - 1),
            _ => (WORK_BYTES, ANSWER_BYTES + 9),
        };
        let (checked, work_after, answer_after) = check_in(&inputs, work, answer);
        if let Err(refusal) = checked {
            refused[refusal.question as usize] += 1;
            assert_eq!(answer_after, filled(answer));
            let expected = if refusal.is_of_typing() { vec![0; work] } else { filled(work) };
            assert_eq!(work_after, expected);
        }
        let room = inputs.script.len() + rng.below(60);
        let room = if rng.one_in(8) { room / 2 } else { room };
        let (ran, first, scratch) = run_in(&inputs, 20, room, room + 1);
        if ran.is_err() {
            assert_eq!((first, scratch), (filled(room), filled(room + 1)));
        }
        let (stepped, written) = step_in(&inputs, room);
        if stepped.map_or(true, |report| report.end != End::Moved) {
            assert_eq!(written, filled(room));
        }
        let length = rng.below(40);
        let (seen, sheet) = sheet_in(&inputs, rng.below(34) as u64, length);
        if let Err(Refusal { question, .. }) = seen {
            refused[question as usize] += 1;
            assert_eq!(sheet, filled(length));
        }
        // A run, a step and a sheet ask 2 to 19 alike; only a run looks at its buffers in 13.
        if let (Err(one), Err(other)) = (ran, stepped) {
            assert!(one == other || one.question == 13);
        }
    });
    for question in [1, 2, 3, 4, 5, 6, 8, 9, 10, 11, 13, 14, 15, 16, 17, 19, 20, 22, 25, 26, 27] {
        assert!(!enough || refused[question] > 0, "question {question} was drawn: {refused:?}");
    }
}
