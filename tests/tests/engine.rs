//! The engine beside the second implementation, on many more examples than the other files make.
//!
//! The comparison itself is in `common`: answers and all bytes, guards around all memory.
#![cfg(feature = "engine")]

mod common;

use std::rc::Rc;

use common::*;
use wigneld_tests::calls::Preview;
use wigneld_tests::cases::{self, Inputs};
use wigneld_tests::engine;
use wigneld_tests::generate::*;
use wigneld_tests::groups::bit;
use wigneld_tests::limits::*;
use wigneld_tests::script::{Side, Term};
use wigneld_tests::steps::{step, End};
use wigneld_tests::strip::ONE_GROUP;
use wigneld_tests::types::Marks;
use wigneld_tests::words::read_words;

fn inputs_of(world: &World, term: &Term) -> Inputs {
    Inputs { groups: world.groups.clone(), types: world.types.clone(), script: term.write() }
}

/// A length near `around`: shorter, exact, or with some more.
fn near(rng: &mut Rng, around: usize) -> usize {
    match rng.below(6) {
        0 => around.saturating_sub(1),
        1 => around,
        2 => around + 1,
        3 => around + rng.below(300),
        4 => rng.below(around + 1),
        _ => around + SCRIPT_BYTES * rng.below(200),
    }
}

/// A number for a table of `count` entries: mostly in it, else just or far past it.
fn index(rng: &mut Rng, count: usize) -> u64 {
    match rng.below(8) {
        0 => count as u64,
        1 => *rng.pick(&[256, 65_536, 1 << 32, (1 << 32) + 1, u64::MAX]),
        _ => rng.below(count.max(1)) as u64,
    }
}

/// Every call on these inputs, the lent memory filled with chance bytes; the answers are asserted to
/// be the engine's inside each. Gives the number of comparisons made.
fn compare_all(rng: &mut Rng, inputs: &Inputs) -> usize {
    let script = inputs.script.len();
    let records = script / SCRIPT_BYTES;

    let (work, answer) = if rng.one_in(10) {
        (near(rng, WORK_BYTES), near(rng, ANSWER_BYTES))
    } else {
        (WORK_BYTES + rng.below(9), ANSWER_BYTES + rng.below(9))
    };
    let (work, answer) = (rng.bytes(work), rng.bytes(answer));
    let _ = check_with(inputs, work.clone(), answer.clone());
    let _ = check_profile_with(inputs, work, answer);

    let budget = match rng.below(8) {
        0 => 0,
        1 => 1,
        2 => 300,
        _ => rng.below(40) as u64,
    };
    let (first, scratch) = match rng.below(3) {
        0 => (near(rng, script), near(rng, script)),
        1 => (script + rng.below(2000), script + rng.below(2000)),
        _ => (REPORT_RUN_BYTES, REPORT_RUN_BYTES),
    };
    let (first, scratch) = (rng.bytes(first), rng.bytes(scratch));
    let _ = run_with(inputs, budget, first, scratch);

    let written = near(rng, script);
    let written = rng.bytes(written);
    let _ = step_with(inputs, written);

    let length = near(rng, script);
    let steps = rng.word();
    let forged = Preview { end: rng.below(5) as u64, records: records as u64, steps };
    let given = handed_back(rng, preview_of(inputs, length as u64, steps).unwrap_or(forged));
    let length = if rng.one_in(4) { near(rng, script) } else { length };
    let written = rng.bytes(length);
    let _ = move_with(inputs, given, written);

    let group = index(rng, inputs.groups.len() / ROW_BYTES);
    let sheet = near(rng, records * SHEET_BYTES);
    let sheet = rng.bytes(sheet);
    let _ = sheet_with(inputs, group, sheet);

    let types = inputs.types.len() / TYPE_BYTES;
    let _ = groups_check(&inputs.groups);
    let _ = types_check(&inputs.groups, &inputs.types);
    for _ in 0..4 {
        let (i, j) = (index(rng, types), index(rng, types));
        let _ = compare(&inputs.groups, &inputs.types, i, j);
    }
    for _ in 0..3 {
        subterm(&inputs.script, index(rng, records));
    }
    strip_script(&mut inputs.script.clone());
    strip_types(&mut inputs.types.clone());
    // Six calls with lent buffers and a preview, two checks of tables, four and three look-ups, two strippings, the
    // rewriting, the old office program's.
    let exported = compare_export(rng, inputs);
    18 + compare_rewriting(rng, &old_form(inputs)) + 1 + compare_import(rng, &exported)
}

/// Export into a buffer of about the length that it takes. Gives what stands in a long one.
fn compare_export(rng: &mut Rng, inputs: &Inputs) -> Inputs {
    let length = inputs.script.len() / SCRIPT_BYTES * OFFICE_BYTES;
    let lent = near(rng, length);
    let lent = rng.bytes(lent);
    let _ = export_with(inputs, lent);
    let (_, script) = export_in(inputs, length);
    Inputs { script, ..inputs.clone() }
}

/// Import and the callers of an old office script.
fn compare_import(rng: &mut Rng, old: &Inputs) -> usize {
    let lent = near(rng, old.script.len() / OFFICE_BYTES * SCRIPT_BYTES);
    let lent = rng.bytes(lent);
    let _ = import_with(old, lent);
    write_office_callers(&old.types, &mut old.script.clone());
    2
}

/// The three rewriting calls on inputs of the old form.
fn compare_rewriting(rng: &mut Rng, old: &Inputs) -> usize {
    write_callers(&old.types, &mut old.script.clone());
    let mut room = |old: &[u8], old_width: usize, width: usize| {
        let length = near(rng, old.len() / old_width * width);
        rng.bytes(length)
    };
    let types = room(&old.types, OLD_TYPE_BYTES, TYPE_BYTES);
    let script = room(&old.script, OLD_SCRIPT_BYTES, SCRIPT_BYTES);
    let _ = rewrite_types_with(&old.groups, &old.types, types);
    let _ = rewrite_script_with(old, script);
    3
}

/// Draws examples one way or another and asserts that comparisons were made.
fn comparisons<D>(draw: D, mut body: impl FnMut(&mut Rng) -> usize + Send + 'static)
where
    D: FnOnce(&mut dyn FnMut(&mut Rng)) + Send + 'static,
{
    let made = with_large_stack(move || {
        let mut made = 0;
        draw(&mut |rng| made += body(rng));
        made
    });
    assert!(made > 0, "nothing was compared");
}

/// As many examples as usual, or as the environment says.
fn some(usual: u64) -> impl FnOnce(&mut dyn FnMut(&mut Rng)) + Send + 'static {
    move |body| {
        examples(usual, body);
    }
}

/// The same where each example takes long.
fn some_long(usual: u64) -> impl FnOnce(&mut dyn FnMut(&mut Rng)) + Send + 'static {
    move |body| {
        long_examples(usual, body);
    }
}

/// Crafted examples: only the lent bytes are drawn, so once is enough.
fn once(body: &mut dyn FnMut(&mut Rng)) {
    drawn(1, body);
}

fn typed(rng: &mut Rng, world: &World) -> Rc<Term> {
    let fuel = if rng.one_in(4) { rng.below(200) } else { rng.below(60) };
    some_typed(rng, &world.tables, fuel)
}

#[test]
fn cases_a_to_l() {
    comparisons(some_long(30), |rng| {
        cases::all().iter().map(|(_, inputs)| compare_all(rng, inputs)).sum()
    });
}

#[test]
fn well_typed_scripts() {
    comparisons(some(4000), |rng| {
        let world = World::random(rng);
        let inputs = inputs_of(&world, &typed(rng, &world));
        compare_all(rng, &inputs)
    });
}

#[test]
fn large_scripts() {
    comparisons(some_long(60), |rng| {
        let world = World::random(rng);
        let most = if rng.one_in(3) { MOST_SCRIPT_RECORDS } else { 2000 };
        let mut inputs = inputs_of(&world, &large_typed_script(rng, &world.tables, most));
        if rng.one_in(2) {
            inputs.script = near_miss(rng, &world.tables, &inputs.script);
        }
        compare_all(rng, &inputs)
    });
}

#[test]
fn near_misses() {
    comparisons(some(8000), |rng| {
        let world = World::random(rng);
        let script = typed(rng, &world).write();
        let mut inputs =
            Inputs { groups: world.groups.clone(), types: world.types.clone(), script };
        for _ in 0..rng.between(1, 2) {
            if rng.one_in(3) {
                inputs.types = near_miss_types(rng, &world);
            } else {
                inputs.script = near_miss(rng, &world.tables, &inputs.script);
            }
        }
        compare_all(rng, &inputs)
    });
}

#[test]
fn deep_scripts() {
    comparisons(some(1500), |rng| {
        let world = World::random(rng);
        let depth = rng.between(MOST_DEPTH - 12, MOST_DEPTH + 4);
        let term = deep_script(rng, &world.tables, depth);
        compare_all(rng, &inputs_of(&world, &term))
    });
}

#[test]
fn untyped_scripts_and_values() {
    comparisons(some(6000), |rng| {
        let world = World::random(rng);
        let fuel = rng.below(120);
        let term = if rng.one_in(3) {
            untyped_value(rng, &world.tables, fuel)
        } else {
            untyped_script(rng, &world.tables, fuel)
        };
        compare_all(rng, &inputs_of(&world, &term))
    });
}

#[test]
fn damaged_inputs() {
    comparisons(some(12_000), |rng| {
        let world = World::random(rng);
        let term = match rng.below(3) {
            0 => typed(rng, &world),
            1 => untyped_value(rng, &world.tables, 12),
            _ => untyped_script(rng, &world.tables, 40),
        };
        let mut inputs = inputs_of(&world, &term);
        for _ in 0..rng.between(1, 3) {
            match rng.below(5) {
                0 => inputs.groups = damaged(rng, &inputs.groups),
                1 => inputs.types = damaged(rng, &inputs.types),
                _ => inputs.script = damaged(rng, &inputs.script),
            }
        }
        compare_all(rng, &inputs)
    });
}

#[test]
fn damaged_old_forms() {
    comparisons(some(12_000), |rng| {
        let world = World::random(rng);
        let term =
            if rng.one_in(2) { typed(rng, &world) } else { untyped_script(rng, &world.tables, 40) };
        let mut inputs = inputs_of(&world, &term);
        if rng.one_in(3) {
            inputs.script = near_miss(rng, &world.tables, &inputs.script);
        }
        let mut old = old_form(&inputs);
        match rng.below(8) {
            0 => old.groups = damaged(rng, &old.groups),
            1 | 2 => old.types = damaged(rng, &old.types),
            3..=5 => old.script = damaged(rng, &old.script),
            _ => {}
        }
        compare_rewriting(rng, &old)
    });
}

#[test]
fn office_scripts() {
    // Chance names over scripts of all kinds; some miss by a field, some are damaged.
    comparisons(some(12_000), |rng| {
        let world = World::random(rng);
        let fuel = rng.below(80);
        let term = match rng.below(4) {
            0 => untyped_script(rng, &world.tables, fuel),
            1 if rng.one_in(4) => {
                let depth = rng.between(MOST_DEPTH - 6, MOST_DEPTH + 4);
                deep_script(rng, &world.tables, depth)
            }
            _ => typed(rng, &world),
        };
        let mut old = inputs_of(&world, &term);
        old.script = office_script(rng, &term);
        match rng.below(8) {
            0 => old.groups = damaged(rng, &old.groups),
            1 => old.types = damaged(rng, &old.types),
            2 => old.script = damaged(rng, &old.script),
            3 | 4 => old.script = near_miss_office(rng, &old.script),
            _ => {}
        }
        compare_import(rng, &old)
    });
}

#[test]
fn small_raw_office_bytes() {
    // Small numbers and few names everywhere.
    comparisons(some(12_000), |rng| {
        let mut script: Vec<u8> = Vec::new();
        for _ in 0..rng.between(1, 6) {
            let kind = *rng.pick(&[0, 0, 1, 2, 2, 3, 4, 9, 9, 11, 12]);
            let number = if rng.one_in(3) { rng.below(5) as u8 } else { 0 };
            let mut record = [kind, 0, 0, 0, number, 0, 0, 0, 0, 0];
            for at in [6, 8] {
                record[at] = (rng.below(3) * rng.below(2)) as u8;
                record[at + 1] = rng.one_in(9) as u8;
            }
            if !matches!(kind, 0 | 2 | 9 | 11) && !rng.one_in(8) {
                record[6..8].fill(0);
            }
            if kind != 9 && !rng.one_in(8) {
                record[8..].fill(0);
            }
            script.extend(record);
        }
        let (groups, types) = (cases::two_groups(), cases::case_types());
        compare_import(rng, &Inputs { groups, types, script })
    });
}

#[test]
fn small_raw_bytes() {
    // Small numbers everywhere, so that a good part of them means something.
    comparisons(some(12_000), |rng| {
        let mut raw = |records: usize, width: usize, zeros: &[usize], most: u64| -> Vec<u8> {
            (0..records * width)
                .map(|at| match at % width {
                    0 => (rng.word() % most) as u8,
                    at if zeros.contains(&at) => 0,
                    _ => (rng.word() % 3) as u8 & (rng.word() % 3) as u8,
                })
                .collect()
        };
        let (types, script) = (raw(3, TYPE_BYTES, &[3], 5), raw(4, SCRIPT_BYTES, &[3, 5], 15));
        let types = if rng.one_in(2) { cases::case_types() } else { types };
        let mut script = script[..SCRIPT_BYTES * rng.between(1, 4)].to_vec();
        for record in script.chunks_mut(SCRIPT_BYTES) {
            // Some numbers as a case has that finds its type, of any kind.
            if rng.one_in(6) {
                record[4..6].copy_from_slice(&OWN_TYPE.to_le_bytes());
            }
            // Most kinds name no creators.
            if rng.one_in(2) {
                record[6..].fill(0);
            }
        }
        let groups = if rng.one_in(4) { random_groups(rng) } else { cases::two_groups() };
        compare_all(rng, &Inputs { groups, types, script })
    });
}

#[test]
fn raw_bytes() {
    comparisons(some(3000), |rng| {
        let mut raw = |most: usize| {
            let length = rng.below(most);
            rng.bytes(length)
        };
        let inputs = Inputs { groups: raw(140), types: raw(300), script: raw(400) };
        let mut made = compare_all(rng, &inputs);
        // Raw scripts over tables that are fine.
        let world = World::random(rng);
        made += compare_all(rng, &Inputs { script: inputs.script, ..inputs_of(&world, &unit()) });
        made
    });
}

#[test]
fn bits_of_rows() {
    // Rows with one bit, with all but one, and drawn ones; every byte as a group, and wider numbers.
    let one_bit = (0..32).map(|h| 1u32 << h);
    let mut rows: Vec<u32> = one_bit.flat_map(|row| [row, !row]).chain([0, u32::MAX]).collect();
    drawn(1, |rng| rows.extend((0..2000).map(|_| rng.below(1 << 32) as u32)));
    let wide = [256, 1 << 31, 1 << 32, (1 << 32) + 1, 1 << 63, u64::MAX];
    for &row in &rows {
        for h in (0..256).chain(wide) {
            assert_eq!(engine::bit(row, h), bit(row, h as usize) as u64, "bit {h} of {row}");
        }
    }
}

#[test]
fn tables_of_words() {
    let mut answers = std::collections::BTreeSet::new();
    examples(20_000, |rng| {
        let table = words_table(rng);
        let expected = read_words(&table).map(|_| ());
        assert_eq!(engine::words_check(&table), engine::packed_nothing(&expected), "{table:?}");
        answers.insert(expected.err().map_or(0, |refusal| refusal.question));
    });
    assert_eq!(answers.into_iter().collect::<Vec<_>>(), [0, 32, 33, 34]);
}

#[test]
fn every_row_of_three_small_groups() {
    // All tables of 1 to 3 rows with words below 16.
    with_large_stack(|| {
        let mut accepted = 0;
        for count in 1..=3u32 {
            for code in 0..16u32.pow(count) {
                let rows: Vec<u32> = (0..count).map(|row| code >> (4 * row) & 15).collect();
                accepted += groups_check(&words(&rows)).is_ok() as u32;
            }
        }
        // The chains of one, two and three groups: no other lattice has so few.
        assert_eq!(accepted, 3);
    });
}

#[test]
fn every_pair_of_small_types() {
    // All types of up to 3 records over two groups, against each other: all readers, then all creators. Sides are units, or
    // numbers.
    let pairs = [(0, 0), (1, 0), (1, 1)];
    let readers = pairs.map(|(r, ir)| Marks { r, ir, ..LOW });
    let creators = pairs.map(|(c, ic)| Marks { c, ic, ..LOW });
    for marks in [readers, creators] {
        let with = |kind, Marks { r, ir, c, ic }| vec![kind, r, ir, 0, c, ic];
        let mut types: Vec<Vec<u8>> = Vec::new();
        for leaf in [0, 4] {
            let leaves: Vec<Vec<u8>> = marks.iter().map(|&marks| with(leaf, marks)).collect();
            types.extend(leaves.clone());
            for kind in 1..=3 {
                for &marks in &marks {
                    for left in &leaves {
                        for right in &leaves {
                            types.push([with(kind, marks), left.clone(), right.clone()].concat());
                        }
                    }
                }
            }
        }
        let starts: Vec<u64> = types
            .iter()
            .scan(0, |at, one| {
                let start = *at;
                *at += (one.len() / TYPE_BYTES) as u64;
                Some(start)
            })
            .collect();
        let table = types.concat();
        let mut answers = [0; 3];
        for &i in &starts {
            for &j in &starts {
                let answer = compare(&cases::two_groups(), &table, i, j);
                answers[answer.expect("both indexes are in the table") as usize] += 1;
            }
        }
        // Of the pairs of the 3 pairs of groups 6 are in order, 3 of them the same; three kinds with two
        // sides, and units; as many with numbers.
        let all = types.len().pow(2);
        let (ordered, same) = (2 * (3 * 6 * 6 * 6 + 6), 2 * (3 * 3 * 3 * 3 + 3));
        assert_eq!(answers, [all - ordered, ordered - same, same]);
    }
}

#[test]
fn drawn_accepted_runs_of_the_engine_keep_their_promise() {
    // The stripped run beside the other; `run_with` compares each with the second implementation.
    comparisons(some(1500), |rng| {
        let world = World::random(rng);
        let inputs = inputs_of(&world, &typed(rng, &world));
        let budget = rng.below(200) as u64;
        let room = REPORT_RUN_BYTES;
        let (report, first, _) = run_in(&inputs, budget, room, room);
        let report = report.expect("an accepted script's run is not refused");
        assert!(!matches!(report.end, End::MayNot | End::WrongKind));
        let mut bare = Inputs { groups: ONE_GROUP.to_vec(), ..inputs };
        strip_types(&mut bare.types);
        strip_script(&mut bare.script);
        let (stripped, bare_first, _) = run_in(&bare, budget, room, room);
        assert_eq!(stripped, Ok(report));
        let mut last = first;
        strip_script(&mut last);
        assert_eq!(bare_first, last);
        2
    });
}

#[test]
fn boundary_sizes() {
    comparisons(once, |rng| {
        let base = Inputs {
            groups: words(&[15, 10, 12, 8]),
            types: cases::case_types(),
            script: unit().write(),
        };
        let mut made = 0;
        let mut both = |inputs: &Inputs| {
            for _ in 0..3 {
                made += compare_all(rng, inputs);
            }
        };
        for size in [8190, 8191, 8192, 8193] {
            both(&Inputs { script: wide(size).write(), ..base.clone() });
        }
        for depth in [255, 256, 257, 258, 8192] {
            both(&Inputs { script: deep(depth).write(), ..base.clone() });
        }
        for rows in [1, 31, 32, 33] {
            both(&Inputs { groups: chain_groups(rows), ..base.clone() });
        }
        for size in [61, 63, 65, 67, 4095] {
            let types = wide_type(size).write();
            both(&Inputs { types: types.clone(), ..base.clone() });
            let before = unit_types(3);
            both(&Inputs { types: [before, types].concat(), ..base.clone() });
        }
        for count in [4095, 4096, 4097] {
            both(&Inputs { types: unit_types(count), ..base.clone() });
        }
        // Found types of 63 and 65 records: a function with a large parameter, and nested pairs.
        for size in [59, 61, 63] {
            let types = wide_type(size).write();
            let x = Rc::new(Term::Variable(0));
            for body in [unit(), x.clone(), Rc::new(Term::Pair(LOW, x, unit()))] {
                let function = Term::Function(LOW, 0, body);
                both(&Inputs { types: types.clone(), script: function.write(), ..base.clone() });
            }
        }
        for units in [31, 32, 33] {
            let nest = (1..units).fold(unit(), |inner, _| Rc::new(Term::Pair(LOW, unit(), inner)));
            both(&Inputs { script: nest.write(), ..base.clone() });
        }
        made
    });
}

/// Over the groups and types of the cases: terms that double or deepen until they are too big.
fn growing() -> [Rc<Term>; 6] {
    let variable = |number| Rc::new(Term::Variable(number));
    let apply = |function, argument| Rc::new(Term::Application(0, function, argument));
    let function = |body| Rc::new(Term::Function(LOW, 1, body));
    let pair = |left, right| Rc::new(Term::Pair(LOW, left, right));
    let recursion = |body| Rc::new(Term::Recursion(0, 3, body));
    // μf. λx. f <x, x>
    let doubling =
        apply(recursion(function(apply(variable(1), pair(variable(0), variable(0))))), unit());
    // μf. λx. f (first x)
    let deepening = apply(
        recursion(function(apply(
            variable(1),
            Rc::new(Term::Injection(Side::First, LOW, 0, variable(0))),
        ))),
        unit(),
    );
    // (λx. x x) (λx. x x), and with a pair around each call.
    let own = function(apply(variable(0), variable(0)));
    let omega = apply(own.clone(), own);
    let wider = function(pair(apply(variable(0), variable(0)), variable(0)));
    let widening = apply(wider.clone(), wider);
    // μf. f, and μf. <f, f>: unrolling outside a function.
    let looping = recursion(variable(0));
    let split = recursion(pair(variable(0), variable(0)));
    [doubling, deepening, omega, widening, looping, split]
}

#[test]
fn growing_runs() {
    // Each in several buffers.
    comparisons(once, |rng| {
        let world = World::of(cases::two_groups(), cases::case_types());
        let mut made = 0;
        for term in growing() {
            let inputs = inputs_of(&world, &term);
            for budget in [0, 1, 2, 3, 10, 100, 1000] {
                for room in [inputs.script.len(), 300, 3000, REPORT_RUN_BYTES, 80_000] {
                    let (first, scratch) = (room.max(inputs.script.len()), 80_000);
                    let _ = run_in(&inputs, budget, first, scratch);
                    let _ = run_in(&inputs, budget, scratch, first);
                    made += 2;
                }
            }
            made += compare_all(rng, &inputs);
        }
        made
    });
}

/// A script that passes 2 to 19, of any of the kinds that are run here.
fn script_to_run(rng: &mut Rng) -> (World, Rc<Term>) {
    let world = World::random(rng);
    let fuel = rng.below(100);
    let term = match rng.below(20) {
        0 => {
            let grown = World::of(cases::two_groups(), cases::case_types());
            return (grown, rng.pick(&growing()).clone());
        }
        1 => deep(rng.between(MOST_DEPTH - 8, MOST_DEPTH)),
        2 | 3 => {
            // Its last level may be one deeper.
            let depth = rng.between(MOST_DEPTH - 9, MOST_DEPTH - 1);
            deep_script(rng, &world.tables, depth)
        }
        4 if rng.one_in(4) => large_typed_script(rng, &world.tables, 2000),
        5..=9 => untyped_script(rng, &world.tables, fuel),
        _ => typed(rng, &world),
    };
    (world, term)
}

/// The steps of a script in the largest buffers.
struct Way {
    steps: u64,
    /// No more steps would move.
    ended: bool,
    /// Bytes of the longest term on the way.
    longest: usize,
}

fn way(world: &World, script: &Rc<Term>, budget: u64) -> Way {
    let mut term = script.clone();
    let mut own = Way { steps: 0, ended: false, longest: term.size() * SCRIPT_BYTES };
    while own.steps < budget && !own.ended {
        let (end, next) = step(&world.tables, &term, MOST_SCRIPT_RECORDS);
        own.ended = end != End::Moved;
        own.steps += u64::from(!own.ended);
        own.longest = own.longest.max(next.size() * SCRIPT_BYTES);
        term = next;
    }
    own
}

/// A buffer's length: mostly one that the script or the longest term on the way only just has room in, or just hasn't.
fn run_length(rng: &mut Rng, script: usize, longest: usize) -> usize {
    match rng.below(8) {
        0 => near(rng, script),
        1 | 2 => near(rng, longest),
        3 => script + rng.below(2 * SCRIPT_BYTES),
        4 => rng.between(script, longest),
        5 => REPORT_RUN_BYTES + rng.below(20),
        _ => longest + rng.below(3000),
    }
}

/// None, few, just as many steps as there are, one less or more, and, where a run ends by itself, any number.
fn run_budget(rng: &mut Rng, way: &Way) -> u64 {
    match rng.below(8) {
        0 => 0,
        1 => rng.below(10) as u64,
        2 => way.steps,
        3 => way.steps.saturating_sub(1),
        4 => way.steps + 1,
        5 if way.ended => u64::MAX - rng.below(2) as u64,
        6 if way.ended => rng.word(),
        _ => rng.below(way.steps as usize + 1) as u64,
    }
}

#[test]
fn drawn_runs_in_drawn_buffers() {
    const RUNS: usize = 4;
    with_large_stack(|| {
        let (mut ends, mut refused) = ([0; 5], 0);
        let enough = examples(1000, |rng| {
            let (world, term) = script_to_run(rng);
            let inputs = inputs_of(&world, &term);
            let way = way(&world, &term, 300);
            for _ in 0..RUNS {
                let budget = run_budget(rng, &way);
                let lengths = [(); 2].map(|_| run_length(rng, inputs.script.len(), way.longest));
                let [first, scratch] = lengths.map(|length| rng.bytes(length));
                match run_with(&inputs, budget, first, scratch).0 {
                    Ok(report) => ends[report.end as usize] += 1,
                    Err(refusal) => {
                        assert_eq!(refusal.question, 13, "only a buffer is too short");
                        refused += 1;
                    }
                }
            }
        });
        let all = refused > 0 && ends.iter().all(|&count| count > 0);
        assert!(!enough || all, "all five ends and refusals: {ends:?}, {refused}");
    });
}

#[test]
fn substitution_by_far_too_big() {
    // 2,047 occurrences of a variable, 4,097 records for each.
    comparisons(once, |_| {
        fn pairs(count: usize, leaf: &Rc<Term>) -> Rc<Term> {
            if count == 1 {
                return leaf.clone();
            }
            let half = count / 2;
            Rc::new(Term::Pair(LOW, pairs(half, leaf), pairs(count - half, leaf)))
        }
        let body = pairs(2047, &Rc::new(Term::Variable(0)));
        let function = Rc::new(Term::Function(LOW, 0, body));
        let script = Term::Application(0, function, pairs(2049, &unit())).write();
        let inputs = Inputs { groups: words(&[1]), types: unit_types(1), script };
        let (report, _, _) = run_in(&inputs, 5, REPORT_RUN_BYTES, REPORT_RUN_BYTES);
        assert_eq!(report.expect("not refused").end, End::TooBig);
        let _ = step_in(&inputs, 100);
        2
    });
}
