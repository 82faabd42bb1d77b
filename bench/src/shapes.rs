//! Scripts of exact record counts, typical and worst for each call.

use std::rc::Rc;

use wigneld_tests::calls;
use wigneld_tests::cases::Inputs;
use wigneld_tests::generate::{chain_groups, unit, wide, wide_type, LOW, LOW_RAISE};
use wigneld_tests::limits::{
    ANSWER_BYTES, MOST_DEPTH, MOST_SCRIPT_RECORDS, MOST_TABLE_RECORDS, OWN_TYPE, SCRIPT_BYTES,
    TYPE_BYTES, WORK_BYTES,
};
use wigneld_tests::script::{Side, Term};
use wigneld_tests::types::{Form, Type};

use crate::calls::Call;

/// What is measured: a call, the name of a shape and its inputs by size.
pub struct Shape {
    pub call: Call,
    pub name: &'static str,
    pub inputs: fn(usize) -> Inputs,
}

pub static SHAPES: [Shape; 20] = [
    Shape { call: Call::Check, name: "typical", inputs: typical },
    Shape { call: Call::Check, name: "worst: chain", inputs: chain },
    Shape { call: Call::Check, name: "worst: first operands", inputs: first_operands },
    Shape { call: Call::Check, name: "worst: branches", inputs: branches },
    Shape { call: Call::Check, name: "worst: found types", inputs: found_types },
    Shape { call: Call::Check, name: "worst: tables", inputs: large_tables },
    Shape { call: Call::Check, name: "numbers", inputs: numbers },
    Shape { call: Call::Run, name: "typical", inputs: typical },
    Shape { call: Call::Run, name: "numbers", inputs: numbers },
    Shape { call: Call::Run, name: "worst: far redexes", inputs: far },
    Shape { call: Call::Run, name: "counting", inputs: counting },
    Shape { call: Call::Run, name: "counting, much before it", inputs: counting_after },
    Shape { call: Call::Run, name: "counting, much behind it", inputs: counting_before },
    Shape { call: Call::Run, name: "a function called often", inputs: called_often },
    Shape { call: Call::Run, name: "lets around a large body", inputs: lets },
    Shape { call: Call::Step, name: "typical", inputs: typical },
    Shape { call: Call::Step, name: "worst: substitution", inputs: substitution },
    Shape { call: Call::Sheet, name: "typical", inputs: values },
    Shape { call: Call::Sheet, name: "worst: pairs", inputs: pairs },
    Shape { call: Call::Sheet, name: "numbers", inputs: shown_numbers },
];

/// Of the types table: a sum of units, a function and a sum of 63 records, and a number, all groups 0. Where a
/// shape counts, a function from a number to a number follows.
const SUM: u16 = 0;
const FUNCTION_63: u16 = 3;
const SUM_63: u16 = 66;
const NUMBER: u16 = 129;
const COUNTING: u16 = 130;

/// A side of the types of 63 records.
const SIDE: usize = 31;

fn types() -> Vec<u8> {
    let side = || Rc::new(wide_type(SIDE));
    let function = Type { marks: LOW, form: Form::Function(side(), side()) };
    let sum = Type { marks: LOW, form: Form::Sum(side(), side()) };
    let small = Form::Sum(Rc::new(wide_type(1)), Rc::new(wide_type(1)));
    let number = Type { marks: LOW, form: Form::Number };
    let all = [Type { marks: LOW, form: small }, function, sum, number];
    all.iter().flat_map(Type::write).collect()
}

fn inputs(term: Rc<Term>, size: usize) -> Inputs {
    let script = term.write();
    assert_eq!(script.len(), size * SCRIPT_BYTES, "a shape of exactly this size");
    assert!(term.depth() <= MOST_DEPTH, "a shape within the depth limit");
    Inputs { groups: chain_groups(32), types: types(), script }
}

fn variable(number: usize) -> Rc<Term> {
    Rc::new(Term::Variable(number as u16))
}

fn pair(left: Rc<Term>, right: Rc<Term>) -> Rc<Term> {
    Rc::new(Term::Pair(LOW, left, right))
}

fn injection(side: Side, sum: u16, operand: Rc<Term>) -> Rc<Term> {
    Rc::new(Term::Injection(side, LOW, sum, operand))
}

fn inject(side: Side) -> Rc<Term> {
    injection(side, SUM, unit())
}

fn case(result: u16, tested: Rc<Term>, first: Rc<Term>, second: Rc<Term>) -> Rc<Term> {
    Rc::new(Term::Case(0, result, tested, first, second))
}

fn protect(times: usize, term: Rc<Term>) -> Rc<Term> {
    (0..times).fold(term, |inner, _| Rc::new(Term::Protect(LOW_RAISE, inner)))
}

/// Decisions in a row, each `(λx. case x of … | …)` of the last, a few dozen records at a time.
fn decisions(size: usize) -> Rc<Term> {
    if size > 40 {
        let left = (size - 2) / 2;
        let both = pair(decisions(left), decisions(size - 2 - left));
        return Rc::new(Term::Projection(Side::First, 0, both));
    }
    if size < 10 {
        return protect(size - 2, inject(Side::First));
    }
    let turned = case(SUM, variable(0), inject(Side::Second), inject(Side::First));
    let function = Rc::new(Term::Function(LOW, SUM, turned));
    apply(function, decisions(size - 8))
}

/// Check, run and step.
fn typical(size: usize) -> Inputs {
    inputs(decisions(size), size)
}

/// The same over as many types as a table may have.
fn large_tables(size: usize) -> Inputs {
    let mut found = typical(size);
    let own = found.types.clone();
    while found.types.len() + own.len() <= MOST_TABLE_RECORDS * TYPE_BYTES {
        found.types.extend(&own);
    }
    found
}

/// One-operand records, as many as the depth allows, over a wide term.
fn chain(size: usize) -> Inputs {
    let wide_depth = 2 * size.ilog2() as usize + 1;
    let times = (size / 2).min(MOST_DEPTH - wide_depth);
    inputs(protect(times, wide(size - times)), size)
}

/// A closed value of the sum of 63 records.
fn large_value() -> Rc<Term> {
    fn of(found: &Type) -> Rc<Term> {
        found.sides().map_or_else(unit, |(left, right)| pair(of(left), of(right)))
    }
    injection(Side::First, SUM_63, of(&wide_type(SIDE)))
}

/// A wide term of the sum of 63 records: cases halved down to values.
fn wide_sum(size: usize) -> Rc<Term> {
    let leaf = SIDE + 1;
    if size < 2 * leaf + 3 {
        return protect(size - leaf, large_value());
    }
    let left = (size - 3) / 2;
    case(SUM_63, inject(Side::First), wide_sum(left), wide_sum(size - 3 - left))
}

/// Cases in the tested operands of cases, as deep as can be, over a wide term: all of 63 records.
fn first_operands(size: usize) -> Inputs {
    const LEVEL: usize = 5;
    let levels = ((size - SIDE - 1) / LEVEL).min(200);
    let inner = wide_sum(size - LEVEL * levels);
    let branch = |side| injection(side, SUM_63, variable(0));
    let around = |tested, _| case(SUM_63, tested, branch(Side::First), branch(Side::Second));
    inputs((0..levels).fold(inner, around), size)
}

/// Cases with this number in the branches of cases, each branch a variable of a type of 63 records.
fn nested(result: u16, leaves: usize, binders: usize) -> Rc<Term> {
    if leaves == 1 {
        return variable(binders - 1);
    }
    let half = leaves / 2;
    let branch = |leaves| nested(result, leaves, binders + 1);
    case(result, inject(Side::First), branch(half), branch(leaves - half))
}

fn branches_with(result: u16, size: usize) -> Inputs {
    // The recursion's own record, 4 for each leaf but one, and the rest in protects.
    let leaves = (size - 2) / 4 + 1;
    let rest = size - 1 - (4 * leaves - 3);
    let body = protect(rest, nested(result, leaves, 1));
    inputs(Rc::new(Term::Recursion(LOW.r, FUNCTION_63, body)), size)
}

fn branches(size: usize) -> Inputs {
    branches_with(FUNCTION_63, size)
}

/// The same where every case finds its type: at each the common type of two of 63 records.
fn found_types(size: usize) -> Inputs {
    branches_with(OWN_TYPE, size)
}

/// A value: pairs halved down to injections, units and functions.
fn value(size: usize) -> Rc<Term> {
    match size {
        1 => unit(),
        2 => inject(Side::Second),
        3 => Rc::new(Term::Function(LOW, SUM, protect(1, variable(0)))),
        _ => {
            let left = (size - 1) / 2;
            pair(value(left), value(size - 1 - left))
        }
    }
}

fn values(size: usize) -> Inputs {
    inputs(value(size), size)
}

/// A value without functions, so that a sheet shows each record.
fn open_value(size: usize) -> Rc<Term> {
    match size {
        1 => unit(),
        2 => inject(Side::First),
        _ => {
            let left = (size - 1) / 2;
            pair(open_value(left), open_value(size - 1 - left))
        }
    }
}

/// The same as deep as can be: a comb of pairs, shallow values on its teeth.
fn comb(size: usize, depth: usize) -> Rc<Term> {
    if depth == 0 || size < 5 {
        return open_value(size);
    }
    let tooth = (size / (depth + 1)).clamp(1, size - 2);
    pair(open_value(tooth), comb(size - 1 - tooth, depth - 1))
}

fn pairs(size: usize) -> Inputs {
    inputs(comb(size, 240.min(size / 4)), size)
}

fn literal(number: usize) -> Rc<Term> {
    Rc::new(Term::Literal(LOW, number as u16))
}

fn add(left: Rc<Term>, right: Rc<Term>) -> Rc<Term> {
    Rc::new(Term::Addition(0, left, right))
}

fn apply(function: Rc<Term>, argument: Rc<Term>) -> Rc<Term> {
    Rc::new(Term::Application(0, function, argument))
}

/// A function of a number.
fn of_number(body: Rc<Term>) -> Rc<Term> {
    Rc::new(Term::Function(LOW, NUMBER, body))
}

/// A number: sums halved down to literals, every few of them chosen by a comparison, `(λx. case x < n of x + n | x)` of
/// a number.
fn number(size: usize) -> Rc<Term> {
    match size {
        1 => literal(size),
        2 => protect(1, literal(size)),
        14..=40 => {
            let test = Term::LessThan(0, SUM, variable(0), literal(size * size));
            let more = add(variable(1), literal(size));
            let chosen = case(NUMBER, Rc::new(test), more, variable(1));
            apply(of_number(chosen), number(size - 10))
        }
        _ => {
            let left = (size - 1) / 2;
            add(number(left), number(size - 1 - left))
        }
    }
}

/// Check and run.
fn numbers(size: usize) -> Inputs {
    inputs(number(size), size)
}

/// A value: pairs halved down to literals.
fn number_value(size: usize) -> Rc<Term> {
    match size {
        1 => literal(size),
        2 => inject(Side::First),
        _ => {
            let left = (size - 1) / 2;
            pair(number_value(left), number_value(size - 1 - left))
        }
    }
}

fn shown_numbers(size: usize) -> Inputs {
    inputs(number_value(size), size)
}

/// Redexes only: pairs halved down to a protected unit.
fn redexes(size: usize) -> Rc<Term> {
    if size < 5 {
        return protect(size - 1, unit());
    }
    let left = (size - 1) / 2;
    pair(redexes(left), redexes(size - 1 - left))
}

/// A comb of values with redexes at its far end: each step passes all the rest.
fn far(size: usize) -> Inputs {
    let end = size / 2;
    let depth = (size / 8).clamp(1, 200);
    let mut left = size - end;
    let mut term = redexes(end);
    for rest in (1..=depth).rev() {
        let tooth = left / rest - 1;
        term = pair(value(tooth), term);
        left -= tooth + 1;
    }
    inputs(term, size)
}

/// Rounds of each loop: what is under way stands in three protects more after each, so the depth allows few more.
const ROUNDS: usize = 50;

/// A loop, `(μf. λx. case x < n of f more | x) 0`: 11 records and what it goes on with.
fn looping(more: Rc<Term>) -> Rc<Term> {
    let test = Term::LessThan(0, SUM, variable(0), literal(ROUNDS));
    let again = apply(variable(2), more);
    let body = of_number(case(NUMBER, Rc::new(test), again, variable(1)));
    apply(Rc::new(Term::Recursion(LOW.r, COUNTING, body)), literal(0))
}

/// One more than the loop's number.
fn next() -> Rc<Term> {
    add(variable(1), literal(1))
}

/// Two loops: nearly all of the budget is spent in them.
fn loops() -> Rc<Term> {
    add(looping(next()), looping(next()))
}

/// Such a script over the types that loops name. Typing accepts it.
fn accepted(term: Rc<Term>, size: usize) -> Inputs {
    let number = Rc::new(Type { marks: LOW, form: Form::Number });
    let function = Type { marks: LOW, form: Form::Function(number.clone(), number) };
    let mut own = inputs(term, size);
    own.types.extend(function.write());
    let (mut work, mut answer) = (vec![0; WORK_BYTES], vec![0; ANSWER_BYTES]);
    let found = calls::check(&own.groups, &own.types, &own.script, &mut work, &mut answer);
    found.expect("a shape that typing accepts");
    own
}

/// A case that goes on with this term. The rest of the script is the branch that isn't taken, gone with the first step.
fn taken(term: Rc<Term>, size: usize) -> Inputs {
    let rest = number(size - 3 - term.size());
    accepted(case(NUMBER, inject(Side::First), term, rest), size)
}

/// The same of loops in a large term, which is given the records that are left for it. A sixteenth of the script is the
/// other branch, so that the loops have room at the largest size.
fn within(large: impl FnOnce(Rc<Term>, usize) -> Rc<Term>, size: usize) -> Inputs {
    let (loops, other) = (loops(), size / 16);
    let left = size - 3 - other - loops.size();
    taken(large(loops, left), size)
}

/// Many steps over a small term, whatever the size of the script.
fn counting(size: usize) -> Inputs {
    taken(loops(), size)
}

/// The same over a large one, whose other records are a value before the loops: `let x = loops in …`.
fn counting_after(size: usize) -> Inputs {
    within(|loops, left| apply(of_number(number(left - 2)), loops), size)
}

/// The same over a large one, whose other records come after the loops and aren't evaluated yet: `loops + …`.
fn counting_before(size: usize) -> Inputs {
    within(|loops, left| add(loops, number(left - 1)), size)
}

/// A loop whose function holds a large value, a quarter of the script, of which each call makes a copy.
fn called_often(size: usize) -> Inputs {
    let both = pair(next(), of_number(number(size / 4 - 1)));
    taken(looping(Rc::new(Term::Projection(Side::First, 0, both))), size)
}

/// `let x1 = 1 in let x2 = 2 in …` around a large function: each redex is nearly the whole term.
fn lets(size: usize) -> Inputs {
    let levels = (size / 12).min(100);
    let body = add(variable(levels), number(size - 3 * levels - 3));
    let around = |inner, level| apply(of_number(inner), literal(level));
    accepted((1..=levels).rev().fold(of_number(body), around), size)
}

/// Pairs halved down to leaves, of which the first `variables` are variable 0 and the others units.
fn body(leaves: usize, variables: usize) -> Rc<Term> {
    if leaves == 1 {
        return if variables > 0 { variable(0) } else { unit() };
    }
    let half = leaves / 2;
    pair(body(half, variables.min(half)), body(leaves - half, variables.saturating_sub(half)))
}

/// A function applied to a value that is put in as often as the new term's limit allows.
fn substitution(size: usize) -> Inputs {
    let leaves = size / 4;
    let own = 2 * leaves - 1;
    let argument = size - 2 - own;
    let most = (MOST_SCRIPT_RECORDS - 1 - own) / (argument - 1).max(1);
    let function = Rc::new(Term::Function(LOW, SUM, body(leaves, most.min(leaves))));
    inputs(apply(function, value(argument)), size)
}
