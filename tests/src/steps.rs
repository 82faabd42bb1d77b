//! Steps, left to right, and runs (manual, 6).

use std::rc::Rc;

use crate::groups::Group;
use crate::limits::{MOST_DEPTH, MOST_SCRIPT_RECORDS};
use crate::script::{Side, Term};
use crate::types::{Form, Marks, Raise, Tables};

/// How a step ends: the term is a value, it moves, the reader may not, an operand is of the wrong kind, or what comes
/// is too big.
#[derive(Debug, Clone, Copy, PartialEq, Eq)]
pub enum End {
    Value = 0,
    Moved = 1,
    MayNot = 2,
    WrongKind = 3,
    TooBig = 4,
}

/// Values: units, literals, functions, and pairs and injections of values.
pub fn is_value(term: &Term) -> bool {
    match term {
        Term::Unit(_) | Term::Function(..) | Term::Literal(..) => true,
        Term::Pair(_, a, b) => is_value(a) && is_value(b),
        Term::Injection(_, _, _, a) => is_value(a),
        _ => false,
    }
}

/// e[v/x]: `value` for the variable bound `number` binders out. The value is closed and the term
/// has no other free variable, so no number is shifted.
pub fn substitute(term: &Rc<Term>, value: &Rc<Term>, number: usize) -> Rc<Term> {
    if let Term::Variable(own) = **term {
        return if own as usize == number { value.clone() } else { term.clone() };
    }
    let operands = term
        .operands()
        .into_iter()
        .map(|(operand, binders)| substitute(operand, value, number + binders))
        .collect();
    Rc::new(Term::build(term.record(), operands))
}

/// The value with its own groups raised.
fn raise_value(tables: &Tables, value: &Term, by: Raise) -> Term {
    let raised = |marks: Marks| tables.security().raised(marks, by);
    match value {
        Term::Unit(marks) => Term::Unit(raised(*marks)),
        Term::Function(marks, parameter, body) => {
            Term::Function(raised(*marks), *parameter, body.clone())
        }
        Term::Pair(marks, a, b) => Term::Pair(raised(*marks), a.clone(), b.clone()),
        Term::Injection(side, marks, sum, a) => {
            Term::Injection(*side, raised(*marks), *sum, a.clone())
        }
        Term::Literal(marks, number) => Term::Literal(raised(*marks), *number),
        _ => panic!("only a value is raised"),
    }
}

/// What the reductions say of a term, sizes aside.
enum Move {
    To(Rc<Term>),
    Stay(End),
}

/// Lifts a move of an operand to the term around it: E[e] → E[e'].
fn inside(operand: &Rc<Term>, tables: &Tables, around: impl FnOnce(Rc<Term>) -> Term) -> Move {
    match reduce(tables, operand) {
        Move::To(next) => Move::To(Rc::new(around(next))),
        stay => stay,
    }
}

/// A rule that asks r ⊑ r' and gives protect_ir of its right side, with ic ⊓ the node's group.
fn destruct(
    tables: &Tables,
    object: Marks,
    node: Group,
    result: impl FnOnce() -> Rc<Term>,
) -> Move {
    if tables.groups.below(object.r, node) {
        Move::To(Rc::new(Term::Protect(tables.security().read_by(object, node), result())))
    } else {
        Move::Stay(End::MayNot)
    }
}

/// The reductions (manual, 6.3), left to right, never inside a function, a recursion or a branch. End 3, the wrong
/// kind, is decided before end 2.
fn reduce(tables: &Tables, term: &Rc<Term>) -> Move {
    match &**term {
        Term::Variable(_) => panic!("question 19: no free variable is reached"),

        Term::Unit(_) | Term::Function(..) | Term::Literal(..) => Move::Stay(End::Value),

        Term::Pair(marks, a, b) => {
            if !is_value(a) {
                inside(a, tables, |next| Term::Pair(*marks, next, b.clone()))
            } else if !is_value(b) {
                inside(b, tables, |next| Term::Pair(*marks, a.clone(), next))
            } else {
                Move::Stay(End::Value)
            }
        }

        Term::Injection(side, marks, sum, a) => {
            inside(a, tables, |next| Term::Injection(*side, *marks, *sum, next))
        }

        Term::Application(r, function, argument) => {
            if !is_value(function) {
                return inside(function, tables, |next| {
                    Term::Application(*r, next, argument.clone())
                });
            }
            if !is_value(argument) {
                return inside(argument, tables, |next| {
                    Term::Application(*r, function.clone(), next)
                });
            }
            match &**function {
                Term::Function(marks, _, body) => {
                    destruct(tables, *marks, *r, || substitute(body, argument, 0))
                }
                _ => Move::Stay(End::WrongKind),
            }
        }

        Term::Projection(side, r, operand) => {
            if !is_value(operand) {
                return inside(operand, tables, |next| Term::Projection(*side, *r, next));
            }
            match &**operand {
                Term::Pair(marks, a, b) => destruct(tables, *marks, *r, || match side {
                    Side::First => a.clone(),
                    Side::Second => b.clone(),
                }),
                _ => Move::Stay(End::WrongKind),
            }
        }

        Term::Case(r, result, tested, first, second) => {
            if !is_value(tested) {
                return inside(tested, tables, |next| {
                    Term::Case(*r, *result, next, first.clone(), second.clone())
                });
            }
            match &**tested {
                Term::Injection(side, marks, _, value) => destruct(tables, *marks, *r, || {
                    let branch = if *side == Side::First { first } else { second };
                    substitute(branch, value, 0)
                }),
                _ => Move::Stay(End::WrongKind),
            }
        }

        Term::Protect(by, operand) => {
            if is_value(operand) {
                Move::To(Rc::new(raise_value(tables, operand, *by)))
            } else {
                inside(operand, tables, |next| Term::Protect(*by, next))
            }
        }

        Term::Recursion(written, function, body) => {
            let own = unrolled(tables, *written, *function, term);
            Move::To(substitute(body, &Rc::new(own), 0))
        }

        // A total over 65,535 is 65,535.
        Term::Addition(r, left, right) => count(
            tables,
            *r,
            [left, right],
            |left, right| Term::Addition(*r, left, right),
            |marks, first, second| Term::Literal(marks, first.saturating_add(second)),
        ),

        // Where the left is less it is the first injection, otherwise the second, of a unit with that side's groups.
        Term::LessThan(r, sum, left, right) => count(
            tables,
            *r,
            [left, right],
            |left, right| Term::LessThan(*r, *sum, left, right),
            |marks, first, second| {
                let own = tables.types.at((*sum).into());
                let (a, b) = own.sides().expect("question 16: a sum for 14");
                let (side, unit) =
                    if first < second { (Side::First, a) } else { (Side::Second, b) };
                Term::Injection(side, marks, *sum, Rc::new(Term::Unit(unit.marks)))
            },
        ),
    }
}

/// What reads two numbers: the left is evaluated first, and both are read in one step. There is no protect: what
/// is made has its groups at once.
fn count(
    tables: &Tables,
    node: Group,
    [left, right]: [&Rc<Term>; 2],
    around: impl FnOnce(Rc<Term>, Rc<Term>) -> Term,
    result: impl FnOnce(Marks, u16, u16) -> Term,
) -> Move {
    if !is_value(left) {
        return inside(left, tables, |next| around(next, right.clone()));
    }
    if !is_value(right) {
        return inside(right, tables, |next| around(left.clone(), next));
    }
    // Both kinds, then both readers.
    let (Term::Literal(one, first), Term::Literal(other, second)) = (&**left, &**right) else {
        return Move::Stay(End::WrongKind);
    };
    let may = |object: &Marks| tables.groups.below(object.r, node);
    if !(may(one) && may(other)) {
        return Move::Stay(End::MayNot);
    }
    let marks = tables.security().counted(*one, *other, node);
    Move::To(Rc::new(result(marks, *first, *second)))
}

/// What stands for the recursion (μf : s. e)_w in its body: (λx : s1. ((μf : s. e)_w x)_g)_κ for s = (s1 → s2, κ), κ
/// all its groups, where g is who its calls are made as: w, the written group, unless the rules of form 1 are meant. s1
/// starts right after s.
fn unrolled(tables: &Tables, written: Group, function: u16, recursion: &Rc<Term>) -> Term {
    let own = tables.types.at(function.into());
    assert!(matches!(own.form, Form::Function(..)), "question 16: a function for 11");
    let caller = tables.rules.caller(written, own.marks.r);
    let call = Term::Application(caller, recursion.clone(), Rc::new(Term::Variable(0)));
    Term::Function(own.marks, function + 1, Rc::new(call))
}

/// Too big is a new term of more than 8,192 records, or of more than `room`, as many as the written buffer holds,
/// or of a depth over 256.
pub fn too_big(term: &Term, room: usize) -> bool {
    let size = term.size();
    size > MOST_SCRIPT_RECORDS || size > room || term.depth() > MOST_DEPTH
}

/// One step: its end, and the term it leaves, the same one unless it moved.
pub fn step(tables: &Tables, term: &Rc<Term>, room: usize) -> (End, Rc<Term>) {
    match reduce(tables, term) {
        Move::Stay(end) => (end, term.clone()),
        Move::To(next) if too_big(&next, room) => (End::TooBig, term.clone()),
        Move::To(next) => (End::Moved, next),
    }
}

/// What a run reports, and its last term.
#[derive(Debug, Clone, PartialEq, Eq)]
pub struct Ran {
    pub end: End,
    pub steps: u64,
    pub last: Rc<Term>,
}

/// A run repeats steps; ends 0, 2, 3 and 4 end it. When as many steps have moved as the budget has, a value
/// ends 0 and any other term 1, also with budget 0.
pub fn run(tables: &Tables, start: &Rc<Term>, budget: u64, room: usize) -> Ran {
    let mut last = start.clone();
    let mut steps = 0;
    while steps < budget {
        let (end, next) = step(tables, &last, room);
        if end != End::Moved {
            return Ran { end, steps, last };
        }
        last = next;
        steps += 1;
    }
    let end = if is_value(&last) { End::Value } else { End::Moved };
    Ran { end, steps, last }
}
