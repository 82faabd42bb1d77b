//! Typing: the typing rules (manual, 5), questions 20 to 24 and 31.
//!
//! Operands come first, left to right. 20, 21 and 22 are asked as soon as the operand concerned has its type, 23 before
//! the body, 24 last; the place is the node. A recursion has its type written, so its 21 comes at once. What reads two
//! numbers is asked 20 and 21 of each.

use std::rc::Rc;

use crate::groups::{Group, Groups};
use crate::limits::{MOST_TYPE_RECORDS, OWN_TYPE};
use crate::refusal::{ask, refuse, Answer};
use crate::rules::Security;
use crate::script::{Side, Term};
use crate::types::{at_or_below, common, raise, Bound, Form, Marks, Tables, Type};

/// The lowest type of a script, or the first no.
pub fn type_of(tables: &Tables, term: &Term) -> Answer<Type> {
    find(tables, &mut Vec::new(), term, 0)
}

/// The type of `term`, whose record is `place`, its binders' types in `context`, outermost first.
fn find(tables: &Tables, context: &mut Vec<Type>, term: &Term, place: usize) -> Answer<Type> {
    let (groups, security) = (&tables.groups, tables.security());
    match term {
        // [Var]
        Term::Variable(number) => Ok(context[context.len() - 1 - *number as usize].clone()),

        // [Unit]
        Term::Unit(marks) => Ok(Type { marks: *marks, form: Form::Unit }),

        // [Lam]
        Term::Function(marks, parameter, body) => {
            let parameter = tables.types.at((*parameter).into());
            let result = find_under(tables, context, parameter.clone(), body, place + 1)?;
            small(
                Type { marks: *marks, form: Form::Function(Rc::new(parameter), Rc::new(result)) },
                place,
            )
        }

        // [Pair]
        Term::Pair(marks, left, right) => {
            let first = find(tables, context, left, place + 1)?;
            let second = find(tables, context, right, place + 1 + left.size())?;
            small(Type { marks: *marks, form: Form::Pair(Rc::new(first), Rc::new(second)) }, place)
        }

        // [Inj]: the named sum gives the two sides alone, its own groups aren't read.
        Term::Injection(side, marks, sum, operand) => {
            let found = find(tables, context, operand, place + 1)?;
            let Form::Sum(first, second) = tables.types.at((*sum).into()).form else {
                panic!("question 16: a sum for 4 and 5");
            };
            let wanted = if *side == Side::First { &first } else { &second };
            wanted_type(security, &found, wanted, place)?;
            Ok(Type { marks: *marks, form: Form::Sum(first, second) })
        }

        // [App]
        Term::Application(r, function, argument) => {
            let found = find(tables, context, function, place + 1)?;
            let Form::Function(parameter, result) = &found.form else {
                return refuse(20, place);
            };
            readable(groups, found.marks, *r, place)?;
            let given = find(tables, context, argument, place + 1 + function.size())?;
            wanted_type(security, &given, parameter, place)?;
            Ok(raise(security, result, security.read_by(found.marks, *r)))
        }

        // [Proj]
        Term::Projection(side, r, operand) => {
            let found = find(tables, context, operand, place + 1)?;
            let Form::Pair(first, second) = &found.form else {
                return refuse(20, place);
            };
            readable(groups, found.marks, *r, place)?;
            let part = if *side == Side::First { first } else { second };
            Ok(raise(security, part, security.read_by(found.marks, *r)))
        }

        // [Case]: the result is given or found, and then raised.
        Term::Case(r, result, tested, first, second) => {
            let found = find(tables, context, tested, place + 1)?;
            let Form::Sum(left, right) = &found.form else {
                return refuse(20, place);
            };
            readable(groups, found.marks, *r, place)?;
            let at = place + 1 + tested.size();
            let first = Branch { binder: left, term: first, at };
            let second = Branch { binder: right, term: second, at: at + first.term.size() };
            let result = match *result {
                OWN_TYPE => own_result(tables, context, [first, second], place)?,
                index => {
                    let wanted = tables.types.at(index.into());
                    given_result(tables, context, wanted, [first, second], place)?
                }
            };
            Ok(raise(security, &result, security.read_by(found.marks, *r)))
        }

        // [Protect]
        Term::Protect(by, operand) => {
            let found = find(tables, context, operand, place + 1)?;
            Ok(raise(security, &found, *by))
        }

        // [Rec]: 21 is asked of r of its type and the written group, before 23.
        Term::Recursion(written, function, body) => {
            let own = tables.types.at((*function).into());
            let Form::Function(_, result) = &own.form else {
                panic!("question 16: a function for 11");
            };
            readable(groups, own.marks, tables.rules.caller(*written, own.marks.r), place)?;
            ask(security.recursion_holds(own.marks, result.marks, *written), 23, place)?;
            let found = find_under(tables, context, own.clone(), body, place + 1)?;
            wanted_type(security, &found, &own, place)?;
            Ok(own)
        }

        // [Literal]
        Term::Literal(marks, _) => Ok(Type { marks: *marks, form: Form::Number }),

        // [Sum of two]
        Term::Addition(r, left, right) => {
            let marks = find_counted(tables, context, *r, [left, right], place)?;
            Ok(Type { marks, form: Form::Number })
        }

        // [Less than]: the named sum's own groups aren't read, as at an injection.
        Term::LessThan(r, sum, left, right) => {
            let marks = find_counted(tables, context, *r, [left, right], place)?;
            Ok(Type { marks, form: tables.types.at((*sum).into()).form })
        }
    }
}

/// The groups of what a node of this group makes of two numbers. 20 and 21 are asked of each operand as
/// soon as it has its type.
fn find_counted(
    tables: &Tables,
    context: &mut Vec<Type>,
    r: Group,
    [left, right]: [&Term; 2],
    place: usize,
) -> Answer<Marks> {
    let mut number = |operand: &Term, at: usize| {
        let found = find(tables, context, operand, at)?;
        ask(found.form == Form::Number, 20, place)?;
        readable(&tables.groups, found.marks, r, place)?;
        Ok(found.marks)
    };
    let first = number(left, place + 1)?;
    let second = number(right, place + 1 + left.size())?;
    Ok(tables.security().counted(first, second, r))
}

/// The type of a term under one more binder.
fn find_under(
    tables: &Tables,
    context: &mut Vec<Type>,
    binder: Type,
    term: &Term,
    place: usize,
) -> Answer<Type> {
    context.push(binder);
    let found = find(tables, context, term, place);
    context.pop();
    found
}

/// A branch of a case: its variable's type, its term, and where that starts.
struct Branch<'a> {
    binder: &'a Type,
    term: &'a Term,
    at: usize,
}

impl Branch<'_> {
    fn find(&self, tables: &Tables, context: &mut Vec<Type>) -> Answer<Type> {
        find_under(tables, context, self.binder.clone(), self.term, self.at)
    }
}

/// Both branches are at or below the result type: each is asked as soon as it has its type.
fn given_result(
    tables: &Tables,
    context: &mut Vec<Type>,
    result: Type,
    [first, second]: [Branch; 2],
    place: usize,
) -> Answer<Type> {
    let one = first.find(tables, context)?;
    wanted_type(tables.security(), &one, &result, place)?;
    let other = second.find(tables, context)?;
    wanted_type(tables.security(), &other, &result, place)?;
    Ok(result)
}

/// A case that finds its own type has the lowest at or above both branches. 22 is not asked of them; 31 is, at
/// the case's record, when the second branch has its type: is there such a type?
fn own_result(
    tables: &Tables,
    context: &mut Vec<Type>,
    [first, second]: [Branch; 2],
    place: usize,
) -> Answer<Type> {
    let (one, other) = (first.find(tables, context)?, second.find(tables, context)?);
    match common(Bound::LowestAbove, tables.security(), &one, &other) {
        Some(lowest) => Ok(lowest),
        None => refuse(31, place),
    }
}

/// Question 21. Its r ⊑ the node's r?
fn readable(groups: &Groups, operand: Marks, node: Group, place: usize) -> Answer<()> {
    ask(groups.below(operand.r, node), 21, place)
}

/// Question 22. Operand, argument, branch or body at or below what is wanted?
fn wanted_type(security: Security, found: &Type, wanted: &Type, place: usize) -> Answer<()> {
    ask(at_or_below(security, found, wanted), 22, place)
}

/// Question 24. Function and pair: found type at most 63 records?
fn small(found: Type, place: usize) -> Answer<Type> {
    ask(found.size() <= MOST_TYPE_RECORDS, 24, place)?;
    Ok(found)
}
