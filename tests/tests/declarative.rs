//! The typing rules read the other way, as a relation (manual, 5.13): the set of all types that they, subsumption
//! included, give a term. Typing must accept whenever that set has a member, and find its lowest one.
//!
//! The sets are taken within a small universe: all types of up to 3 records over a few groups, either
//! with all readers, or with all creators. What a rule asks of the two is asked of each apart, so no
//! derivation needs a type with both.

mod common;

use std::rc::Rc;

use common::*;
use wigneld_tests::cases::Inputs;
use wigneld_tests::generate::*;
use wigneld_tests::groups::{Group, Groups};
use wigneld_tests::limits::{ANSWER_BYTES, OWN_TYPE, SCRIPT_BYTES, TYPE_BYTES, WORK_BYTES};
use wigneld_tests::script::{Record, Side, Term};
use wigneld_tests::types::{self, raise, read_type, Form, Marks, Raise, Tables, Type};

/// Which groups of objects and types may be other than 0.
#[derive(Debug, Clone, Copy, PartialEq, Eq)]
enum Slice {
    Readers,
    Creators,
}

impl Slice {
    fn marks(self, high: Group, low: Group) -> Marks {
        match self {
            Slice::Readers => Marks { r: high, ir: low, ..LOW },
            Slice::Creators => Marks { c: high, ic: low, ..LOW },
        }
    }

    /// The script with the other groups of its objects and protects 0; the nodes' groups stay.
    fn of_script(self, script: &[u8]) -> Vec<u8> {
        let within = |bytes: &[u8]| {
            let mut record = Record::read(bytes);
            match (self, record.kind) {
                (Slice::Readers, _) => (record.c, record.ic) = (0, 0),
                (Slice::Creators, 1..=5 | 12) => (record.r, record.ir) = (0, 0),
                (Slice::Creators, _) => record.ir = 0,
            }
            record.write()
        };
        script.chunks(SCRIPT_BYTES).flat_map(within).collect()
    }
}

/// All types of up to 3 records, but for those that mix units and numbers, and sums of numbers.
fn universe(groups: &Groups, slice: Slice) -> Vec<Type> {
    let count = groups.count() as Group;
    let marks: Vec<Marks> = (0..count)
        .flat_map(|high| (0..count).map(move |low| (high, low)))
        .filter(|&(high, low)| groups.below(low, high))
        .map(|(high, low)| slice.marks(high, low))
        .collect();
    let mut all = Vec::new();
    for leaf in [Form::Unit, Form::Number] {
        let leaves: Vec<Type> =
            marks.iter().map(|&marks| Type { marks, form: leaf.clone() }).collect();
        all.extend(leaves.clone());
        for &marks in &marks {
            for left in &leaves {
                for right in &leaves {
                    let (left, right) = (Rc::new(left.clone()), Rc::new(right.clone()));
                    let sides = || (left.clone(), right.clone());
                    let mut forms = vec![Form::Function(sides().0, sides().1)];
                    if leaf == Form::Unit {
                        forms.push(Form::Sum(sides().0, sides().1));
                        forms.push(Form::Pair(sides().0, sides().1));
                    }
                    all.extend(forms.into_iter().map(|form| Type { marks, form }));
                }
            }
        }
    }
    all
}

/// Has the universe types of this shape?
fn is_small(found: &Type) -> bool {
    let leaf = |s: &Type| s.sides().is_none();
    leaf(found)
        || found.sides().is_some_and(|(a, b)| {
            leaf(a) && a.form == b.form && (found.kind() == 3 || a.form == Form::Unit)
        })
}

struct Rules<'a> {
    tables: &'a Tables,
    all: Vec<Type>,
}

impl Rules<'_> {
    /// [Sub]: every type at or above one of these.
    fn above(&self, found: &[Type]) -> Vec<Type> {
        let groups = &self.tables.groups;
        let fits = |s: &&Type| found.iter().any(|low| types::at_or_below(groups, low, s));
        self.all.iter().filter(fits).cloned().collect()
    }

    fn under(&self, context: &[Type], binder: &Type, term: &Term) -> Vec<Type> {
        let mut context = context.to_vec();
        context.push(binder.clone());
        self.types(&context, term)
    }

    /// The groups of what a node of group g makes of two numbers, for all types that they have.
    fn counted(&self, context: &[Type], g: Group, left: &Term, right: &Term) -> Vec<Marks> {
        let groups = &self.tables.groups;
        let numbers = |term: &Term| -> Vec<Marks> {
            let all = self.types(context, term).into_iter();
            let read = all.filter(|s| s.form == Form::Number && groups.below(s.marks.r, g));
            read.map(|s| s.marks).collect()
        };
        let rights = numbers(right);
        let mut found = Vec::new();
        for one in numbers(left) {
            for other in &rights {
                let ir = groups.join(one.ir, other.ir);
                let ic = groups.meet(g, groups.meet(one.ic, other.ic));
                found.push(Marks { r: ir, ir, c: ic, ic });
            }
        }
        found
    }

    /// Every type of the term within the universe.
    fn types(&self, context: &[Type], term: &Term) -> Vec<Type> {
        let groups = &self.tables.groups;
        let at = |index: u16| self.tables.types.at(index.into());
        // What an object with these groups adds to what a node of group g takes from it.
        let read = |object: Marks, g: Group| Raise { ir: object.ir, ic: groups.meet(object.ic, g) };
        let mut found: Vec<Type> = Vec::new();
        match term {
            Term::Variable(number) => {
                found.push(context[context.len() - 1 - *number as usize].clone());
            }
            Term::Unit(marks) => found.push(Type { marks: *marks, form: Form::Unit }),
            Term::Function(marks, parameter, body) => {
                let parameter = at(*parameter);
                for result in self.under(context, &parameter, body) {
                    let form = Form::Function(Rc::new(parameter.clone()), Rc::new(result));
                    found.push(Type { marks: *marks, form });
                }
            }
            Term::Pair(marks, left, right) => {
                let rights = self.types(context, right);
                for left in self.types(context, left) {
                    for right in &rights {
                        let form = Form::Pair(Rc::new(left.clone()), Rc::new(right.clone()));
                        found.push(Type { marks: *marks, form });
                    }
                }
            }
            Term::Injection(side, marks, sum, operand) => {
                let Form::Sum(first, second) = at(*sum).form else { panic!("a sum") };
                let own = if *side == Side::First { &first } else { &second };
                if self.types(context, operand).contains(own) {
                    found.push(Type { marks: *marks, form: Form::Sum(first, second) });
                }
            }
            Term::Application(r, function, argument) => {
                let arguments = self.types(context, argument);
                for one in self.types(context, function) {
                    if let Form::Function(parameter, result) = &one.form {
                        if arguments.contains(parameter) && groups.below(one.marks.r, *r) {
                            found.push(raise(groups, result, read(one.marks, *r)));
                        }
                    }
                }
            }
            Term::Projection(side, r, operand) => {
                for one in self.types(context, operand) {
                    if let Form::Pair(left, right) = &one.form {
                        if groups.below(one.marks.r, *r) {
                            let part = if *side == Side::First { left } else { right };
                            found.push(raise(groups, part, read(one.marks, *r)));
                        }
                    }
                }
            }
            Term::Case(r, result, tested, first, second) => {
                for one in self.types(context, tested) {
                    if let Form::Sum(left, right) = &one.form {
                        if groups.below(one.marks.r, *r) {
                            let (first, second) = (
                                self.under(context, left, first),
                                self.under(context, right, second),
                            );
                            // A case that finds its type may have any that both branches have.
                            let results = first.into_iter().filter(|s| second.contains(s));
                            let fits = |s: &Type| *result == OWN_TYPE || *s == at(*result);
                            let results = results.filter(fits);
                            found.extend(results.map(|s| raise(groups, &s, read(one.marks, *r))));
                        }
                    }
                }
            }
            Term::Protect(by, operand) => {
                for one in self.types(context, operand) {
                    found.push(raise(groups, &one, *by));
                }
            }
            Term::Recursion(caller, function, body) => {
                let own = at(*function);
                let Form::Function(_, result) = &own.form else { panic!("a function") };
                if groups.below(own.marks.r, *caller)
                    && groups.below(own.marks.ir, result.marks.ir)
                    && groups.below(result.marks.c, groups.meet(own.marks.ic, *caller))
                    && self.under(context, &own, body).contains(&own)
                {
                    found.push(own);
                }
            }
            Term::Literal(marks, _) => found.push(Type { marks: *marks, form: Form::Number }),
            Term::Addition(r, left, right) => {
                for marks in self.counted(context, *r, left, right) {
                    found.push(Type { marks, form: Form::Number });
                }
            }
            Term::LessThan(r, sum, left, right) => {
                for marks in self.counted(context, *r, left, right) {
                    found.push(Type { marks, form: at(*sum).form });
                }
            }
        }
        found.dedup();
        self.above(&found)
    }
}

/// A table of small types over the groups, every kind among them.
fn small_world(rng: &mut Rng, groups: Vec<u8>, slice: Slice) -> World {
    let read = wigneld_tests::groups::read_groups(&groups).expect("accepted");
    let all = universe(&read, slice);
    let types = (0..rng.between(3, 12)).flat_map(|_| rng.pick(&all).write()).collect();
    World::of(groups, types)
}

/// The shape of an accepted term's type, its groups meaningless, or nothing when a type larger than
/// the universe's turns up inside: only without one do both readings see the same terms.
fn small_shape(tables: &Tables, context: &[Type], term: &Term) -> Option<Type> {
    let at = |index: u16| tables.types.at(index.into());
    let shape = |term: &Term| small_shape(tables, context, term);
    let under = |binder: &Type, term: &Term| {
        small_shape(tables, &[context, std::slice::from_ref(binder)].concat(), term)
    };
    let made = |form: Form| Some(Type { marks: LOW, form });
    let found = match term {
        Term::Variable(number) => Some(context[context.len() - 1 - *number as usize].clone()),
        Term::Unit(_) => made(Form::Unit),
        Term::Function(_, parameter, body) => {
            let result = under(&at(*parameter), body)?;
            made(Form::Function(Rc::new(at(*parameter)), Rc::new(result)))
        }
        Term::Pair(_, left, right) => {
            made(Form::Pair(Rc::new(shape(left)?), Rc::new(shape(right)?)))
        }
        Term::Injection(_, _, sum, operand) => shape(operand).map(|_| at(*sum)),
        Term::Application(_, function, argument) => {
            shape(argument)?;
            shape(function)?.sides().map(|(_, result)| (**result).clone())
        }
        Term::Projection(side, _, operand) => {
            let pair = shape(operand)?;
            let (left, right) = pair.sides()?;
            Some((**if *side == Side::First { left } else { right }).clone())
        }
        Term::Case(_, result, tested, first, second) => {
            let sum = shape(tested)?;
            let (left, right) = sum.sides()?;
            let own = under(left, first)?;
            under(right, second).map(|_| if *result == OWN_TYPE { own } else { at(*result) })
        }
        Term::Protect(_, operand) => shape(operand),
        Term::Recursion(_, function, body) => under(&at(*function), body).map(|_| at(*function)),
        Term::Literal(..) => made(Form::Number),
        Term::Addition(_, left, right) => {
            shape(left).and(shape(right))?;
            made(Form::Number)
        }
        Term::LessThan(_, sum, left, right) => shape(left).and(shape(right)).map(|_| at(*sum)),
    };
    found.filter(is_small)
}

/// Is there a case in it that finds its own type?
fn finds_own_type(term: &Term) -> bool {
    term.record().finds_own_type() || term.operands().iter().any(|(part, _)| finds_own_type(part))
}

/// Are numbers read in it?
fn counts(term: &Term) -> bool {
    matches!(term, Term::Addition(..) | Term::LessThan(..))
        || term.operands().iter().any(|(part, _)| counts(part))
}

fn compare(groups: Vec<u8>, count: u64, most: usize) {
    for slice in [Slice::Readers, Slice::Creators] {
        compare_within(slice, &groups, count, most);
    }
}

fn compare_within(slice: Slice, groups: &[u8], count: u64, most: usize) {
    let (mut typed, mut untyped, mut own_type, mut counted) = (0, 0, 0, 0);
    let enough = examples(count, |rng| {
        let world = small_world(rng, groups.to_vec(), slice);
        let fuel = rng.below(most);
        let mut script = some_typed(rng, &world.tables, fuel).write();
        for _ in 0..rng.below(3) {
            script = near_miss(rng, &world.tables, &script);
        }
        script = slice.of_script(&script);
        let Ok(term) = wigneld_tests::script::read_script(&world.tables, &script, &[]) else {
            return;
        };
        if term.size() > most {
            return;
        }
        let rules = Rules { tables: &world.tables, all: universe(&world.tables.groups, slice) };
        let given = rules.types(&[], &term);
        let inputs = Inputs { groups: world.groups.clone(), types: world.types.clone(), script };
        let (result, _, answer) = check_in(&inputs, WORK_BYTES, ANSWER_BYTES);
        match result {
            Err(refusal) => {
                untyped += 1;
                assert!(given.is_empty(), "refused by {refusal:?} though it has types");
            }
            Ok(records) => {
                let found = read_type(&answer[..records as usize * TYPE_BYTES]);
                if !given.is_empty() || small_shape(&world.tables, &[], &term).is_some() {
                    typed += 1;
                    own_type += finds_own_type(&term) as u32;
                    counted += counts(&term) as u32;
                    assert_eq!(given, rules.above(&[found]), "the lowest of all its types");
                }
            }
        }
    });
    assert!(!enough || typed > count / 50 && untyped > count / 100, "drawn: {typed}, {untyped}");
    assert!(!enough || own_type > 0, "cases that find their type were drawn");
    assert!(!enough || counted > 0, "sums and comparisons of numbers were drawn");
}

#[test]
fn the_found_type_is_the_lowest_over_two_groups() {
    compare(words(&[3, 2]), 4000, 12);
}

#[test]
fn the_found_type_is_the_lowest_over_three_groups() {
    compare(words(&[7, 6, 4]), 600, 9);
}

#[test]
fn the_found_type_is_the_lowest_over_the_diamond() {
    compare(words(&[15, 10, 12, 8]), 300, 7);
}
