//! Two scripts that are alike to who looks, drawn from one: parts of it are exchanged for others that stay dark, and labels are
//! changed that he doesn't compare.

use std::rc::Rc;

use crate::generate::{
    groups_where, highest, indexes_of_kind, random_marks, random_number, some_typed, typed_count,
    typed_exactly, typed_recursion, untyped, Rng,
};
use crate::groups::Group;
use crate::hidden::{Observer, Who};
use crate::limits::OWN_TYPE;
use crate::script::{is_object, names_r, read_script, Record, Side, Term};
use crate::steps::is_value;
use crate::types::{Marks, Raise, Tables, Type};
use crate::typing::type_of;

/// Draws the two scripts.
pub struct Exchange<'a> {
    pub rng: &'a mut Rng,
    pub tables: &'a Tables,
    pub observer: Observer<'a>,
    /// Is each part exchanged for one of its own type, and a value for a value? Then checking mostly accepts both scripts.
    pub typed: bool,
    /// What was exchanged, in the first script and in the other.
    pub parts: Vec<[Rc<Term>; 2]>,
}

impl Exchange<'_> {
    /// The two scripts of this one. The whole isn't exchanged, or little would be seen.
    pub fn scripts(&mut self, term: &Rc<Term>) -> [Rc<Term>; 2] {
        self.inside(term, 0)
    }

    /// The two of a term under so many binders, which may be exchanged as a whole.
    pub fn pair(&mut self, term: &Rc<Term>, binders: usize) -> [Rc<Term>; 2] {
        let parts = match self.rng.below(if self.typed { 3 } else { 6 }) {
            0 => self.of_its_type(term),
            _ if self.typed => None,
            1 | 2 if self.observer.is_dark(term) => Some([term.clone(), self.other(term, binders)]),
            3 if self.rng.one_in(4) => {
                let hidden = Term::Protect(self.hiding(), term.clone());
                Some([Rc::new(hidden), self.other(term, binders)])
            }
            _ => None,
        };
        let Some(parts) = parts else { return self.inside(term, binders) };
        self.parts.push(parts.clone());
        parts
    }

    /// The two of a term whose record stays, but for its labels.
    fn inside(&mut self, term: &Rc<Term>, binders: usize) -> [Rc<Term>; 2] {
        let (mut ones, mut others) = (Vec::new(), Vec::new());
        for (operand, more) in term.operands() {
            let [one, other] = self.pair(operand, binders + more);
            ones.push(one);
            others.push(other);
        }
        let record = term.record();
        let change = !self.observer.exact && self.rng.one_in(3);
        let changed = if change { self.relabelled(record) } else { record };
        [Rc::new(Term::build(record, ones)), Rc::new(Term::build(changed, others))]
    }

    /// This closed part and another of its type, if that hides them.
    fn of_its_type(&mut self, part: &Rc<Term>) -> Option<[Rc<Term>; 2]> {
        let own = accepted(self.tables, &part.write())?;
        let Marks { ir, ic, .. } = own.marks;
        if !self.observer.hides(ir, ic) {
            return None;
        }
        let fuel = if is_value(part) { 0 } else { self.rng.below(20) };
        let other = typed_exactly(self.rng, self.tables, &own, fuel)?;
        let parts = [part.clone(), other];
        if is_value(part) {
            return Some(parts);
        }
        // Its readers are those of the type, so the type stays.
        let by = match self.observer.who {
            Who::Reads(_) => Raise { ir, ic: highest(&self.tables.groups) },
            Who::Trusts(_) => Raise { ir: 0, ic },
        };
        Some(parts.map(|part| Rc::new(Term::Protect(by, part))))
    }

    /// Another dark term: any, or one much like this one.
    fn other(&mut self, term: &Rc<Term>, binders: usize) -> Rc<Term> {
        if self.rng.one_in(2) && self.observer.is_dark(term) {
            return Rc::new(self.like(term, binders));
        }
        Rc::new(match self.rng.below(4) {
            0 => Term::Protect(self.hiding(), term.clone()),
            1 => Term::Protect(self.hiding(), self.closed()),
            2 => Term::Protect(self.hiding(), self.any(binders)),
            _ => self.object(binders),
        })
    }

    /// A dark term of the same kind as this one: an object with other groups, number, side and parts; a reading of the same dark
    /// operands with others beside them.
    fn like(&mut self, term: &Term, binders: usize) -> Term {
        let marks = self.hidden_marks();
        match term {
            Term::Unit(_) => Term::Unit(marks),
            Term::Literal(..) => Term::Literal(marks, random_number(self.rng)),
            Term::Injection(side, _, sum, operand) => {
                let other = if *side == Side::First { Side::Second } else { Side::First };
                Term::Injection(other, marks, *sum, self.kept_or_any(operand, binders))
            }
            Term::Function(_, parameter, body) => {
                Term::Function(marks, *parameter, self.kept_or_any(body, binders + 1))
            }
            Term::Pair(_, left, right) => {
                let (left, right) = if self.rng.one_in(2) { (right, left) } else { (left, right) };
                Term::Pair(marks, left.clone(), self.kept_or_any(right, binders))
            }
            Term::Protect(_, operand) => {
                Term::Protect(self.hiding(), self.kept_or_any(operand, binders))
            }
            _ => {
                let mut operands = Vec::new();
                for (operand, more) in term.operands() {
                    operands.push(match self.observer.is_dark(operand) {
                        true => operand.clone(),
                        false => self.kept_or_any(operand, binders + more),
                    });
                }
                Term::build(term.record(), operands)
            }
        }
    }

    fn kept_or_any(&mut self, term: &Rc<Term>, binders: usize) -> Rc<Term> {
        if self.rng.one_in(2) {
            term.clone()
        } else {
            self.any(binders)
        }
    }

    /// Any term under so many binders.
    fn any(&mut self, binders: usize) -> Rc<Term> {
        let fuel = self.rng.below(20);
        untyped(self.rng, self.tables, binders, fuel)
    }

    /// A closed script that runs for a while.
    fn closed(&mut self) -> Rc<Term> {
        let rounds = self.rng.between(1, 6);
        let (rng, tables) = (&mut *self.rng, self.tables);
        let drawn = match rng.below(3) {
            0 => typed_count(rng, tables, rounds as u16),
            1 => typed_recursion(rng, tables, 3 * rounds),
            _ => None,
        };
        drawn.unwrap_or_else(|| some_typed(rng, tables, 3 * rounds))
    }

    /// A hidden object.
    fn object(&mut self, binders: usize) -> Term {
        let marks = self.hidden_marks();
        let sums = indexes_of_kind(self.tables, 1);
        match self.rng.below(6) {
            0 => Term::Unit(marks),
            1 | 2 => Term::Literal(marks, random_number(self.rng)),
            3 => Term::Pair(marks, self.any(binders), self.any(binders)),
            4 if !sums.is_empty() => {
                let side = if self.rng.one_in(2) { Side::First } else { Side::Second };
                Term::Injection(side, marks, *self.rng.pick(&sums), self.any(binders))
            }
            _ => {
                let parameter = self.rng.below(self.tables.types.count()) as u16;
                Term::Function(marks, parameter, self.any(binders + 1))
            }
        }
    }

    fn group(&mut self) -> Group {
        self.rng.below(self.tables.groups.count()) as Group
    }

    /// Indirect groups that hide, of which some there must be.
    fn hiding(&mut self) -> Raise {
        let groups = &self.tables.groups;
        let (ir, ic) = (self.group(), self.group());
        let hiding = |ir, ic| self.observer.hides(ir, ic);
        match self.observer.who {
            Who::Reads(_) => {
                let ir = *self.rng.pick(&groups_where(groups, |ir| hiding(ir, ic)));
                // Often one that takes nothing from the creators.
                let ic = if self.rng.one_in(2) { highest(groups) } else { ic };
                Raise { ir, ic }
            }
            Who::Trusts(_) => {
                let ic = *self.rng.pick(&groups_where(groups, |ic| hiding(ir, ic)));
                Raise { ir: if self.rng.one_in(2) { 0 } else { ir }, ic }
            }
        }
    }

    fn hidden_marks(&mut self) -> Marks {
        let groups = &self.tables.groups;
        let Raise { ir, ic } = self.hiding();
        let mut above = |g| *self.rng.pick(&groups_where(groups, |h| groups.below(g, h)));
        Marks { r: above(ir), ir, c: above(ic), ic }
    }

    /// The record with other labels that the observer doesn't compare: often those that leave the most room, so that it is
    /// accepted still.
    fn relabelled(&mut self, record: Record) -> Record {
        let (kind, top) = (record.kind, highest(&self.tables.groups));
        let any = random_marks(self.rng, &self.tables.groups);
        let seldom = if self.typed { 8 } else { 2 };
        let most = !self.rng.one_in(seldom);
        let mut changed = record;
        match self.observer.who {
            Who::Reads(_) if is_object(kind) => {
                (changed.c, changed.ic) = if most { (top, top) } else { (any.c, any.ic) };
            }
            Who::Trusts(_) if is_object(kind) => {
                (changed.r, changed.ir) = if most { (0, 0) } else { (any.r, any.ir) };
            }
            Who::Reads(_) if kind == 10 => changed.ic = if most { top } else { any.c },
            Who::Trusts(_) if kind == 10 => changed.ir = if most { 0 } else { any.r },
            Who::Reads(_) if names_r(kind) => changed.r = if most { top } else { any.r },
            _ => {}
        }
        if self.rng.one_in(2 * seldom) {
            changed.number = self.other_type(record);
        }
        changed
    }

    /// Another type for a function, an injection or a case.
    fn other_type(&mut self, record: Record) -> u16 {
        let sums = indexes_of_kind(self.tables, 1);
        match record.kind {
            9 if self.rng.one_in(2) => OWN_TYPE,
            2 | 9 => self.rng.below(self.tables.types.count()) as u16,
            4 | 5 => *self.rng.pick(&sums),
            _ => record.number,
        }
    }
}

/// The type that checking reports of a script.
pub fn accepted(tables: &Tables, script: &[u8]) -> Option<Type> {
    let term = read_script(tables, script, &[]).ok()?;
    type_of(tables, &term).ok()
}
