//! What is hidden from who looks, told by labels alone: no type is asked for, and no check.
//!
//! A reader at group g is to learn nothing of objects with ir ⋢ g. Who trusts a group h is to heed nothing but what h and those
//! above it had a hand in: not objects with h ⋢ ic, and no reading that was made as a group that isn't ⊒ h.

use crate::groups::{Group, Groups};
use crate::script::{is_object, Record, Term};

/// Who looks.
#[derive(Debug, Clone, Copy, PartialEq, Eq)]
pub enum Who {
    /// One who reads as this group.
    Reads(Group),
    /// One who trusts this group, and those above it.
    Trusts(Group),
}

/// Who looks, in a lattice, and whether he compares every label of what isn't hidden or those alone that matter to him.
#[derive(Debug, Clone, Copy)]
pub struct Observer<'a> {
    pub groups: &'a Groups,
    pub who: Who,
    pub exact: bool,
}

impl<'a> Observer<'a> {
    /// Everyone who may look: for each group its readers and who trusts it.
    pub fn all(groups: &'a Groups, exact: bool) -> Vec<Observer<'a>> {
        let who = |g| [Who::Reads(g), Who::Trusts(g)];
        let all = (0..groups.count() as Group).flat_map(who);
        all.map(|who| Observer { groups, who, exact }).collect()
    }

    /// Is an object of these indirect groups hidden, or what a protect of them gives?
    pub fn hides(&self, ir: Group, ic: Group) -> bool {
        match self.who {
            Who::Reads(g) => !self.groups.below(ir, g),
            Who::Trusts(h) => !self.groups.below(h, ic),
        }
    }

    /// Is what this group makes by reading no hand of those that are trusted?
    pub fn is_foreign(&self, reader: Group) -> bool {
        match self.who {
            Who::Reads(_) => false,
            Who::Trusts(h) => !self.groups.below(h, reader),
        }
    }

    /// Whatever value the term may come to is hidden: hidden objects, what is protected or read as hidden. Never a variable, nor
    /// a recursion, which becomes the function that stands in it.
    pub fn is_dark(&self, term: &Term) -> bool {
        match term {
            Term::Variable(_) | Term::Recursion(..) => false,
            Term::Unit(marks)
            | Term::Function(marks, ..)
            | Term::Pair(marks, ..)
            | Term::Injection(_, marks, ..)
            | Term::Literal(marks, _) => self.hides(marks.ir, marks.ic),
            Term::Protect(by, operand) => self.hides(by.ir, by.ic) || self.is_dark(operand),
            Term::Application(r, read, _)
            | Term::Projection(_, r, read)
            | Term::Case(r, _, read, ..) => self.is_foreign(*r) || self.is_dark(read),
            Term::Addition(r, left, right) | Term::LessThan(r, _, left, right) => {
                self.is_foreign(*r) || self.is_dark(left) || self.is_dark(right)
            }
        }
    }

    /// What is compared of a record, the rest 0.
    fn kept(&self, record: Record) -> Record {
        let Record { kind, r, number, .. } = record;
        if self.exact {
            return record;
        }
        // No run reads the type that a function, an injection or a case names.
        let number = if matches!(kind, 2 | 4 | 5 | 9) { 0 } else { number };
        // r of other kinds is the group that reads.
        let named = |kept: bool| if kept { r } else { 0 };
        match self.who {
            Who::Reads(_) => Record { r: named(is_object(kind)), c: 0, ic: 0, number, ..record },
            Who::Trusts(_) => Record { r: named(!is_object(kind)), ir: 0, number, ..record },
        }
    }

    /// Do the two differ in nothing but what is dark in both, and what isn't compared?
    pub fn are_alike(&self, one: &Term, other: &Term) -> bool {
        if self.is_dark(one) && self.is_dark(other) {
            return true;
        }
        let (parts, others) = (one.operands(), other.operands());
        self.kept(one.record()) == self.kept(other.record())
            && parts.iter().zip(&others).all(|((part, _), (other, _))| self.are_alike(part, other))
    }

    /// Is nothing in it dark, also not in functions?
    pub fn sees_all(&self, term: &Term) -> bool {
        !self.is_dark(term) && term.operands().iter().all(|(operand, _)| self.sees_all(operand))
    }
}
