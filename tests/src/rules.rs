//! Which rules are meant: those of form 4, or those of form 1, by which its scripts were checked and run (manual,
//! 7.11). Form 1 has neither creators nor a group in a recursion; all else holds in both.

use crate::groups::{Group, Groups};
use crate::types::{Bound, Marks, Raise};

#[derive(Debug, Clone, Copy, PartialEq, Eq)]
pub enum Rules {
    /// Of form 4.
    Now,
    /// Of form 1: a recursion's calls are made as r of its type, the byte in which a group is now
    /// written isn't read, and neither are creators.
    Before,
}

impl Rules {
    /// Whose group the application inside an unrolled recursion has in whose byte 1 `written` stands and
    /// whose type has the readers `r`.
    pub fn caller(self, written: Group, r: Group) -> Group {
        match self {
            Rules::Now => written,
            Rules::Before => r,
        }
    }
}

/// A lattice of groups, and what the rules make of the groups of an object or a type.
#[derive(Debug, Clone, Copy)]
pub struct Security<'a> {
    pub groups: &'a Groups,
    pub rules: Rules,
}

impl<'a> From<&'a Groups> for Security<'a> {
    fn from(groups: &'a Groups) -> Security<'a> {
        Security { groups, rules: Rules::Now }
    }
}

impl Security<'_> {
    fn reads_creators(self) -> bool {
        self.rules == Rules::Now
    }

    /// κ ≤ κ': r ⊑ r', ir ⊑ ir', and creators the other way round, c' ⊑ c and ic' ⊑ ic (manual, 2.5).
    pub fn at_or_below(self, low: Marks, high: Marks) -> bool {
        let groups = self.groups;
        let readers = groups.below(low.r, high.r) && groups.below(low.ir, high.ir);
        let creators = || groups.below(high.c, low.c) && groups.below(high.ic, low.ic);
        readers && (!self.reads_creators() || creators())
    }

    /// The groups of a common type's record: readers are joined or met, and creators met or joined.
    pub fn common(self, bound: Bound, one: Marks, other: Marks) -> Marks {
        let readers = |g, h| bound.group(self.groups, g, h);
        let (r, ir) = (readers(one.r, other.r), readers(one.ir, other.ir));
        if !self.reads_creators() {
            return Marks { r, ir, ..one };
        }
        let creators = |g, h| bound.turned().group(self.groups, g, h);
        Marks { r, ir, c: creators(one.c, other.c), ic: creators(one.ic, other.ic) }
    }

    /// κ • (i, j): i joined into both r and ir, j met into both c and ic.
    pub fn raised(self, marks: Marks, by: Raise) -> Marks {
        let groups = self.groups;
        let (r, ir) = (groups.join(marks.r, by.ir), groups.join(marks.ir, by.ir));
        if !self.reads_creators() {
            return Marks { r, ir, ..marks };
        }
        Marks { r, ir, c: groups.meet(marks.c, by.ic), ic: groups.meet(marks.ic, by.ic) }
    }

    /// What an application, a projection or a case leaves on its result: ir of the object that it reads,
    /// and the meet of that object's ic with the node's group.
    pub fn read_by(self, object: Marks, node: Group) -> Raise {
        let ic = if self.reads_creators() { self.groups.meet(object.ic, node) } else { 0 };
        Raise { ir: object.ir, ic }
    }

    /// What a node makes of two numbers (manual, 5.12): its result starts with r and ir 0 and the node's group
    /// as c and ic, and is raised by what reading the left operand leaves, then by the right's. Form 1 has no
    /// numbers; without creators nothing but the readers is left of it.
    pub fn counted(self, left: Marks, right: Marks, node: Group) -> Marks {
        let made = if self.reads_creators() { node } else { 0 };
        let fresh = Marks { r: 0, ir: 0, c: made, ic: made };
        let once = self.raised(fresh, self.read_by(left, node));
        self.raised(once, self.read_by(right, node))
    }

    /// Question 23, of the groups of a recursion's type and of that type's result: ir of the type is at or
    /// below ir of the result, and c of the result at or below ic of the type and the written group.
    pub fn recursion_holds(self, own: Marks, result: Marks, written: Group) -> bool {
        let groups = self.groups;
        let made = || groups.below(result.c, groups.meet(own.ic, written));
        groups.below(own.ir, result.ir) && (!self.reads_creators() || made())
    }
}
