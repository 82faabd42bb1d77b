//! Types (manual, 3): trees, the types table with questions 8 to 12, at or below, the comparison, common types,
//! raising.

use std::rc::Rc;

use crate::groups::{read_groups, Group, Groups};
use crate::limits::{are_whole, MOST_TABLE_RECORDS, MOST_TYPE_RECORDS, TYPE_BYTES};
use crate::refusal::{ask, refuse, Answer};
use crate::rules::{Rules, Security};

/// The property of an object or a type: its readers and indirect readers, its creators and indirect creators (manual,
/// 2.4).
#[derive(Debug, Clone, Copy, PartialEq, Eq)]
pub struct Marks {
    pub r: Group,
    pub ir: Group,
    pub c: Group,
    pub ic: Group,
}

/// An influence: what reading an object, or a protect, adds to what comes of it (manual, 2.5).
#[derive(Debug, Clone, Copy, PartialEq, Eq)]
pub struct Raise {
    /// Joined into r and ir.
    pub ir: Group,
    /// Met into c and ic.
    pub ic: Group,
}

/// A secure type: its own groups, and its form.
#[derive(Debug, Clone, PartialEq, Eq)]
pub struct Type {
    pub marks: Marks,
    pub form: Form,
}

/// Kinds 0 unit, 1 sum, 2 pair, 3 function and 4 number. All but units and numbers are followed by their left and then
/// their right type.
#[derive(Debug, Clone, PartialEq, Eq)]
pub enum Form {
    Unit,
    Sum(Rc<Type>, Rc<Type>),
    Pair(Rc<Type>, Rc<Type>),
    Function(Rc<Type>, Rc<Type>),
    Number,
}

/// Is a type of this kind followed by its left and its right type?
pub fn has_sides(kind: u8) -> bool {
    matches!(kind, 1..=3)
}

impl Type {
    /// The record's kind byte.
    pub fn kind(&self) -> u8 {
        match self.form {
            Form::Unit => 0,
            Form::Sum(..) => 1,
            Form::Pair(..) => 2,
            Form::Function(..) => 3,
            Form::Number => 4,
        }
    }

    /// Left and right type, of all but units and numbers.
    pub fn sides(&self) -> Option<(&Rc<Type>, &Rc<Type>)> {
        match &self.form {
            Form::Unit | Form::Number => None,
            Form::Sum(a, b) | Form::Pair(a, b) | Form::Function(a, b) => Some((a, b)),
        }
    }

    /// How many records the type is written with.
    pub fn size(&self) -> usize {
        1 + self.sides().map_or(0, |(a, b)| a.size() + b.size())
    }

    /// The type's records: its own in front, then left, then right.
    pub fn write(&self) -> Vec<u8> {
        let Marks { r, ir, c, ic } = self.marks;
        let mut bytes = vec![self.kind(), r, ir, 0, c, ic];
        if let Some((a, b)) = self.sides() {
            bytes.extend(a.write());
            bytes.extend(b.write());
        }
        bytes
    }
}

/// At or below (manual, 3.4): of the same kind, with properties at or below, and both sides at or below; at a function
/// the left sides are compared the other way round. A lattice alone means the rules of form 4.
pub fn at_or_below<'a>(security: impl Into<Security<'a>>, s: &Type, t: &Type) -> bool {
    let security = security.into();
    let sides = match (&s.form, &t.form) {
        (Form::Unit, Form::Unit) | (Form::Number, Form::Number) => true,
        (Form::Sum(a, b), Form::Sum(c, d)) | (Form::Pair(a, b), Form::Pair(c, d)) => {
            at_or_below(security, a, c) && at_or_below(security, b, d)
        }
        (Form::Function(a, b), Form::Function(c, d)) => {
            at_or_below(security, c, a) && at_or_below(security, b, d)
        }
        _ => false,
    };
    security.at_or_below(s.marks, t.marks) && sides
}

/// What the comparison of two types answers, and as which number (manual, 3.5).
#[derive(Debug, Clone, Copy, PartialEq, Eq, PartialOrd, Ord)]
pub enum Comparison {
    Neither = 0,
    Below = 1,
    Same = 2,
}

/// Same is equal in every record.
pub fn compare<'a>(security: impl Into<Security<'a>>, s: &Type, t: &Type) -> Comparison {
    if s.write() == t.write() {
        Comparison::Same
    } else if at_or_below(security, s, t) {
        Comparison::Below
    } else {
        Comparison::Neither
    }
}

/// Which of two types' common types is meant.
#[derive(Debug, Clone, Copy, PartialEq, Eq)]
pub enum Bound {
    /// The lowest type at or above both.
    LowestAbove,
    /// The highest at or below both, for parameters.
    HighestBelow,
}

impl Bound {
    pub fn turned(self) -> Bound {
        match self {
            Bound::LowestAbove => Bound::HighestBelow,
            Bound::HighestBelow => Bound::LowestAbove,
        }
    }

    pub fn group(self, groups: &Groups, g: Group, h: Group) -> Group {
        match self {
            Bound::LowestAbove => groups.join(g, h),
            Bound::HighestBelow => groups.meet(g, h),
        }
    }
}

/// The common type of two types, if they have one (manual, 3.6): only types of equal kinds throughout are
/// ever at or below one another, and a function's parameter counts the other way round.
pub fn common<'a>(
    bound: Bound,
    security: impl Into<Security<'a>>,
    s: &Type,
    t: &Type,
) -> Option<Type> {
    let security = security.into();
    let marks = security.common(bound, s.marks, t.marks);
    let side = |bound, a: &Type, b: &Type| common(bound, security, a, b).map(Rc::new);
    let form = match (&s.form, &t.form) {
        (Form::Unit, Form::Unit) => Form::Unit,
        (Form::Number, Form::Number) => Form::Number,
        (Form::Sum(a, b), Form::Sum(c, d)) => Form::Sum(side(bound, a, c)?, side(bound, b, d)?),
        (Form::Pair(a, b), Form::Pair(c, d)) => Form::Pair(side(bound, a, c)?, side(bound, b, d)?),
        (Form::Function(a, b), Form::Function(c, d)) => {
            Form::Function(side(bound.turned(), a, c)?, side(bound, b, d)?)
        }
        _ => return None,
    };
    Some(Type { marks, form })
}

/// The type with its first record raised, and nothing deeper.
pub fn raise<'a>(security: impl Into<Security<'a>>, s: &Type, by: Raise) -> Type {
    Type { marks: security.into().raised(s.marks, by), form: s.form.clone() }
}

/// The types table. Every record starts a type and is named by its index.
#[derive(Debug, Clone, PartialEq, Eq)]
pub struct Types {
    records: Vec<[u8; TYPE_BYTES]>,
}

impl Types {
    /// How many records, and so indexes, the table has.
    pub fn count(&self) -> usize {
        self.records.len()
    }

    /// Is this number a type of the table?
    pub fn has(&self, index: u64) -> bool {
        index < self.count() as u64
    }

    /// The type that starts at this record.
    pub fn at(&self, index: usize) -> Type {
        parse(&self.records, index).0
    }
}

/// The type starting at `index`, and the index after its last record.
fn parse(records: &[[u8; TYPE_BYTES]], index: usize) -> (Type, usize) {
    let [kind, r, ir, _, c, ic] = records[index];
    let marks = Marks { r, ir, c, ic };
    if !has_sides(kind) {
        let form = if kind == 0 { Form::Unit } else { Form::Number };
        return (Type { marks, form }, index + 1);
    }
    let (left, middle) = parse(records, index + 1);
    let (right, end) = parse(records, middle);
    let (left, right) = (Rc::new(left), Rc::new(right));
    let form = match kind {
        1 => Form::Sum(left, right),
        2 => Form::Pair(left, right),
        3 => Form::Function(left, right),
        _ => panic!("these kinds alone have sides"),
    };
    (Type { marks, form }, end)
}

fn records_of(bytes: &[u8]) -> Vec<[u8; TYPE_BYTES]> {
    bytes.chunks(TYPE_BYTES).map(|record| record.try_into().expect("whole records")).collect()
}

/// A single whole type from its bytes, such as checking writes to the answer buffer.
pub fn read_type(bytes: &[u8]) -> Type {
    let records = records_of(bytes);
    let (found, end) = parse(&records, 0);
    assert_eq!(end, records.len(), "one whole type");
    found
}

/// The index after the type that starts at `start`, if it ends within the table.
fn end_of_type(records: &[[u8; TYPE_BYTES]], start: usize) -> Option<usize> {
    let mut wanted = 1;
    let mut at = start;
    while wanted > 0 {
        let kind = records.get(at)?[0];
        wanted = wanted - 1 + if has_sides(kind) { 2 } else { 0 };
        at += 1;
    }
    Some(at)
}

/// Questions 8 to 12, then the table.
pub fn read_types(groups: &Groups, bytes: &[u8]) -> Answer<Types> {
    // 8. Types: whole records, 1 to 4,096? (0)
    ask(are_whole(bytes.len(), TYPE_BYTES, MOST_TABLE_RECORDS), 8, 0)?;
    read_type_records(groups, bytes)
}

/// Questions 9 to 12 of whole records, 36 directly after 10, then the table.
pub fn read_type_records(groups: &Groups, bytes: &[u8]) -> Answer<Types> {
    let records = records_of(bytes);

    // 9. Kind at most 4, byte 3 (counted from 0) equal to 0, groups in table?
    for (index, &[kind, r, ir, zero, c, ic]) in records.iter().enumerate() {
        let in_table = [r, ir, c, ic].iter().all(|&group| groups.has(group.into()));
        ask(kind <= 4 && zero == 0 && in_table, 9, index)?;
    }
    // 10. ir ⊑ r?
    for (index, &[_, r, ir, ..]) in records.iter().enumerate() {
        ask(groups.below(ir, r), 10, index)?;
    }
    // 36. ic ⊑ c?
    for (index, &[.., c, ic]) in records.iter().enumerate() {
        ask(groups.below(ic, c), 36, index)?;
    }
    // 11. Does the last type end with the table? (start of the outermost unfinished type)
    let mut outermost = Vec::new();
    let mut start = 0;
    while start < records.len() {
        let Some(end) = end_of_type(&records, start) else {
            return refuse(11, start);
        };
        outermost.push((start, end));
        start = end;
    }
    // 12. Has every type at most 63 records? (start of the first outermost one that hasn't)
    for (start, end) in outermost {
        ask(end - start <= MOST_TYPE_RECORDS, 12, start)?;
    }
    Ok(Types { records })
}

/// The two tables every script is judged over, and the rules by which it is.
#[derive(Debug, Clone, PartialEq, Eq)]
pub struct Tables {
    pub groups: Groups,
    pub types: Types,
    pub rules: Rules,
}

impl Tables {
    pub fn security(&self) -> Security<'_> {
        Security { groups: &self.groups, rules: self.rules }
    }
}

/// Questions 2 to 12, then both tables.
pub fn read_tables(groups: &[u8], types: &[u8]) -> Answer<Tables> {
    let groups = read_groups(groups)?;
    let types = read_types(&groups, types)?;
    Ok(Tables { groups, types, rules: Rules::Now })
}
