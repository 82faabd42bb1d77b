//! Scripts (manual, 4): trees, reading with questions 13 to 19, writing, the look-up of a subterm.

use std::rc::Rc;

use crate::groups::Group;
use crate::limits::{self, MOST_DEPTH, MOST_SCRIPT_RECORDS, OWN_TYPE, SCRIPT_BYTES};
use crate::refusal::{ask, refuse, Answer};
use crate::types::{Form, Marks, Raise, Tables};

/// First or second, of injections and projections.
#[derive(Debug, Clone, Copy, PartialEq, Eq)]
pub enum Side {
    First,
    Second,
}

/// A term, a form for each kind (manual, 4.2). Operands are shared, never changed: a
/// substituted value stands once in memory however often it occurs.
#[derive(Debug, Clone, PartialEq, Eq)]
pub enum Term {
    /// Its number counts binders outward, 0 the nearest.
    Variable(u16),
    Unit(Marks),
    /// Parameter type, body.
    Function(Marks, u16, Rc<Term>),
    Pair(Marks, Rc<Term>, Rc<Term>),
    /// Sum type, operand.
    Injection(Side, Marks, u16, Rc<Term>),
    Application(Group, Rc<Term>, Rc<Term>),
    Projection(Side, Group, Rc<Term>),
    /// Result type, or `OWN_TYPE`; tested operand, the two branches.
    Case(Group, u16, Rc<Term>, Rc<Term>, Rc<Term>),
    Protect(Raise, Rc<Term>),
    /// Who its calls are made as, function type, body.
    Recursion(Group, u16, Rc<Term>),
    /// Its number.
    Literal(Marks, u16),
    /// The sum of two numbers; a sum type is another thing.
    Addition(Group, Rc<Term>, Rc<Term>),
    /// Sum type; is the first operand less than the second?
    LessThan(Group, u16, Rc<Term>, Rc<Term>),
}

/// One record, as read.
#[derive(Debug, Clone, Copy, PartialEq, Eq)]
pub struct Record {
    pub kind: u8,
    pub r: Group,
    pub ir: Group,
    pub zero: u8,
    pub number: u16,
    pub c: Group,
    pub ic: Group,
}

impl Record {
    /// Bytes 0 to 7: kind, r, ir, 0, the number's two, lowest first, c and ic.
    pub fn read(bytes: &[u8]) -> Record {
        let [kind, r, ir, zero, low, high, c, ic] = bytes[..SCRIPT_BYTES] else {
            panic!("a whole record");
        };
        Record { kind, r, ir, zero, number: u16::from_le_bytes([low, high]), c, ic }
    }

    pub fn write(&self) -> [u8; SCRIPT_BYTES] {
        let [low, high] = self.number.to_le_bytes();
        [self.kind, self.r, self.ir, self.zero, low, high, self.c, self.ic]
    }

    /// Is it a case whose number is 65,535? It has the lowest type at or above both branches.
    pub fn finds_own_type(&self) -> bool {
        self.kind == 9 && self.number == OWN_TYPE
    }

    /// How much deeper its operands are: two levels where it is a case that finds its type, all three, else one.
    pub fn weight(&self) -> usize {
        if self.finds_own_type() {
            2
        } else {
            1
        }
    }
}

/// How many operands each kind has.
pub const OPERANDS: [usize; 15] = [0, 0, 1, 2, 1, 1, 2, 1, 1, 3, 1, 1, 0, 2, 2];

/// The operands of a kind that passes question 14.
pub fn operand_count(kind: u8) -> usize {
    OPERANDS[kind as usize]
}

/// The kinds that name byte 1: an object's readers, the group that a node reads as, or who a recursion's calls
/// are made as.
pub fn names_r(kind: u8) -> bool {
    matches!(kind, 1..=9 | 11..=14)
}

/// The kinds that name ir: objects, and a protect.
pub fn names_ir(kind: u8) -> bool {
    is_object(kind) || kind == 10
}

/// The kinds that name c: objects.
pub fn names_c(kind: u8) -> bool {
    is_object(kind)
}

/// The kinds that name ic: objects, and a protect.
pub fn names_ic(kind: u8) -> bool {
    names_c(kind) || kind == 10
}

/// The kinds that name a type: a parameter's, a sum, a result's or a function's.
pub fn names_type(kind: u8) -> bool {
    matches!(kind, 2 | 4 | 5 | 9 | 11 | 14)
}

/// The 16-bit number holds a type's index, a variable's count or a literal's own.
pub fn names_number(kind: u8) -> bool {
    matches!(kind, 0 | 12) || names_type(kind)
}

/// The objects, which have all four groups, ordered as 15 and 36 ask.
pub fn is_object(kind: u8) -> bool {
    matches!(kind, 1..=5 | 12)
}

impl Term {
    /// The operands in order, each with the binders it stands under: a function and a recursion bind one in
    /// their operand, a case one in each branch, its second and third operand.
    pub fn operands(&self) -> Vec<(&Rc<Term>, usize)> {
        match self {
            Term::Variable(_) | Term::Unit(_) | Term::Literal(..) => vec![],
            Term::Function(_, _, body) | Term::Recursion(_, _, body) => vec![(body, 1)],
            Term::Pair(_, a, b)
            | Term::Application(_, a, b)
            | Term::Addition(_, a, b)
            | Term::LessThan(_, _, a, b) => vec![(a, 0), (b, 0)],
            Term::Injection(_, _, _, a) | Term::Projection(_, _, a) | Term::Protect(_, a) => {
                vec![(a, 0)]
            }
            Term::Case(_, _, tested, first, second) => vec![(tested, 0), (first, 1), (second, 1)],
        }
    }

    /// The term's own record; unnamed fields are 0.
    pub fn record(&self) -> Record {
        let none = Record { kind: 0, r: 0, ir: 0, zero: 0, number: 0, c: 0, ic: 0 };
        let object =
            |kind, Marks { r, ir, c, ic }, number| Record { kind, r, ir, number, c, ic, ..none };
        match *self {
            Term::Variable(number) => Record { number, ..none },
            Term::Unit(marks) => object(1, marks, 0),
            Term::Function(marks, number, _) => object(2, marks, number),
            Term::Pair(marks, _, _) => object(3, marks, 0),
            Term::Injection(Side::First, marks, number, _) => object(4, marks, number),
            Term::Injection(Side::Second, marks, number, _) => object(5, marks, number),
            Term::Application(r, _, _) => Record { kind: 6, r, ..none },
            Term::Projection(side, r, _) => {
                let kind = if side == Side::First { 7 } else { 8 };
                Record { kind, r, ..none }
            }
            Term::Case(r, number, ..) => Record { kind: 9, r, number, ..none },
            Term::Protect(Raise { ir, ic }, _) => Record { kind: 10, ir, ic, ..none },
            Term::Recursion(r, number, _) => Record { kind: 11, r, number, ..none },
            Term::Literal(marks, number) => object(12, marks, number),
            Term::Addition(r, _, _) => Record { kind: 13, r, ..none },
            Term::LessThan(r, number, _, _) => Record { kind: 14, r, number, ..none },
        }
    }

    /// The term of this record and these operands.
    pub fn build(record: Record, operands: Vec<Rc<Term>>) -> Term {
        let Record { kind, r, ir, number, c, ic, .. } = record;
        let marks = Marks { r, ir, c, ic };
        assert_eq!(operands.len(), operand_count(kind));
        let mut operands = operands.into_iter();
        let mut next = || operands.next().expect("counted above");
        match kind {
            0 => Term::Variable(number),
            1 => Term::Unit(marks),
            2 => Term::Function(marks, number, next()),
            3 => Term::Pair(marks, next(), next()),
            4 => Term::Injection(Side::First, marks, number, next()),
            5 => Term::Injection(Side::Second, marks, number, next()),
            6 => Term::Application(r, next(), next()),
            7 => Term::Projection(Side::First, r, next()),
            8 => Term::Projection(Side::Second, r, next()),
            9 => Term::Case(r, number, next(), next(), next()),
            10 => Term::Protect(Raise { ir, ic }, next()),
            11 => Term::Recursion(r, number, next()),
            12 => Term::Literal(marks, number),
            13 => Term::Addition(r, next(), next()),
            14 => Term::LessThan(r, number, next(), next()),
            _ => panic!("question 14: kind at most 14"),
        }
    }

    /// How many records the term is written with.
    pub fn size(&self) -> usize {
        1 + self.operands().iter().map(|(operand, _)| operand.size()).sum::<usize>()
    }

    /// The depth of the deepest record; the outermost has depth 1.
    pub fn depth(&self) -> usize {
        let weight = self.record().weight();
        self.operands().iter().map(|(operand, _)| weight + operand.depth()).max().unwrap_or(1)
    }

    /// The term's records: its own, then its operands in order.
    pub fn write(&self) -> Vec<u8> {
        let mut bytes = self.record().write().to_vec();
        for (operand, _) in self.operands() {
            bytes.extend(operand.write());
        }
        bytes
    }
}

/// The term starting at `index`, and the index after its last operand.
fn parse(records: &[Record], index: usize) -> (Rc<Term>, usize) {
    let record = records[index];
    let mut operands = Vec::new();
    let mut at = index + 1;
    for _ in 0..operand_count(record.kind) {
        let (operand, end) = parse(records, at);
        operands.push(operand);
        at = end;
    }
    (Rc::new(Term::build(record, operands)), at)
}

/// Question 13. Script: whole records, 1 to 8,192, and in a run within both buffers? (0)
/// `buffers` are the lengths of a run's two buffers, and empty in every other call.
fn whole_records(bytes: &[u8], buffers: &[usize]) -> Answer<Vec<Record>> {
    let whole = limits::are_whole(bytes.len(), SCRIPT_BYTES, MOST_SCRIPT_RECORDS);
    ask(whole && buffers.iter().all(|&length| bytes.len() <= length), 13, 0)?;
    Ok(bytes.chunks(SCRIPT_BYTES).map(Record::read).collect())
}

/// Question 14. Kind at most 14, byte 3 and unnamed fields 0?
fn fields(records: &[Record]) -> Answer<()> {
    for (index, record) in records.iter().enumerate() {
        let clean = record.kind <= 14
            && record.zero == 0
            && (names_r(record.kind) || record.r == 0)
            && (names_ir(record.kind) || record.ir == 0)
            && (names_number(record.kind) || record.number == 0)
            && (names_c(record.kind) || record.c == 0)
            && (names_ic(record.kind) || record.ic == 0);
        ask(clean, 14, index)?;
    }
    Ok(())
}

/// Question 15. Named groups in table, and for objects ir ⊑ r? When all records have passed it, 36: for objects
/// ic ⊑ c?
fn named_groups(tables: &Tables, records: &[Record]) -> Answer<()> {
    let groups = &tables.groups;
    for (index, record) in records.iter().enumerate() {
        let &Record { kind, r, ir, c, ic, .. } = record;
        let in_table = (!names_r(kind) || groups.has(r.into()))
            && (!names_ir(kind) || groups.has(ir.into()))
            && (!names_c(kind) || groups.has(c.into()))
            && (!names_ic(kind) || groups.has(ic.into()));
        ask(in_table && (!is_object(kind) || groups.below(ir, r)), 15, index)?;
    }
    for (index, record) in records.iter().enumerate() {
        ask(!is_object(record.kind) || groups.below(record.ic, record.c), 36, index)?;
    }
    Ok(())
}

/// Question 16. Does a named type exist, a sum for 4 and 5, a function for 11, a sum of two units for 14? 65,535
/// of a case passes.
fn named_types(tables: &Tables, records: &[Record]) -> Answer<()> {
    for (index, record) in records.iter().enumerate() {
        if !names_type(record.kind) || record.finds_own_type() {
            continue;
        }
        ask(tables.types.has(record.number.into()), 16, index)?;
        let form = tables.types.at(record.number.into()).form;
        let fitting = match record.kind {
            4 | 5 => matches!(form, Form::Sum(..)),
            11 => matches!(form, Form::Function(..)),
            14 => matches!(form, Form::Sum(a, b) if a.form == Form::Unit && b.form == Form::Unit),
            _ => true,
        };
        ask(fitting, 16, index)?;
    }
    Ok(())
}

/// The index after the term that starts at `start`, unless it is cut short.
fn end_of_term(records: &[Record], start: usize) -> Option<usize> {
    let mut wanted = 1;
    let mut at = start;
    while wanted > 0 {
        wanted = wanted - 1 + operand_count(records.get(at)?.kind);
        at += 1;
    }
    Some(at)
}

/// Question 17. Exactly one whole term? (the record count if cut short, else the first record left over)
fn one_term(records: &[Record]) -> Answer<()> {
    match end_of_term(records, 0) {
        None => refuse(17, records.len()),
        Some(end) => ask(end == records.len(), 17, end),
    }
}

/// Question 18. Depth at most 256? (first deeper record)
/// Walks the term starting at `index`, whose depth is `depth`, and gives the index after it.
fn shallow(records: &[Record], index: usize, depth: usize) -> Answer<usize> {
    ask(depth <= MOST_DEPTH, 18, index)?;
    let mut at = index + 1;
    for _ in 0..operand_count(records[index].kind) {
        at = shallow(records, at, depth + records[index].weight())?;
    }
    Ok(at)
}

/// Question 19. Variable's number below its count of binders?
/// Records stand in the order of this walk, so the first no found is that of the lowest record.
fn bound(term: &Term, place: usize, binders: usize) -> Answer<usize> {
    if let Term::Variable(number) = term {
        ask((*number as usize) < binders, 19, place)?;
    }
    let mut at = place + 1;
    for (operand, more) in term.operands() {
        at = bound(operand, at, binders + more)?;
    }
    Ok(at)
}

/// Questions 13 to 19, then the term.
pub fn read_script(tables: &Tables, bytes: &[u8], buffers: &[usize]) -> Answer<Rc<Term>> {
    read_records(tables, &whole_records(bytes, buffers)?)
}

/// Questions 14 to 18.
pub fn read_form(tables: &Tables, records: &[Record]) -> Answer<()> {
    fields(records)?;
    named_groups(tables, records)?;
    named_types(tables, records)?;
    one_term(records)?;
    shallow(records, 0, 1)?;
    Ok(())
}

/// Questions 14 to 19, then the term.
pub fn read_records(tables: &Tables, records: &[Record]) -> Answer<Rc<Term>> {
    read_form(tables, records)?;
    let (term, _) = parse(records, 0);
    bound(&term, 0, 0)?;
    Ok(term)
}

/// The look-up of a subterm (manual, 4.8): that part of the caller's script, from its record to the end of its last
/// operand. It is empty where question 13, 14 or 17 is answered no or the index is past the end.
pub fn subterm(script: &[u8], index: u64) -> &[u8] {
    let Ok(records) = whole_records(script, &[]) else {
        return &[];
    };
    if fields(&records).is_err() || one_term(&records).is_err() || index >= records.len() as u64 {
        return &[];
    }
    let start = index as usize;
    let end = end_of_term(&records, start).expect("a part of a whole term is whole");
    &script[start * SCRIPT_BYTES..end * SCRIPT_BYTES]
}
