//! Examples drawn at random, the same ones each time unless the environment says otherwise:
//! `WIGNELD_SEED` gives another seed, `WIGNELD_COUNT` another number of examples for every test.

use std::env;
use std::rc::Rc;

use crate::cases::Inputs;
use crate::groups::{Group, Groups};
use crate::limits::{
    MOST_DEPTH, MOST_GROUPS, MOST_TABLE_RECORDS, MOST_TYPE_RECORDS, NO_SCRIPT, OFFICE_BYTES,
    OLD_SCRIPT_BYTES, OLD_TYPE_BYTES, OWN_TYPE, SCRIPT_BYTES, TYPE_BYTES, WORDS_BYTES, WORD_BYTES,
};
use crate::office::OfficeRecord;
use crate::packet::Request;
use crate::preview::Preview;
use crate::script::{
    names_c, names_ic, names_ir, names_number, names_r, operand_count, Record, Side, Term, OPERANDS,
};
use crate::types::{at_or_below, read_tables, Form, Marks, Raise, Tables, Type};
use crate::typing::type_of;

/// The seed used when the environment names none.
pub const DEFAULT_SEED: u64 = 0x51A0_5C21_97B3_0001;

// ---------------------------------------------------------------------------------------------
// Chance

/// A small generator of our own (the splitmix64 mixer), so that examples never change by themselves.
#[derive(Debug, Clone)]
pub struct Rng(u64);

impl Rng {
    pub fn new(seed: u64) -> Rng {
        Rng(seed)
    }

    pub fn word(&mut self) -> u64 {
        self.0 = self.0.wrapping_add(0x9E37_79B9_7F4A_7C15);
        let mut z = self.0;
        z = (z ^ (z >> 30)).wrapping_mul(0xBF58_476D_1CE4_E5B9);
        z = (z ^ (z >> 27)).wrapping_mul(0x94D0_49BB_1331_11EB);
        z ^ (z >> 31)
    }

    /// A number below `n`.
    pub fn below(&mut self, n: usize) -> usize {
        (self.word() % n as u64) as usize
    }

    /// A number from `low` to `high`, both included.
    pub fn between(&mut self, low: usize, high: usize) -> usize {
        low + self.below(high - low + 1)
    }

    /// True once in `n`.
    pub fn one_in(&mut self, n: usize) -> bool {
        self.below(n) == 0
    }

    pub fn pick<'a, T>(&mut self, from: &'a [T]) -> &'a T {
        &from[self.below(from.len())]
    }

    pub fn bytes(&mut self, length: usize) -> Vec<u8> {
        (0..length).map(|_| self.word() as u8).collect()
    }
}

fn setting(name: &str) -> Option<u64> {
    let text = env::var(name).ok()?;
    Some(text.parse().unwrap_or_else(|_| panic!("{name} must be a decimal number, not {text:?}")))
}

/// Names the example on the way out of a failed assertion, so that it can be drawn again.
struct Note {
    seed: u64,
    index: u64,
}

impl Drop for Note {
    fn drop(&mut self) {
        if std::thread::panicking() {
            eprintln!("example {} of WIGNELD_SEED={}", self.index, self.seed);
        }
    }
}

/// Runs `body` on `usual` examples, or as many as the environment says, each with its own generator.
/// Says whether they were at least as many as usual, so that every kind of example can be expected.
pub fn examples(usual: u64, body: impl FnMut(&mut Rng)) -> bool {
    let count = setting("WIGNELD_COUNT").unwrap_or(usual);
    drawn(count, body);
    count >= usual
}

/// The same where each example takes long: the environment's number is divided by 100.
pub fn long_examples(usual: u64, body: impl FnMut(&mut Rng)) -> bool {
    let count = setting("WIGNELD_COUNT").map_or(usual, |count| count.div_ceil(100));
    drawn(count, body);
    count >= usual
}

/// Runs `body` on exactly `count` examples.
pub fn drawn(count: u64, mut body: impl FnMut(&mut Rng)) {
    let seed = setting("WIGNELD_SEED").unwrap_or(DEFAULT_SEED);
    for index in 0..count {
        let _note = Note { seed, index };
        let mut own = Rng::new(seed.wrapping_add(index.wrapping_mul(0xD6E8_FEB8_6659_FD93)));
        let start = own.word();
        body(&mut Rng::new(start));
    }
}

/// Runs `body` on a large stack: trees of depth 256 are walked by recursion.
pub fn with_large_stack<T: Send + 'static>(body: impl FnOnce() -> T + Send + 'static) -> T {
    let thread = std::thread::Builder::new().stack_size(256 << 20).spawn(body);
    match thread.expect("a thread").join() {
        Ok(result) => result,
        Err(panic) => std::panic::resume_unwind(panic),
    }
}

// ---------------------------------------------------------------------------------------------
// Lattices

/// An order on 0..n: `order[a][b]` says a ⊑ b. The numbering is arbitrary.
type Order = Vec<Vec<bool>>;

fn order_by(n: usize, below: impl Fn(usize, usize) -> bool) -> Order {
    (0..n).map(|a| (0..n).map(|b| below(a, b)).collect()).collect()
}

pub fn chain(n: usize) -> Order {
    order_by(n, |a, b| a <= b)
}

pub fn product(left: &Order, right: &Order) -> Order {
    let n = right.len();
    order_by(left.len() * n, |a, b| left[a / n][b / n] && right[a % n][b % n])
}

pub fn powerset(atoms: usize) -> Order {
    order_by(1 << atoms, |a, b| a & !b == 0)
}

/// A bottom, a top and `atoms` groups between them: M3 is the smallest that is modular and not
/// distributive.
pub fn diamond(atoms: usize) -> Order {
    order_by(atoms + 2, |a, b| a == b || a == 0 || b == atoms + 1)
}

/// N5: 0 ⊑ 1 ⊑ 2 ⊑ 4 and 0 ⊑ 3 ⊑ 4, the smallest lattice that is not modular.
pub fn pentagon() -> Order {
    order_by(5, |a, b| a == b || a == 0 || b == 4 || (a == 1 && b == 2))
}

/// The second lattice above the first.
pub fn stacked(low: &Order, high: &Order) -> Order {
    let n = low.len();
    order_by(n + high.len(), |a, b| match (a < n, b < n) {
        (true, true) => low[a][b],
        (false, false) => high[a - n][b - n],
        (from_low, _) => from_low,
    })
}

/// Sets closed under intersection, with the whole universe: every finite lattice is one of these.
pub fn closure_system(rng: &mut Rng) -> Order {
    let universe: u32 = (1 << rng.between(1, 7)) - 1;
    let mut sets = vec![universe];
    for _ in 0..rng.between(0, 12) {
        let new = rng.word() as u32 & universe;
        let mut more = sets.clone();
        for with in sets.iter().map(|set| set & new) {
            if !more.contains(&with) {
                more.push(with);
            }
        }
        if more.len() > MOST_GROUPS {
            break;
        }
        sets = more;
    }
    order_by(sets.len(), |a, b| sets[a] & !sets[b] == 0)
}

/// Those of `left` that no other of them is below.
fn minimal(order: &Order, left: &[usize]) -> Vec<usize> {
    let lowest = |&a: &usize| left.iter().all(|&b| a == b || !order[b][a]);
    left.iter().copied().filter(lowest).collect()
}

/// The groups table of an order, numbered at random among the numberings in which g ⊑ h implies
/// g ≤ h.
pub fn groups_table(rng: &mut Rng, order: &Order) -> Vec<u8> {
    let mut left: Vec<usize> = (0..order.len()).collect();
    let mut numbered = Vec::new();
    while !left.is_empty() {
        let next = *rng.pick(&minimal(order, &left));
        numbered.push(next);
        left.retain(|&a| a != next);
    }
    table_of(order, &numbered)
}

/// Every groups table of an order, one for each such numbering; equal tables stand once.
pub fn groups_tables(order: &Order) -> Vec<Vec<u8>> {
    fn numbered(order: &Order, done: &[usize], tables: &mut Vec<Vec<u8>>) {
        let left: Vec<usize> = (0..order.len()).filter(|a| !done.contains(a)).collect();
        if left.is_empty() {
            tables.push(table_of(order, done));
        }
        for next in minimal(order, &left) {
            numbered(order, &[done, &[next]].concat(), tables);
        }
    }
    let mut tables = Vec::new();
    numbered(order, &[], &mut tables);
    tables.sort();
    tables.dedup();
    tables
}

/// The table of an order whose elements are numbered in this order.
fn table_of(order: &Order, numbered: &[usize]) -> Vec<u8> {
    let word = |&g: &usize| {
        let bits = numbered.iter().enumerate().filter(|(_, &h)| order[g][h]);
        bits.fold(0u32, |word, (position, _)| word | 1 << position)
    };
    numbered.iter().map(word).flat_map(u32::to_le_bytes).collect()
}

/// A lattice of 1 to 32 groups.
pub fn random_order(rng: &mut Rng) -> Order {
    let order = match rng.below(9) {
        0 => {
            let n = rng.between(1, MOST_GROUPS);
            chain(n)
        }
        1 => chain(rng.between(1, 4)),
        2 => product(&chain(rng.between(1, 5)), &chain(rng.between(1, 6))),
        3 => {
            let two = product(&chain(rng.between(1, 3)), &chain(rng.between(1, 3)));
            product(&two, &chain(rng.between(1, 3)))
        }
        4 => powerset(rng.between(0, 5)),
        5 => diamond(rng.between(2, 6)),
        6 => pentagon(),
        7 => stacked(&random_order(rng), &random_order(rng)),
        _ => closure_system(rng),
    };
    if order.len() <= MOST_GROUPS {
        order
    } else {
        random_order(rng)
    }
}

pub fn random_groups(rng: &mut Rng) -> Vec<u8> {
    let order = random_order(rng);
    groups_table(rng, &order)
}

/// Small lattices in every numbering: chains, case J's, M3, N5, and products. In most of them some
/// join isn't the larger and some meet isn't the smaller of two numbers.
pub fn small_lattices() -> Vec<Vec<u8>> {
    let two = chain(2);
    let forms = [
        chain(1),
        chain(2),
        chain(3),
        product(&two, &two),
        diamond(3),
        pentagon(),
        product(&two, &chain(3)),
        stacked(&product(&two, &two), &two),
    ];
    forms.iter().flat_map(groups_tables).collect()
}

/// The words of a groups table as its bytes.
pub fn words(rows: &[u32]) -> Vec<u8> {
    rows.iter().flat_map(|row| row.to_le_bytes()).collect()
}

// ---------------------------------------------------------------------------------------------
// Types

/// The groups that fulfil a condition.
pub fn groups_where(groups: &Groups, mut fits: impl FnMut(Group) -> bool) -> Vec<Group> {
    (0..groups.count() as u8).filter(|&g| fits(g)).collect()
}

/// Some (r, ir) with ir ⊑ r and (c, ic) with ic ⊑ c. What is made by group 0 serves everywhere, so it
/// is often that.
pub fn random_marks(rng: &mut Rng, groups: &Groups) -> Marks {
    let mut ordered = |lowest_of: usize| {
        let high = if rng.one_in(lowest_of) { 0 } else { rng.below(groups.count()) as Group };
        (high, *rng.pick(&groups_where(groups, |g| groups.below(g, high))))
    };
    let ((r, ir), (c, ic)) = (ordered(4), ordered(2));
    Marks { r, ir, c, ic }
}

/// Any groups of a protect.
pub fn random_raise(rng: &mut Rng, groups: &Groups) -> Raise {
    let ic = if rng.one_in(3) { highest(groups) } else { rng.below(groups.count()) as Group };
    Raise { ir: rng.below(groups.count()) as Group, ic }
}

/// The groups of an object that is at or below every other of its kind: for all, and made by all.
pub fn lowest_marks(groups: &Groups) -> Marks {
    Marks { c: highest(groups), ic: highest(groups), ..LOW }
}

/// The group above all others.
pub fn highest(groups: &Groups) -> Group {
    (groups.count() - 1) as Group
}

fn random_form(rng: &mut Rng, left: Type, right: Type) -> Form {
    let (left, right) = (Rc::new(left), Rc::new(right));
    match rng.below(3) {
        0 => Form::Sum(left, right),
        1 => Form::Pair(left, right),
        _ => Form::Function(left, right),
    }
}

/// A type of exactly `size` records, which must be odd.
pub fn random_type(rng: &mut Rng, groups: &Groups, size: usize) -> Type {
    let marks = random_marks(rng, groups);
    if size == 1 {
        return Type { marks, form: if rng.one_in(3) { Form::Number } else { Form::Unit } };
    }
    let left = 1 + 2 * rng.below((size - 1) / 2);
    let (left, right) = (random_type(rng, groups, left), random_type(rng, groups, size - 1 - left));
    Type { marks, form: random_form(rng, left, right) }
}

/// A type that numbers are counted with: of a number, of what a comparison gives, or of a function of numbers.
fn counting_type(rng: &mut Rng, groups: &Groups) -> Type {
    let mut of = |form| Type { marks: random_marks(rng, groups), form };
    let (number, other) = (of(Form::Number), of(Form::Number));
    let units = (Rc::new(of(Form::Unit)), Rc::new(of(Form::Unit)));
    let truth = of(Form::Sum(units.0, units.1));
    let marks = random_marks(rng, groups);
    let form = match rng.below(4) {
        0 => Form::Number,
        1 => truth.form,
        2 => Form::Function(Rc::new(number), Rc::new(other)),
        _ => Form::Function(Rc::new(number), Rc::new(truth)),
    };
    Type { marks, form }
}

/// A number, often one at which sums and comparisons turn.
pub fn random_number(rng: &mut Rng) -> u16 {
    match rng.below(5) {
        0 => rng.below(3) as u16,
        1 => u16::MAX - rng.below(3) as u16,
        2 => 0x8000 - 1 + rng.below(3) as u16,
        3 => rng.below(200) as u16,
        _ => rng.word() as u16,
    }
}

/// A number near this one, or any.
pub fn number_near(rng: &mut Rng, number: u16) -> u16 {
    match rng.below(5) {
        0 => number,
        1 => number.saturating_add(1),
        2 => number.saturating_sub(1),
        // The total is 65,535, or one more or less.
        3 => (u16::MAX - number).wrapping_add(rng.below(3) as u16).wrapping_sub(1),
        _ => random_number(rng),
    }
}

/// A type of the same shape, a few of its groups changed, so that comparisons come out both ways.
pub fn random_variant(rng: &mut Rng, groups: &Groups, from: &Type) -> Type {
    let marks = if rng.one_in(3) { random_marks(rng, groups) } else { from.marks };
    let mut side = |of: &Rc<Type>| Rc::new(random_variant(rng, groups, of));
    let form = match &from.form {
        Form::Unit => Form::Unit,
        Form::Number => Form::Number,
        Form::Sum(a, b) => Form::Sum(side(a), side(b)),
        Form::Pair(a, b) => Form::Pair(side(a), side(b)),
        Form::Function(a, b) => Form::Function(side(a), side(b)),
    };
    Type { marks, form }
}

/// A types table of at least `least` records: fresh types, variants of earlier ones, and larger
/// types made of earlier ones.
pub fn random_types(rng: &mut Rng, groups: &Groups, least: usize) -> Vec<u8> {
    let mut whole: Vec<Type> = Vec::new();
    let mut bytes = Vec::new();
    while bytes.len() < least * TYPE_BYTES {
        let next = match rng.below(6) {
            _ if whole.is_empty() => {
                let size = 1 + 2 * rng.below(3);
                random_type(rng, groups, size)
            }
            0 => {
                let most = if rng.one_in(10) { 32 } else { 5 };
                let size = 1 + 2 * rng.below(most);
                random_type(rng, groups, size)
            }
            1 | 2 => {
                let from = rng.pick(&whole).clone();
                random_variant(rng, groups, &from)
            }
            3 => counting_type(rng, groups),
            _ => {
                let (left, right) = (rng.pick(&whole).clone(), rng.pick(&whole).clone());
                let marks = random_marks(rng, groups);
                Type { marks, form: random_form(rng, left, right) }
            }
        };
        if next.size() <= MOST_TYPE_RECORDS {
            bytes.extend(next.write());
            whole.push(next);
        }
    }
    assert!(bytes.len() <= MOST_TABLE_RECORDS * TYPE_BYTES, "asked for too many types");
    bytes
}

/// Both tables, as bytes and as read.
#[derive(Debug, Clone)]
pub struct World {
    pub groups: Vec<u8>,
    pub types: Vec<u8>,
    pub tables: Tables,
}

impl World {
    pub fn of(groups: Vec<u8>, types: Vec<u8>) -> World {
        let tables = read_tables(&groups, &types).expect("both tables are accepted");
        World { groups, types, tables }
    }

    pub fn random(rng: &mut Rng) -> World {
        let groups = random_groups(rng);
        let read = crate::groups::read_groups(&groups).expect("a lattice is accepted");
        let least = if rng.one_in(10) { rng.between(1, 200) } else { rng.between(1, 50) };
        let types = random_types(rng, &read, least);
        World::of(groups, types)
    }
}

// ---------------------------------------------------------------------------------------------
// Well-typed scripts

/// Makes terms at or below a wanted type, by the typing rules read backwards.
///
/// A wanted type is one of the table's, its own groups perhaps changed; then its sides stand in the
/// table too, and a value of it can always be written.
struct Maker<'a> {
    rng: &'a mut Rng,
    groups: &'a Groups,
    all: Vec<Type>,
    context: Vec<Type>,
}

impl Maker<'_> {
    fn group_where(&mut self, fits: impl Fn(&Groups, Group) -> bool) -> Group {
        let fitting = groups_where(self.groups, |g| fits(self.groups, g));
        *self.rng.pick(&fitting)
    }

    /// A group at or above `g`: a programmer who may read it.
    fn above(&mut self, g: Group) -> Group {
        self.group_where(|groups, h| groups.below(g, h))
    }

    /// Who the calls of a recursion of this type may be made as: often no more than is asked.
    fn caller(&mut self, own: &Type) -> Group {
        let (_, result) = own.sides().expect("a function has sides");
        let least = self.groups.join(own.marks.r, result.marks.c);
        if self.rng.one_in(2) {
            least
        } else {
            self.above(least)
        }
    }

    /// Groups of a value at or below `wanted`.
    fn lower(&mut self, wanted: Marks) -> Marks {
        if self.rng.one_in(3) {
            return wanted;
        }
        let ir = self.group_where(|groups, g| groups.below(g, wanted.ir));
        let r = self.group_where(|groups, g| groups.below(g, wanted.r) && groups.below(ir, g));
        let ic = self.above(wanted.ic);
        let c = self.above(self.groups.join(wanted.c, ic));
        Marks { r, ir, c, ic }
    }

    /// What may be added on the way to `wanted`: ir is joined into it, and ic met.
    fn added(&mut self, wanted: &Type) -> Raise {
        let ir = self.group_where(|groups, g| groups.below(g, wanted.marks.ir));
        Raise { ir, ic: self.above(wanted.marks.c) }
    }

    /// Groups of an object that is taken apart on the way to `wanted`: its r only has to suit the
    /// node, and its c nothing.
    fn opened(&mut self, wanted: &Type) -> Marks {
        let Raise { ir, ic } = self.added(wanted);
        Marks { r: self.above(ir), ir, c: self.above(ic), ic }
    }

    /// Who may take such an object apart: one that may read it, and by whose hands the creators that
    /// are wanted aren't lost.
    fn reader(&mut self, object: Marks, wanted: Marks) -> Group {
        let least = self.groups.join(object.r, wanted.c);
        self.above(least)
    }

    /// Two numbers that are read on the way to `wanted`, and who may read both.
    fn numbers(&mut self, wanted: &Type, [left, right]: [usize; 2]) -> (Group, [Rc<Term>; 2]) {
        let [first, second] = [(); 2].map(|_| self.opened(wanted));
        let least = self.groups.join(first.r, second.r);
        let r = self.reader(Marks { r: least, ..first }, wanted.marks);
        let number = |marks| Type { marks, form: Form::Number };
        let left = self.make(&number(first), left);
        // Numbers that were drawn apart are seldom near each other.
        let right = match *left {
            Term::Literal(_, own) if self.rng.one_in(2) => {
                let marks = self.lower(second);
                Rc::new(Term::Literal(marks, number_near(self.rng, own)))
            }
            _ => self.make(&number(second), right),
        };
        (r, [left, right])
    }

    /// An index of the table that fulfils a condition.
    fn index_where(&mut self, fits: impl Fn(&Groups, &Type) -> bool) -> Option<u16> {
        let fitting: Vec<u16> = (0..self.all.len())
            .filter(|&index| fits(self.groups, &self.all[index]))
            .map(|index| index as u16)
            .collect();
        if fitting.is_empty() {
            None
        } else {
            Some(*self.rng.pick(&fitting))
        }
    }

    /// A variable whose type fulfils a condition, with that type.
    fn variable_where(&mut self, fits: impl Fn(&Groups, &Type) -> bool) -> Option<(Term, Type)> {
        let count = self.context.len();
        let fitting: Vec<usize> =
            (0..count).filter(|&at| fits(self.groups, &self.context[at])).collect();
        if fitting.is_empty() {
            return None;
        }
        let at = *self.rng.pick(&fitting);
        Some((Term::Variable((count - 1 - at) as u16), self.context[at].clone()))
    }

    fn under(&mut self, binder: Type, wanted: &Type, fuel: usize) -> Rc<Term> {
        self.context.push(binder);
        let term = self.make(wanted, fuel);
        self.context.pop();
        term
    }

    /// A term at or below `wanted`, of about `fuel` records.
    fn make(&mut self, wanted: &Type, fuel: usize) -> Rc<Term> {
        let made = if fuel == 0 {
            let known = self.variable_where(|groups, s| at_or_below(groups, s, wanted));
            known.map(|(variable, _)| variable).filter(|_| !self.rng.one_in(3))
        } else {
            // A few tries: many forms fit only some wanted types, and a unit would end the script.
            let tries = if fuel > 3 { 6 } else { 1 };
            (0..tries).find_map(|_| self.attempt(wanted, fuel))
        };
        Rc::new(made.unwrap_or_else(|| self.value(wanted, fuel)))
    }

    /// The introduction form of the wanted type.
    fn value(&mut self, wanted: &Type, fuel: usize) -> Term {
        let marks = self.lower(wanted.marks);
        match &wanted.form {
            Form::Unit => Term::Unit(marks),
            Form::Number => Term::Literal(marks, random_number(self.rng)),
            Form::Sum(a, b) => {
                let sum = self.index_where(|groups, s| match &s.form {
                    Form::Sum(c, d) => at_or_below(groups, c, a) && at_or_below(groups, d, b),
                    _ => false,
                });
                let sum = sum.expect("the wanted sum's sides stand in the table");
                let chosen = self.all[sum as usize].clone();
                let (c, d) = chosen.sides().expect("a sum has sides");
                let (side, part) =
                    if self.rng.one_in(2) { (Side::First, c) } else { (Side::Second, d) };
                Term::Injection(side, marks, sum, self.make(part, fuel.saturating_sub(1)))
            }
            Form::Pair(a, b) => {
                let left = self.rng.below(fuel + 1);
                Term::Pair(marks, self.make(a, left), self.make(b, fuel.saturating_sub(left + 1)))
            }
            Form::Function(a, b) => {
                let parameter = self.index_where(|groups, s| at_or_below(groups, a, s));
                let parameter = parameter.expect("the wanted parameter stands in the table");
                let binder = self.all[parameter as usize].clone();
                Term::Function(marks, parameter, self.under(binder, b, fuel.saturating_sub(1)))
            }
        }
    }

    /// Another form, when one fits.
    fn attempt(&mut self, wanted: &Type, fuel: usize) -> Option<Term> {
        let fuel = fuel - 1;
        let part = self.rng.below(fuel + 1);
        let rest = fuel - part;
        match self.rng.below(17) {
            // A variable, when little else would fit.
            0 if fuel < 8 => {
                self.variable_where(|groups, s| at_or_below(groups, s, wanted)).map(|(v, _)| v)
            }

            // Application of a function of the table.
            1 | 2 => {
                let index = self.index_where(|groups, s| match &s.form {
                    Form::Function(_, b) => at_or_below(groups, b, wanted),
                    _ => false,
                })?;
                let mut function = self.all[index as usize].clone();
                function.marks = self.opened(wanted);
                let (parameter, _) = function.sides().expect("a function has sides");
                let r = self.reader(function.marks, wanted.marks);
                let argument = self.make(parameter, rest);
                Some(Term::Application(r, self.make(&function, part), argument))
            }

            // Application of a variable: this is how a recursion calls itself.
            3 | 4 => {
                let (variable, found) = self.variable_where(|groups, s| match &s.form {
                    Form::Function(_, b) => {
                        at_or_below(groups, b, wanted) && opens_to(groups, s, wanted)
                    }
                    _ => false,
                })?;
                let (parameter, _) = found.sides().expect("a function has sides");
                let r = self.reader(found.marks, wanted.marks);
                let argument = self.make(parameter, fuel);
                Some(Term::Application(r, Rc::new(variable), argument))
            }

            // A function written where it is applied; its type need not stand in the table.
            5 => {
                let room = MOST_TYPE_RECORDS.saturating_sub(1 + wanted.size());
                let index = self.index_where(|_, s| s.size() <= room)?;
                let binder = self.all[index as usize].clone();
                let marks = self.opened(wanted);
                let r = self.reader(marks, wanted.marks);
                let argument = self.make(&binder, rest);
                let body = self.under(binder, wanted, part);
                Some(Term::Application(r, Rc::new(Term::Function(marks, index, body)), argument))
            }

            // Projection of a pair of the table.
            6 => {
                let side = if self.rng.one_in(2) { Side::First } else { Side::Second };
                let index = self.index_where(|groups, s| match &s.form {
                    Form::Pair(a, b) => {
                        at_or_below(groups, if side == Side::First { a } else { b }, wanted)
                    }
                    _ => false,
                })?;
                let mut pair = self.all[index as usize].clone();
                pair.marks = self.opened(wanted);
                let r = self.reader(pair.marks, wanted.marks);
                Some(Term::Projection(side, r, self.make(&pair, fuel)))
            }

            // Projection of a pair written in place.
            7 => {
                let room = MOST_TYPE_RECORDS.saturating_sub(1 + wanted.size());
                let index = self.index_where(|_, s| s.size() <= room)?;
                let other = self.all[index as usize].clone();
                let marks = self.opened(wanted);
                let r = self.reader(marks, wanted.marks);
                let (kept, lost) = (self.make(wanted, part), self.make(&other, rest));
                let (side, pair) = if self.rng.one_in(2) {
                    (Side::First, Term::Pair(marks, kept, lost))
                } else {
                    (Side::Second, Term::Pair(marks, lost, kept))
                };
                Some(Term::Projection(side, r, Rc::new(pair)))
            }

            // Case of a sum of the table.
            8 | 9 => {
                let (result, branch) = self.result(wanted, rest)?;
                let index = self.index_where(|_, s| matches!(s.form, Form::Sum(..)))?;
                let mut sum = self.all[index as usize].clone();
                sum.marks = self.opened(wanted);
                let tested = self.make(&sum, part.saturating_sub(1));
                let r = self.reader(sum.marks, wanted.marks);
                Some(self.case(r, tested, &sum, result, [&branch, &branch], rest))
            }

            // Case of a variable.
            10 => {
                let (result, branch) = self.result(wanted, fuel)?;
                let (variable, sum) = self.variable_where(|groups, s| {
                    matches!(s.form, Form::Sum(..)) && opens_to(groups, s, wanted)
                })?;
                let r = self.reader(sum.marks, wanted.marks);
                Some(self.case(r, Rc::new(variable), &sum, result, [&branch, &branch], fuel))
            }

            11 => {
                let by = self.added(wanted);
                Some(Term::Protect(by, self.make(wanted, fuel)))
            }

            // A recursion, mostly of a function written at once.
            12 => {
                let index = self
                    .index_where(|groups, s| at_or_below(groups, s, wanted) && recurs(groups, s))?;
                let own = self.all[index as usize].clone();
                self.context.push(own.clone());
                let body = if self.rng.one_in(4) {
                    self.make(&own, fuel)
                } else {
                    Rc::new(self.value(&own, fuel))
                };
                self.context.pop();
                Some(Term::Recursion(self.caller(&own), index, body))
            }

            // Where a number is wanted, a sum of two; where a sum of units is, a comparison.
            14..=16 if wanted.form == Form::Number => {
                let (r, [left, right]) = self.numbers(wanted, [part, rest]);
                Some(Term::Addition(r, left, right))
            }
            14..=16 if is_sum_of_units(wanted) => {
                let (a, b) = wanted.sides().expect("a sum has sides");
                let sum = self.index_where(|groups, s| match &s.form {
                    Form::Sum(c, d) => at_or_below(groups, c, a) && at_or_below(groups, d, b),
                    _ => false,
                })?;
                let (r, [left, right]) = self.numbers(wanted, [part, rest]);
                Some(Term::LessThan(r, sum, left, right))
            }

            // The introduction form, unless it would end the script early.
            _ if wanted.sides().is_some() => Some(self.value(wanted, fuel)),
            _ => None,
        }
    }

    /// The number of a case that is wanted, and what its branches have to be at or below: a type of the
    /// table, or whatever is wanted where the case finds its own.
    fn result(&mut self, wanted: &Type, fuel: usize) -> Option<(u16, Type)> {
        if fuel > 0 && self.rng.one_in(2) {
            return Some((OWN_TYPE, wanted.clone()));
        }
        let index = self.index_where(|groups, s| at_or_below(groups, s, wanted))?;
        Some((index, self.all[index as usize].clone()))
    }

    /// A case by `r` of `tested`, which has the type `sum`. One that finds its type is deeper, so less is
    /// left for its branches.
    fn case(
        &mut self,
        r: Group,
        tested: Rc<Term>,
        sum: &Type,
        result: u16,
        branches: [&Type; 2],
        fuel: usize,
    ) -> Term {
        let (a, b) = sum.sides().expect("a sum has sides");
        let fuel = if result == OWN_TYPE { fuel.saturating_sub(1) } else { fuel };
        let half = self.rng.below(fuel + 1);
        let first = self.under((**a).clone(), branches[0], half);
        let second = self.under((**b).clone(), branches[1], fuel - half);
        Term::Case(r, result, tested, first, second)
    }

    /// A term of exactly this type: the introduction form, or around such a term what adds no group to it.
    fn exactly(&mut self, wanted: &Type, fuel: usize) -> Option<Rc<Term>> {
        let (top, lowest) = (highest(self.groups), lowest_marks(self.groups));
        let more = fuel.saturating_sub(1);
        let part = self.rng.below(more + 1);
        let rest = more - part;
        let term = match if fuel == 0 { 7 } else { self.rng.below(8) } {
            0 => Term::Protect(Raise { ir: 0, ic: top }, self.exactly(wanted, more)?),
            1 | 2 => {
                let index = self.index_where(|_, s| matches!(s.form, Form::Sum(..)))?;
                let sum = Type { marks: lowest, ..self.all[index as usize].clone() };
                let (a, b) = sum.sides().expect("a sum has sides");
                let (side, of) =
                    if self.rng.one_in(2) { (Side::First, a) } else { (Side::Second, b) };
                let tested = Term::Injection(side, lowest, index, self.make(of, part / 2));
                let first = self.exactly_under(a, wanted, part / 2)?;
                let second = self.exactly_under(b, wanted, rest.saturating_sub(1))?;
                Term::Case(top, OWN_TYPE, Rc::new(tested), first, second)
            }
            3 => {
                let room = MOST_TYPE_RECORDS.saturating_sub(1 + wanted.size());
                let index = self.index_where(|_, s| s.size() <= room)?;
                let binder = self.all[index as usize].clone();
                let body = self.exactly_under(&binder, wanted, part)?;
                let function = Rc::new(Term::Function(lowest, index, body));
                Term::Application(top, function, self.make(&binder, rest))
            }
            4 => {
                let room = MOST_TYPE_RECORDS.saturating_sub(1 + wanted.size());
                let index = self.index_where(|_, s| s.size() <= room)?;
                let other = self.all[index as usize].clone();
                let pair = Term::Pair(lowest, self.make(&other, rest), self.exactly(wanted, part)?);
                Term::Projection(Side::Second, top, Rc::new(pair))
            }
            _ => match &wanted.form {
                Form::Unit => Term::Unit(wanted.marks),
                Form::Number => Term::Literal(wanted.marks, random_number(self.rng)),
                Form::Sum(a, b) => {
                    let sum = self.index_where(|_, s| s.form == wanted.form)?;
                    let (side, of) =
                        if self.rng.one_in(2) { (Side::First, a) } else { (Side::Second, b) };
                    Term::Injection(side, wanted.marks, sum, self.make(of, more))
                }
                Form::Pair(a, b) => {
                    Term::Pair(wanted.marks, self.exactly(a, part)?, self.exactly(b, rest)?)
                }
                Form::Function(a, b) => {
                    let parameter = self.index_where(|_, s| *s == **a)?;
                    Term::Function(wanted.marks, parameter, self.exactly_under(a, b, more)?)
                }
            },
        };
        Some(Rc::new(term))
    }

    fn exactly_under(&mut self, binder: &Type, wanted: &Type, fuel: usize) -> Option<Rc<Term>> {
        self.context.push(binder.clone());
        let term = self.exactly(wanted, fuel);
        self.context.pop();
        term
    }

    /// A case that finds its type, its branches of two types of this shape, so that what is found may stand
    /// nowhere in the table.
    fn choice(&mut self, shape: &Type, fuel: usize) -> Option<Term> {
        let alike = |_: &Groups, s: &Type| same_shape(s, shape);
        let (one, other) = (self.index_where(alike)?, self.index_where(alike)?);
        let index = self.index_where(|_, s| matches!(s.form, Form::Sum(..)))?;
        let sum = self.all[index as usize].clone();
        let branches = [one, other].map(|index| self.all[index as usize].clone());
        let tested = self.make(&sum, fuel / 4);
        let r = self.above(sum.marks.r);
        Some(self.case(r, tested, &sum, OWN_TYPE, [&branches[0], &branches[1]], fuel / 2))
    }
}

/// Can a comparison have this type?
pub fn is_sum_of_units(s: &Type) -> bool {
    matches!(&s.form, Form::Sum(a, b) if a.form == Form::Unit && b.form == Form::Unit)
}

/// Does what an object of type `s` adds leave room for `wanted`, if the right group takes it apart?
fn opens_to(groups: &Groups, s: &Type, wanted: &Type) -> bool {
    groups.below(s.marks.ir, wanted.marks.ir) && groups.below(wanted.marks.c, s.marks.ic)
}

/// Can a recursion have this type, if the right group is written in it?
fn recurs(groups: &Groups, s: &Type) -> bool {
    matches!(&s.form, Form::Function(_, result) if opens_to(groups, s, result))
}

/// The same kinds in the same order.
pub fn same_shape(s: &Type, t: &Type) -> bool {
    let kinds = |s: &Type| -> Vec<u8> { s.write().into_iter().step_by(TYPE_BYTES).collect() };
    kinds(s) == kinds(t)
}

fn maker<'a>(rng: &'a mut Rng, tables: &'a Tables) -> Maker<'a> {
    let all = (0..tables.types.count()).map(|index| tables.types.at(index)).collect();
    Maker { rng, groups: &tables.groups, all, context: Vec::new() }
}

/// A script that typing accepts, of about `fuel` records (at most 200, to stay within the depth).
pub fn typed_script(rng: &mut Rng, tables: &Tables, fuel: usize) -> Rc<Term> {
    assert!(fuel <= 200, "deeper than this a script may pass depth 256");
    let mut maker = maker(rng, tables);
    let index = maker.rng.below(maker.all.len());
    let mut wanted = maker.all[index].clone();
    // The highest readers and the lowest creators leave the most room for what is opened inside.
    if !maker.rng.one_in(3) {
        let top = highest(maker.groups);
        wanted.marks = Marks { r: top, ir: top, ..LOW };
    }
    maker.make(&wanted, fuel)
}

/// A script at or below this type, which has no sides or is one of the table's with other groups.
pub fn typed_at(rng: &mut Rng, tables: &Tables, wanted: &Type, fuel: usize) -> Rc<Term> {
    assert!(fuel <= 200, "deeper than this a script may pass depth 256");
    maker(rng, tables).make(wanted, fuel)
}

/// A value at or below this type, which has no sides or is one of the table's with other groups.
pub fn value_at(rng: &mut Rng, tables: &Tables, wanted: &Type, fuel: usize) -> Rc<Term> {
    assert!(fuel <= 200, "deeper than this a script may pass depth 256");
    Rc::new(maker(rng, tables).value(wanted, fuel))
}

/// A function of the table, if it has one.
pub fn some_function(rng: &mut Rng, tables: &Tables) -> Option<Type> {
    let mut maker = maker(rng, tables);
    let index = maker.index_where(|_, s| matches!(s.form, Form::Function(..)))?;
    Some(maker.all[usize::from(index)].clone())
}

/// A script whose reported type is this one, if the table has the sums and parameters that it has to name.
pub fn typed_exactly(
    rng: &mut Rng,
    tables: &Tables,
    wanted: &Type,
    fuel: usize,
) -> Option<Rc<Term>> {
    assert!(fuel <= 200, "deeper than this a script may pass depth 256");
    maker(rng, tables).exactly(wanted, fuel)
}

/// A recursion applied to an argument, the recursion's body a function that may call it.
pub fn typed_recursion(rng: &mut Rng, tables: &Tables, fuel: usize) -> Option<Rc<Term>> {
    let mut maker = maker(rng, tables);
    let index = maker.index_where(recurs)?;
    let own = maker.all[index as usize].clone();
    maker.context.push(own.clone());
    let body = Rc::new(maker.value(&own, fuel));
    maker.context.pop();
    let (parameter, _) = own.sides().expect("a function has sides");
    let r = maker.above(own.marks.r);
    let argument = maker.make(parameter, fuel / 4);
    let recursion = Term::Recursion(maker.caller(&own), index, body);
    Some(Rc::new(Term::Application(r, Rc::new(recursion), argument)))
}

/// A case that finds its type, taken apart by the highest group where that is of use: a sum by a case
/// that finds its type again, a pair by a projection, a function by giving it a unit or a number, a number by
/// adding one.
pub fn typed_choice(rng: &mut Rng, tables: &Tables, fuel: usize) -> Option<Rc<Term>> {
    let mut maker = maker(rng, tables);
    let index = maker.rng.below(maker.all.len());
    let shape = maker.all[index].clone();
    let choice = Rc::new(maker.choice(&shape, fuel)?);
    let top = highest(maker.groups);
    let x = || Rc::new(Term::Variable(0));
    let opened = match &shape.form {
        Form::Sum(a, b) if same_shape(a, b) => Term::Case(top, OWN_TYPE, choice, x(), x()),
        Form::Sum(..) => Term::Case(top, OWN_TYPE, choice, unit(), unit()),
        Form::Pair(..) => Term::Projection(Side::Second, top, choice),
        Form::Function(a, _) if a.sides().is_none() => {
            let lowest = lowest_marks(&tables.groups);
            let given =
                if a.kind() == 0 { Term::Unit(lowest) } else { Term::Literal(lowest, u16::MAX) };
            Term::Application(top, choice, Rc::new(given))
        }
        Form::Number => {
            let one = Term::Literal(lowest_marks(&tables.groups), 1);
            Term::Addition(top, choice, Rc::new(one))
        }
        Form::Unit | Form::Function(..) => return Some(choice),
    };
    Some(Rc::new(opened))
}

/// A recursion that counts: (μf : s. λx. case x < limit of f (x + pace) | x) start, every group in it just what
/// is asked. Its result is read by whom its parameter is, so the table must have such a function.
pub fn typed_count(rng: &mut Rng, tables: &Tables, rounds: u16) -> Option<Rc<Term>> {
    let mut maker = maker(rng, tables);
    let sum = maker.index_where(|_, s| is_sum_of_units(s))?;
    // What is counted on is at or below the parameter, and what is given in the end below the result.
    let counts = |groups: &Groups, s: &Type| match &s.form {
        Form::Function(a, b) if a.form == Form::Number && b.form == Form::Number => {
            let counted = Marks { r: a.marks.ir, ir: a.marks.ir, c: a.marks.ic, ic: a.marks.ic };
            let within = at_or_below(groups, a, b)
                && groups.below(a.marks.ir, b.marks.ir)
                && groups.below(b.marks.c, a.marks.ic);
            let again = Type { marks: counted, form: Form::Number };
            recurs(groups, s) && within && at_or_below(groups, &again, a)
        }
        _ => false,
    };
    let index = maker.index_where(counts)?;
    let own = maker.all[index as usize].clone();
    let (parameter, result) = own.sides().expect("a function has sides");
    let top = highest(maker.groups);
    let lowest = lowest_marks(maker.groups);
    let pace = maker.rng.between(1, 3000) as u16;
    let limit = random_number(maker.rng);
    // The last round mostly passes the limit, and sometimes 65,535.
    let past = maker.rng.below(pace.into()) as u16;
    let start = limit.saturating_sub(rounds.saturating_mul(pace).saturating_sub(past));
    let literal = |number| Rc::new(Term::Literal(lowest, number));
    let variable = |number| Rc::new(Term::Variable(number));
    // Under the binder of a branch x is 1 and f is 2.
    let more = Term::Addition(top, variable(1), literal(pace));
    let again = Term::Application(top, variable(2), Rc::new(more));
    let test = Term::LessThan(top, sum, variable(0), literal(limit));
    let given = maker.index_where(|_, s| s == &**result).expect("the result stands in the table");
    let number = if maker.rng.one_in(2) { OWN_TYPE } else { given };
    let case = Term::Case(top, number, Rc::new(test), Rc::new(again), variable(1));
    let body = Term::Function(own.marks, index + 1, Rc::new(case));
    let recursion = Term::Recursion(maker.caller(&own), index, Rc::new(body));
    let given = Rc::new(Term::Literal(maker.lower(parameter.marks), start));
    Some(Rc::new(Term::Application(top, Rc::new(recursion), given)))
}

/// A well-typed script of any of these forms.
pub fn some_typed(rng: &mut Rng, tables: &Tables, fuel: usize) -> Rc<Term> {
    let special = match rng.below(7) {
        0 | 1 => typed_recursion(rng, tables, fuel),
        2 => typed_choice(rng, tables, fuel),
        3 if fuel > 10 => typed_count(rng, tables, (fuel / 10) as u16),
        _ => None,
    };
    special.unwrap_or_else(|| typed_script(rng, tables, fuel))
}

/// A well-typed script of up to `most` records: many smaller ones, each but the first dropped from a
/// pair in the end.
pub fn large_typed_script(rng: &mut Rng, tables: &Tables, most: usize) -> Rc<Term> {
    let mut parts = Vec::new();
    let mut size = 0;
    // Many parts may be small or unfit, so the number of tries is bounded too.
    for _ in 0..most / 4 {
        let fuel = rng.below(200);
        let part = typed_script(rng, tables, fuel);
        let found = type_of(tables, &part).expect("typed by construction");
        // Two such types and the pair's record are 63 at most.
        if 2 * found.size() < MOST_TYPE_RECORDS && size + part.size() + 2 <= most {
            size += part.size() + 2;
            parts.push(part);
        }
    }
    // A pair that adds nothing to what is taken from it: made, and taken apart, by the highest group.
    fn joined(groups: &Groups, parts: &[Rc<Term>]) -> Rc<Term> {
        match parts {
            [] => unit(),
            [one] => one.clone(),
            _ => {
                let (left, right) = parts.split_at(parts.len() / 2);
                let (left, right) = (joined(groups, left), joined(groups, right));
                let pair = Term::Pair(lowest_marks(groups), left, right);
                Rc::new(Term::Projection(Side::First, highest(groups), Rc::new(pair)))
            }
        }
    }
    let term = joined(&tables.groups, &parts);
    // Parts may be nearly 240 deep, and a few halvings lie above them.
    assert!(term.size() <= most && term.depth() <= MOST_DEPTH);
    term
}

// ---------------------------------------------------------------------------------------------
// Other scripts

/// A closed term that passes questions 13 to 19 and is typed only by luck.
pub fn untyped_script(rng: &mut Rng, tables: &Tables, fuel: usize) -> Rc<Term> {
    untyped(rng, tables, 0, fuel.min(200))
}

/// The types of this kind.
pub fn indexes_of_kind(tables: &Tables, kind: u8) -> Vec<u16> {
    (0..tables.types.count() as u16)
        .filter(|&index| tables.types.at(index.into()).kind() == kind)
        .collect()
}

/// Who the calls of a recursion of this type are made as: r of the type, a group above it, or any,
/// below and beside it too.
fn any_caller(rng: &mut Rng, tables: &Tables, function: u16) -> Group {
    let r = tables.types.at(function.into()).marks.r;
    match rng.below(3) {
        0 => r,
        1 => *rng.pick(&groups_where(&tables.groups, |g| tables.groups.below(r, g))),
        _ => rng.below(tables.groups.count()) as Group,
    }
}

/// The same of a term under so many binders, which it may use.
pub fn untyped(rng: &mut Rng, tables: &Tables, binders: usize, fuel: usize) -> Rc<Term> {
    let leaf = |rng: &mut Rng| {
        if binders > 0 && !rng.one_in(3) {
            Term::Variable(rng.below(binders) as u16)
        } else if rng.one_in(3) {
            let marks = random_marks(rng, &tables.groups);
            Term::Literal(marks, random_number(rng))
        } else {
            Term::Unit(random_marks(rng, &tables.groups))
        }
    };
    if fuel == 0 {
        return Rc::new(leaf(rng));
    }
    let fuel = fuel - 1;
    let part = rng.below(fuel + 1);
    let rest = fuel - part;
    let marks = random_marks(rng, &tables.groups);
    let group = rng.below(tables.groups.count()) as Group;
    let by = random_raise(rng, &tables.groups);
    // The top group reads everything, so that runs get further.
    let node = if rng.one_in(4) { group } else { highest(&tables.groups) };
    let any_type = rng.below(tables.types.count()) as u16;
    let own_type = rng.one_in(2);
    let (sums, functions) = (indexes_of_kind(tables, 1), indexes_of_kind(tables, 3));
    let of_units: Vec<u16> =
        sums.iter().copied().filter(|&sum| is_sum_of_units(&tables.types.at(sum.into()))).collect();
    let number = random_number(rng);
    let side = if rng.one_in(2) { Side::First } else { Side::Second };
    let form = rng.below(18);
    let mut sub = |more: usize, fuel: usize| untyped(rng, tables, binders + more, fuel);
    let term = match form {
        1 | 2 => Term::Function(marks, any_type, sub(1, fuel)),
        3 => Term::Pair(marks, sub(0, part), sub(0, rest)),
        4 if !sums.is_empty() => {
            let sum = sums[rest % sums.len()];
            Term::Injection(side, marks, sum, sub(0, fuel))
        }
        5 | 6 => Term::Application(node, sub(0, part), sub(0, rest)),
        7 => {
            let body = sub(1, part);
            Term::Application(node, Rc::new(Term::Function(marks, any_type, body)), sub(0, rest))
        }
        8 => Term::Projection(side, node, sub(0, fuel)),
        9 | 10 => {
            let tested = match sums.first() {
                Some(&sum) => Rc::new(Term::Injection(side, marks, sum, sub(0, part / 2))),
                None => sub(0, part / 2),
            };
            // Deeper where it finds its type, so less is left for the last branch.
            let (result, rest) =
                if own_type { (OWN_TYPE, rest.saturating_sub(1)) } else { (any_type, rest) };
            Term::Case(node, result, tested, sub(1, part / 2), sub(1, rest))
        }
        11 => Term::Protect(by, sub(0, fuel)),
        12 if !functions.is_empty() => {
            let function = functions[rest % functions.len()];
            let body = sub(1, fuel);
            Term::Recursion(any_caller(rng, tables, function), function, body)
        }
        14 => Term::Addition(node, sub(0, part), sub(0, rest)),
        // One operand at least is a number.
        15 => Term::Addition(node, sub(0, fuel), Rc::new(Term::Literal(marks, number))),
        16 if !of_units.is_empty() => {
            let sum = of_units[rest % of_units.len()];
            Term::LessThan(node, sum, sub(0, part), sub(0, rest))
        }
        17 if !of_units.is_empty() => {
            let sum = of_units[rest % of_units.len()];
            Term::LessThan(node, sum, Rc::new(Term::Literal(marks, number)), sub(0, fuel))
        }
        _ => leaf(rng),
    };
    Rc::new(term)
}

/// A closed term of this depth or some levels less, many of them cases that find their type, with a
/// function far below that is applied to a deep value. Nothing but its depth may be wrong before typing.
pub fn deep_script(rng: &mut Rng, tables: &Tables, depth: usize) -> Rc<Term> {
    let x = Rc::new(Term::Variable(0));
    let result = if rng.one_in(2) { OWN_TYPE } else { 0 };
    let body = Term::Case(0, result, x.clone(), unit(), unit());
    let value = Rc::new(Term::Function(LOW, 0, Rc::new(body)));
    let body = (0..rng.below(20)).fold(x, |inner, _| Rc::new(Term::Protect(LOW_RAISE, inner)));
    let function = Rc::new(Term::Function(LOW, 0, body));
    let mut term = Rc::new(Term::Application(0, function, value));
    let mut reached = term.depth();
    while reached < depth {
        term = Rc::new(level_around(rng, tables, term));
        // What stands beside the operand is shallower.
        reached += term.record().weight();
    }
    term
}

/// A term with this one as an operand, mostly where it is stepped.
fn level_around(rng: &mut Rng, tables: &Tables, term: Rc<Term>) -> Term {
    let result = if rng.one_in(3) { 0 } else { OWN_TYPE };
    match rng.below(10) {
        0 => Term::Pair(LOW, term, unit()),
        1 => Term::Pair(LOW, unit(), term),
        2 => Term::Projection(Side::First, 0, term),
        3 => match indexes_of_kind(tables, 1).first() {
            Some(&sum) => Term::Injection(Side::Second, LOW, sum, term),
            None => Term::Application(0, term, unit()),
        },
        4..=6 => Term::Case(0, result, term, unit(), unit()),
        7 if rng.one_in(20) => Term::Case(0, result, unit(), term, unit()),
        7 if rng.one_in(20) => Term::Case(0, result, unit(), unit(), term),
        8 if rng.one_in(2) => Term::Addition(0, term, unit()),
        8 => Term::Addition(0, unit(), term),
        _ => Term::Protect(LOW_RAISE, term),
    }
}

/// A value that passes questions 13 to 19, functions' bodies included.
pub fn untyped_value(rng: &mut Rng, tables: &Tables, fuel: usize) -> Rc<Term> {
    let marks = random_marks(rng, &tables.groups);
    if fuel == 0 {
        let number = random_number(rng);
        let literal = rng.one_in(2);
        return Rc::new(if literal { Term::Literal(marks, number) } else { Term::Unit(marks) });
    }
    let part = rng.below(fuel);
    let sums = indexes_of_kind(tables, 1);
    let term = match rng.below(5) {
        0 if !sums.is_empty() => {
            let side = if rng.one_in(2) { Side::First } else { Side::Second };
            let sum = *rng.pick(&sums);
            Term::Injection(side, marks, sum, untyped_value(rng, tables, fuel - 1))
        }
        1 => {
            let parameter = rng.below(tables.types.count()) as u16;
            Term::Function(marks, parameter, untyped(rng, tables, 1, part.min(20)))
        }
        _ => {
            let left = untyped_value(rng, tables, part);
            Term::Pair(marks, left, untyped_value(rng, tables, fuel - 1 - part))
        }
    };
    Rc::new(term)
}

/// Where a record starts: any one, or one of the recursions', of the cases' that find their type or of those
/// that read numbers, which are rare.
fn some_record(rng: &mut Rng, script: &[u8]) -> usize {
    let rare = |at: &usize| {
        let record = Record::read(&script[*at..at + SCRIPT_BYTES]);
        matches!(record.kind, 11 | 13 | 14) || record.finds_own_type()
    };
    let starts = (0..script.len()).step_by(SCRIPT_BYTES);
    let rare: Vec<usize> = starts.filter(rare).collect();
    if rare.is_empty() || !rng.one_in(4) {
        rng.below(script.len() / SCRIPT_BYTES) * SCRIPT_BYTES
    } else {
        *rng.pick(&rare)
    }
}

/// 0 in the fields that its kind doesn't name; byte 3 stays.
fn clear_unnamed(record: &mut Record) {
    let kind = record.kind;
    let kept = |named: bool, group: Group| if named { group } else { 0 };
    record.r = kept(names_r(kind), record.r);
    record.ir = kept(names_ir(kind), record.ir);
    record.c = kept(names_c(kind), record.c);
    record.ic = kept(names_ic(kind), record.ic);
    if !names_number(kind) {
        record.number = 0;
    }
}

/// A script with one field of one record changed: a group, a kind, an index or a variable.
pub fn near_miss(rng: &mut Rng, tables: &Tables, script: &[u8]) -> Vec<u8> {
    let mut bytes = script.to_vec();
    let at = some_record(rng, script);
    let mut record = Record::read(&bytes[at..at + SCRIPT_BYTES]);
    let group = rng.below(tables.groups.count() + 1) as Group;
    let kind = record.kind;
    let change = match rng.below(9) {
        // Fields that mean nothing are changed less often.
        0 if !names_r(kind) && !rng.one_in(4) => 2,
        1 if !names_ir(kind) && !rng.one_in(4) => 2,
        4..=6 if !names_number(kind) && !rng.one_in(4) => 2,
        7 if !names_c(kind) && !rng.one_in(4) => 2,
        8 if !names_ic(kind) && !rng.one_in(4) => 2,
        change => change,
    };
    match change {
        0 => record.r = group,
        1 => record.ir = group,
        7 => record.c = group,
        8 => record.ic = group,
        // A change of groups that is fine by itself.
        2 => {
            let Marks { r, ir, c, ic } = random_marks(rng, &tables.groups);
            (record.r, record.ir, record.c, record.ic) = (r, ir, c, ic);
            clear_unnamed(&mut record);
        }
        3 => {
            // Mostly another kind with as many operands, so that the script stays one term. What is no kind counts as a case.
            let count = *OPERANDS.get(record.kind as usize).unwrap_or(&3);
            let kinds = 0..OPERANDS.len() as u8;
            let same: Vec<u8> = kinds.filter(|&kind| operand_count(kind) == count).collect();
            record.kind = if rng.one_in(4) { rng.below(16) as u8 } else { *rng.pick(&same) };
            if !rng.one_in(4) {
                clear_unnamed(&mut record);
            }
        }
        4 if rng.one_in(3) => record.number = OWN_TYPE,
        4 => record.number = rng.below(tables.types.count() + 1) as u16,
        _ => record.number = record.number.wrapping_add(if rng.one_in(2) { 1 } else { 0xFFFF }),
    }
    bytes[at..at + SCRIPT_BYTES].copy_from_slice(&record.write());
    bytes
}

/// The types table with the groups of one record changed, mostly with ir ⊑ r and ic ⊑ c still; else a
/// single group, which may be outside the table, or a unit made a number or a number a unit.
pub fn near_miss_types(rng: &mut Rng, world: &World) -> Vec<u8> {
    let mut bytes = world.types.clone();
    let at = rng.below(bytes.len() / TYPE_BYTES) * TYPE_BYTES;
    if matches!(bytes[at], 0 | 4) && rng.one_in(3) {
        bytes[at] = 4 - bytes[at];
        return bytes;
    }
    if rng.one_in(5) {
        bytes[at + rng.pick(&[1, 2, 4, 5])] = rng.below(world.tables.groups.count() + 1) as Group;
        return bytes;
    }
    let Marks { r, ir, c, ic } = random_marks(rng, &world.tables.groups);
    bytes[at + 1..at + 3].copy_from_slice(&[r, ir]);
    bytes[at + 4..at + TYPE_BYTES].copy_from_slice(&[c, ic]);
    bytes
}

/// A table or script of records of this width in its old form, which lacks c and ic.
fn narrowed(bytes: &[u8], width: usize, old_width: usize) -> Vec<u8> {
    bytes.chunks(width).flat_map(|record| &record[..record.len().min(old_width)]).copied().collect()
}

/// A types table in its old form.
pub fn old_types(types: &[u8]) -> Vec<u8> {
    narrowed(types, TYPE_BYTES, OLD_TYPE_BYTES)
}

/// A script in its old form.
pub fn old_script(script: &[u8]) -> Vec<u8> {
    narrowed(script, SCRIPT_BYTES, OLD_SCRIPT_BYTES)
}

/// These inputs as form 1 saves them: without creators, and with 0 in byte 1 of every recursion.
pub fn saved_before(inputs: &Inputs) -> Inputs {
    let mut old = old_form(inputs);
    for record in old.script.chunks_exact_mut(OLD_SCRIPT_BYTES).filter(|record| record[0] == 11) {
        record[1] = 0;
    }
    old
}

/// These inputs as form 2 saves them: without creators.
pub fn old_form(inputs: &Inputs) -> Inputs {
    Inputs {
        groups: inputs.groups.clone(),
        types: old_types(&inputs.types),
        script: old_script(&inputs.script),
    }
}

/// What is handed back to a move: the preview as it was shown, or an end or a count of some other step, wider ones among them; the
/// number of steps may be any.
pub fn handed_back(rng: &mut Rng, shown: Preview) -> Preview {
    let mut given = shown;
    let other = match rng.below(4) {
        0 => 1 << rng.between(16, 63),
        1 => 1 << rng.below(16),
        _ => rng.between(1, 5) as u64,
    };
    match rng.below(8) {
        0 => given.end = given.end.wrapping_add(other),
        1 => given.records = given.records.wrapping_add(other),
        2 => given.records = given.records.wrapping_sub(other),
        3 => (given.end, given.records) = (rng.below(6) as u64, rng.below(12) as u64),
        _ => {}
    }
    given.steps = match rng.below(4) {
        0 => *rng.pick(&[0, 255, (1 << 40) - 1, u64::MAX - 1, u64::MAX]),
        1 => rng.word(),
        _ => shown.steps,
    };
    given
}

/// A script as the old office program may have saved it: chance names, often the same ones again and often 0, so that binders hide one
/// another; a variable has the name of its binder where no nearer one has it too, and some names are without a binder or stand where
/// none is used. Creators are lost.
pub fn office_script(rng: &mut Rng, term: &Term) -> Vec<u8> {
    let few = rng.between(1, 6);
    let mut bytes = Vec::new();
    office_records(rng, term, few, &mut Vec::new(), &mut bytes);
    bytes
}

/// A name of so few, or any.
fn some_name(rng: &mut Rng, few: usize) -> u16 {
    match rng.below(12) {
        0 => 0,
        1 => rng.word() as u16,
        2 => 256 * rng.below(few) as u16,
        _ => rng.below(few) as u16,
    }
}

fn office_records(
    rng: &mut Rng,
    term: &Term,
    few: usize,
    names: &mut Vec<u16>,
    bytes: &mut Vec<u8>,
) {
    let mut record = term.record();
    let kind = record.kind;
    let mut own = [0, 0];
    if let Term::Variable(number) = term {
        own[0] = names[names.len() - 1 - *number as usize];
        record.number = 0;
        if rng.one_in(60) {
            own[0] = some_name(rng, few);
        }
    }
    let binders: Vec<usize> = term.operands().iter().map(|(_, binders)| *binders).collect();
    for (place, _) in binders.iter().filter(|&&binders| binders > 0).enumerate() {
        // Mostly a name that no binder outside has, so that variables keep what they mean.
        own[place] = if rng.one_in(3) {
            some_name(rng, few)
        } else {
            (names.len() + 1000 * (1 + place)) as u16
        };
    }
    if rng.one_in(300) {
        own[rng.below(2)] = some_name(rng, few);
    }
    if kind == 0 && rng.one_in(150) {
        record.number = rng.below(3) as u16;
    }
    let [first, second] = own;
    bytes.extend(OfficeRecord { record, first, second }.write());
    let mut place = 0;
    for (operand, binders) in term.operands() {
        if binders > 0 {
            names.push(own[place]);
            place += 1;
        }
        office_records(rng, operand, few, names, bytes);
        names.truncate(names.len() - binders);
    }
}

/// An old script with one field of one record changed.
pub fn near_miss_office(rng: &mut Rng, old: &[u8]) -> Vec<u8> {
    let mut old = old.to_vec();
    let at = OFFICE_BYTES * rng.below(old.len() / OFFICE_BYTES);
    let field = *rng.pick(&[0, 1, 2, 3, 4, 6, 6, 6, 8, 8]);
    old[at + field] = match rng.below(4) {
        0 => 0,
        1 => rng.below(16) as u8,
        2 => old[at + field].wrapping_add(1),
        _ => old[rng.below(old.len())],
    };
    old
}

/// What a loan desk gives: a script of a function, mostly, and a value, mostly one that the function takes; a group that may mostly
/// apply it; any budget and profile.
pub fn random_request(rng: &mut Rng, world: &World) -> Request {
    let tables = &world.tables;
    let fuel = rng.below(60);
    let function = some_function(rng, tables).filter(|_| !rng.one_in(8));
    let script = match &function {
        Some(own) => typed_at(rng, tables, own, fuel),
        None => some_typed(rng, tables, fuel),
    };
    let left = function.and_then(|own| own.sides().map(|(left, _)| (**left).clone()));
    let fuel = rng.below(30);
    let entry = match left {
        Some(left) if !rng.one_in(6) => value_at(rng, tables, &left, fuel),
        _ if rng.one_in(2) => untyped_value(rng, tables, fuel),
        _ => some_typed(rng, tables, fuel),
    };
    let group = match rng.below(8) {
        0 => rng.below(tables.groups.count() + 1) as u64,
        1 => highest(&tables.groups) as u64 + (1 << rng.between(8, 63)),
        _ => highest(&tables.groups).into(),
    };
    let budget = if rng.one_in(3) { rng.below(8) as u64 } else { 200 };
    let profile = if rng.one_in(3) { 1 << rng.below(64) } else { 0 };
    let mut request =
        Request { script: script.write(), entry: entry.write(), group, budget, profile };
    match rng.below(16) {
        0 => request.script = near_miss(rng, tables, &request.script),
        1 => request.entry = near_miss(rng, tables, &request.entry),
        2 => request.script = damaged(rng, &request.script),
        3 => request.entry = damaged(rng, &request.entry),
        _ => {}
    }
    request
}

/// Bytes damaged in some way: a bit, a byte, a cut, an addition, or all of them by chance.
pub fn damaged(rng: &mut Rng, bytes: &[u8]) -> Vec<u8> {
    let mut bytes = bytes.to_vec();
    match rng.below(8) {
        0 => {
            let more = rng.between(1, 7);
            let more = rng.bytes(more);
            bytes.extend(more);
        }
        1 => bytes.truncate(rng.below(bytes.len() + 1)),
        2 if !bytes.is_empty() => {
            let from = rng.below(bytes.len());
            bytes.extend_from_within(from..);
        }
        3 => {
            let length = rng.below(40);
            bytes = rng.bytes(length);
        }
        4 if !bytes.is_empty() => {
            let at = rng.below(bytes.len());
            bytes[at] = rng.word() as u8;
        }
        5 if !bytes.is_empty() => {
            let at = rng.below(bytes.len());
            bytes.remove(at);
        }
        _ if !bytes.is_empty() => {
            let at = rng.below(bytes.len());
            bytes[at] ^= 1 << rng.below(8);
        }
        _ => bytes.push(rng.word() as u8),
    }
    bytes
}

// ---------------------------------------------------------------------------------------------
// Boundary sizes

/// The groups 0 alone in every place.
pub const LOW: Marks = Marks { r: 0, ir: 0, c: 0, ic: 0 };
pub const LOW_RAISE: Raise = Raise { ir: 0, ic: 0 };

pub fn unit() -> Rc<Term> {
    Rc::new(Term::Unit(LOW))
}

/// A term of type unit with exactly `size` records: unit, protect, or a projection of a pair of two
/// such terms. Halved at each pair, so shallow.
pub fn wide(size: usize) -> Rc<Term> {
    match size {
        0 => panic!("no term has 0 records"),
        1 => unit(),
        2 | 3 => Rc::new(Term::Protect(LOW_RAISE, wide(size - 1))),
        _ => {
            let left = (size - 2) / 2;
            let pair = Term::Pair(LOW, wide(left), wide(size - 2 - left));
            Rc::new(Term::Projection(Side::First, 0, Rc::new(pair)))
        }
    }
}

/// A term of type unit with exactly this depth and as many records: protect in protect.
pub fn deep(depth: usize) -> Rc<Term> {
    let mut term = unit();
    for _ in 1..depth {
        term = Rc::new(Term::Protect(LOW_RAISE, term));
    }
    term
}

/// A pair type of exactly `size` records (odd), all groups 0.
pub fn wide_type(size: usize) -> Type {
    if size == 1 {
        return Type { marks: LOW, form: Form::Unit };
    }
    let left = ((size - 1) / 2) | 1;
    let (left, right) = (wide_type(left), wide_type(size - 1 - left));
    Type { marks: LOW, form: Form::Pair(Rc::new(left), Rc::new(right)) }
}

/// `count` unit types.
pub fn unit_types(count: usize) -> Vec<u8> {
    vec![0; count * TYPE_BYTES]
}

/// The chain of `count` groups, in its words; past 32 the table is too long, whatever its words.
pub fn chain_groups(count: usize) -> Vec<u8> {
    let row = |g: usize| (g..count.min(32)).fold(0u32, |word, h| word | 1 << h);
    (0..count).flat_map(|g| row(g).to_le_bytes()).collect()
}

/// A table of words, most of them well formed and all different; some damaged in a byte, a word or their length.
pub fn words_table(rng: &mut Rng) -> Vec<u8> {
    let mut table = Vec::new();
    for _ in 0..WORDS_BYTES / WORD_BYTES {
        let letters = if rng.one_in(3) { 1 + rng.below(2) } else { 1 + rng.below(WORD_BYTES) };
        let word: Vec<u8> = (0..letters).map(|_| b'a' + rng.below(26) as u8).collect();
        table.extend(word.iter().chain(std::iter::repeat(&0)).take(WORD_BYTES));
    }
    let at = rng.below(WORDS_BYTES);
    match rng.below(8) {
        0 => table[at] = *rng.pick(&[0, b'a' - 1, b'a', b'z', b'z' + 1, b'A', 255]),
        1 => {
            let word = |rng: &mut Rng| rng.below(WORDS_BYTES / WORD_BYTES) * WORD_BYTES;
            let (from, to) = (word(rng), word(rng));
            table.copy_within(from..from + WORD_BYTES, to);
        }
        2 => table.truncate(at),
        3 => table.extend(rng.bytes(1 + at)),
        _ => {}
    }
    table
}

// ---------------------------------------------------------------------------------------------
// Lists of scripts and of their amendments

/// 16-bit numbers, lowest byte first.
pub fn write_numbers(numbers: &[u16]) -> Vec<u8> {
    numbers.iter().flat_map(|number| number.to_le_bytes()).collect()
}

/// A studio's list and the list of its amendments, both as numbers: a script's is its type's index, an entry's are the script
/// that it names first and the one that it replaces, or 65,535.
#[derive(Debug, Clone)]
pub struct Lists {
    pub scripts: Vec<u16>,
    pub amendments: Vec<[u16; 2]>,
}

impl Lists {
    pub fn write(&self) -> (Vec<u8>, Vec<u8>) {
        (write_numbers(&self.scripts), write_numbers(&self.amendments.concat()))
    }
}

/// Lists that pass, of at most so many scripts. Few types are named, so that many are related.
pub fn random_lists(rng: &mut Rng, tables: &Tables, most: usize) -> Lists {
    let named: Vec<u16> =
        (0..rng.between(1, 4)).map(|_| rng.below(tables.types.count()) as u16).collect();
    let count = rng.below(most + 1);
    let scripts: Vec<u16> = (0..count).map(|_| *rng.pick(&named)).collect();
    let at = |script: u16| tables.types.at(scripts[usize::from(script)].into());
    let mut unlisted: Vec<u16> = (0..count as u16).collect();
    let mut newest: Vec<u16> = Vec::new();
    let mut amendments = Vec::new();
    for _ in 0..rng.below(count + 1) {
        let first = unlisted.swap_remove(rng.below(unlisted.len()));
        let open: Vec<usize> = (0..newest.len())
            .filter(|&place| at_or_below(tables.security(), &at(first), &at(newest[place])))
            .collect();
        let old = if open.is_empty() || rng.one_in(3) {
            NO_SCRIPT
        } else {
            newest.swap_remove(*rng.pick(&open))
        };
        newest.push(first);
        amendments.push([first, old]);
    }
    Lists { scripts, amendments }
}

/// A number for an entry: one of the list, another entry's, none, or just past the list.
fn listed_number(rng: &mut Rng, lists: &Lists) -> u16 {
    let count = lists.scripts.len();
    match rng.below(6) {
        0 => NO_SCRIPT,
        1 => count as u16,
        2 if !lists.amendments.is_empty() => {
            let entry = rng.below(lists.amendments.len());
            lists.amendments[entry][rng.below(2)]
        }
        _ => rng.below(count.max(1)) as u16,
    }
}

/// The same lists with one thing changed that a question may be about.
pub fn near_miss_lists(rng: &mut Rng, tables: &Tables, lists: &Lists) -> Lists {
    let mut changed = lists.clone();
    let entries = changed.amendments.len();
    match rng.below(6) {
        0 if !changed.scripts.is_empty() => {
            let script = rng.below(changed.scripts.len());
            changed.scripts[script] = rng.below(tables.types.count() + 2) as u16;
        }
        1 if entries > 1 => {
            let (one, other) = (rng.below(entries), rng.below(entries));
            changed.amendments.swap(one, other);
        }
        2 if entries > 0 => {
            changed.amendments.remove(rng.below(entries));
        }
        3 => {
            let entry = [listed_number(rng, lists), listed_number(rng, lists)];
            changed.amendments.insert(rng.below(entries + 1), entry);
        }
        _ if entries > 0 => {
            let entry = rng.below(entries);
            changed.amendments[entry][rng.below(2)] = listed_number(rng, lists);
        }
        _ => {
            changed.scripts.pop();
        }
    }
    changed
}
