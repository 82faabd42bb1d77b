//! The inputs of the worked cases A to L (manual, 10), and of a few more.

use crate::generate::words;
use crate::limits::{OWN_TYPE, SCRIPT_BYTES, TYPE_BYTES};
use crate::script::Record;

/// The three files a call is given.
#[derive(Debug, Clone, PartialEq, Eq)]
pub struct Inputs {
    pub groups: Vec<u8>,
    pub types: Vec<u8>,
    pub script: Vec<u8>,
}

/// One script record, its creators group 0.
pub fn record(kind: u8, r: u8, ir: u8, number: u16) -> [u8; SCRIPT_BYTES] {
    Record { kind, r, ir, zero: 0, number, c: 0, ic: 0 }.write()
}

/// One type record, its creators group 0.
pub fn type_record(kind: u8, r: u8, ir: u8) -> [u8; TYPE_BYTES] {
    [kind, r, ir, 0, 0, 0]
}

/// The type record of a unit, all groups 0.
pub const UNIT_TYPE: [u8; TYPE_BYTES] = [0; TYPE_BYTES];

/// A script or type record with these creators, which are the last two bytes of either.
pub fn made<const WIDTH: usize>(mut record: [u8; WIDTH], c: u8, ic: u8) -> [u8; WIDTH] {
    record[WIDTH - 2..].copy_from_slice(&[c, ic]);
    record
}

/// Groups 0 ⊑ 1.
pub fn two_groups() -> Vec<u8> {
    words(&[3, 2])
}

/// Types: records 0 to 2 a sum of units, 3 to 5 a function from unit to unit, all groups 0.
pub fn case_types() -> Vec<u8> {
    let of_units = |kind| [type_record(kind, 0, 0), UNIT_TYPE, UNIT_TYPE].concat();
    [of_units(1), of_units(3)].concat()
}

/// The case term: a tested first injection of unit with these readers; branches a first and a second injection of unit,
/// of type 0, all other groups 0.
pub fn case_term(tested_r: u8, tested_ir: u8, case_r: u8) -> Vec<u8> {
    [
        record(9, case_r, 0, 0),
        record(4, tested_r, tested_ir, 0),
        record(1, 0, 0, 0),
        record(4, 0, 0, 0),
        record(1, 0, 0, 0),
        record(5, 0, 0, 0),
        record(1, 0, 0, 0),
    ]
    .concat()
}

/// The loop: a recursion of type 3 of a function of type 4, which applies variable 1 to 0, is applied to unit. Who
/// its calls are made as is written in the recursion.
pub fn loop_term(outer_r: u8, caller: u8) -> Vec<u8> {
    [
        record(6, outer_r, 0, 0),
        record(11, caller, 0, 3),
        record(2, 0, 0, 4),
        record(6, 0, 0, 0),
        record(0, 0, 0, 1),
        record(0, 0, 0, 0),
        record(1, 0, 0, 0),
    ]
    .concat()
}

/// Another record in this place of a table or a script.
pub fn set<const WIDTH: usize>(bytes: &mut [u8], place: usize, record: [u8; WIDTH]) {
    bytes[place * WIDTH..(place + 1) * WIDTH].copy_from_slice(&record);
}

fn with_script(script: Vec<u8>) -> Inputs {
    Inputs { groups: two_groups(), types: case_types(), script }
}

pub fn a() -> Inputs {
    with_script(case_term(1, 1, 0))
}

/// Also E, with budget 1.
pub fn b() -> Inputs {
    with_script(case_term(1, 1, 1))
}

/// B with a case that finds its own type, which is type 0 again.
pub fn b_with_own_type() -> Inputs {
    let mut inputs = b();
    inputs.script[4..6].copy_from_slice(&OWN_TYPE.to_le_bytes());
    inputs
}

/// The same with a unit as its second branch: a sum and a unit have no common type.
pub fn no_common_type() -> Inputs {
    let mut inputs = b_with_own_type();
    inputs.script.drain(5 * SCRIPT_BYTES..6 * SCRIPT_BYTES);
    inputs
}

/// A function whose parameter has a case's number.
pub fn own_type_of_a_function() -> Inputs {
    with_script([record(2, 0, 0, OWN_TYPE), record(1, 0, 0, 0)].concat())
}

pub fn c() -> Inputs {
    with_script(case_term(1, 0, 1))
}

pub fn d() -> Inputs {
    with_script(case_term(0, 1, 1))
}

pub fn f() -> Inputs {
    with_script(record(0, 0, 0, 0).to_vec())
}

/// Also H, in short buffers.
pub fn g() -> Inputs {
    g_called_as(0)
}

/// G with another group written in its recursion.
pub fn g_called_as(caller: u8) -> Inputs {
    with_script(loop_term(0, caller))
}

/// The loop whose type 3 has (1,1), called as group 1.
pub fn i() -> Inputs {
    i_called_as(1)
}

/// I with another group written in its recursion.
pub fn i_called_as(caller: u8) -> Inputs {
    let mut types = case_types();
    set(&mut types, 3, type_record(3, 1, 1));
    Inputs { types, ..with_script(loop_term(1, caller)) }
}

/// J to L name only groups; the rest is B's.
fn with_groups(rows: &[u32]) -> Inputs {
    Inputs { groups: words(rows), ..b() }
}

pub fn j() -> Inputs {
    with_groups(&[15, 10, 12, 8])
}

/// J's 1 ⊔ 2 in a script: the first of a pair of group 1 that group 2 protects, read as `w`. It is
/// for 3, and not for the larger of the two.
pub fn joined_readers(w: u8) -> Inputs {
    let script = [
        record(7, w, 0, 0),
        record(10, 0, 2, 0),
        record(3, 1, 1, 0),
        record(1, 0, 0, 0),
        record(1, 0, 0, 0),
    ]
    .concat();
    Inputs { script, ..j() }
}

pub fn k() -> Inputs {
    with_groups(&[1, 2])
}

pub fn l() -> Inputs {
    with_groups(&[5, 6, 4])
}

/// B's tables with a value that shows every word to group 0: ((first unit, second unit), (function,
/// (number, closed number))).
pub fn every_word() -> Inputs {
    let script = [
        record(3, 0, 0, 0),
        record(3, 0, 0, 0),
        record(4, 0, 0, 0),
        record(1, 0, 0, 0),
        record(5, 0, 0, 0),
        record(1, 0, 0, 0),
        record(3, 0, 0, 0),
        record(2, 0, 0, 4),
        record(0, 0, 0, 0),
        record(3, 0, 0, 0),
        record(12, 0, 0, 300),
        record(12, 1, 1, 7),
    ]
    .concat();
    with_script(script)
}

/// The tables of a page with numbers, over case J's groups. Records 0 to 2 are a sum of units
/// of which the first is for 1 and made by 2, 3 to 5 a function from number to number, 6 to 8 a sum of a unit and a
/// number.
pub fn number_types() -> Vec<u8> {
    let number = type_record(4, 0, 0);
    [
        made(type_record(1, 3, 3), 3, 3),
        made(type_record(0, 1, 0), 2, 0),
        made(UNIT_TYPE, 3, 3),
        type_record(3, 0, 0),
        number,
        number,
        type_record(1, 0, 0),
        UNIT_TYPE,
        number,
    ]
    .concat()
}

/// A pair of a total, counted as 3 of a number for 1 and one for 2, and a comparison, made as 1 of a total past
/// 65,535 and 65,535 itself.
pub fn numbers() -> Inputs {
    let script = [
        record(3, 0, 0, 0),
        record(13, 3, 0, 0),
        made(record(12, 1, 1, 40), 3, 1),
        made(record(12, 2, 0, 2), 2, 2),
        record(14, 1, 0, 0),
        record(13, 3, 0, 0),
        made(record(12, 1, 0, 65_535), 3, 3),
        made(record(12, 0, 0, 1), 3, 3),
        made(record(12, 0, 0, 65_535), 1, 1),
    ]
    .concat();
    Inputs { types: number_types(), script, ..j() }
}

/// The same with another record in this place.
pub fn numbers_with(place: usize, record: [u8; SCRIPT_BYTES]) -> Inputs {
    let mut inputs = numbers();
    set(&mut inputs.script, place, record);
    inputs
}

/// 1 + (2 + (3 + 4)), read as group 0, and the totals 0 and 65,535: what a report prints of numbers.
pub fn totals() -> Inputs {
    let literal = |number| record(12, 0, 0, number);
    let sum = record(13, 0, 0, 0);
    let script = [
        record(3, 0, 0, 0),
        sum,
        literal(1),
        sum,
        literal(2),
        sum,
        literal(3),
        literal(4),
        record(3, 0, 0, 0),
        sum,
        literal(0),
        literal(0),
        sum,
        literal(65_534),
        literal(2),
    ]
    .concat();
    Inputs { types: number_types(), script, ..j() }
}

/// A page with creators over case J's groups. A note (λx. <x, second of unit>) that
/// both hands made is applied, as 1, to an entry made by 1 and protected by 2's hands, and the second
/// recursion, called as 3, hands the unit it is given on.
pub fn creators() -> Inputs {
    let (note, second) = (made(record(2, 0, 0, 1), 3, 1), made(record(5, 0, 0, 0), 2, 2));
    let script = [
        record(3, 0, 0, 0),
        record(6, 1, 0, 0),
        note,
        made(record(3, 0, 0, 0), 1, 1),
        record(0, 0, 0, 0),
        second,
        record(1, 0, 0, 0),
        made(record(10, 0, 0, 0), 0, 2),
        made(record(1, 0, 0, 0), 3, 1),
        record(6, 3, 0, 0),
        record(11, 3, 0, 3),
        made(record(2, 0, 0, 4), 3, 3),
        record(0, 0, 0, 0),
        made(record(1, 0, 0, 0), 1, 0),
    ]
    .concat();
    let mut types = case_types();
    set(&mut types, 3, made(type_record(3, 0, 0), 3, 3));
    set(&mut types, 4, made(UNIT_TYPE, 1, 0));
    set(&mut types, 5, made(UNIT_TYPE, 1, 0));
    Inputs { types, script, ..j() }
}

/// The same, with what only creators decide changed: a record of its types in which ic ⊑ c fails.
pub fn creators_of_a_type() -> Inputs {
    let mut inputs = creators();
    set(&mut inputs.types, 5, made(UNIT_TYPE, 1, 2));
    inputs
}

/// A record of its script in which it fails.
pub fn creators_of_an_object() -> Inputs {
    let mut inputs = creators();
    set(&mut inputs.script, 5, made(record(5, 0, 0, 0), 1, 2));
    inputs
}

/// The recursion called as 2, through whose hands a result made by 1 can't come: question 23.
pub fn creators_of_a_recursion() -> Inputs {
    let mut inputs = creators();
    set(&mut inputs.script, 10, record(11, 2, 0, 3));
    inputs
}

/// The recursion given a unit made by 0 where one made by 1 is wanted: question 22.
pub fn creators_of_an_argument() -> Inputs {
    let mut inputs = creators();
    set(&mut inputs.script, 13, record(1, 0, 0, 0));
    inputs
}

/// Every case's inputs with its letter.
pub fn all() -> Vec<(char, Inputs)> {
    vec![
        ('A', a()),
        ('B', b()),
        ('C', c()),
        ('D', d()),
        ('F', f()),
        ('G', g()),
        ('I', i()),
        ('J', j()),
        ('K', k()),
        ('L', l()),
    ]
}
