//! What a page can't tell, and whose hand it wasn't: two scripts that are alike but for what is hidden from who looks come to
//! values that are alike, if both runs end 0. Neither need be checked. By labels alone, so it holds of functions too.

mod common;

use std::rc::Rc;

use common::records::*;
use common::runs::{over, value_of};
use common::*;
use wigneld_tests::calls::{PacketReport, Request, RunReport};
use wigneld_tests::cases::{self, made, record, type_record, Inputs, UNIT_TYPE};
use wigneld_tests::exchange::{accepted, Exchange};
use wigneld_tests::generate::*;
use wigneld_tests::groups::{Group, Groups};
use wigneld_tests::hidden::{Observer, Who};
use wigneld_tests::limits::*;
use wigneld_tests::script::{read_script, Term};
use wigneld_tests::sheet::{sheet_of, CLOSED};
use wigneld_tests::steps::End;
use wigneld_tests::types::{read_tables, Tables};

// ---------------------------------------------------------------------------------------------
// Written out

/// Who reads as group 0, and who trusts group 1, comparing every label.
const READER: Who = Who::Reads(0);
const TRUSTING: Who = Who::Trusts(1);

/// A unit that a reader at 0 may learn nothing of, and one that who trusts 1 needn't heed.
const SECRET: Record = [1, 1, 1, 0, 0, 0, 0, 0];
const OTHERS: Record = UNIT;

/// Over groups 0 ⊑ 1. Type 0 is a sum of units, 3 a function from unit to unit, 6 one that a reader at 0 may learn nothing of.
fn own_inputs(records: &[Record]) -> Inputs {
    let secret = [type_record(3, 1, 1), UNIT_TYPE, UNIT_TYPE].concat();
    let types = [cases::case_types(), secret].concat();
    Inputs { groups: cases::two_groups(), types, script: records.concat() }
}

fn own_tables() -> Tables {
    let Inputs { groups, types, .. } = own_inputs(&[]);
    read_tables(&groups, &types).expect("both tables are accepted")
}

fn term_of(records: &[Record]) -> Rc<Term> {
    read_script(&own_tables(), &records.concat(), &[]).expect("13 to 19 are passed")
}

fn by<T>(who: Who, question: impl Fn(&Observer) -> T) -> T {
    question(&Observer { groups: &own_tables().groups, who, exact: true })
}

/// An object that 1 made, and that nobody else had a hand in.
fn by_1(record: Record) -> Record {
    made(record, 1, 1)
}

/// A node that reads as 1.
fn as_1(kind: u8) -> Record {
    record(kind, 1, 0, 0)
}

#[test]
fn what_is_dark_and_what_is_not() {
    let protect = |ir, ic| [10, 0, ir, 0, 0, 0, 0, ic];
    let pair = record(3, 1, 1, 0);
    let secret_sum = record(4, 1, 1, 0);
    let rows: [(&[Record], bool, bool); 18] = [
        (&[SECRET], true, true),
        (&[OTHERS], false, true),
        (&[by_1(SECRET)], true, false),
        (&[by_1(UNIT)], false, false),
        // not by r alone, nor by its parts
        (&[record(1, 1, 0, 0)], false, true),
        (&[by_1(PAIR), SECRET, OTHERS], false, false),
        (&[by_1(function(0)), SECRET], false, false),
        (&[protect(0, 1), by_1(UNIT)], false, false),
        (&[protect(1, 0), by_1(UNIT)], true, true),
        (&[protect(0, 1), SECRET], true, true),
        // not by an argument or a branch
        (&[as_1(6), by_1(function(0)), variable(0), SECRET], false, false),
        (&[as_1(6), record(2, 1, 1, 0), variable(0), by_1(UNIT)], true, true),
        (&[as_1(7), by_1(pair), by_1(UNIT), by_1(UNIT)], true, false),
        (&[as_1(9), by_1(first(0)), by_1(UNIT), SECRET, SECRET], false, false),
        (&[as_1(9), secret_sum, by_1(UNIT), variable(0), variable(0)], true, true),
        (&[as_1(13), by_1(literal(1)), record(12, 1, 1, 2)], true, true),
        // as a foreign group
        (&[ADD, by_1(literal(1)), by_1(literal(2))], false, true),
        // never a recursion
        (&[recursion(3), function(0), SECRET], false, false),
    ];
    for (records, to_reader, to_trusting) in rows {
        let term = term_of(records);
        assert_eq!(by(READER, |observer| observer.is_dark(&term)), to_reader, "{term:?}");
        assert_eq!(by(TRUSTING, |observer| observer.is_dark(&term)), to_trusting, "{term:?}");
    }
}

/// Two scripts that may not be called alike: both runs end 0, and he sees all of either value and that they differ.
fn are_told_apart(who: Who, scripts: [&[Record]; 2], values: [Record; 2]) {
    for (records, value) in scripts.iter().zip(&values) {
        let (report, first, _) = run_in(&own_inputs(records), 9, 999, 999);
        assert_eq!(report.map(|report| (report.end, report.records)), Ok((End::Value, 1)));
        assert_eq!(first[..SCRIPT_BYTES], *value);
    }
    let [one, other] = scripts.map(term_of);
    let [value, other_value] = values.map(|value| term_of(&[value]));
    by(who, |observer| {
        assert!(!observer.is_dark(&one) && !observer.is_dark(&other));
        assert!(!observer.are_alike(&one, &other) && !observer.are_alike(&value, &other_value));
        assert!(observer.sees_all(&value) && observer.sees_all(&other_value));
        if let Who::Reads(group) = who {
            let [page, other] =
                [&value, &other_value].map(|value| sheet_of(observer.groups, value, group));
            assert_ne!(page, other);
        }
    });
}

/// Readers alone hide nothing of what is made by reading: ir does.
#[test]
fn what_is_hidden_by_its_readers_alone_is_told() {
    let tested = |side| [as_1(9), record(side, 1, 0, 0), UNIT, literal(1), literal(2)];
    are_told_apart(READER, [&tested(4), &tested(5)], [literal(1), literal(2)]);
}

#[test]
fn an_application_to_what_is_hidden_is_told() {
    let constant = |number| [APPLY, function(0), literal(number), SECRET];
    are_told_apart(READER, [&constant(1), &constant(2)], [literal(1), literal(2)]);
    let constant = |number| [as_1(6), by_1(function(0)), by_1(literal(number)), OTHERS];
    are_told_apart(TRUSTING, [&constant(1), &constant(2)], [1, 2].map(|n| by_1(literal(n))));
}

#[test]
fn a_case_with_a_branch_that_is_hidden_is_told() {
    let taken_second = |number| [as_1(9), second(0), UNIT, SECRET, literal(number)];
    are_told_apart(READER, [&taken_second(1), &taken_second(2)], [literal(1), literal(2)]);
    let taken_first = |number| [as_1(9), first(0), UNIT, literal(number), SECRET];
    are_told_apart(READER, [&taken_first(1), &taken_first(2)], [literal(1), literal(2)]);
}

/// A recursion becomes the function that stands in it, whoever its calls are made as and whatever its type is.
#[test]
fn a_recursion_by_its_group_or_its_type_is_told() {
    let applied =
        |number| [as_1(6), recursion(3), by_1(function(4)), by_1(literal(number)), by_1(UNIT)];
    are_told_apart(TRUSTING, [&applied(1), &applied(2)], [1, 2].map(|n| by_1(literal(n))));
    let applied = |number| [APPLY, recursion(6), function(4), literal(number), UNIT];
    are_told_apart(READER, [&applied(1), &applied(2)], [literal(1), literal(2)]);
}

/// What is not said: steps, records and other ends.
#[test]
fn steps_and_ends_may_tell() {
    let secrets: [&[Record]; 3] = [
        &[SECRET],
        &[[10, 0, 1, 0, 0, 0, 0, 0], PAIR, UNIT, UNIT],
        &[[10, 0, 1, 0, 0, 0, 0, 0], APPLY, UNIT, UNIT],
    ];
    let ends = [(End::Value, 0, 3), (End::Value, 1, 5), (End::WrongKind, 0, 6)];
    for (secret, (end, steps, records)) in secrets.into_iter().zip(ends) {
        let [whole, first] = [secret, secrets[0]].map(|part| [&[PAIR], part, &[UNIT]].concat());
        let terms = [term_of(&whole), term_of(&first)];
        assert!(by(READER, |observer| observer.are_alike(&terms[0], &terms[1])));
        let (report, _, _) = run_in(&own_inputs(&whole), 9, 999, 999);
        assert_eq!(report, Ok(RunReport { end, steps, records }));
    }
}

// ---------------------------------------------------------------------------------------------
// Drawn

/// Who looks: one from whom something may be hidden.
fn someone<'a>(rng: &mut Rng, tables: &'a Tables) -> Option<Observer<'a>> {
    let groups = &tables.groups;
    let top = highest(groups) as usize;
    if top == 0 {
        return None;
    }
    let who = if rng.one_in(3) {
        Who::Trusts(rng.between(1, top) as Group)
    } else {
        Who::Reads(rng.below(top) as Group)
    };
    Some(Observer { groups, who, exact: rng.one_in(2) })
}

/// What was drawn of what the theorem speaks of.
#[derive(Debug, Default)]
struct Seen {
    /// Pairs that differ, both of whose runs end 0,
    pairs: u32,
    /// of those: whose runs make different numbers of steps,
    by_other_steps: u32,
    /// whose last terms differ,
    other_values: u32,
    /// in which several parts were exchanged,
    several: u32,
    /// of which checking refuses one at least,
    untyped: u32,
    /// in which labels were changed besides.
    labels: u32,
    /// What exchanged parts were: of two kinds, of two sizes, with functions, recursions, numbers, or variables bound outside.
    kinds: u32,
    sizes: u32,
    functions: u32,
    recursions: u32,
    numbers: u32,
    open: u32,
    /// Pairs for who reads or trusts one group, for whom the scripts are alike,
    readers: u32,
    trusting: u32,
    /// and to whom the last term, the sheet of which was compared, shows something.
    shown: u32,
    /// Last terms of which all is seen, which are one.
    all_seen: u32,
    /// Sheets for groups for which the scripts aren't alike, which differ.
    told_apart: u32,
    /// Pairs of which one run alone ends 0, of which nothing is said.
    one_ended: u32,
}

/// The scripts that parts are exchanged in: with types or without, and pairs of such.
fn drawn_base(rng: &mut Rng, world: &World) -> Rc<Term> {
    let tables = &world.tables;
    let fuel = rng.below(40);
    match rng.below(5) {
        0 | 1 => untyped_script(rng, tables, fuel),
        2 | 3 => some_typed(rng, tables, fuel),
        _ => {
            let marks = random_marks(rng, &tables.groups);
            let left = untyped_script(rng, tables, fuel / 2);
            Rc::new(Term::Pair(marks, left, some_typed(rng, tables, fuel / 2)))
        }
    }
}

/// Two scripts, the values that they come to, and both as trees.
struct Ended {
    scripts: [Rc<Term>; 2],
    values: [Inputs; 2],
    last: [Rc<Term>; 2],
}

/// The sheets of both values for the group, and the sheet's answers in some rooms, or in all up to one byte more than it needs.
fn same_sheets(rng: &mut Rng, ended: &Ended, groups: &Groups, group: Group) {
    let [page, other] = ended.last.each_ref().map(|last| sheet_of(groups, last, group).concat());
    assert_eq!(page, other, "the sheets for {group}");
    let rooms = match rng.below(20) {
        0 => (0..page.len() + 2).collect(),
        _ => vec![page.len() - 1, page.len(), rng.below(page.len() + 20)],
    };
    for room in rooms {
        let [one, other] = ended.values.each_ref().map(|value| sheet_in(value, group.into(), room));
        assert_eq!(one, other, "the sheets for {group} in {room} bytes");
    }
}

/// Everyone to whom the scripts are alike is told the same by their last terms.
fn same_to_all(rng: &mut Rng, ended: &Ended, groups: &Groups, seen: &mut Seen) {
    let ([script, other_script], [last, other]) = (&ended.scripts, &ended.last);
    for observer in [true, false].into_iter().flat_map(|exact| Observer::all(groups, exact)) {
        let alike = observer.are_alike(script, other_script);
        if alike {
            assert!(observer.are_alike(last, other), "{observer:?}: {last:?} and {other:?}");
        }
        match observer.who {
            _ if observer.exact => {
                if alike && observer.sees_all(last) {
                    assert_eq!(last, other, "{observer:?} sees all of it");
                    seen.all_seen += 1;
                }
            }
            Who::Reads(group) if alike => {
                same_sheets(rng, ended, groups, group);
                seen.readers += 1;
                seen.shown += (sheet_of(groups, last, group)[0][0] != CLOSED) as u32;
            }
            Who::Reads(group) => {
                let [page, other] = [last, other].map(|last| sheet_of(groups, last, group));
                seen.told_apart += (page != other) as u32;
            }
            Who::Trusts(_) => seen.trusting += alike as u32,
        }
    }
}

/// Counts what the exchanged parts were.
fn count_parts(parts: &[[Rc<Term>; 2]], seen: &mut Seen) {
    let any = |fits: &dyn Fn(&[Rc<Term>; 2]) -> bool| parts.iter().any(fits) as u32;
    let holds = |kind| {
        move |parts: &[Rc<Term>; 2]| {
            let mut records = parts.iter().flat_map(|part| {
                part.write().chunks(SCRIPT_BYTES).map(|record| record[0]).collect::<Vec<u8>>()
            });
            records.any(|own| own == kind)
        }
    };
    seen.several += (parts.len() > 1) as u32;
    seen.kinds += any(&|[one, other]| one.record().kind != other.record().kind);
    seen.sizes += any(&|[one, other]| one.size() != other.size());
    seen.functions += any(&holds(2));
    seen.recursions += any(&holds(11));
    seen.numbers += any(&holds(12));
    seen.open += any(&|parts| parts.iter().any(|part| !is_closed(part, 0)));
}

/// Has the term no variable that is bound outside of it?
fn is_closed(term: &Term, binders: usize) -> bool {
    match term {
        Term::Variable(number) => usize::from(*number) < binders,
        _ => term.operands().iter().all(|(operand, more)| is_closed(operand, binders + more)),
    }
}

/// Draws two scripts that are alike to someone, runs them and compares what they come to.
fn try_pair(rng: &mut Rng, world: &World, seen: &mut Seen) {
    let tables = &world.tables;
    let Some(observer) = someone(rng, tables) else { return };
    let base = drawn_base(rng, world);
    let typed = rng.one_in(4);
    let mut exchange = Exchange { rng, tables, observer, typed, parts: Vec::new() };
    let scripts = exchange.scripts(&base);
    let parts = exchange.parts;
    assert!(observer.are_alike(&scripts[0], &scripts[1]), "{observer:?}: {scripts:?}");
    let inputs = scripts.each_ref().map(|script| over(world, &script.write()));
    let passes = |inputs: &Inputs| read_script(tables, &inputs.script, &[]).is_ok();
    if scripts[0] == scripts[1] || !inputs.iter().all(passes) {
        return;
    }
    let ran = inputs.each_ref().map(|inputs| value_of(rng, inputs));
    let [Some((one, steps)), Some((other, other_steps))] = &ran else {
        seen.one_ended += ran.iter().any(Option::is_some) as u32;
        return;
    };
    let values = [one, other].map(|value| over(world, value));
    let read =
        |value: &Inputs| read_script(tables, &value.script, &[]).expect("a last term passes");
    let last = values.each_ref().map(read);
    seen.pairs += 1;
    seen.by_other_steps += (steps != other_steps) as u32;
    seen.other_values += (one != other) as u32;
    seen.untyped += inputs.iter().any(|inputs| accepted(tables, &inputs.script).is_none()) as u32;
    let exact = Observer { exact: true, ..observer };
    seen.labels += !exact.are_alike(&scripts[0], &scripts[1]) as u32;
    count_parts(&parts, seen);
    same_to_all(rng, &Ended { scripts, values, last }, &tables.groups, seen);
}

#[test]
fn what_is_hidden_changes_nothing_that_is_seen() {
    let mut seen = Seen::default();
    let enough = examples(1000, |rng| {
        let world = World::random(rng);
        for _ in 0..4 {
            try_pair(rng, &world, &mut seen);
        }
    });
    let drawn = [
        (seen.pairs, 500),
        (seen.by_other_steps, 200),
        (seen.other_values, 350),
        (seen.several, 200),
        (seen.untyped, 250),
        (seen.labels, 120),
        (seen.kinds, 150),
        (seen.sizes, 300),
        (seen.functions, 250),
        (seen.recursions, 50),
        (seen.numbers, 300),
        (seen.open, 100),
        (seen.readers, 2500),
        (seen.trusting, 3000),
        (seen.shown, 1000),
        (seen.all_seen, 120),
        (seen.told_apart, 700),
        (seen.one_ended, 0),
    ];
    assert!(!enough || drawn.iter().all(|(count, least)| count > least), "{seen:?}");
}

// ---------------------------------------------------------------------------------------------
// Packets

/// What was drawn of two packets for one group.
#[derive(Debug, Default)]
struct Issued {
    /// Requests that differ, are alike to the group's readers and both issued,
    pairs: u32,
    /// of those: in the script, in the entry,
    scripts: u32,
    entries: u32,
    /// whose runs make different numbers of steps,
    by_other_steps: u32,
    /// whose last terms differ,
    other_values: u32,
    /// whose page isn't closed as a whole.
    shown: u32,
    /// One is issued alone.
    one_issued: u32,
}

/// Two scripts of one function, mostly, and two entries for it, alike to who reads as the desk's group.
fn drawn_requests(rng: &mut Rng, world: &World, observer: Observer) -> Option<[Request; 2]> {
    let tables = &world.tables;
    let mut own = some_function(rng, tables)?;
    // The desk has to read it.
    (own.marks.r, own.marks.ir) = (0, 0);
    let (left, _) = own.sides().expect("a function has sides");
    let fuel = rng.between(1, 40);
    let script = typed_at(rng, tables, &own, fuel);
    let fuel = rng.below(4);
    let entry = value_at(rng, tables, left, fuel);
    let Who::Reads(group) = observer.who else { return None };
    let mut exchange = Exchange { rng, tables, observer, typed: true, parts: Vec::new() };
    let [one, other] = exchange.scripts(&script);
    let [entry, other_entry] = exchange.pair(&entry, 0);
    assert!(observer.are_alike(&one, &other) && observer.are_alike(&entry, &other_entry));
    let mut request = |script: &Term, entry: &Term| {
        let budget = if rng.one_in(8) { rng.below(8) } else { 200 + rng.below(200) } as u64;
        let profile = rng.one_in(8) as u64;
        let (script, entry) = (script.write(), entry.write());
        Request { script, entry, group: group.into(), budget, profile }
    };
    Some([request(&one, &entry), request(&other, &other_entry)])
}

/// A packet, in buffers of drawn lengths.
fn packet_of(rng: &mut Rng, world: &World, request: &Request) -> Option<(PacketReport, Desk)> {
    let [first, scratch] = [(); 2].map(|_| REPORT_RUN_BYTES - SCRIPT_BYTES * rng.below(3000));
    let desk = Desk::of(WORK_BYTES + rng.below(3), first, scratch, 300 + rng.below(300));
    let (report, after) = packet_with(&world.groups, &world.types, request, &desk);
    report.ok().filter(|report| report.end == End::Value).map(|report| (report, after))
}

/// Two requests that are alike to the desk's group, if both are issued, have one page.
fn try_packets(rng: &mut Rng, world: &World, issued: &mut Issued) {
    let Some(observer) = someone(rng, &world.tables) else { return };
    let Some(requests) = drawn_requests(rng, world, observer) else { return };
    let [one, other] = &requests;
    if one.script == other.script && one.entry == other.entry {
        return;
    }
    let packets = requests.each_ref().map(|request| packet_of(rng, world, request));
    let [Some((report, desk)), Some((other_report, other_desk))] = packets else {
        issued.one_issued += packets.iter().any(Option::is_some) as u32;
        return;
    };
    let page = |report: &PacketReport, desk: &Desk| {
        desk.sheet[..report.records as usize * SHEET_BYTES].to_vec()
    };
    let own = page(&report, &desk);
    assert_eq!(own, page(&other_report, &other_desk), "the pages of {requests:?}");
    issued.pairs += 1;
    issued.scripts += (one.script != other.script) as u32;
    issued.entries += (one.entry != other.entry) as u32;
    issued.by_other_steps += (report.steps != other_report.steps) as u32;
    let last = |desk: &Desk| desk.first[..SCRIPT_BYTES * 512].to_vec();
    issued.other_values += (last(&desk) != last(&other_desk)) as u32;
    issued.shown += (own[0] != CLOSED) as u32;
}

#[test]
fn packets_of_scripts_that_are_alike_have_one_page() {
    let mut issued = Issued::default();
    let enough = examples(1000, |rng| {
        let world = World::random(rng);
        for _ in 0..4 {
            try_packets(rng, &world, &mut issued);
        }
    });
    let drawn = [
        (issued.pairs, 350),
        (issued.scripts, 300),
        (issued.entries, 100),
        (issued.by_other_steps, 80),
        (issued.other_values, 100),
        (issued.shown, 200),
        (issued.one_issued, 0),
    ];
    assert!(!enough || drawn.iter().all(|(count, least)| count > least), "{issued:?}");
}
