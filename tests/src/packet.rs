//! The loan desk's packet (manual, 7.8): a script applied to an entry as the desk's group, and the sheet of what comes
//! of it.

use std::rc::Rc;

use crate::calls::recursion_asked;
use crate::groups::Group;
use crate::limits::{MOST_DEPTH, MOST_SCRIPT_RECORDS, SCRIPT_BYTES, SHEET_BYTES, WORK_BYTES};
use crate::refusal::{ask, refuse, Answer};
use crate::script::{read_script, Term};
use crate::sheet::sheet_of;
use crate::steps::{is_value, run, End};
use crate::types::{at_or_below, read_tables, Form, Tables, Type};
use crate::typing::type_of;

/// What the desk gives: a script, an entry's value, its group and a budget; a profile of 0 is none.
#[derive(Debug, Clone, PartialEq, Eq)]
pub struct Request {
    pub script: Vec<u8>,
    pub entry: Vec<u8>,
    pub group: u64,
    pub budget: u64,
    pub profile: u64,
}

/// The buffers that the desk lends; what is told of the steps is in the report.
pub struct Lent<'a> {
    pub work: &'a mut [u8],
    pub first: &'a mut [u8],
    pub scratch: &'a mut [u8],
    pub sheet: &'a mut [u8],
}

/// The run's end and steps, and a count: of the sheet's records when the end is 0, of the last term's otherwise.
#[derive(Debug, Clone, Copy, PartialEq, Eq)]
pub struct PacketReport {
    pub end: End,
    pub steps: u64,
    pub records: u32,
}

/// Questions 13 to 19, 13 without the run's buffers, and under a profile 39 after 19.
fn read(tables: &Tables, script: &[u8], profile: u64) -> Answer<Rc<Term>> {
    let term = read_script(tables, script, &[])?;
    if profile != 0 {
        recursion_asked(script)?;
    }
    Ok(term)
}

/// 25 of the group, 37, 21 of the script's type, 38, and 13 and 18 of the application, all at place 0. The application
/// is handed back.
fn apply(
    tables: &Tables,
    group: u64,
    script: (Rc<Term>, Type),
    entry: (Rc<Term>, Type),
    room: usize,
) -> Answer<Rc<Term>> {
    ask(tables.groups.has(group), 25, 0)?;
    let group = group as Group;
    let Form::Function(left, _) = &script.1.form else {
        return refuse(37, 0);
    };
    ask(tables.groups.below(script.1.marks.r, group), 21, 0)?;
    ask(at_or_below(tables.security(), &entry.1, left), 38, 0)?;
    let whole = Rc::new(Term::Application(group, script.0, entry.0));
    ask(whole.size() <= MOST_SCRIPT_RECORDS.min(room), 13, 0)?;
    ask(whole.depth() <= MOST_DEPTH, 18, 0)?;
    Ok(whole)
}

/// The questions in the manual's order (9.12): script and entry are asked as a check asks them, without an answer
/// buffer, the script first, and the entry then by 26. The run's buffers end as after a run, also where 27 comes after
/// it; the work buffer is zeros once typing has begun.
pub fn packet(groups: &[u8], types: &[u8], request: &Request, lent: Lent) -> Answer<PacketReport> {
    let Request { script, entry, group, budget, profile } = request;
    ask(lent.work.len() >= WORK_BYTES, 1, 0)?;
    let tables = read_tables(groups, types)?;
    let script = read(&tables, script, *profile)?;
    lent.work.fill(0);
    let script_type = type_of(&tables, &script)?;
    let entry = read(&tables, entry, *profile)?;
    let entry_type = type_of(&tables, &entry)?;
    ask(is_value(&entry), 26, 0)?;
    let room = lent.first.len().min(lent.scratch.len()) / SCRIPT_BYTES;
    let whole = apply(&tables, *group, (script, script_type), (entry, entry_type), room)?;

    let ran = run(&tables, &whole, *budget, room);
    let bytes = ran.last.write();
    lent.first.fill(0);
    lent.first[..bytes.len()].copy_from_slice(&bytes);
    lent.scratch.fill(0);

    // A packet is issued only when the run ends 0; otherwise the end is reported and no sheet written.
    let mut records = ran.last.size();
    if ran.end == End::Value {
        let page = sheet_of(&tables.groups, &ran.last, *group as Group);
        ask(page.len() * SHEET_BYTES <= lent.sheet.len(), 27, 0)?;
        lent.sheet[..page.len() * SHEET_BYTES].copy_from_slice(&page.concat());
        records = page.len();
    }
    Ok(PacketReport { end: ran.end, steps: ran.steps, records: records as u32 })
}
