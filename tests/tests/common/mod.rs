//! Calls with lent memory that is filled beforehand, so that every byte afterwards can be compared.
//!
//! With the feature `engine` each call here is made of the engine too, with guards around all
//! memory, and both answers and all bytes must be the same. So every crafted example and every
//! property of the other files is one of the engine as well.
#![allow(dead_code)]

pub mod records;
pub mod runs;

use wigneld_tests::calls::{
    self, Lent, MoveReport, PacketReport, Preview, Request, RunReport, StepReport,
};
use wigneld_tests::cases::Inputs;
use wigneld_tests::limits::{ANSWER_BYTES, REPORT_RUN_BYTES, SCRIPT_BYTES, TYPE_BYTES, WORK_BYTES};
use wigneld_tests::refusal::{Answer, Refusal};
use wigneld_tests::types::Comparison;

/// A refusal, as it is expected.
pub fn no<T>(question: u32, place: u32) -> Answer<T> {
    Err(Refusal { question, place })
}

/// Bytes that are nowhere 0 and differ from their neighbours.
pub fn filled(length: usize) -> Vec<u8> {
    (0..length).map(|index| (index % 251) as u8 + 1).collect()
}

// ---------------------------------------------------------------------------------------------
// One call each

pub fn groups_check(groups: &[u8]) -> Answer<()> {
    let answer = calls::groups_check(groups);
    #[cfg(feature = "engine")]
    compared::groups_check(groups, &answer);
    answer
}

pub fn types_check(groups: &[u8], types: &[u8]) -> Answer<()> {
    let answer = calls::types_check(groups, types);
    #[cfg(feature = "engine")]
    compared::types_check(groups, types, &answer);
    answer
}

pub fn compare(groups: &[u8], types: &[u8], i: u64, j: u64) -> Answer<Comparison> {
    let answer = calls::compare(groups, types, i, j);
    #[cfg(feature = "engine")]
    compared::compare(groups, types, i, j, &answer);
    answer
}

/// A studio's tables, its list of scripts and the list of its amendments.
#[derive(Debug, Clone)]
pub struct Studio {
    pub groups: Vec<u8>,
    pub types: Vec<u8>,
    pub scripts: Vec<u8>,
    pub amendments: Vec<u8>,
}

pub fn in_force(studio: &Studio, index: u64) -> Answer<u16> {
    let Studio { groups, types, scripts, amendments } = studio;
    let answer = calls::in_force(groups, types, scripts, amendments, index);
    #[cfg(feature = "engine")]
    compared::in_force(studio, index, &answer);
    answer
}

pub fn subterm(script: &[u8], index: u64) -> &[u8] {
    let part = calls::subterm(script, index);
    #[cfg(feature = "engine")]
    compared::subterm(script, index, part);
    part
}

pub fn strip_script(script: &mut [u8]) {
    #[cfg(feature = "engine")]
    let before = script.to_vec();
    calls::strip_script(script);
    #[cfg(feature = "engine")]
    compared::strip_script(&before, script);
}

pub fn strip_types(types: &mut [u8]) {
    #[cfg(feature = "engine")]
    let before = types.to_vec();
    calls::strip_types(types);
    #[cfg(feature = "engine")]
    compared::strip_types(&before, types);
}

pub fn write_callers(types: &[u8], script: &mut [u8]) -> u64 {
    #[cfg(feature = "engine")]
    let before = script.to_vec();
    let written = calls::write_callers(types, script);
    #[cfg(feature = "engine")]
    compared::write_callers(types, &before, written, script);
    written
}

/// The rewriting of a types table of the old form in this buffer: the answer, and what it holds afterwards.
pub fn rewrite_types_with(
    groups: &[u8],
    types: &[u8],
    rewritten: Vec<u8>,
) -> (Answer<u32>, Vec<u8>) {
    let mut after = rewritten.clone();
    let result = calls::rewrite_types(groups, types, &mut after);
    #[cfg(feature = "engine")]
    compared::rewrite_types(groups, types, &rewritten, &result, &after);
    (result, after)
}

/// The same of a script of the old form, over such a table.
pub fn rewrite_script_with(old: &Inputs, rewritten: Vec<u8>) -> (Answer<u32>, Vec<u8>) {
    let Inputs { groups, types, script } = old;
    let mut after = rewritten.clone();
    let result = calls::rewrite_script(groups, types, script, &mut after);
    #[cfg(feature = "engine")]
    compared::rewrite_script(old, &rewritten, &result, &after);
    (result, after)
}

/// Import of an old office script into this buffer: the answer, and what it holds afterwards.
pub fn import_with(old: &Inputs, lent: Vec<u8>) -> (Answer<u32>, Vec<u8>) {
    let Inputs { groups, types, script } = old;
    let mut after = lent.clone();
    let result = calls::import(groups, types, script, &mut after);
    #[cfg(feature = "engine")]
    compared::import(old, &lent, &result, &after);
    (result, after)
}

/// Export of a script into this buffer.
pub fn export_with(inputs: &Inputs, lent: Vec<u8>) -> (Answer<u32>, Vec<u8>) {
    let Inputs { groups, types, script } = inputs;
    let mut after = lent.clone();
    let result = calls::export(groups, types, script, &mut after);
    #[cfg(feature = "engine")]
    compared::export(inputs, &lent, &result, &after);
    (result, after)
}

pub fn write_office_callers(types: &[u8], old: &mut [u8]) -> u64 {
    #[cfg(feature = "engine")]
    let before = old.to_vec();
    let written = calls::write_office_callers(types, old);
    #[cfg(feature = "engine")]
    compared::write_office_callers(types, &before, written, old);
    written
}

type Check = fn(&[u8], &[u8], &[u8], &mut [u8], &mut [u8]) -> Answer<u32>;

/// A check with these buffers: the answer, and what the buffers hold afterwards.
fn checked(
    check: Check,
    inputs: &Inputs,
    mut work: Vec<u8>,
    mut answer: Vec<u8>,
) -> (Answer<u32>, Vec<u8>, Vec<u8>) {
    let Inputs { groups, types, script } = inputs;
    let result = check(groups, types, script, &mut work, &mut answer);
    (result, work, answer)
}

/// Checking with these buffers.
pub fn check_with(
    inputs: &Inputs,
    work: Vec<u8>,
    answer: Vec<u8>,
) -> (Answer<u32>, Vec<u8>, Vec<u8>) {
    let after = checked(calls::check, inputs, work.clone(), answer.clone());
    #[cfg(feature = "engine")]
    compared::check(inputs, [&work, &answer], &after.0, [&after.1, &after.2]);
    after
}

/// The profile check with these buffers.
pub fn check_profile_with(
    inputs: &Inputs,
    work: Vec<u8>,
    answer: Vec<u8>,
) -> (Answer<u32>, Vec<u8>, Vec<u8>) {
    let after = checked(calls::check_profile, inputs, work.clone(), answer.clone());
    #[cfg(feature = "engine")]
    compared::check_profile(inputs, [&work, &answer], &after.0, [&after.1, &after.2]);
    after
}

/// A run with these buffers.
pub fn run_with(
    inputs: &Inputs,
    budget: u64,
    first: Vec<u8>,
    scratch: Vec<u8>,
) -> (Answer<RunReport>, Vec<u8>, Vec<u8>) {
    let Inputs { groups, types, script } = inputs;
    let (mut first_after, mut scratch_after) = (first.clone(), scratch.clone());
    let result = calls::run(groups, types, script, budget, &mut first_after, &mut scratch_after);
    #[cfg(feature = "engine")]
    compared::run(inputs, budget, [&first, &scratch], &result, [&first_after, &scratch_after]);
    (result, first_after, scratch_after)
}

/// A step with this written buffer.
pub fn step_with(inputs: &Inputs, written: Vec<u8>) -> (Answer<StepReport>, Vec<u8>) {
    let Inputs { groups, types, script } = inputs;
    let mut after = written.clone();
    let result = calls::step(groups, types, script, &mut after);
    #[cfg(feature = "engine")]
    compared::step(inputs, &written, &result, &after);
    (result, after)
}

/// A preview of the step into a buffer of this length, with a number of steps so far.
pub fn preview_of(inputs: &Inputs, length: u64, steps: u64) -> Answer<Preview> {
    let Inputs { groups, types, script } = inputs;
    let result = calls::preview(groups, types, script, length, steps);
    #[cfg(feature = "engine")]
    compared::preview(inputs, length, &result);
    result
}

/// A move with what a preview gave, or with other numbers, and this written buffer.
pub fn move_with(
    inputs: &Inputs,
    given: Preview,
    written: Vec<u8>,
) -> (Answer<MoveReport>, Vec<u8>) {
    let Inputs { groups, types, script } = inputs;
    let mut after = written.clone();
    let result = calls::move_on(groups, types, script, given, &mut after);
    #[cfg(feature = "engine")]
    compared::move_on(inputs, given, &written, &result, &after);
    (result, after)
}

/// The four buffers of a packet whose bytes are compared; the steps are in its report.
#[derive(Debug, Clone, PartialEq, Eq)]
pub struct Desk {
    pub work: Vec<u8>,
    pub first: Vec<u8>,
    pub scratch: Vec<u8>,
    pub sheet: Vec<u8>,
}

impl Desk {
    /// Filled buffers of these lengths.
    pub fn of(work: usize, first: usize, scratch: usize, sheet: usize) -> Desk {
        let [work, first, scratch, sheet] = [work, first, scratch, sheet].map(filled);
        Desk { work, first, scratch, sheet }
    }

    pub fn lend(&mut self) -> Lent<'_> {
        let Desk { work, first, scratch, sheet } = self;
        Lent { work, first, scratch, sheet }
    }
}

/// A packet with these buffers: the answer, and what they hold afterwards.
pub fn packet_with(
    groups: &[u8],
    types: &[u8],
    request: &Request,
    desk: &Desk,
) -> (Answer<PacketReport>, Desk) {
    let mut after = desk.clone();
    let result = calls::packet(groups, types, request, after.lend());
    #[cfg(feature = "engine")]
    compared::packet([groups, types], request, desk, &result, &after);
    (result, after)
}

/// A sheet in this buffer.
pub fn sheet_with(inputs: &Inputs, group: u64, sheet: Vec<u8>) -> (Answer<u32>, Vec<u8>) {
    let Inputs { groups, types, script } = inputs;
    let mut after = sheet.clone();
    let result = calls::sheet(groups, types, script, group, &mut after);
    #[cfg(feature = "engine")]
    compared::sheet(inputs, group, &sheet, &result, &after);
    (result, after)
}

// ---------------------------------------------------------------------------------------------
// The same in filled buffers of given lengths, and assertions on every byte

pub fn check_in(inputs: &Inputs, work: usize, answer: usize) -> (Answer<u32>, Vec<u8>, Vec<u8>) {
    check_with(inputs, filled(work), filled(answer))
}

/// Asserts a refusal by checking, and all lent bytes after it.
pub fn check_refuses(inputs: &Inputs, question: u32, place: u32) {
    let (result, work, answer) = check_in(inputs, WORK_BYTES + 3, ANSWER_BYTES + 5);
    assert_eq!(result, no(question, place));
    if (Refusal { question, place }).is_of_typing() {
        assert!(work.iter().all(|&byte| byte == 0), "typing leaves the work buffer all zeros");
    } else {
        assert_eq!(work, filled(WORK_BYTES + 3), "unchanged before typing");
    }
    assert_eq!(answer, filled(ANSWER_BYTES + 5), "a refusal writes no answer");
}

/// Asserts the type checking finds, and all lent bytes after it.
pub fn check_finds(inputs: &Inputs, found: &[u8]) {
    let (result, work, answer) = check_in(inputs, WORK_BYTES + 3, ANSWER_BYTES + 5);
    assert_eq!(result, Ok((found.len() / TYPE_BYTES) as u32));
    assert!(work.iter().all(|&byte| byte == 0), "the work buffer is filled with zeros");
    assert_eq!(&answer[..found.len()], found);
    assert_eq!(
        answer[found.len()..],
        filled(ANSWER_BYTES + 5)[found.len()..],
        "bytes past it stay"
    );
}

pub fn run_in(
    inputs: &Inputs,
    budget: u64,
    first: usize,
    scratch: usize,
) -> (Answer<RunReport>, Vec<u8>, Vec<u8>) {
    run_with(inputs, budget, filled(first), filled(scratch))
}

/// Asserts a run's report, its last term when given, and all lent bytes after it. Gives the last
/// term's bytes.
pub fn run_reports(
    inputs: &Inputs,
    budget: u64,
    end: u8,
    steps: u64,
    records: u32,
    last: Option<&[u8]>,
) -> Vec<u8> {
    let (result, first, scratch) = run_in(inputs, budget, REPORT_RUN_BYTES, REPORT_RUN_BYTES + 1);
    let report = result.expect("the run is not refused");
    assert_eq!((report.end as u8, report.steps, report.records), (end, steps, records));
    let length = records as usize * SCRIPT_BYTES;
    if let Some(last) = last {
        assert_eq!(&first[..length], last, "the first buffer holds the last term");
    }
    assert!(first[length..].iter().all(|&byte| byte == 0), "then zeros");
    assert!(scratch.iter().all(|&byte| byte == 0), "the scratch is all zeros");
    first[..length].to_vec()
}

/// Asserts a refusal by a run, and that no lent byte changes.
pub fn run_refuses(inputs: &Inputs, question: u32, place: u32) {
    let (result, first, scratch) = run_in(inputs, 1000, REPORT_RUN_BYTES, REPORT_RUN_BYTES + 1);
    assert_eq!(result, no(question, place));
    assert_eq!(first, filled(REPORT_RUN_BYTES));
    assert_eq!(scratch, filled(REPORT_RUN_BYTES + 1));
}

pub fn step_in(inputs: &Inputs, written: usize) -> (Answer<StepReport>, Vec<u8>) {
    step_with(inputs, filled(written))
}

/// Asserts a step's end and record count, and that it wrote only when it moved. Gives what it wrote.
pub fn step_reports(inputs: &Inputs, room: usize, end: u8, records: u32) -> Vec<u8> {
    let (result, written) = step_in(inputs, room);
    let report = result.expect("the step is not refused");
    assert_eq!((report.end as u8, report.records), (end, records));
    let length = if end == 1 { records as usize * SCRIPT_BYTES } else { 0 };
    assert_eq!(written[length..], filled(room)[length..], "later bytes keep their content");
    written[..length].to_vec()
}

pub fn move_in(inputs: &Inputs, given: Preview, length: usize) -> (Answer<MoveReport>, Vec<u8>) {
    move_with(inputs, given, filled(length))
}

/// Asserts a refusal of a move, and that it writes nothing.
pub fn move_refuses(inputs: &Inputs, given: Preview, length: usize, question: u32, place: u32) {
    assert_eq!(move_in(inputs, given, length), (no(question, place), filled(length)));
}

pub fn rewrite_types_in(groups: &[u8], types: &[u8], length: usize) -> (Answer<u32>, Vec<u8>) {
    rewrite_types_with(groups, types, filled(length))
}

pub fn rewrite_script_in(old: &Inputs, length: usize) -> (Answer<u32>, Vec<u8>) {
    rewrite_script_with(old, filled(length))
}

/// Asserts a refusal by the rewriting of a script, and that no lent byte changes.
pub fn rewriting_refuses(old: &Inputs, room: usize, question: u32, place: u32) {
    assert_eq!(rewrite_script_in(old, room), (no(question, place), filled(room)));
}

/// The same of a types table.
pub fn rewriting_of_types_refuses(old: &Inputs, room: usize, question: u32, place: u32) {
    let answer = rewrite_types_in(&old.groups, &old.types, room);
    assert_eq!(answer, (no(question, place), filled(room)));
}

pub fn import_in(old: &Inputs, length: usize) -> (Answer<u32>, Vec<u8>) {
    import_with(old, filled(length))
}

pub fn export_in(inputs: &Inputs, length: usize) -> (Answer<u32>, Vec<u8>) {
    export_with(inputs, filled(length))
}

pub fn sheet_in(inputs: &Inputs, group: u64, length: usize) -> (Answer<u32>, Vec<u8>) {
    sheet_with(inputs, group, filled(length))
}

// ---------------------------------------------------------------------------------------------
// The engine beside it

#[cfg(feature = "engine")]
mod compared {
    use super::*;
    use wigneld_tests::engine::{
        self, packed_comparison, packed_count, packed_move, packed_nothing, packed_packet,
        packed_preview, packed_run, packed_script, packed_step,
    };
    use wigneld_tests::steps::End;

    const GUARD: usize = 61;

    /// A buffer between guards. The guard is odd, so the buffer starts at no round address.
    struct Guarded {
        bytes: Vec<u8>,
        length: usize,
    }

    fn guard(at: usize) -> u8 {
        (at as u8).wrapping_mul(37) ^ 0x5A
    }

    impl Guarded {
        fn new(content: &[u8]) -> Guarded {
            let mut bytes: Vec<u8> = (0..GUARD).map(guard).collect();
            bytes.extend_from_slice(content);
            bytes.extend((0..GUARD).map(guard));
            Guarded { bytes, length: content.len() }
        }

        fn lend(&mut self) -> &mut [u8] {
            &mut self.bytes[GUARD..GUARD + self.length]
        }

        /// The content afterwards, the guards untouched.
        fn take(&self, what: &str) -> &[u8] {
            let end = GUARD + self.length;
            for at in 0..GUARD {
                assert_eq!(self.bytes[at], guard(at), "{what}: written before the buffer");
                assert_eq!(self.bytes[end + at], guard(at), "{what}: written past the buffer");
            }
            &self.bytes[GUARD..end]
        }
    }

    /// The three inputs between guards, and the assertion that they stay as they were.
    struct Given {
        groups: Guarded,
        types: Guarded,
        script: Guarded,
    }

    impl Given {
        fn of(inputs: &Inputs) -> Given {
            Given {
                groups: Guarded::new(&inputs.groups),
                types: Guarded::new(&inputs.types),
                script: Guarded::new(&inputs.script),
            }
        }

        fn unchanged(&self, inputs: &Inputs) {
            same(self.groups.take("groups"), &inputs.groups, "groups are only read");
            same(self.types.take("types"), &inputs.types, "types are only read");
            same(self.script.take("script"), &inputs.script, "the script is only read");
        }
    }

    fn same(found: &[u8], expected: &[u8], what: &str) {
        if found != expected {
            let at = found.iter().zip(expected).position(|(a, b)| a != b);
            panic!("{what}: the engine's bytes differ, first at {at:?}");
        }
    }

    fn answers(found: u64, expected: u64, what: &str) {
        let words = |answer: u64| format!("{}:{}", answer >> 32, answer as u32);
        assert_eq!(
            words(found),
            words(expected),
            "{what}: engine left, second implementation right"
        );
    }

    pub fn groups_check(groups: &[u8], expected: &Answer<()>) {
        let mut given = Guarded::new(groups);
        answers(engine::groups_check(given.lend()), packed_nothing(expected), "groups check");
        same(given.take("groups"), groups, "groups are only read");
    }

    pub fn types_check(groups: &[u8], types: &[u8], expected: &Answer<()>) {
        let (mut one, mut two) = (Guarded::new(groups), Guarded::new(types));
        answers(
            engine::types_check(one.lend(), two.lend()),
            packed_nothing(expected),
            "types check",
        );
        same(one.take("groups"), groups, "groups are only read");
        same(two.take("types"), types, "types are only read");
    }

    pub fn compare(groups: &[u8], types: &[u8], i: u64, j: u64, expected: &Answer<Comparison>) {
        let (mut one, mut two) = (Guarded::new(groups), Guarded::new(types));
        let found = engine::compare(one.lend(), two.lend(), i, j);
        answers(found, packed_comparison(expected), "comparison");
        same(one.take("groups"), groups, "groups are only read");
        same(two.take("types"), types, "types are only read");
    }

    pub fn in_force(studio: &Studio, index: u64, expected: &Answer<u16>) {
        let given = [&studio.groups, &studio.types, &studio.scripts, &studio.amendments];
        let mut lent = given.map(|bytes| Guarded::new(bytes));
        let [groups, types, scripts, amendments] = &mut lent;
        let found =
            engine::in_force(groups.lend(), types.lend(), scripts.lend(), amendments.lend(), index);
        answers(found, packed_script(expected), "the script in force");
        for (after, before) in lent.iter().zip(given) {
            same(after.take("a list or a table"), before, "lists and tables are only read");
        }
    }

    pub fn subterm(script: &[u8], index: u64, expected: &[u8]) {
        let mut given = Guarded::new(script);
        // One copy that holds the part and more, one that is too short for it.
        for length in [expected.len() + 9, expected.len() / 2] {
            let before = filled(length);
            let mut copy = Guarded::new(&before);
            let found = engine::subterm(given.lend(), index, copy.lend());
            answers(found, expected.len() as u64, "subterm");
            let kept = length.min(expected.len());
            let after = [&expected[..kept], &before[kept..]].concat();
            same(copy.take("copy"), &after, "subterm");
        }
        same(given.take("script"), script, "the script is only read");
    }

    pub fn strip_script(before: &[u8], expected: &[u8]) {
        let mut given = Guarded::new(before);
        engine::strip_script(given.lend());
        same(given.take("script"), expected, "strip script");
    }

    pub fn strip_types(before: &[u8], expected: &[u8]) {
        let mut given = Guarded::new(before);
        engine::strip_types(given.lend());
        same(given.take("types"), expected, "strip types");
    }

    pub fn write_callers(types: &[u8], before: &[u8], expected: u64, after: &[u8]) {
        let (mut own, mut script) = (Guarded::new(types), Guarded::new(before));
        let found = engine::write_callers(own.lend(), script.lend());
        answers(found, expected, "write callers: records written");
        same(script.take("script"), after, "write callers");
        same(own.take("types"), types, "types are only read");
    }

    pub fn rewrite_types(
        groups: &[u8],
        types: &[u8],
        lent: &[u8],
        expected: &Answer<u32>,
        after: &[u8],
    ) {
        let (mut one, mut two) = (Guarded::new(groups), Guarded::new(types));
        let mut rewritten = Guarded::new(lent);
        let found = engine::rewrite_types(one.lend(), two.lend(), rewritten.lend());
        answers(found, packed_count(expected), "rewrite types");
        same(rewritten.take("rewritten"), after, "rewrite types");
        same(one.take("groups"), groups, "groups are only read");
        same(two.take("types"), types, "types are only read");
    }

    pub fn rewrite_script(old: &Inputs, lent: &[u8], expected: &Answer<u32>, after: &[u8]) {
        let mut given = Given::of(old);
        let mut rewritten = Guarded::new(lent);
        let found = engine::rewrite_script(
            given.groups.lend(),
            given.types.lend(),
            given.script.lend(),
            rewritten.lend(),
        );
        answers(found, packed_count(expected), "rewrite script");
        same(rewritten.take("rewritten"), after, "rewrite script");
        given.unchanged(old);
    }

    pub fn import(old: &Inputs, lent: &[u8], expected: &Answer<u32>, after: &[u8]) {
        let mut given = Given::of(old);
        let mut script = Guarded::new(lent);
        let found = engine::import(
            given.groups.lend(),
            given.types.lend(),
            given.script.lend(),
            script.lend(),
        );
        answers(found, packed_count(expected), "import");
        same(script.take("script"), after, "import");
        given.unchanged(old);
    }

    pub fn export(inputs: &Inputs, lent: &[u8], expected: &Answer<u32>, after: &[u8]) {
        let mut given = Given::of(inputs);
        let mut old = Guarded::new(lent);
        let found = engine::export(
            given.groups.lend(),
            given.types.lend(),
            given.script.lend(),
            old.lend(),
        );
        answers(found, packed_count(expected), "export");
        same(old.take("old"), after, "export");
        given.unchanged(inputs);
    }

    pub fn write_office_callers(types: &[u8], before: &[u8], expected: u64, after: &[u8]) {
        let (mut own, mut old) = (Guarded::new(types), Guarded::new(before));
        let found = engine::write_office_callers(own.lend(), old.lend());
        answers(found, expected, "write office callers: records written");
        same(old.take("old"), after, "write office callers");
        same(own.take("types"), types, "types are only read");
    }

    type Check = fn(&[u8], &[u8], &[u8], &mut [u8], &mut [u8]) -> u64;

    pub fn check(inputs: &Inputs, lent: [&[u8]; 2], expected: &Answer<u32>, after: [&[u8]; 2]) {
        checked(engine::check, "check", inputs, lent, expected, after);
    }

    pub fn check_profile(
        inputs: &Inputs,
        lent: [&[u8]; 2],
        expected: &Answer<u32>,
        after: [&[u8]; 2],
    ) {
        checked(engine::check_profile, "profile check", inputs, lent, expected, after);
    }

    fn checked(
        check: Check,
        name: &str,
        inputs: &Inputs,
        lent: [&[u8]; 2],
        expected: &Answer<u32>,
        after: [&[u8]; 2],
    ) {
        let mut given = Given::of(inputs);
        let [mut work, mut answer] = lent.map(Guarded::new);
        let found = check(
            given.groups.lend(),
            given.types.lend(),
            given.script.lend(),
            work.lend(),
            answer.lend(),
        );
        answers(found, packed_count(expected), name);
        same(work.take("work"), after[0], &format!("{name}: work buffer"));
        same(answer.take("answer"), after[1], &format!("{name}: answer buffer"));
        given.unchanged(inputs);
    }

    pub fn run(
        inputs: &Inputs,
        budget: u64,
        lent: [&[u8]; 2],
        expected: &Answer<RunReport>,
        after: [&[u8]; 2],
    ) {
        // Room for the step count and more, for just it, for a part of it, for nothing.
        let length = [11, 8, 5, 0][(inputs.script.len() / SCRIPT_BYTES + budget as usize % 4) % 4];
        let mut given = Given::of(inputs);
        let [mut first, mut scratch] = lent.map(Guarded::new);
        let before = filled(length);
        let mut steps = Guarded::new(&before);
        let found = engine::run(
            given.groups.lend(),
            given.types.lend(),
            given.script.lend(),
            budget,
            first.lend(),
            scratch.lend(),
            steps.lend(),
        );
        answers(found, packed_run(expected), "run");
        let mut count = before;
        if let Ok(report) = expected {
            let kept = length.min(8);
            count[..kept].copy_from_slice(&report.steps.to_le_bytes()[..kept]);
        }
        same(steps.take("steps"), &count, "run: steps made");
        same(first.take("first"), after[0], "run: first buffer");
        same(scratch.take("scratch"), after[1], "run: scratch");
        given.unchanged(inputs);
    }

    pub fn packet(
        tables: [&[u8]; 2],
        request: &Request,
        desk: &Desk,
        expected: &Answer<PacketReport>,
        after: &Desk,
    ) {
        // Room for the step count and more, for just it, for a part of it, for nothing.
        let length = [11, 8, 5, 0][(request.script.len() / SCRIPT_BYTES + desk.sheet.len()) % 4];
        let before = filled(length);
        let operands = [&request.script[..], &request.entry[..]];
        let [mut groups, mut types] = tables.map(Guarded::new);
        let [mut script, mut entry] = operands.map(Guarded::new);
        let buffers = |desk: &Desk| {
            [desk.work.clone(), desk.first.clone(), desk.scratch.clone(), desk.sheet.clone()]
        };
        let mut lent = buffers(desk).map(|bytes| Guarded::new(&bytes));
        let mut steps = Guarded::new(&before);
        let [work, first, scratch, sheet] = &mut lent;
        let found = engine::packet(
            [groups.lend(), types.lend()],
            [script.lend(), entry.lend()],
            request,
            Lent {
                work: work.lend(),
                first: first.lend(),
                scratch: scratch.lend(),
                sheet: sheet.lend(),
            },
            steps.lend(),
        );
        answers(found, packed_packet(expected), "packet");
        let mut count = before;
        if let Ok(report) = expected {
            let kept = length.min(8);
            count[..kept].copy_from_slice(&report.steps.to_le_bytes()[..kept]);
        }
        same(steps.take("steps"), &count, "packet: steps made");
        let names = ["work buffer", "first buffer", "scratch", "sheet"];
        for ((lent, after), name) in lent.iter().zip(buffers(after)).zip(names) {
            same(lent.take(name), &after, &format!("packet: {name}"));
        }
        let given = [
            (&groups, tables[0]),
            (&types, tables[1]),
            (&script, operands[0]),
            (&entry, operands[1]),
        ];
        for (lent, before) in given {
            same(lent.take("what is given"), before, "what is given is only read");
        }
    }

    pub fn step(inputs: &Inputs, lent: &[u8], expected: &Answer<StepReport>, after: &[u8]) {
        let mut given = Given::of(inputs);
        let mut written = Guarded::new(lent);
        let found = engine::step(
            given.groups.lend(),
            given.types.lend(),
            given.script.lend(),
            written.lend(),
        );
        answers(found, packed_step(expected), "step");
        same(written.take("written"), after, "step: written buffer");
        given.unchanged(inputs);
    }

    pub fn preview(inputs: &Inputs, length: u64, expected: &Answer<Preview>) {
        let mut given = Given::of(inputs);
        let found =
            engine::preview(given.groups.lend(), given.types.lend(), given.script.lend(), length);
        answers(found, packed_preview(expected), "preview");
        given.unchanged(inputs);
    }

    pub fn move_on(
        inputs: &Inputs,
        preview: Preview,
        lent: &[u8],
        expected: &Answer<MoveReport>,
        after: &[u8],
    ) {
        // Room for the number of steps and more, for just it, for a part of it, for nothing.
        let length = [11, 8, 5, 0][(inputs.script.len() / SCRIPT_BYTES + lent.len()) % 4];
        let mut before = filled(length);
        let known = length.min(8);
        before[..known].copy_from_slice(&preview.steps.to_le_bytes()[..known]);
        let mut given = Given::of(inputs);
        let mut written = Guarded::new(lent);
        let mut steps = Guarded::new(&before);
        let found = engine::move_on(
            given.groups.lend(),
            given.types.lend(),
            given.script.lend(),
            preview,
            written.lend(),
            steps.lend(),
        );
        answers(found, packed_move(expected), "move");
        same(written.take("written"), after, "move: written buffer");
        // The missing bytes of the number are 0, so it is the largest only where all are there.
        let mut count = [0; 8];
        count[..known].copy_from_slice(&before[..known]);
        let so_far = u64::from_le_bytes(count);
        if let Ok(moved) = expected {
            let now = if moved.step.end == End::Moved { so_far.saturating_add(1) } else { so_far };
            assert!(known < 8 || now == moved.steps, "move: {so_far} steps become {now}");
            before[..known].copy_from_slice(&now.to_le_bytes()[..known]);
        }
        same(steps.take("steps"), &before, "move: number of steps");
        given.unchanged(inputs);
    }

    pub fn sheet(inputs: &Inputs, group: u64, lent: &[u8], expected: &Answer<u32>, after: &[u8]) {
        let mut given = Given::of(inputs);
        let mut sheet = Guarded::new(lent);
        let found = engine::sheet(
            given.groups.lend(),
            given.types.lend(),
            given.script.lend(),
            group,
            sheet.lend(),
        );
        answers(found, packed_count(expected), "sheet");
        same(sheet.take("sheet"), after, "sheet");
        given.unchanged(inputs);
    }
}
