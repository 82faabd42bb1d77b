//! The engine's own functions, from libwigneld.a, libwigneld_office.a, libwigneld_desk.a and libprobe.a, on slices.
//!
//! An answer is one number: refused is question * 2^32 + place; otherwise the upper half is 0 and
//! the lower half is what the call answers. A call that asks nothing answers its number as it is.

use crate::calls::{Lent, MoveReport, PacketReport, Preview, Request, RunReport, StepReport};
use crate::refusal::{Answer, Refusal};
use crate::types::Comparison;

#[rustfmt::skip] // a pointer and its length on each line, as in the C declarations
mod raw {
    extern "C" {
        pub fn wigneld_check(
            groups: *const u8, groups_length: usize,
            types: *const u8, types_length: usize,
            script: *const u8, script_length: usize,
            work: *mut u8, work_length: usize,
            answer: *mut u8, answer_length: usize,
        ) -> u64;
        pub fn wigneld_run(
            groups: *const u8, groups_length: usize,
            types: *const u8, types_length: usize,
            script: *const u8, script_length: usize,
            budget: u64,
            first: *mut u8, first_length: usize,
            scratch: *mut u8, scratch_length: usize,
            steps: *mut u8, steps_length: usize,
        ) -> u64;
        pub fn wigneld_sheet(
            groups: *const u8, groups_length: usize,
            types: *const u8, types_length: usize,
            value: *const u8, value_length: usize,
            group: u64,
            sheet: *mut u8, sheet_length: usize,
        ) -> u64;
        pub fn wigneld_preview(
            groups: *const u8, groups_length: usize,
            types: *const u8, types_length: usize,
            script: *const u8, script_length: usize,
            written_length: u64,
        ) -> u64;
        pub fn wigneld_move(
            groups: *const u8, groups_length: usize,
            types: *const u8, types_length: usize,
            script: *const u8, script_length: usize,
            end: u64, records: u64,
            written: *mut u8, written_length: usize,
            steps: *mut u8, steps_length: usize,
        ) -> u64;

        pub fn wigneld_compare(
            groups: *const u8, groups_length: usize,
            types: *const u8, types_length: usize,
            first: u64, second: u64,
        ) -> u64;
        pub fn wigneld_check_profile(
            groups: *const u8, groups_length: usize,
            types: *const u8, types_length: usize,
            script: *const u8, script_length: usize,
            work: *mut u8, work_length: usize,
            answer: *mut u8, answer_length: usize,
        ) -> u64;
        pub fn wigneld_in_force(
            groups: *const u8, groups_length: usize,
            types: *const u8, types_length: usize,
            scripts: *const u8, scripts_length: usize,
            amendments: *const u8, amendments_length: usize,
            index: u64,
        ) -> u64;
        pub fn wigneld_write_callers(
            types: *const u8, types_length: usize,
            script: *mut u8, script_length: usize,
        ) -> u64;
        pub fn wigneld_rewrite_types(
            groups: *const u8, groups_length: usize,
            types: *const u8, types_length: usize,
            rewritten: *mut u8, rewritten_length: usize,
        ) -> u64;
        pub fn wigneld_rewrite_script(
            groups: *const u8, groups_length: usize,
            types: *const u8, types_length: usize,
            script: *const u8, script_length: usize,
            rewritten: *mut u8, rewritten_length: usize,
        ) -> u64;

        pub fn wigneld_import(
            groups: *const u8, groups_length: usize,
            types: *const u8, types_length: usize,
            old: *const u8, old_length: usize,
            script: *mut u8, script_length: usize,
        ) -> u64;
        pub fn wigneld_export(
            groups: *const u8, groups_length: usize,
            types: *const u8, types_length: usize,
            script: *const u8, script_length: usize,
            old: *mut u8, old_length: usize,
        ) -> u64;
        pub fn wigneld_write_office_callers(
            types: *const u8, types_length: usize,
            old: *mut u8, old_length: usize,
        ) -> u64;

        pub fn wigneld_packet(
            groups: *const u8, groups_length: usize,
            types: *const u8, types_length: usize,
            script: *const u8, script_length: usize,
            entry: *const u8, entry_length: usize,
            group: u64, budget: u64, profile: u64,
            work: *mut u8, work_length: usize,
            first: *mut u8, first_length: usize,
            scratch: *mut u8, scratch_length: usize,
            steps: *mut u8, steps_length: usize,
            sheet: *mut u8, sheet_length: usize,
        ) -> u64;

        pub fn probe_bit(word: u32, h: u64) -> u64;
        pub fn probe_words_check(words: *const u8, words_length: usize) -> u64;
        pub fn probe_groups_check(groups: *const u8, groups_length: usize) -> u64;
        pub fn probe_types_check(
            groups: *const u8, groups_length: usize,
            types: *const u8, types_length: usize,
        ) -> u64;
        pub fn probe_step(
            groups: *const u8, groups_length: usize,
            types: *const u8, types_length: usize,
            script: *const u8, script_length: usize,
            written: *mut u8, written_length: usize,
        ) -> u64;
        pub fn probe_subterm(
            script: *const u8, script_length: usize,
            index: u64,
            copy: *mut u8, copy_length: usize,
        ) -> u64;
        pub fn probe_strip_script(script: *mut u8, script_length: usize);
        pub fn probe_strip_types(types: *mut u8, types_length: usize);
    }
}

// Every function below hands over pointers and lengths of slices that live for the call, the lent
// ones mutable and apart from all others; that is all the C side asks.

type RawCheck = unsafe extern "C" fn(
    *const u8,
    usize,
    *const u8,
    usize,
    *const u8,
    usize,
    *mut u8,
    usize,
    *mut u8,
    usize,
) -> u64;

fn checked(
    check: RawCheck,
    [groups, types, script]: [&[u8]; 3],
    [work, answer]: [&mut [u8]; 2],
) -> u64 {
    unsafe {
        check(
            groups.as_ptr(),
            groups.len(),
            types.as_ptr(),
            types.len(),
            script.as_ptr(),
            script.len(),
            work.as_mut_ptr(),
            work.len(),
            answer.as_mut_ptr(),
            answer.len(),
        )
    }
}

pub fn check(
    groups: &[u8],
    types: &[u8],
    script: &[u8],
    work: &mut [u8],
    answer: &mut [u8],
) -> u64 {
    checked(raw::wigneld_check, [groups, types, script], [work, answer])
}

pub fn check_profile(
    groups: &[u8],
    types: &[u8],
    script: &[u8],
    work: &mut [u8],
    answer: &mut [u8],
) -> u64 {
    checked(raw::wigneld_check_profile, [groups, types, script], [work, answer])
}

pub fn run(
    groups: &[u8],
    types: &[u8],
    script: &[u8],
    budget: u64,
    first: &mut [u8],
    scratch: &mut [u8],
    steps: &mut [u8],
) -> u64 {
    unsafe {
        raw::wigneld_run(
            groups.as_ptr(),
            groups.len(),
            types.as_ptr(),
            types.len(),
            script.as_ptr(),
            script.len(),
            budget,
            first.as_mut_ptr(),
            first.len(),
            scratch.as_mut_ptr(),
            scratch.len(),
            steps.as_mut_ptr(),
            steps.len(),
        )
    }
}

pub fn sheet(groups: &[u8], types: &[u8], value: &[u8], group: u64, sheet: &mut [u8]) -> u64 {
    unsafe {
        raw::wigneld_sheet(
            groups.as_ptr(),
            groups.len(),
            types.as_ptr(),
            types.len(),
            value.as_ptr(),
            value.len(),
            group,
            sheet.as_mut_ptr(),
            sheet.len(),
        )
    }
}

pub fn preview(groups: &[u8], types: &[u8], script: &[u8], written_length: u64) -> u64 {
    unsafe {
        raw::wigneld_preview(
            groups.as_ptr(),
            groups.len(),
            types.as_ptr(),
            types.len(),
            script.as_ptr(),
            script.len(),
            written_length,
        )
    }
}

/// The end and the record count are those of `given`; the number of steps so far is in `steps`.
pub fn move_on(
    groups: &[u8],
    types: &[u8],
    script: &[u8],
    given: Preview,
    written: &mut [u8],
    steps: &mut [u8],
) -> u64 {
    unsafe {
        raw::wigneld_move(
            groups.as_ptr(),
            groups.len(),
            types.as_ptr(),
            types.len(),
            script.as_ptr(),
            script.len(),
            given.end,
            given.records,
            written.as_mut_ptr(),
            written.len(),
            steps.as_mut_ptr(),
            steps.len(),
        )
    }
}

pub fn compare(groups: &[u8], types: &[u8], first: u64, second: u64) -> u64 {
    unsafe {
        raw::wigneld_compare(
            groups.as_ptr(),
            groups.len(),
            types.as_ptr(),
            types.len(),
            first,
            second,
        )
    }
}

pub fn in_force(groups: &[u8], types: &[u8], scripts: &[u8], amendments: &[u8], index: u64) -> u64 {
    unsafe {
        raw::wigneld_in_force(
            groups.as_ptr(),
            groups.len(),
            types.as_ptr(),
            types.len(),
            scripts.as_ptr(),
            scripts.len(),
            amendments.as_ptr(),
            amendments.len(),
            index,
        )
    }
}

pub fn write_callers(types: &[u8], script: &mut [u8]) -> u64 {
    unsafe {
        raw::wigneld_write_callers(types.as_ptr(), types.len(), script.as_mut_ptr(), script.len())
    }
}

pub fn rewrite_types(groups: &[u8], types: &[u8], rewritten: &mut [u8]) -> u64 {
    unsafe {
        raw::wigneld_rewrite_types(
            groups.as_ptr(),
            groups.len(),
            types.as_ptr(),
            types.len(),
            rewritten.as_mut_ptr(),
            rewritten.len(),
        )
    }
}

pub fn rewrite_script(groups: &[u8], types: &[u8], script: &[u8], rewritten: &mut [u8]) -> u64 {
    unsafe {
        raw::wigneld_rewrite_script(
            groups.as_ptr(),
            groups.len(),
            types.as_ptr(),
            types.len(),
            script.as_ptr(),
            script.len(),
            rewritten.as_mut_ptr(),
            rewritten.len(),
        )
    }
}

pub fn import(groups: &[u8], types: &[u8], old: &[u8], script: &mut [u8]) -> u64 {
    unsafe {
        raw::wigneld_import(
            groups.as_ptr(),
            groups.len(),
            types.as_ptr(),
            types.len(),
            old.as_ptr(),
            old.len(),
            script.as_mut_ptr(),
            script.len(),
        )
    }
}

pub fn export(groups: &[u8], types: &[u8], script: &[u8], old: &mut [u8]) -> u64 {
    unsafe {
        raw::wigneld_export(
            groups.as_ptr(),
            groups.len(),
            types.as_ptr(),
            types.len(),
            script.as_ptr(),
            script.len(),
            old.as_mut_ptr(),
            old.len(),
        )
    }
}

pub fn write_office_callers(types: &[u8], old: &mut [u8]) -> u64 {
    unsafe {
        raw::wigneld_write_office_callers(types.as_ptr(), types.len(), old.as_mut_ptr(), old.len())
    }
}

/// Script and entry are lent as slices of their own, as the buffers are; the request's are not looked at.
pub fn packet(
    tables: [&[u8]; 2],
    operands: [&[u8]; 2],
    request: &Request,
    lent: Lent,
    steps: &mut [u8],
) -> u64 {
    let ([groups, types], [script, entry]) = (tables, operands);
    let Lent { work, first, scratch, sheet } = lent;
    unsafe {
        raw::wigneld_packet(
            groups.as_ptr(),
            groups.len(),
            types.as_ptr(),
            types.len(),
            script.as_ptr(),
            script.len(),
            entry.as_ptr(),
            entry.len(),
            request.group,
            request.budget,
            request.profile,
            work.as_mut_ptr(),
            work.len(),
            first.as_mut_ptr(),
            first.len(),
            scratch.as_mut_ptr(),
            scratch.len(),
            steps.as_mut_ptr(),
            steps.len(),
            sheet.as_mut_ptr(),
            sheet.len(),
        )
    }
}

pub fn bit(row: u32, h: u64) -> u64 {
    unsafe { raw::probe_bit(row, h) }
}

pub fn words_check(words: &[u8]) -> u64 {
    unsafe { raw::probe_words_check(words.as_ptr(), words.len()) }
}

pub fn groups_check(groups: &[u8]) -> u64 {
    unsafe { raw::probe_groups_check(groups.as_ptr(), groups.len()) }
}

pub fn types_check(groups: &[u8], types: &[u8]) -> u64 {
    unsafe { raw::probe_types_check(groups.as_ptr(), groups.len(), types.as_ptr(), types.len()) }
}

pub fn step(groups: &[u8], types: &[u8], script: &[u8], written: &mut [u8]) -> u64 {
    unsafe {
        raw::probe_step(
            groups.as_ptr(),
            groups.len(),
            types.as_ptr(),
            types.len(),
            script.as_ptr(),
            script.len(),
            written.as_mut_ptr(),
            written.len(),
        )
    }
}

pub fn subterm(script: &[u8], index: u64, copy: &mut [u8]) -> u64 {
    unsafe {
        raw::probe_subterm(script.as_ptr(), script.len(), index, copy.as_mut_ptr(), copy.len())
    }
}

pub fn strip_script(script: &mut [u8]) {
    unsafe { raw::probe_strip_script(script.as_mut_ptr(), script.len()) }
}

pub fn strip_types(types: &mut [u8]) {
    unsafe { raw::probe_strip_types(types.as_mut_ptr(), types.len()) }
}

/// One number for an answer whose lower half is `value`.
fn packed<T>(answer: &Answer<T>, value: impl FnOnce(&T) -> u64) -> u64 {
    match answer {
        Err(Refusal { question, place }) => (*question as u64) << 32 | *place as u64,
        Ok(given) => value(given),
    }
}

/// Groups check and types check: 0.
pub fn packed_nothing(answer: &Answer<()>) -> u64 {
    packed(answer, |_| 0)
}

/// Comparison: 0 neither, 1 below, 2 same.
pub fn packed_comparison(answer: &Answer<Comparison>) -> u64 {
    packed(answer, |&comparison| comparison as u64)
}

/// The script in force: its index, or 65,535.
pub fn packed_script(answer: &Answer<u16>) -> u64 {
    packed(answer, |&script| script.into())
}

/// Check, sheet, the rewriting calls, import and export: the record count.
pub fn packed_count(answer: &Answer<u32>) -> u64 {
    packed(answer, |&count| count.into())
}

/// Step: end * 65,536 + records.
pub fn packed_step(answer: &Answer<StepReport>) -> u64 {
    packed(answer, |report| report.end as u64 * 65_536 + report.records as u64)
}

/// Preview: end * 65,536 + records; the number of steps stays with the caller.
pub fn packed_preview(answer: &Answer<Preview>) -> u64 {
    packed(answer, |shown| shown.end * 65_536 + shown.records)
}

/// Move: end * 65,536 + records; the number of steps is written apart.
pub fn packed_move(answer: &Answer<MoveReport>) -> u64 {
    packed(answer, |moved| moved.step.end as u64 * 65_536 + moved.step.records as u64)
}

/// Packet: end * 65,536 + records, the sheet's at end 0; the steps are written apart.
pub fn packed_packet(answer: &Answer<PacketReport>) -> u64 {
    packed(answer, |report| report.end as u64 * 65_536 + report.records as u64)
}

/// Run: end * 65,536 + records; the steps are written apart.
pub fn packed_run(answer: &Answer<RunReport>) -> u64 {
    packed(answer, |report| report.end as u64 * 65_536 + report.records as u64)
}
