//! The example folders: what the report prints in each, whole, and the loan desk's packets.

use std::fs;
use std::path::{Path, PathBuf};
use wigneld_tests::limits::{
    REPORT_RUN_BYTES, REPORT_SHEET_BYTES, SCRIPT_BYTES, SHEET_BYTES, WORK_BYTES,
};
use wigneld_tests::office::{import, write_office_callers};
use wigneld_tests::packet::{packet, Lent, Request};
use wigneld_tests::report::report;
use wigneld_tests::steps::End;

fn path(name: &str, file: &str) -> PathBuf {
    Path::new(env!("CARGO_MANIFEST_DIR")).join("../examples").join(name).join(file)
}

fn read(name: &str, file: &str) -> Vec<u8> {
    fs::read(path(name, file)).unwrap_or_else(|e| panic!("{name}/{file}: {e}"))
}

/// What is printed in a folder with this script.
fn printed(name: &str, script: &[u8]) -> String {
    let words = fs::read(path(name, "words")).ok();
    let printed = report(words.as_deref(), &read(name, "groups"), &read(name, "types"), script);
    String::from_utf8(printed).expect("plain text")
}

fn expected(name: &str) -> String {
    String::from_utf8(read(name, "expected")).expect("plain text")
}

fn prints_expected(name: &str) {
    assert_eq!(printed(name, &read(name, "script")), expected(name));
}

/// Where byte `at` of a script record stands.
fn byte(record: usize, at: usize) -> usize {
    record * SCRIPT_BYTES + at
}

/// What is printed in a folder whose script has this byte in place of that.
fn with_byte(name: &str, at: usize, from: u8, to: u8) -> String {
    let mut script = read(name, "script");
    assert_eq!(script[at], from);
    script[at] = to;
    printed(name, &script)
}

#[test]
fn bench_record() {
    prints_expected("bench-record");
}

#[test]
fn page_lines() {
    let name = "page-lines";
    prints_expected(name);
    // The two cases, records 6 and 13, find their types. Each with the type of the other line is refused.
    let script = read(name, "script");
    let with = |case: usize, result: u8| {
        let mut script = script.clone();
        assert_eq!(script[byte(case, 0)..byte(case + 1, 0)], [9, 0, 0, 0, 255, 255, 0, 0]);
        script[byte(case, 4)..byte(case, 6)].copy_from_slice(&[result, 0]);
        printed(name, &script)
    };
    let (state, remark) = (0, 3);
    assert_eq!(with(6, remark), "refused 22 at 3\n");
    assert_eq!(with(13, state), "refused 22 at 13\n");
    // With its own it prints the same.
    assert_eq!((with(6, state), with(13, remark)), (expected(name), expected(name)));
}

#[test]
fn loan_sheet() {
    prints_expected("loan-sheet");
}

#[test]
fn loan_leak() {
    prints_expected("loan-leak");
}

#[test]
fn drying_panel() {
    let name = "drying-panel";
    prints_expected(name);
    // Its rule, record 6, calls itself as the registrar. The bench could too, the lender's office not.
    let (mut script, caller) = (read(name, "script"), byte(6, 1));
    assert_eq!(script[caller - 1..=caller], [11, 3]);
    script[caller] = 1;
    assert_eq!(printed(name, &script), expected(name));
    script[caller] = 2;
    assert_eq!(printed(name, &script), "refused 21 at 6\n");
}

#[test]
fn drying_days() {
    let name = "drying-days";
    prints_expected(name);
    let with = |at: usize, from: u8, to: u8| with_byte(name, at, from, to);
    // Record 9 compares the days, as the bench. The registrar could too; the lender's office and anyone are refused.
    let (kind, reader) = (byte(9, 0), byte(9, 1));
    assert_eq!(read(name, "script")[kind], 14);
    assert_eq!(with(reader, 1, 3), expected(name));
    for who in [0, 2] {
        assert_eq!(with(reader, 1, who), "refused 21 at 9\n");
    }
    // Record 29, the last, is the days. The rule waits for the next day's answer, so with more than 59 the term gets too deep.
    let days = byte(29, 4);
    assert_eq!(with(days, 21, 59).lines().nth(1), Some("end 0 steps 779 records 5"));
    assert_eq!(with(days, 21, 60), "accepted 7\nend 4 steps 483 records 508\n");
}

#[test]
fn gallery_screen() {
    let name = "gallery-screen";
    prints_expected(name);
    // Record 12 is the days that the sheet has hung: with 90 it is taken down.
    for (days, side) in [(89, "first 0 0"), (90, "second 0 0")] {
        let printed = with_byte(name, byte(12, 4), 21, days);
        assert_eq!(printed.lines().nth(3), Some(side));
        assert_eq!(printed.lines().last(), Some(format!("number 0 0 {}", days + 1).as_str()));
    }
}

#[test]
fn old_panel() {
    let name = "old-panel";
    prints_expected(name);
    let (groups, types, office) = (read(name, "groups"), read(name, "types"), read(name, "office"));
    // Nobody wrote whom the rule, record 6, calls itself as: by its type it is the bench.
    let mut called = office.clone();
    assert_eq!(write_office_callers(&types, &mut called), 1);
    let mut script = vec![0; office.len()];
    let length = read(name, "script").len();
    assert_eq!(import(&groups, &types, &called, &mut script), Ok((length / SCRIPT_BYTES) as u32));
    assert_eq!(script[..length], read(name, "script"));
    // Without that it is anyone, who may not call it.
    assert_eq!(import(&groups, &types, &office, &mut script), Ok((length / SCRIPT_BYTES) as u32));
    assert_eq!(printed(name, &script[..length]), "refused 21 at 6\n");
}

/// The lines of a packet for this group that `packet.c` prints, but for a refusal's words.
fn packet_lines(name: &str, group: u64, budget: u64, entry: &str) -> Result<String, u32> {
    let (script, entry) = (read(name, "script"), read(name, entry));
    let request = Request { script, entry, group, budget, profile: 0 };
    let (mut work, mut sheet) = (vec![0; WORK_BYTES], vec![0; REPORT_SHEET_BYTES]);
    let (mut first, mut scratch) = (vec![0; REPORT_RUN_BYTES], vec![0; REPORT_RUN_BYTES]);
    let lent =
        Lent { work: &mut work, first: &mut first, scratch: &mut scratch, sheet: &mut sheet };
    let issued = packet(&read(name, "groups"), &read(name, "types"), &request, lent)
        .map_err(|refusal| refusal.question)?;
    if issued.end != End::Value {
        assert_eq!(issued.end, End::Moved);
        return Ok(format!(
            "end 1, the budget is spent, after {} steps\nno packet; the last term has {} records\n",
            issued.steps, issued.records
        ));
    }
    let mut lines =
        format!("end 0, a value, after {} steps\nthe packet for group {group}:\n", issued.steps);
    for record in sheet.chunks(SHEET_BYTES).take(issued.records as usize) {
        let groups = format!(" ({},{})", record[1], record[2]);
        lines += &match record[0] {
            0 => format!("  unit{groups}\n"),
            1 => format!("  first{groups}\n"),
            2 => format!("  second{groups}\n"),
            3 => format!("  pair{groups}\n"),
            5 => "  closed\n".to_owned(),
            6 => format!("  number {}{groups}\n", u16::from_le_bytes([record[4], record[5]])),
            kind => panic!("no page here has kind {kind}"),
        };
    }
    Ok(lines)
}

#[test]
fn loan_desk() {
    let name = "loan-desk";
    prints_expected(name);
    let stored = |file: &str| String::from_utf8(read(name, file)).expect("plain text");
    let lines = |group, budget, entry: &str| packet_lines(name, group, budget, entry);
    assert_eq!(lines(2, 1000, "entry"), Ok(stored("packet")));
    assert_eq!(lines(2, 10, "entry"), Ok(stored("packet-spent")));
    assert_eq!(lines(2, 1000, "bench-entry"), Err(38));
    assert!(stored("packet-refused").starts_with("refused 38 at 0: "));
    // The registrar's packet has the bench's remark too; the bench and anyone may not have one made, and there is no group 4.
    let registrars = lines(3, 1000, "entry").expect("a packet");
    assert!(registrars.ends_with("  second (1,1)\n  unit (1,1)\n"));
    assert_eq!([0, 1, 4].map(|group| lines(group, 1000, "entry")), [Err(21), Err(21), Err(25)]);
}

#[test]
fn own_words() {
    prints_expected("own-words");
}

#[test]
fn whose_hands() {
    let name = "whose-hands";
    prints_expected(name);
    let with = |at: usize, from: u8, to: u8| with_byte(name, at, from, to);
    // Record 11 takes the bench's statement out of the entry, as the registrar. The bench could too; the lender's statement is refused, and
    // the bench's out of the hands of the lender or of anyone.
    let (kind, reader) = (byte(11, 0), byte(11, 1));
    assert_eq!(with(kind, 7, 8), "refused 22 at 3\n");
    assert_eq!(with(reader, 3, 1), expected(name));
    for who in [0, 2] {
        assert_eq!(with(reader, 3, who), "refused 22 at 3\n");
    }
    // Record 16 is the bench's statement.
    assert_eq!(with(byte(16, 7), 1, 3), "refused 36 at 16\n");
}
