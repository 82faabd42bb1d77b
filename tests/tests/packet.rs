//! The loan desk's packet (manual, 7.8). Its questions with their places and order, its ends, what its five buffers
//! hold afterwards, and that it is what building the application by hand gives.

mod common;

use common::records::*;
use common::*;
use wigneld_tests::calls::{PacketReport, Request};
use wigneld_tests::cases::{self, made, record, type_record, Inputs};
use wigneld_tests::generate::*;
use wigneld_tests::limits::*;
use wigneld_tests::refusal::Answer;
use wigneld_tests::steps::End;

/// Lengths that are long enough for all here.
const LONG: [usize; 4] =
    [WORK_BYTES + 3, REPORT_RUN_BYTES, REPORT_RUN_BYTES + 1, REPORT_SHEET_BYTES + 2];

fn long() -> Desk {
    Desk::of(LONG[0], LONG[1], LONG[2], LONG[3])
}

/// For a desk of group 0, without a profile.
fn request(script: &[Record], entry: &[Record]) -> Request {
    let (script, entry) = (script.concat(), entry.concat());
    Request { script, entry, group: 0, budget: 1000, profile: 0 }
}

/// A function of a unit (0,0) that gives it back; its own groups are (r, r).
fn back(r: u8) -> [Record; 2] {
    [record(2, r, r, 4), variable(0)]
}

/// The same, with itself as a unit's recursion: a function that calls itself for ever.
const ENDLESS: [Record; 5] =
    [[11, 0, 0, 0, 3, 0, 0, 0], [2, 0, 0, 0, 4, 0, 0, 0], APPLY, [0, 0, 0, 0, 1, 0, 0, 0], bare(0)];

/// A unit that is applied, which 20 finds.
const UNTYPED: [Record; 3] = [APPLY, UNIT, UNIT];

fn packet_in(request: &Request, desk: &Desk) -> (Answer<PacketReport>, Desk) {
    let Inputs { groups, types, .. } = cases::b();
    packet_with(&groups, &types, request, desk)
}

/// Asserts a refusal, and that it leaves the buffers as they were, but for the work buffer's zeros from typing on.
fn refuses(request: &Request, question: u32, place: u32, typing_begun: bool) {
    let before = long();
    let (result, after) = packet_in(request, &before);
    assert_eq!(result, no(question, place));
    let work = if typing_begun { vec![0; LONG[0]] } else { before.work.clone() };
    assert!(after == Desk { work, ..before }, "{question} at {place}: the buffers");
}

fn reports(end: End, steps: u64, records: u32) -> Answer<PacketReport> {
    Ok(PacketReport { end, steps, records })
}

#[test]
fn a_packet_is_the_sheet_of_the_application() {
    let (result, after) = packet_in(&request(&back(0), &[UNIT]), &long());
    assert_eq!(result, reports(End::Value, 2, 1));
    assert_eq!(after.sheet[..6], [0; 6]);
    assert_eq!(after.sheet[6..], filled(LONG[3])[6..], "later bytes keep their content");
    assert_eq!(after.first[..8], UNIT);
    assert!(after.first[8..].iter().all(|&byte| byte == 0), "then zeros");
    assert_eq!((after.work, after.scratch), (vec![0; LONG[0]], vec![0; LONG[2]]));
    // applied as the desk's group, which the result then tells, and shown to it
    let (result, after) = packet_in(&Request { group: 1, ..request(&back(1), &[UNIT]) }, &long());
    assert_eq!(result, reports(End::Value, 2, 1));
    assert_eq!(after.sheet[..6], [0, 1, 1, 0, 0, 0]);
}

#[test]
fn other_ends_write_no_sheet() {
    let once = request(&back(0), &[UNIT]);
    let spent = [(0, 0, 4), (1, 1, 2)];
    for (budget, steps, records) in spent {
        let (result, after) =
            packet_in(&Request { budget, ..once.clone() }, &Desk::of(LONG[0], 32, 33, 0));
        assert_eq!(result, reports(End::Moved, steps, records));
        assert!(after.first[records as usize * 8..].iter().all(|&byte| byte == 0));
        let (_, after) = packet_in(&Request { budget, ..once.clone() }, &long());
        assert_eq!(after.sheet, filled(LONG[3]));
    }
    // Case H: 96 bytes are too few for the first step of case G, 104 are enough.
    let endless = request(&ENDLESS, &[UNIT]);
    let (result, after) = packet_in(&endless, &Desk::of(LONG[0], 96, 200, 600));
    assert_eq!(result, reports(End::TooBig, 0, 7));
    assert_eq!((&after.first[..56], after.sheet), (&cases::g().script[..], filled(600)));
    let (result, _) =
        packet_in(&Request { budget: 1, ..endless }, &Desk::of(LONG[0], 104, 104, 600));
    assert_eq!(result, reports(End::Moved, 1, 13));
}

#[test]
fn question_1_is_of_the_work_buffer_alone() {
    let good = request(&back(0), &[UNIT]);
    let short = Desk::of(WORK_BYTES - 1, 64, 64, 60);
    let (result, after) = packet_in(&good, &short);
    assert_eq!((result, after), (no(1, 0), short.clone()));
    assert_eq!(packet_with(&[], &[], &good, &short), (no(1, 0), short));
    let just = Desk::of(WORK_BYTES, 64, 64, 60);
    assert_eq!(packet_in(&good, &just).0, reports(End::Value, 2, 1));
    for (groups, types, question) in
        [(vec![], cases::case_types(), 2), (cases::two_groups(), vec![], 8)]
    {
        assert_eq!(
            packet_with(&groups, &types, &request(&[], &[]), &just),
            (no(question, 0), just.clone())
        );
    }
}

#[test]
fn the_script_is_asked_before_the_entry() {
    let creators = made(UNIT, 0, 1);
    // before typing
    refuses(&request(&[], &[]), 13, 0, false);
    refuses(&request(&[bare(99)], &[]), 14, 0, false);
    refuses(&request(&[PAIR, UNIT, creators], &[]), 36, 2, false);
    refuses(&request(&[variable(0)], &[]), 19, 0, false);
    // typing, and then the entry's own
    refuses(&request(&UNTYPED, &[]), 20, 0, true);
    refuses(&request(&[PAIR, UNTYPED[0], UNIT, UNIT, UNIT], &[]), 20, 1, true);
    for (entry, question, place) in [
        (&[][..], 13, 0),
        (&[PAIR, bare(99), UNIT], 14, 1),
        (&[record(1, 0, 1, 0)], 15, 0),
        (&[PAIR, UNIT, creators], 36, 2),
        (&[function(6), UNIT], 16, 0),
        (&[PAIR, UNIT], 17, 2),
        (&[UNIT, UNIT], 17, 1),
        (&[variable(0)], 19, 0),
        (&[PAIR, UNTYPED[0], UNIT, UNIT, UNIT], 20, 1),
        (&[PROTECT, UNIT], 26, 0),
        (&[PAIR, PROTECT, UNIT, UNIT], 26, 0),
    ] {
        refuses(&request(&back(0), entry), question, place, true);
        // a script whose later questions would be refused too
        refuses(&request(&[UNIT], entry), question, place, true);
    }
}

#[test]
fn question_39_of_both_under_the_profile() {
    let recursion = [recursion(3), function(4), variable(1)];
    let hidden = [&[APPLY, UNIT][..], &recursion].concat();
    for profile in [1, 2, 256, 1 << 32, u64::MAX] {
        let asked =
            |script: &[Record], entry: &[Record]| Request { profile, ..request(script, entry) };
        refuses(&asked(&ENDLESS, &[]), 39, 0, false);
        refuses(&asked(&hidden, &[]), 39, 2, false);
        refuses(&asked(&[PAIR, variable(0), recursion[0], recursion[1], UNIT], &[]), 19, 1, false);
        refuses(&asked(&back(0), &hidden), 39, 2, true);
        refuses(&asked(&UNTYPED, &hidden), 20, 0, true);
        let (result, _) = packet_in(&asked(&back(0), &[UNIT]), &long());
        assert_eq!(result, reports(End::Value, 2, 1));
    }
    // no profile
    refuses(&request(&back(0), &hidden), 20, 0, true);
    let (result, _) = packet_in(&Request { budget: 9, ..request(&ENDLESS, &[UNIT]) }, &long());
    assert_eq!(result.map(|report| report.steps), Ok(9));
}

#[test]
fn questions_25_37_21_and_38() {
    let pair = [PAIR, UNIT, UNIT];
    let as_group =
        |group, script: &[Record], entry: &[Record]| Request { group, ..request(script, entry) };
    for group in [2, 32, 256, 257, 1 << 32, u64::MAX] {
        refuses(&as_group(group, &back(0), &[UNIT]), 25, 0, true);
        // after 26, before 37
        refuses(&as_group(group, &back(0), &[PROTECT, UNIT]), 26, 0, true);
        refuses(&as_group(group, &[UNIT], &pair), 25, 0, true);
    }
    // 37, before 21 and 38
    refuses(&request(&[UNIT], &pair), 37, 0, true);
    refuses(&request(&[record(1, 1, 1, 0)], &[UNIT]), 37, 0, true);
    refuses(&request(&pair, &[UNIT]), 37, 0, true);
    // 21, before 38
    refuses(&request(&back(1), &[UNIT]), 21, 0, true);
    refuses(&request(&back(1), &pair), 21, 0, true);
    // 38
    refuses(&request(&back(0), &pair), 38, 0, true);
    refuses(&as_group(1, &back(1), &[record(1, 1, 1, 0)]), 38, 0, true);
    refuses(&request(&back(0), &[record(1, 1, 0, 0)]), 38, 0, true);
    // c and ic the other way round: made by group 0 is above, by group 1 below
    let created = |c, ic| [made(UNIT, c, ic)];
    assert_eq!(packet_in(&request(&back(0), &created(0, 0)), &long()).0, reports(End::Value, 2, 1));
    assert_eq!(packet_in(&request(&back(0), &created(1, 1)), &long()).0, reports(End::Value, 2, 1));
}

#[test]
fn question_38_is_of_the_left_side() {
    // functions from a unit (1,1) to a unit (0,0), and the other way round
    let types = [
        type_record(3, 0, 0),
        type_record(0, 1, 1),
        type_record(0, 0, 0),
        type_record(3, 0, 0),
        type_record(0, 0, 0),
        type_record(0, 1, 1),
    ]
    .concat();
    let high = record(1, 1, 1, 0);
    let groups = cases::two_groups();
    let down = request(&[function(1), UNIT], &[high]);
    assert_eq!(packet_with(&groups, &types, &down, &long()).0, reports(End::Value, 2, 1));
    let up = request(&[function(4), high], &[high]);
    assert_eq!(packet_with(&groups, &types, &up, &long()).0, no(38, 0));
}

#[test]
fn questions_13_and_18_of_the_application() {
    let good = request(&back(0), &[UNIT]);
    for (first, scratch, question) in
        [(31, 32, Some(13)), (32, 31, Some(13)), (32, 32, None), (0, 0, Some(13))]
    {
        let before = Desk::of(LONG[0], first, scratch, 6);
        let (result, after) = packet_in(&good, &before);
        match question {
            Some(question) => {
                assert_eq!(result, no(question, 0));
                assert_eq!(after, Desk { work: vec![0; LONG[0]], ..before });
            }
            None => assert_eq!(result, reports(End::Value, 2, 1)),
        }
    }
    // after 38
    let before = Desk::of(LONG[0], 0, 0, 6);
    assert_eq!(packet_in(&request(&back(0), &[record(1, 1, 1, 0)]), &before).0, no(38, 0));
    // 18: one deeper than the deeper of the two
    let wrapped = |n: usize| [&vec![PROTECT; n][..], &back(0)].concat();
    let deep = |n| Request { budget: 0, ..request(&wrapped(n), &[UNIT]) };
    refuses(&deep(255), 18, 256, false);
    refuses(&deep(254), 18, 0, true);
    assert_eq!(packet_in(&deep(253), &long()).0, reports(End::Moved, 0, 257));
    // 13 comes first
    assert_eq!(packet_in(&deep(254), &before).0, no(13, 0));
}

#[test]
fn question_13_of_8_192_records() {
    // the second of a pair whose first part is long
    let dropped = |n: usize| {
        let long = wide(n).write();
        let script = [&[PROJECT_SECOND, PAIR].concat()[..], &long, &back(0).concat()].concat();
        Request { script, budget: 0, ..request(&[], &[UNIT]) }
    };
    for (n, answer) in [(8187, no(13, 0)), (8186, reports(End::Moved, 0, 8192))] {
        let request = dropped(n);
        let longer = Desk::of(LONG[0], 70_000, 70_000, 6);
        let (result, _) = with_large_stack(move || packet_in(&request, &longer));
        assert_eq!(result, answer);
    }
}

#[test]
fn question_27_keeps_what_the_run_left() {
    let good = request(&back(0), &[UNIT]);
    for room in 0..6 {
        let before = Desk::of(LONG[0], 40, 48, room);
        let (result, after) = packet_in(&good, &before);
        assert_eq!(result, no(27, 0));
        let first = [&UNIT[..], &[0; 32]].concat();
        let ran = Desk { work: vec![0; LONG[0]], first, scratch: vec![0; 48], sheet: filled(room) };
        assert_eq!(after, ran);
    }
    // not asked where the run ends otherwise
    let spent = Request { budget: 1, ..good };
    assert_eq!(packet_in(&spent, &Desk::of(LONG[0], 40, 48, 0)).0, reports(End::Moved, 1, 2));
}

// ---------------------------------------------------------------------------------------------
// Drawn

/// The record of an application as this group, then the script and the entry.
fn by_hand(request: &Request) -> Vec<u8> {
    let own = [6, request.group as u8, 0, 0, 0, 0, 0, 0];
    [&own[..], &request.script, &request.entry].concat()
}

/// Buffers of drawn lengths: mostly long enough, or about as long as the application and its sheet need.
fn drawn_desk(rng: &mut Rng, request: &Request) -> Desk {
    let own = by_hand(request).len();
    let work = if rng.one_in(12) { WORK_BYTES - 1 } else { WORK_BYTES + rng.below(3) };
    let mut room = || {
        if rng.one_in(6) {
            (own + rng.below(20)).saturating_sub(10)
        } else {
            own + rng.below(900)
        }
    };
    let (first, scratch) = (room(), room());
    let sheet = if rng.one_in(4) { rng.below(40) } else { rng.between(40, 900) };
    let mut bytes = |length| rng.bytes(length);
    Desk { work: bytes(work), first: bytes(first), scratch: bytes(scratch), sheet: bytes(sheet) }
}

#[test]
fn drawn_packets_are_what_building_by_hand_gives() {
    let mut ends = [0; 5];
    let mut refused = [0; LAST_QUESTION + 1];
    let enough = examples(3000, |rng| {
        let world = World::random(rng);
        let request = random_request(rng, &world);
        let before = drawn_desk(rng, &request);
        let (result, after) = packet_with(&world.groups, &world.types, &request, &before);
        let inputs = Inputs {
            groups: world.groups.clone(),
            types: world.types.clone(),
            script: by_hand(&request),
        };
        let run =
            || run_with(&inputs, request.budget, before.first.clone(), before.scratch.clone());
        match result {
            Ok(report) => {
                check_with(&inputs, vec![0; WORK_BYTES], vec![0; ANSWER_BYTES])
                    .0
                    .expect("accepted");
                let (ran, first, scratch) = run();
                let ran = ran.expect("not refused");
                assert_eq!((report.end, report.steps), (ran.end, ran.steps));
                assert!(!matches!(report.end, End::MayNot | End::WrongKind), "never ends 2 or 3");
                let last = first[..ran.records as usize * SCRIPT_BYTES].to_vec();
                let (records, sheet) = if ran.end == End::Value {
                    let value = Inputs { script: last, ..inputs };
                    let (page, sheet) = sheet_with(&value, request.group, before.sheet.clone());
                    (page.expect("the sheet fits"), sheet)
                } else {
                    (ran.records, before.sheet.clone())
                };
                assert_eq!(report.records, records);
                assert!(after == Desk { work: vec![0; before.work.len()], first, scratch, sheet });
                ends[report.end as usize] += 1;
            }
            Err(refusal) => {
                let (_, first, scratch) = run();
                let left = if refusal.question == 27 {
                    (first, scratch)
                } else {
                    (before.first.clone(), before.scratch.clone())
                };
                assert_eq!(
                    (after.first, after.scratch, after.sheet),
                    (left.0, left.1, before.sheet)
                );
                let cleared = after.work.iter().all(|&byte| byte == 0);
                assert!(
                    cleared || after.work == before.work,
                    "the work buffer is zeros or unchanged"
                );
                refused[refusal.question as usize] += 1;
            }
        }
    });
    let drawn = |questions: &[usize]| questions.iter().all(|&question| refused[question] > 0);
    assert!(!enough || [0, 1, 4].iter().all(|&end| ends[end] > 0), "the ends drawn: {ends:?}");
    assert!(
        !enough || drawn(&[1, 13, 21, 25, 26, 27, 37, 38, 39]),
        "the questions drawn: {refused:?}"
    );
}

#[test]
fn drawn_damaged_requests_answer_alike() {
    examples(2000, |rng| {
        let world = World::random(rng);
        let mut request = random_request(rng, &world);
        let mut tables = [world.groups.clone(), world.types.clone()];
        match rng.below(4) {
            0 => request.script = damaged(rng, &request.script),
            1 => request.entry = damaged(rng, &request.entry),
            which => tables[which - 2] = damaged(rng, &tables[which - 2]),
        }
        let desk = drawn_desk(rng, &request);
        let _ = packet_with(&tables[0], &tables[1], &request, &desk);
    });
}
