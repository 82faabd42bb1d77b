//! Which script is in force (manual, 7.7): questions 40, 25, 40, 41 and 42 of both lists with their places and order,
//! and the look-up.

mod common;

use common::*;
use wigneld_tests::cases::{self};
use wigneld_tests::generate::*;
use wigneld_tests::limits::*;
use wigneld_tests::refusal::Answer;
use wigneld_tests::types::{compare, read_tables, Comparison, Tables};

/// Units whose readers are group 0, group 1, and group 1 as indirect readers too: each is below the next.
const UNITS: [u8; 18] = [0, 0, 0, 0, 0, 0, 0, 1, 0, 0, 0, 0, 0, 1, 1, 0, 0, 0];

fn studio(scripts: &[u16], amendments: &[[u16; 2]]) -> Studio {
    Studio {
        groups: words(&[3, 2]),
        types: UNITS.to_vec(),
        scripts: write_numbers(scripts),
        amendments: write_numbers(&amendments.concat()),
    }
}

/// Six scripts: three of type 1, then one of each type.
const SIX: [u16; 6] = [1, 1, 1, 0, 1, 2];

const NONE: u16 = NO_SCRIPT;

/// The check of both lists alone.
fn asked(studio: &Studio) -> Answer<()> {
    in_force(studio, NONE.into()).map(|script| assert_eq!(script, NONE))
}

fn six(amendments: &[[u16; 2]]) -> Answer<()> {
    asked(&studio(&SIX, amendments))
}

#[test]
fn empty_lists_pass() {
    for index in [0, 1, 65_534, 65_535, 65_536, 1 << 32, u64::MAX] {
        assert_eq!(in_force(&studio(&[], &[]), index), Ok(NONE));
        assert_eq!(in_force(&studio(&SIX, &[]), index), Ok(NONE));
    }
}

#[test]
fn replacements_are_followed_to_the_end() {
    // 4 is replaced by 1, and that by 0; 2 is listed and stays
    let chain = studio(&SIX, &[[4, NONE], [1, 4], [2, NONE], [0, 1]]);
    for (index, script) in [(4, 0), (1, 0), (0, 0), (2, 2), (3, NONE), (5, NONE), (6, NONE)] {
        assert_eq!(in_force(&chain, index), Ok(script), "from {index}");
    }
    // a number of more than 16 bits is none of them
    for index in [65_534, 65_535, 65_536 + 4, (1 << 32) + 4, u64::MAX - 65_531] {
        assert_eq!(in_force(&chain, index), Ok(NONE), "from {index}");
    }
}

#[test]
fn question_40_of_lengths() {
    let whole = studio(&SIX, &[[0, NONE]]);
    assert_eq!(asked(&whole), Ok(()));
    let mut odd = whole.clone();
    odd.scripts.push(0);
    assert_eq!(asked(&odd), no(40, 0));
    for more in 1..4 {
        let mut cut = whole.clone();
        cut.amendments.extend(vec![0; more]);
        assert_eq!(asked(&cut), no(40, 0));
    }
    // before 25 and before an entry's 40
    odd.scripts[2] = 9;
    assert_eq!(asked(&odd), no(40, 0));
    let mut cut = studio(&[9], &[[9, 9]]);
    cut.amendments.push(0);
    assert_eq!(asked(&cut), no(40, 0));
}

#[test]
fn question_40_of_a_list_of_65_535_scripts_and_one_more() {
    let mut longest = studio(&[0; MOST_LISTED_SCRIPTS], &[[65_534, NONE], [0, 65_534]]);
    assert_eq!(in_force(&longest, 65_534), Ok(0));
    longest.scripts.extend([9, 9]);
    assert_eq!(asked(&longest), no(40, 0));
    longest.amendments.clear();
    assert_eq!(asked(&longest), no(40, 0));
}

#[test]
fn question_25_at_the_script() {
    let groups = words(&[3, 2]);
    let both = studio(&[2, 3, 2, 7], &[[9, 9]]);
    assert_eq!(asked(&both), no(25, 1));
    assert_eq!(asked(&studio(&[2, 2, 258], &[])), no(25, 2));
    assert_eq!(asked(&studio(&[0xFFFF], &[])), no(25, 0));
    // the last script of the longest list
    let mut scripts = vec![0; MOST_LISTED_SCRIPTS];
    scripts[65_534] = 3;
    assert_eq!(asked(&studio(&scripts, &[[65_535, 0]])), no(25, 65_534));
    // 2 to 12 come first
    let lists = write_numbers(&[9]);
    let refused = |groups: &[u8], types: &[u8]| {
        let (groups, types) = (groups.to_vec(), types.to_vec());
        asked(&Studio { groups, types, scripts: lists.clone(), amendments: vec![0] })
    };
    assert_eq!(refused(&[], &[]), no(2, 0));
    assert_eq!(refused(&groups, &[]), no(8, 0));
    assert_eq!(refused(&groups, &[1, 0, 0, 0, 0, 0]), no(11, 0));
    assert_eq!(refused(&groups, &UNITS), no(40, 0));
}

#[test]
fn question_40_of_entries() {
    // the first past the list
    assert_eq!(six(&[[0, NONE], [6, NONE]]), no(40, 1));
    assert_eq!(six(&[[NONE, NONE]]), no(40, 0));
    // or listed before
    assert_eq!(six(&[[2, NONE], [0, NONE], [2, NONE]]), no(40, 2));
    assert_eq!(six(&[[2, NONE], [0, 2], [2, 0]]), no(40, 2));
    // the replaced one past the list, which 65,535 is not taken for
    assert_eq!(six(&[[0, NONE], [1, 6]]), no(40, 1));
    assert_eq!(six(&[[0, NONE], [1, 65_534]]), no(40, 1));
    // or not yet listed: nowhere, later, or itself
    assert_eq!(six(&[[1, 0]]), no(40, 0));
    assert_eq!(six(&[[1, 0], [0, NONE]]), no(40, 0));
    assert_eq!(six(&[[1, NONE], [0, 0]]), no(40, 1));
    // named by an entry, but only as the one replaced
    assert_eq!(six(&[[0, NONE], [1, 0], [2, 4]]), no(40, 2));
}

#[test]
fn questions_41_and_42() {
    assert_eq!(six(&[[0, NONE], [1, 0], [2, 0]]), no(41, 2));
    assert_eq!(six(&[[0, NONE], [1, 0], [2, 1], [4, 0]]), no(41, 3));
    // several entries may replace none
    assert_eq!(six(&[[0, NONE], [1, NONE], [2, NONE]]), Ok(()));
    // the same type, and one below
    assert_eq!(six(&[[0, NONE], [1, 0]]), Ok(()));
    assert_eq!(six(&[[5, NONE], [0, 5], [3, 0]]), Ok(()));
    // one above
    assert_eq!(six(&[[3, NONE], [0, 3]]), no(42, 1));
    assert_eq!(six(&[[5, NONE], [3, 5], [0, 3]]), no(42, 2));
}

#[test]
fn the_lower_entry_and_then_the_lower_question() {
    // 42 of entry 1 before 40 of entry 2
    assert_eq!(six(&[[3, NONE], [5, 3], [3, NONE]]), no(42, 1));
    // 40 before 41: listed before, and replaces one that is replaced
    assert_eq!(six(&[[0, NONE], [1, 0], [1, 0]]), no(40, 2));
    // 41 before 42: replaces one that is replaced, by a type above
    assert_eq!(six(&[[3, NONE], [4, NONE], [2, 4], [5, 4]]), no(41, 3));
    // the place is the entry's, not the script's
    assert_eq!(six(&[[4, NONE], [2, NONE], [0, 4], [1, 4]]), no(41, 3));
}

/// As many entries as a list has scripts: one chain.
#[test]
fn the_longest_lists() {
    let scripts = vec![1; MOST_LISTED_SCRIPTS];
    let mut chain: Vec<[u16; 2]> = vec![[0, NONE]];
    chain.extend((1..NO_SCRIPT).map(|first| [first, first - 1]));
    let mut studio = studio(&scripts, &chain);
    for index in [0, 1, 40_000, 65_534] {
        assert_eq!(in_force(&studio, index), Ok(65_534));
    }
    assert_eq!(asked(&studio), Ok(()));
    // One entry more can't pass: its first is listed before or past the list.
    let passed = studio.amendments.len();
    for first in [0, 65_534, NONE] {
        studio.amendments.truncate(passed);
        studio.amendments.extend(write_numbers(&[first, NONE]));
        studio.amendments.extend(vec![0; 4 * 70_000]);
        assert_eq!(asked(&studio), no(40, 65_535));
    }
}

/// Lists far longer than any that passes.
#[test]
fn lists_of_any_length() {
    let mut rng = Rng::new(DEFAULT_SEED);
    for length in [0, 1, 2, 131_070, 131_071, 131_072, 1 << 20] {
        for entries in [0, 3, 4, 400_000, 1 << 21] {
            for small in [false, true] {
                let mut fill = |length| {
                    let bytes = rng.bytes(length);
                    if small {
                        vec![0; length]
                    } else {
                        bytes
                    }
                };
                let (scripts, amendments) = (fill(length), fill(entries));
                let case_a = cases::a();
                let (groups, types) = (case_a.groups, case_a.types);
                let _ = in_force(&Studio { groups, types, scripts, amendments }, 0);
            }
        }
    }
}

// ---------------------------------------------------------------------------------------------
// Drawn lists

fn drawn_studio(rng: &mut Rng, most: usize) -> (World, Lists) {
    let world = World::random(rng);
    let lists = random_lists(rng, &world.tables, most);
    (world, lists)
}

fn studio_of(world: &World, lists: &Lists) -> Studio {
    let (groups, types) = (world.groups.clone(), world.types.clone());
    let (scripts, amendments) = lists.write();
    Studio { groups, types, scripts, amendments }
}

/// An index of a script of the lists, or any other.
fn any_index(rng: &mut Rng, lists: &Lists) -> u64 {
    match rng.below(6) {
        0 => lists.scripts.len() as u64,
        1 => *rng.pick(&[65_535, 65_536, 1 << 32, u64::MAX]),
        _ => rng.below(lists.scripts.len().max(1)) as u64,
    }
}

/// One step: the entry that replaces a script, by a search through all of them.
fn replacement(lists: &Lists, script: u16) -> Option<u16> {
    let mut all = lists.amendments.iter().filter(|[_, old]| *old == script);
    let found = all.next().map(|[first, _]| *first);
    assert_eq!(all.next(), None, "a script is replaced once");
    found
}

/// Of lists that pass, from every script: following its replacements ends, with what the look-up gives, of its type or
/// one below. A script that isn't listed has none.
fn holds_of(studio: &Studio, lists: &Lists, tables: &Tables) {
    for index in 0..=lists.scripts.len() as u16 {
        let found = in_force(studio, index.into()).expect("the lists pass");
        if !lists.amendments.iter().any(|[first, _]| *first == index) {
            assert_eq!(found, NONE);
            continue;
        }
        let mut script = index;
        let mut steps = 0;
        while let Some(newer) = replacement(lists, script) {
            script = newer;
            steps += 1;
            assert!(steps < lists.amendments.len(), "following ends");
        }
        assert_eq!(found, script);
        let type_of = |index: u16| tables.types.at(lists.scripts[usize::from(index)].into());
        let related = compare(tables.security(), &type_of(found), &type_of(index));
        assert_ne!(related, Comparison::Neither, "the same as or below the first's");
    }
}

#[test]
fn drawn_lists_pass_and_are_followed() {
    let mut longest = 0;
    let enough = examples(300, |rng| {
        let (world, lists) = drawn_studio(rng, 24);
        longest = longest.max(lists.amendments.len());
        holds_of(&studio_of(&world, &lists), &lists, &world.tables);
    });
    assert!(longest > 12 || !enough, "lists worth following were drawn");
}

#[test]
fn drawn_near_misses_answer_alike() {
    let mut seen = std::collections::BTreeSet::new();
    let enough = examples(4000, |rng| {
        let (world, mut lists) = drawn_studio(rng, 12);
        for _ in 0..rng.between(1, 3) {
            lists = near_miss_lists(rng, &world.tables, &lists);
        }
        let studio = studio_of(&world, &lists);
        let index = any_index(rng, &lists);
        match in_force(&studio, index) {
            Ok(_) => holds_of(&studio, &lists, &world.tables),
            Err(refusal) => {
                seen.insert(refusal.question);
                refused_there(&world, &lists, refusal.question, refusal.place);
            }
        }
    });
    assert!(!enough || seen == [25, 40, 41, 42].into(), "every question was answered no: {seen:?}");
}

/// A refusal by an entry is its own: without it and those after it the lists pass, and with it they are refused alike.
fn refused_there(world: &World, lists: &Lists, question: u32, place: u32) {
    let mut before = lists.clone();
    if question == 25 {
        assert!(!world.tables.types.has(lists.scripts[place as usize].into()));
        before.scripts.truncate(place as usize);
        before.amendments.clear();
    } else {
        before.amendments.truncate(place as usize + 1);
        assert_eq!(asked(&studio_of(world, &before)), no(question, place));
        before.amendments.truncate(place as usize);
    }
    assert_eq!(asked(&studio_of(world, &before)), Ok(()));
}

#[test]
fn drawn_damaged_lists_answer_alike() {
    examples(3000, |rng| {
        let (world, lists) = drawn_studio(rng, 12);
        let mut studio = studio_of(&world, &lists);
        match rng.below(4) {
            0 => studio.groups = damaged(rng, &studio.groups),
            1 => studio.types = damaged(rng, &studio.types),
            2 => studio.scripts = damaged(rng, &studio.scripts),
            _ => studio.amendments = damaged(rng, &studio.amendments),
        }
        let index = any_index(rng, &lists);
        let answer = in_force(&studio, index);
        if read_tables(&studio.groups, &studio.types).is_err() {
            assert!(answer.is_err_and(|refusal| refusal.question < 13 || refusal.question == 36));
        }
    });
}

#[test]
fn drawn_bytes_as_lists() {
    examples(2000, |rng| {
        let world = World::random(rng);
        let (groups, types) = (world.groups.clone(), world.types.clone());
        let (scripts, amendments) = (2 * rng.below(6), 4 * rng.below(6));
        let mut small = |length: usize| -> Vec<u8> {
            (0..length).map(|at| if at % 2 == 0 { rng.below(5) as u8 } else { 0 }).collect()
        };
        let (scripts, amendments) = (small(scripts), small(amendments));
        for index in 0..6 {
            let (groups, types) = (groups.clone(), types.clone());
            let (scripts, amendments) = (scripts.clone(), amendments.clone());
            let _ = in_force(&Studio { groups, types, scripts, amendments }, index);
        }
    });
}
