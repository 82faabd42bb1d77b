//! `include/wigneld.h`, `include/wigneld_office.h` and `include/wigneld_desk.h`: every constant is the engine's, by its Rattle
//! sources, and the second implementation's; every prototype is that of an exported function, and none is missing. The stack's
//! numbers are held by `c/stack.c`, the readers of answers by `c/client.c`, `c/office.c`, which holds the comparison's numbers
//! too, and `c/desk.c`, which holds the profiles'.

use std::collections::BTreeMap;
use std::fs;
use std::path::{Path, PathBuf};
use wigneld_tests::limits::*;
use wigneld_tests::script::OPERANDS;
use wigneld_tests::steps::End;
use wigneld_tests::words::OURS;

fn root() -> PathBuf {
    Path::new(env!("CARGO_MANIFEST_DIR")).join("..")
}

fn header(archive: &str) -> String {
    let path = root().join(format!("include/{archive}.h"));
    fs::read_to_string(&path).unwrap_or_else(|e| panic!("{path:?}: {e}"))
}

/// A product of numbers and names, with brackets around it or not.
fn product(text: &str, named: &dyn Fn(&str) -> usize) -> usize {
    let text = text.trim();
    let inside = text.strip_prefix('(').and_then(|rest| rest.strip_suffix(')')).unwrap_or(text);
    inside
        .split('*')
        .map(|part| part.trim().parse().unwrap_or_else(|_| named(part.trim())))
        .product()
}

/// A header's constants by name, without their prefix.
fn constants_of(archive: &str) -> BTreeMap<String, usize> {
    let mut found = BTreeMap::new();
    for line in header(archive).lines() {
        let Some((name, value)) =
            line.strip_prefix("#define WIGNELD_").and_then(|rest| rest.split_once(' '))
        else {
            continue;
        };
        let value = value.split("/*").next().expect("a first part");
        let named = |name: &str| found[name.strip_prefix("WIGNELD_").expect("its own name")];
        let value = product(value, &named);
        assert_eq!(found.insert(name.to_owned(), value), None, "{name} stands twice");
    }
    found
}

fn constants() -> BTreeMap<String, usize> {
    constants_of("wigneld")
}

/// The constants of the engine's crates, and their enums' variants with no fields, as `Kind::Pair`, by the numbers that `as` gives them:
/// crate, name, value as written.
fn engine_constants() -> Vec<(String, String, String)> {
    let mut found = Vec::new();
    for folder in fs::read_dir(root().join("crates")).expect("crates") {
        let folder = folder.expect("a folder");
        let name = folder.file_name().into_string().expect("plain name");
        for file in ["lib.rt", "main.rt"] {
            let text = fs::read_to_string(folder.path().join("src").join(file)).unwrap_or_default();
            for line in text.lines() {
                let line = line.strip_prefix("pub ").unwrap_or(line);
                let Some((constant, value)) =
                    line.strip_prefix("const ").and_then(|rest| rest.split_once(" = "))
                else {
                    continue;
                };
                let constant = constant.split(':').next().expect("a first part").to_owned();
                found.push((name.clone(), constant, value.trim_end_matches(';').to_owned()));
            }
            for (variant, number) in variants(&text) {
                found.push((name.clone(), variant, number.to_string()));
            }
        }
    }
    found
}

/// The variants of the enums in a source whose variants have no fields, with their numbers: one more than the one before, if none is written.
fn variants(text: &str) -> Vec<(String, usize)> {
    let mut found = Vec::new();
    let mut lines = text.lines();
    while let Some(line) = lines.next() {
        let line = line.strip_prefix("pub ").unwrap_or(line);
        let Some(of) = line.strip_prefix("enum ").and_then(|rest| rest.strip_suffix(" {")) else {
            continue;
        };
        let body = lines.by_ref().take_while(|&line| line != "}").map(str::trim);
        let body: Vec<&str> = body.filter(|line| !line.starts_with("//")).collect();
        if body.iter().any(|line| line.contains(['(', '{'])) {
            continue;
        }
        let mut next = 0;
        for line in body {
            let (name, number) = match line.trim_end_matches(',').split_once(" = ") {
                Some((name, number)) => (name, number.parse().expect("a number")),
                None => (line.trim_end_matches(','), next),
            };
            found.push((format!("{of}::{name}"), number));
            next = number + 1;
        }
    }
    found
}

/// The engine's constant `crate::NAME`. A name in its value is the crate's own, or that of the only crate that has it.
fn engine(all: &[(String, String, String)], path: &str) -> usize {
    let (owner, name) = path.split_once("::").expect("crate::NAME");
    let (_, _, value) = all
        .iter()
        .find(|(at, constant, _)| at == owner && constant == name)
        .unwrap_or_else(|| panic!("the engine has no {path}"));
    product(value, &|other| {
        let others: Vec<_> = all.iter().filter(|(_, constant, _)| constant == other).collect();
        let own = others.iter().find(|(at, ..)| at == owner);
        let (at, ..) = own.unwrap_or_else(|| {
            assert_eq!(others.len(), 1, "{other} of {path} stands in several crates");
            &others[0]
        });
        engine(all, &format!("{at}::{other}"))
    })
}

/// An engine's constant as the tables below have it: `crate::NAME`, or nothing where the engine has no name for it.
fn engine_if_named(all: &[(String, String, String)], path: &str) -> Option<usize> {
    (!path.is_empty()).then(|| engine(all, path))
}

/// Header, second implementation, engine.
const LIMITS: [(&str, usize, &str); 20] = [
    ("ROW_BYTES", ROW_BYTES, "lattice::ROW_WIDTH"),
    ("TYPE_RECORD_BYTES", TYPE_BYTES, "types::TYPE_WIDTH"),
    ("SCRIPT_RECORD_BYTES", SCRIPT_BYTES, "records::SCRIPT_WIDTH"),
    ("SHEET_RECORD_BYTES", SHEET_BYTES, "sheet::SHEET_WIDTH"),
    ("MOST_GROUPS", MOST_GROUPS, "lattice::GROUP_LIMIT"),
    ("MOST_TABLE_RECORDS", MOST_TABLE_RECORDS, "types_table::TABLE_LIMIT"),
    ("MOST_TYPE_RECORDS", MOST_TYPE_RECORDS, "types::TYPE_LIMIT"),
    ("MOST_SCRIPT_RECORDS", MOST_SCRIPT_RECORDS, "script::SCRIPT_LIMIT"),
    ("MOST_DEPTH", MOST_DEPTH, "scope::DEPTH_LIMIT"),
    ("ANSWER_BYTES", ANSWER_BYTES, "inference::SLOT"),
    ("WORK_BYTES", WORK_BYTES, "typing::WORK_LENGTH"),
    ("RUN_BYTES", REPORT_RUN_BYTES, "report::RUN_LENGTH"),
    ("SCRIPT_LONGEST_BYTES", REPORT_RUN_BYTES, "report::RUN_LENGTH"),
    ("SHEET_BYTES", REPORT_SHEET_BYTES, "report::SHEET_LENGTH"),
    ("STEPS_BYTES", u64::BITS as usize / 8, ""),
    ("GROUPS_LONGEST_BYTES", MOST_GROUPS * ROW_BYTES, ""),
    ("TYPES_LONGEST_BYTES", MOST_TABLE_RECORDS * TYPE_BYTES, ""),
    ("LAST_QUESTION", LAST_QUESTION, "answer::Question::AmendedType"),
    ("OWN_TYPE", OWN_TYPE as usize, "records::OWN_TYPE"),
    ("MOST_NUMBER", u16::MAX as usize, ""),
];

/// Kinds in order from 0: header, engine.
const TYPES: (&str, &[(&str, &str)]) = (
    "TYPE_",
    &[
        ("UNIT", "types::Kind::Unit"),
        ("SUM", "types::Kind::Sum"),
        ("PAIR", "types::Kind::Pair"),
        ("FUNCTION", "types::Kind::Function"),
        ("NUMBER", "types::Kind::Number"),
    ],
);
const KINDS: (&str, &[(&str, &str)]) = (
    "KIND_",
    &[
        ("VARIABLE", "records::Kind::Variable"),
        ("UNIT", "records::Kind::Unit"),
        ("FUNCTION", "records::Kind::Function"),
        ("PAIR", "records::Kind::Pair"),
        ("FIRST_INJECTION", "records::Kind::FirstInjection"),
        ("SECOND_INJECTION", "records::Kind::SecondInjection"),
        ("APPLICATION", "records::Kind::Application"),
        ("FIRST_PROJECTION", "records::Kind::FirstProjection"),
        ("SECOND_PROJECTION", "records::Kind::SecondProjection"),
        ("CASE", "records::Kind::Case"),
        ("PROTECT", "records::Kind::Protect"),
        ("RECURSION", "records::Kind::Recursion"),
        ("LITERAL", "records::Kind::Literal"),
        ("SUM", "records::Kind::Sum"),
        ("LESS", "records::Kind::Less"),
    ],
);
const SHEETS: (&str, &[(&str, &str)]) = (
    "SHEET_",
    &[
        ("UNIT", "sheet::Shown::Unit"),
        ("FIRST", "sheet::Shown::First"),
        ("SECOND", "sheet::Shown::Second"),
        ("PAIR", "sheet::Shown::Pair"),
        ("FUNCTION", "sheet::Shown::Function"),
        ("CLOSED", "sheet::Shown::Closed"),
        ("NUMBER", "sheet::Shown::Number"),
    ],
);

/// Where a record has its fields, by the manual: header, value, engine.
const FIELDS: [(&str, usize, &str); 10] = [
    ("AT_KIND", 0, ""),
    ("AT_READERS", 1, "types::R"),
    ("AT_INDIRECT", 2, "types::IR"),
    ("AT_ZERO", 3, "types::ZERO"),
    ("AT_NUMBER", 4, ""),
    ("TYPE_AT_CREATORS", 4, "types::C"),
    ("TYPE_AT_INDIRECT_CREATORS", 5, "types::IC"),
    ("SCRIPT_AT_CREATORS", 6, ""),
    ("SCRIPT_AT_INDIRECT_CREATORS", 7, ""),
    ("SHEET_AT_NUMBER", 4, ""),
];

/// What the manual alone gives: header, value.
const TEXT: [(&str, usize); 14] = [
    ("END_VALUE", End::Value as usize),
    ("END_SPENT", End::Moved as usize),
    ("END_MOVED", End::Moved as usize),
    ("END_MAY_NOT", End::MayNot as usize),
    ("END_WRONG_KIND", End::WrongKind as usize),
    ("END_TOO_BIG", End::TooBig as usize),
    ("PLACE_NOTHING", 0),
    ("PLACE_ROW", 1),
    ("PLACE_TYPE_RECORD", 2),
    ("PLACE_SCRIPT_RECORD", 3),
    ("PLACE_EITHER_RECORD", 4),
    ("PLACE_WORD", 5),
    ("PLACE_LISTED_SCRIPT", 6),
    ("PLACE_ENTRY", 7),
];

/// Held elsewhere, or by nothing but what their comments say.
const OTHERS: [&str; 8] = [
    "VERSION",
    "FORMAT",
    "CHECK_STACK_BYTES",
    "RUN_STACK_BYTES",
    "SHEET_STACK_BYTES",
    "PREVIEW_STACK_BYTES",
    "MOVE_STACK_BYTES",
    "END_REFUSED",
];

/// The office's: header, second implementation, engine; and those that are held elsewhere.
const LISTS: [(&str, usize, &str); 8] = [
    ("LISTED_BYTES", LISTED_BYTES, "amendments::LISTED_WIDTH"),
    ("ENTRY_BYTES", ENTRY_BYTES, "amendments::ENTRY_WIDTH"),
    ("ENTRY_AT_REPLACED", 2, "amendments::REPLACED"),
    ("MOST_LISTED_SCRIPTS", MOST_LISTED_SCRIPTS, "amendments::LISTED_LIMIT"),
    ("NO_SCRIPT", NO_SCRIPT as usize, "amendments::NO_SCRIPT"),
    ("SCRIPTS_LONGEST_BYTES", MOST_LISTED_SCRIPTS * LISTED_BYTES, ""),
    ("AMENDMENTS_LONGEST_BYTES", MOST_LISTED_SCRIPTS * ENTRY_BYTES, ""),
    ("IN_FORCE_REFUSED", NO_SCRIPT as usize + 1, ""),
];
const OLD_WIDTHS: [(&str, usize, &str); 2] = [
    ("OLD_TYPE_RECORD_BYTES", OLD_TYPE_BYTES, "rewriting::OLD_TYPE_WIDTH"),
    ("OLD_SCRIPT_RECORD_BYTES", OLD_SCRIPT_BYTES, "rewriting::OLD_SCRIPT_WIDTH"),
];
const OFFICE: [(&str, usize, &str); 5] = [
    ("OFFICE_RECORD_BYTES", OFFICE_BYTES, "rewriting::OFFICE_WIDTH"),
    ("OFFICE_AT_FIRST_NAME", 6, ""),
    ("OFFICE_AT_SECOND_NAME", 8, ""),
    ("MOST_OFFICE_RECORDS", MOST_OFFICE_RECORDS, "rewriting::OFFICE_LIMIT"),
    ("OFFICE_LONGEST_BYTES", MOST_OFFICE_RECORDS * OFFICE_BYTES, ""),
];
const OFFICE_OTHERS: [&str; 13] = [
    "COMPARE_STACK_BYTES",
    "IN_FORCE_STACK_BYTES",
    "WRITE_CALLERS_STACK_BYTES",
    "REWRITE_SCRIPT_STACK_BYTES",
    "REWRITE_TYPES_STACK_BYTES",
    "CHECK_PROFILE_STACK_BYTES",
    "IMPORT_STACK_BYTES",
    "EXPORT_STACK_BYTES",
    "WRITE_OFFICE_CALLERS_STACK_BYTES",
    "COMPARE_NEITHER",
    "COMPARE_BELOW",
    "COMPARE_SAME",
    "COMPARE_REFUSED",
];

/// The desk's, which are held elsewhere.
const DESK_OTHERS: [&str; 3] = ["PACKET_STACK_BYTES", "PROFILE_NONE", "PROFILE_FINISHES"];

/// The widths of a row and of type, script and sheet records in each record format, from 1 on. In the second a recursion has a group
/// in byte 1, in the third types and scripts have creators, in the fourth sheets tell numbers.
const FORMATS: [[usize; 4]; 4] = [[4, 4, 6, 4], [4, 4, 6, 4], [4, 6, 8, 4], [4, 6, 8, 6]];

/// A header has these constants, with these values, `others` and no more.
fn holds_all(archive: &str, constants: &[(String, usize, &str)], others: &[&str]) {
    let header = constants_of(archive);
    let engine_has = engine_constants();
    let mut held: Vec<String> = others.iter().map(|&name| name.to_owned()).collect();
    for (name, value, path) in constants {
        let found =
            *header.get(name).unwrap_or_else(|| panic!("{archive}.h has no WIGNELD_{name}"));
        assert_eq!(found, *value, "WIGNELD_{name}");
        if let Some(engines) = engine_if_named(&engine_has, path) {
            assert_eq!(found, engines, "WIGNELD_{name} and {path}");
        }
        held.push(name.clone());
    }
    held.sort();
    let all: Vec<String> = header.into_keys().collect();
    assert_eq!(all, held, "constants of {archive}.h, and those that are held here");
}

fn owned<'a>(table: &[(&str, usize, &'a str)]) -> Vec<(String, usize, &'a str)> {
    table.iter().map(|&(name, value, path)| (name.to_owned(), value, path)).collect()
}

#[test]
fn every_constant_is_the_engines() {
    let mut all = owned(&LIMITS);
    all.extend(owned(&FIELDS));
    all.extend(TEXT.map(|(name, value)| (name.to_owned(), value, "")));
    for (prefix, kinds) in [TYPES, KINDS, SHEETS] {
        for (number, &(name, path)) in kinds.iter().enumerate() {
            all.push((format!("{prefix}{name}"), number, path));
        }
    }
    holds_all("wigneld", &all, &OTHERS);
    let offices = [owned(&LISTS), owned(&OLD_WIDTHS), owned(&OFFICE)].concat();
    holds_all("wigneld_office", &offices, &OFFICE_OTHERS);
    holds_all("wigneld_desk", &[], &DESK_OTHERS);
}

#[test]
fn as_many_kinds_as_the_manual_has() {
    assert_eq!(KINDS.1.len(), OPERANDS.len());
    let words: Vec<String> = SHEETS.1.iter().map(|(name, _)| name.to_lowercase()).collect();
    assert_eq!(words, OURS);
}

/// The report program reads one byte more than the longest.
#[test]
fn longest_lengths_are_the_report_programs() {
    let all = engine_constants();
    for name in ["GROUPS", "TYPES", "SCRIPT"] {
        let (_, _, value) = all
            .iter()
            .find(|(at, constant, _)| at == "report" && *constant == format!("{name}_LENGTH"))
            .expect("the report program's length");
        let longest = value.strip_suffix(" + 1").expect("one byte more");
        let named = |other: &str| {
            let (at, ..) = all.iter().find(|(_, constant, _)| constant == other).expect("a limit");
            engine(&all, &format!("{at}::{other}"))
        };
        assert_eq!(constants()[&format!("{name}_LONGEST_BYTES")], product(longest, &named));
    }
}

/// Another width is another format.
#[test]
fn format_says_the_widths() {
    let header = constants();
    let widths = ["ROW_BYTES", "TYPE_RECORD_BYTES", "SCRIPT_RECORD_BYTES", "SHEET_RECORD_BYTES"];
    assert_eq!(header["FORMAT"], FORMATS.len());
    assert_eq!(widths.map(|name| header[name]), FORMATS[header["FORMAT"] - 1]);
    // Both older forms have the widths that the rewriting calls read.
    for [_, types, script, _] in [FORMATS[0], FORMATS[1]] {
        assert_eq!([types, script], OLD_WIDTHS.map(|(_, width, _)| width));
    }
}

/// No run ends as a refusal reads.
#[test]
fn no_end_is_a_refusal() {
    let header = constants();
    let refused = header["END_REFUSED"];
    let ends = header.iter().filter(|(name, &end)| name.starts_with("END_") && end == refused);
    assert_eq!(ends.count(), 1);
}

/// A text's words, one space between them and none beside a bracket, a comma or a star.
fn tidy(text: &str) -> String {
    let spaced = text.split_whitespace().collect::<Vec<_>>().join(" ");
    ["( ", " )", " ,", ", ", "* ", " *"]
        .iter()
        .fold(spaced, |text, pair| text.replace(pair, pair.trim()))
        .replace(",)", ")")
}

/// The prototypes in the header, by name.
fn prototypes(archive: &str) -> BTreeMap<String, String> {
    let text = header(archive);
    let starts = text.match_indices("\nuint64_t wigneld_");
    starts
        .map(|(at, _)| {
            let prototype = tidy(&text[at..at + text[at..].find(';').expect("its end")]);
            let name = prototype["uint64_t ".len()..].split('(').next().expect("a name").to_owned();
            (name, prototype)
        })
        .collect()
}

/// The exported functions of an archive, as C declares them: a slice is a pointer and a length.
fn exports(archive: &str) -> BTreeMap<String, String> {
    let path = root().join(format!("crates/{archive}/src/lib.rt"));
    let text = fs::read_to_string(&path).unwrap_or_else(|e| panic!("{path:?}: {e}"));
    let starts = text.match_indices("#[unsafe(no_mangle)]\npub extern \"C\" fn ");
    starts
        .map(|(at, start)| {
            let rest = &text[at + start.len()..];
            let (name, rest) = rest.split_once('(').expect("parameters");
            let (parameters, rest) = rest.split_once(')').expect("their end");
            assert!(rest.starts_with(" -> u64"), "{name} answers one number");
            let declared: Vec<String> = parameters
                .split(',')
                .filter(|parameter| !parameter.trim().is_empty())
                .map(|parameter| {
                    let (name, of) = parameter.trim().split_once(": ").expect("name: type");
                    match of {
                        "&[u8]" => format!("const uint8_t*{name},size_t {name}_length"),
                        "&mut [u8]" => format!("uint8_t*{name},size_t {name}_length"),
                        "u64" => format!("uint64_t {name}"),
                        _ => panic!("{name}: {of} has no form in C"),
                    }
                })
                .collect();
            (name.to_owned(), format!("uint64_t {name}({})", declared.join(",")))
        })
        .collect()
}

#[test]
fn every_prototype_is_an_exported_functions() {
    for archive in ["wigneld", "wigneld_office", "wigneld_desk"] {
        assert!(!prototypes(archive).is_empty());
        assert_eq!(prototypes(archive), exports(archive));
    }
}
