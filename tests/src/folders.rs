//! The folders in which the report program is run, and what it prints in each.

use crate::cases::{self, Inputs};
use crate::generate::{wide, words};
use crate::limits::{
    MOST_GROUPS, MOST_SCRIPT_RECORDS, MOST_TABLE_RECORDS, ROW_BYTES, SCRIPT_BYTES, TYPE_BYTES,
    WORDS_BYTES, WORD_BYTES,
};
use crate::report::report;
use crate::words::table_of;

/// Each of the three files at its greatest length: a chain of 32 groups, 4,096 unit types, and a
/// script of 8,192 records that isn't done in 1,000 steps.
fn longest() -> Inputs {
    let rows: Vec<u32> = (0..MOST_GROUPS as u32).map(|g| u32::MAX << g).collect();
    Inputs {
        groups: words(&rows),
        types: vec![0; MOST_TABLE_RECORDS * TYPE_BYTES],
        script: wide(MOST_SCRIPT_RECORDS).write(),
    }
}

/// A name and three files. B is the program's own run. The report has its own budget and buffers, so
/// the files of E are B's and those of H are G's.
fn folders() -> Vec<(&'static str, Inputs)> {
    let b = cases::b();
    vec![
        ("A", cases::a()),
        ("C", cases::c()),
        ("D", cases::d()),
        ("E", b.clone()),
        ("F", cases::f()),
        ("G", cases::g()),
        ("H", cases::g()),
        ("I", cases::i()),
        ("J", cases::joined_readers(3)),
        ("J-refused", cases::joined_readers(2)),
        ("K", cases::k()),
        ("L", cases::l()),
        ("caller-above", cases::g_called_as(1)),
        ("caller-outside", cases::g_called_as(2)),
        ("caller-may-not", cases::i_called_as(0)),
        ("own-type", cases::b_with_own_type()),
        ("own-type-none", cases::no_common_type()),
        ("own-type-of-a-function", cases::own_type_of_a_function()),
        ("creators", cases::creators()),
        ("creators-of-a-type", cases::creators_of_a_type()),
        ("creators-of-an-object", cases::creators_of_an_object()),
        ("creators-of-a-recursion", cases::creators_of_a_recursion()),
        ("creators-of-an-argument", cases::creators_of_an_argument()),
        ("numbers", cases::numbers()),
        ("numbers-totals", cases::totals()),
        ("numbers-of-a-unit", cases::numbers_with(3, cases::record(1, 0, 0, 0))),
        ("numbers-may-not", cases::numbers_with(1, cases::record(13, 1, 0, 0))),
        ("numbers-of-a-number", cases::numbers_with(4, cases::record(14, 1, 0, 6))),
        (
            "numbers-of-the-creators",
            cases::numbers_with(2, cases::made(cases::record(12, 1, 1, 40), 1, 2)),
        ),
        ("every-word", cases::every_word()),
        ("no-groups", Inputs { groups: vec![], ..b.clone() }),
        ("no-types", Inputs { types: vec![], ..b.clone() }),
        ("no-script", Inputs { script: vec![], ..b }),
        ("longest", longest()),
    ]
}

/// One record more than the longest of one file. Its bytes aren't stored; the gate adds them.
fn longer() -> Vec<(&'static str, Inputs)> {
    let more = |bytes: &[u8], record: usize| [bytes, &vec![0; record]].concat();
    let most = longest();
    vec![
        ("groups", Inputs { groups: more(&most.groups, ROW_BYTES), ..most.clone() }),
        ("types", Inputs { types: more(&most.types, TYPE_BYTES), ..most.clone() }),
        ("script", Inputs { script: more(&most.script, SCRIPT_BYTES), ..most }),
    ]
}

fn printed(words: Option<&[u8]>, inputs: &Inputs) -> Vec<u8> {
    report(words, &inputs.groups, &inputs.types, &inputs.script)
}

/// A studio's words, and tables that are refused: a name and the file `words` of each. The other files are those of the value that
/// shows every word.
fn tables_of_words() -> Vec<(&'static str, Vec<u8>)> {
    let own = ["leeg", "links", "rechts", "paar", "functie", "gesloten", "getal"];
    let with = |index: usize, word: &'static str| {
        let mut words = own;
        words[index] = word;
        table_of(&words)
    };
    let with_byte = |at: usize, byte: u8| {
        let mut table = table_of(&own);
        table[at] = byte;
        table
    };
    let long =
        ["aaaaaaaaaaaa", "aaaaaaaaaaab", "aaaaaaaaaaac", "a", "b", "zzzzzzzzzzzz", "azzzzzzzzzzz"];
    let exchanged = ["closed", "second", "number", "function", "pair", "unit", "first"];
    // The second word is the first again, and the last has a capital letter: 33 of all words comes before 34 of any.
    let twice_and_capital =
        table_of(&["leeg", "leeg", "rechts", "paar", "functie", "gesloten", "Getal"]);
    vec![
        ("words", table_of(&own)),
        ("words-of-12-letters", table_of(&long)),
        ("words-exchanged", table_of(&exchanged)),
        ("words-empty", vec![]),
        ("words-short", table_of(&own)[..WORDS_BYTES - 1].to_vec()),
        ("words-longer", [table_of(&own), vec![0]].concat()),
        ("words-of-six", table_of(&own[..6])),
        ("words-of-eight", [table_of(&own), table_of(&["lijst"])].concat()),
        ("words-capital", with(2, "Rechts")),
        ("words-hyphen", with(5, "ge-sloten")),
        ("words-past-z", with_byte(WORD_BYTES, b'z' + 1)),
        ("words-before-a", with_byte(WORD_BYTES, b'a' - 1)),
        ("words-none", with(3, "")),
        ("words-after-zero", with_byte(4 * WORD_BYTES + 11, b'a')),
        ("words-twice", with(4, "links")),
        ("words-twice-in-the-last", with(6, "gesloten")),
        ("words-hyphen-in-the-last", with(6, "ge-tal")),
        ("words-twice-and-capital", twice_and_capital),
    ]
}

/// Every file of `reports/`, by its path there. An empty one is left out, since missing is empty, but for an empty
/// `words`, which is another thing than a missing one.
pub fn files() -> Vec<(String, Vec<u8>)> {
    let mut files = Vec::new();
    let mut add = |name: &str, words: Option<Vec<u8>>, inputs: Inputs| {
        let expected = printed(words.as_deref(), &inputs);
        let own = [("groups", inputs.groups), ("types", inputs.types), ("script", inputs.script)];
        for (file, bytes) in own.into_iter().filter(|(_, bytes)| !bytes.is_empty()) {
            files.push((format!("{name}/{file}"), bytes));
        }
        files.extend(words.map(|bytes| (format!("{name}/words"), bytes)));
        files.push((format!("{name}/expected"), expected));
    };
    for (name, inputs) in folders() {
        add(name, None, inputs);
    }
    for (name, words) in tables_of_words() {
        add(name, Some(words), cases::every_word());
    }
    // Tried before question 1: a table of groups that question 2 refuses isn't looked at.
    add("words-first", Some(vec![0; WORDS_BYTES]), Inputs { groups: vec![], ..cases::b() });
    for (file, inputs) in longer() {
        files.push((format!("longest/longer-{file}"), printed(None, &inputs)));
    }
    files.sort();
    files
}
