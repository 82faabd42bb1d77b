//! The limits (manual, 8), each named once.

/// A groups table has 1 to 32 rows.
pub const MOST_GROUPS: usize = 32;
/// A row of it has 4 bytes.
pub const ROW_BYTES: usize = 4;

/// A type record.
pub const TYPE_BYTES: usize = 6;
/// A type record of forms 1 and 2. Only the rewriting calls know this width.
pub const OLD_TYPE_BYTES: usize = 4;
/// A types table has 1 to 4,096 records.
pub const MOST_TABLE_RECORDS: usize = 4096;
/// Questions 12 and 24: a type has at most 63 records.
pub const MOST_TYPE_RECORDS: usize = 63;

/// A script record.
pub const SCRIPT_BYTES: usize = 8;
/// A script record of forms 1 and 2. Only the rewriting calls know this width.
pub const OLD_SCRIPT_BYTES: usize = 6;
/// A script of the old office program has at most 6,000 records of 10 bytes.
pub const OFFICE_BYTES: usize = 10;
pub const MOST_OFFICE_RECORDS: usize = 6000;
/// Question 13 and "too big": 8,192 records.
pub const MOST_SCRIPT_RECORDS: usize = 8192;
/// Question 18 and "too big": depth 256, the outermost record has depth 1.
pub const MOST_DEPTH: usize = 256;
/// The number of a case that finds its own type. No types table has so many records.
pub const OWN_TYPE: u16 = 65_535;

/// A sheet record.
pub const SHEET_BYTES: usize = 6;

/// Question 1, answer buffer: one type of the largest size, 378 bytes.
pub const ANSWER_BYTES: usize = MOST_TYPE_RECORDS * TYPE_BYTES;
/// Question 1, work buffer: one such type for each depth, 96,768 bytes.
pub const WORK_BYTES: usize = MOST_DEPTH * ANSWER_BYTES;

/// A studio's table of words has seven records of 12 bytes, 84 in all.
pub const WORD_BYTES: usize = 12;
pub const WORDS_BYTES: usize = 7 * WORD_BYTES;

/// A list of scripts has a 16-bit index of a type for each, a list of amendments two indexes of scripts for each entry.
pub const LISTED_BYTES: usize = 2;
pub const ENTRY_BYTES: usize = 4;
/// A studio's list has at most so many scripts.
pub const MOST_LISTED_SCRIPTS: usize = 65_535;
/// In the place of a script's index: none.
pub const NO_SCRIPT: u16 = 65_535;

/// Report program: two run buffers of 65,536 bytes.
pub const REPORT_RUN_BYTES: usize = MOST_SCRIPT_RECORDS * SCRIPT_BYTES;
/// Report program: a buffer of 8,192 sheet records.
pub const REPORT_SHEET_BYTES: usize = MOST_SCRIPT_RECORDS * SHEET_BYTES;
/// Report program and cases: budget 1,000.
pub const REPORT_BUDGET: u64 = 1000;

/// The highest question (manual, 9.1). 32 to 34 are those of a table of words, which only the report program reads.
pub const LAST_QUESTION: usize = 42;

/// Questions 8 and 13: whole records of this width, 1 to `most`?
pub fn are_whole(length: usize, width: usize, most: usize) -> bool {
    length % width == 0 && (1..=most).contains(&(length / width))
}
