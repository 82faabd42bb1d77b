//! The words of a report's sheet: ours, or a studio's own (manual, 7.4).

use crate::limits::{WORDS_BYTES, WORD_BYTES};
use crate::refusal::{ask, Answer};

/// Ours, by the kinds of a sheet's records.
pub const OURS: [&str; 7] = ["unit", "first", "second", "pair", "function", "closed", "number"];

/// The word of a record, if it is 1 to 12 letters a to z and then zero bytes.
fn letters(record: &[u8]) -> Option<&str> {
    let end = record.iter().position(|&byte| byte == 0).unwrap_or(record.len());
    let (word, rest) = record.split_at(end);
    let formed = !word.is_empty()
        && word.iter().all(|byte| byte.is_ascii_lowercase())
        && rest.iter().all(|&byte| byte == 0);
    formed.then(|| std::str::from_utf8(word).expect("letters"))
}

/// The words of a table: 32, then 33 of all words, then 34.
pub fn read_words(table: &[u8]) -> Answer<Vec<String>> {
    // 32. Is the length 84? (0)
    ask(table.len() == WORDS_BYTES, 32, 0)?;
    // 33. Is the word well formed?
    let mut words = Vec::new();
    for (index, record) in table.chunks(WORD_BYTES).enumerate() {
        let word = letters(record);
        ask(word.is_some(), 33, index)?;
        words.extend(word.map(String::from));
    }
    // 34. Does it differ from every earlier one? Asked when all words have passed 33.
    for index in 0..words.len() {
        ask(!words[..index].contains(&words[index]), 34, index)?;
    }
    Ok(words)
}

/// A table of these words.
pub fn table_of(words: &[&str]) -> Vec<u8> {
    let mut table = Vec::new();
    for word in words {
        table.extend(word.bytes().chain(std::iter::repeat(0)).take(WORD_BYTES));
    }
    table
}
