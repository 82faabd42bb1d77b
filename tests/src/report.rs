//! The report program's text (manual, 7.3). Every line ends in a newline.

use crate::calls::{check, run, sheet};
use crate::limits::{
    ANSWER_BYTES, REPORT_BUDGET, REPORT_RUN_BYTES, REPORT_SHEET_BYTES, SCRIPT_BYTES, SHEET_BYTES,
    WORK_BYTES,
};
use crate::refusal::Answer;
use crate::sheet::NUMBER;
use crate::steps::End;
use crate::words::{read_words, OURS};

/// Checks, runs in two buffers of 65,536 bytes with budget 1,000, and shows the sheet for group 0 in a buffer of 8,192
/// sheet records, numbers in decimal. A missing file is an empty slice, but for the words': without theirs the words
/// are ours. The words are asked before question 1, and a refusal is all that is printed from there on.
pub fn report(words: Option<&[u8]>, groups: &[u8], types: &[u8], script: &[u8]) -> Vec<u8> {
    let mut text = String::new();
    if let Err(refusal) = lines(words, groups, types, script, &mut text) {
        text += &format!("refused {} at {}\n", refusal.question, refusal.place);
    }
    text.into_bytes()
}

fn lines(
    words: Option<&[u8]>,
    groups: &[u8],
    types: &[u8],
    script: &[u8],
    text: &mut String,
) -> Answer<()> {
    let ours = || Ok(OURS.map(String::from).to_vec());
    let words = words.map_or_else(ours, read_words)?;
    let records = check(groups, types, script, &mut [0; WORK_BYTES], &mut [0; ANSWER_BYTES])?;
    *text += &format!("accepted {records}\n");

    let mut first = vec![0; REPORT_RUN_BYTES];
    let mut scratch = vec![0; REPORT_RUN_BYTES];
    let ran = run(groups, types, script, REPORT_BUDGET, &mut first, &mut scratch)?;
    *text += &format!("end {} steps {} records {}\n", ran.end as u8, ran.steps, ran.records);

    // A word, r and ir for each record, only when the end is 0.
    if ran.end == End::Value {
        let value = &first[..ran.records as usize * SCRIPT_BYTES];
        let mut seen = vec![0; REPORT_SHEET_BYTES];
        let count = sheet(groups, types, value, 0, &mut seen)?;
        for record in seen.chunks(SHEET_BYTES).take(count as usize) {
            *text += &format!("{} {} {}", words[record[0] as usize], record[1], record[2]);
            // Of a shown literal alone the number follows.
            if record[0] == NUMBER {
                *text += &format!(" {}", u16::from_le_bytes([record[4], record[5]]));
            }
            *text += "\n";
        }
    }
    Ok(())
}
