//! Refusals: of a call's questions the first that is answered no gives its number and the place (manual, 9.1).

/// The question answered no, and where.
#[derive(Debug, Clone, Copy, PartialEq, Eq)]
pub struct Refusal {
    pub question: u32,
    pub place: u32,
}

impl Refusal {
    /// Was typing under way? 31 is asked between 22 and 24, and 36 before typing, whatever their numbers.
    pub fn is_of_typing(&self) -> bool {
        matches!(self.question, 20..=24 | 31)
    }
}

/// What a call hands back: its answer, or the first no.
pub type Answer<T> = Result<T, Refusal>;

/// A no to `question` at `place`.
pub fn refuse<T>(question: u32, place: usize) -> Answer<T> {
    let place = u32::try_from(place).expect("no table or script has 2^32 records");
    Err(Refusal { question, place })
}

/// Goes on when the question is answered yes.
pub fn ask(yes: bool, question: u32, place: usize) -> Answer<()> {
    if yes {
        Ok(())
    } else {
        refuse(question, place)
    }
}
