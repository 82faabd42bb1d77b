//! Groups: the lattice of security groups, questions 2 to 7.

use crate::limits::{MOST_GROUPS, ROW_BYTES};
use crate::refusal::{ask, Answer};

/// A group, as the byte that names it in a record.
pub type Group = u8;

/// Bit h of row g is set exactly when g ⊑ h: h is at least as secret (manual, 2.1).
#[derive(Debug, Clone, PartialEq, Eq)]
pub struct Groups {
    rows: Vec<u32>,
}

/// A row has no bit past the 32nd.
pub fn bit(row: u32, h: usize) -> bool {
    h < 32 && row >> h & 1 == 1
}

fn lowest_bit(row: u32) -> Option<usize> {
    (0..32).find(|&h| bit(row, h))
}

impl Groups {
    /// How many groups the table has.
    pub fn count(&self) -> usize {
        self.rows.len()
    }

    /// Is this number a group of the table? Callers' numbers are wide: 256 is not group 0.
    pub fn has(&self, group: u64) -> bool {
        group < self.count() as u64
    }

    /// g ⊑ h; false when either is outside the table.
    pub fn below(&self, g: Group, h: Group) -> bool {
        self.has(g.into()) && self.has(h.into()) && bit(self.rows[g as usize], h as usize)
    }

    /// The join g ⊔ h: the lowest bit that is set in both rows.
    pub fn join(&self, g: Group, h: Group) -> Group {
        let common = self.rows[g as usize] & self.rows[h as usize];
        lowest_bit(common).expect("question 6: any two groups have a join") as Group
    }

    /// The meet g ⊓ h: of the groups at or below both, the highest. Groups are numbered upward and two
    /// of them have a join, so it has the highest number.
    pub fn meet(&self, g: Group, h: Group) -> Group {
        let mut common =
            (0..self.count() as Group).filter(|&k| self.below(k, g) && self.below(k, h));
        common.next_back().expect("question 7: 0 is at or below both")
    }
}

/// Questions 2 to 7, then the table.
pub fn read_groups(bytes: &[u8]) -> Answer<Groups> {
    // 2. Groups: whole rows, 1 to 32? (0)
    let count = bytes.len() / ROW_BYTES;
    ask(bytes.len() % ROW_BYTES == 0 && (1..=MOST_GROUPS).contains(&count), 2, 0)?;
    // Each row is a little-endian word.
    let rows: Vec<u32> = bytes
        .chunks(ROW_BYTES)
        .map(|row| u32::from_le_bytes(row.try_into().expect("whole rows")))
        .collect();

    // 3. No bit at or past the row count?
    for g in 0..count {
        ask((count..32).all(|h| !bit(rows[g], h)), 3, g)?;
    }
    // 4. Is g the lowest bit of row g?
    for g in 0..count {
        ask(lowest_bit(rows[g]) == Some(g), 4, g)?;
    }
    // 5. Is row h within row g for every bit h of row g?
    for g in 0..count {
        let within = |h: usize| rows[h] & !rows[g] == 0;
        ask((0..count).all(|h| !bit(rows[g], h) || within(h)), 5, g)?;
    }
    // 6. For each pair g, h, are the bits common to both rows exactly the row of the lowest of
    // them? (none in common is a no; smaller g of the first failing pair, g then h rising)
    for g in 0..count {
        for h in 0..count {
            let common = rows[g] & rows[h];
            let exact = lowest_bit(common).is_some_and(|k| rows[k] == common);
            ask(exact, 6, g.min(h))?;
        }
    }
    // 7. Has row 0 all bits? (0)
    ask((0..count).all(|h| bit(rows[0], h)), 7, 0)?;
    Ok(Groups { rows })
}
