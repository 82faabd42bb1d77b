//! Which script is in force (manual, 7.7): a studio's list of scripts, the list of its amendments, and the look-up.

use std::collections::{HashMap, HashSet};

use crate::limits::{ENTRY_BYTES, LISTED_BYTES, MOST_LISTED_SCRIPTS, NO_SCRIPT};
use crate::refusal::{ask, Answer};
use crate::types::{compare, read_tables, Comparison, Tables};

/// Both lists, read.
struct Amended {
    /// The scripts that an entry names first.
    listed: HashSet<u16>,
    /// What each replaced script is replaced by.
    replaced_by: HashMap<u16, u16>,
}

fn numbers(bytes: &[u8]) -> Vec<u16> {
    bytes.chunks(2).map(|number| u16::from_le_bytes([number[0], number[1]])).collect()
}

/// 40 of the lengths of both lists, at place 0, then 25 of each script, and then of one entry after another 40, 41 and
/// 42.
fn read_lists(tables: &Tables, scripts: &[u8], amendments: &[u8]) -> Answer<Amended> {
    let whole = scripts.len() % LISTED_BYTES == 0 && amendments.len() % ENTRY_BYTES == 0;
    ask(whole && scripts.len() / LISTED_BYTES <= MOST_LISTED_SCRIPTS, 40, 0)?;
    let scripts = numbers(scripts);
    for (index, &named) in scripts.iter().enumerate() {
        ask(tables.types.has(named.into()), 25, index)?;
    }

    let mut read = Amended { listed: HashSet::new(), replaced_by: HashMap::new() };
    for (place, entry) in numbers(amendments).chunks(2).enumerate() {
        let (first, old) = (entry[0], entry[1]);
        let in_list = |index: u16| usize::from(index) < scripts.len();
        // 40. Is the first a script of the list that isn't listed yet, and the replaced one, if any, listed already?
        // The entry lists its own first only afterwards.
        ask(in_list(first) && !read.listed.contains(&first), 40, place)?;
        if old != NO_SCRIPT {
            ask(in_list(old) && read.listed.contains(&old), 40, place)?;
            // 41. Isn't it replaced yet?
            ask(!read.replaced_by.contains_key(&old), 41, place)?;
            // 42. Is the first's type the same as the replaced one's, or below it?
            let type_of = |index: u16| tables.types.at(scripts[usize::from(index)].into());
            let related = compare(tables.security(), &type_of(first), &type_of(old));
            ask(related != Comparison::Neither, 42, place)?;
            read.replaced_by.insert(old, first);
        }
        read.listed.insert(first);
    }
    Ok(read)
}

/// From a script that an entry names first, the one in force is found by following replacements to the end. Any other
/// index has none, which is 65,535.
pub fn in_force(
    groups: &[u8],
    types: &[u8],
    scripts: &[u8],
    amendments: &[u8],
    index: u64,
) -> Answer<u16> {
    let read = read_lists(&read_tables(groups, types)?, scripts, amendments)?;
    let Some(mut now) = u16::try_from(index).ok().filter(|index| read.listed.contains(index))
    else {
        return Ok(NO_SCRIPT);
    };
    while let Some(&newer) = read.replaced_by.get(&now) {
        now = newer;
    }
    Ok(now)
}
