//! Stripping sets r, ir, c and ic of each record of a script, a term or a types table to 0 and keeps every other byte
//! (manual, 7.1).

use crate::limits::{SCRIPT_BYTES, TYPE_BYTES};

/// Also in a last record that is cut short; nothing is asked of the bytes.
fn strip(bytes: &mut [u8], width: usize, cleared: [usize; 4]) {
    for (index, byte) in bytes.iter_mut().enumerate() {
        if cleared.contains(&(index % width)) {
            *byte = 0;
        }
    }
}

/// Strips a script or a term.
pub fn strip_script(script: &mut [u8]) {
    strip(script, SCRIPT_BYTES, [1, 2, 6, 7]);
}

/// Strips a types table.
pub fn strip_types(types: &mut [u8]) {
    strip(types, TYPE_BYTES, [1, 2, 4, 5]);
}

/// The one-group table: a single row, the word 1.
pub const ONE_GROUP: [u8; 4] = [1, 0, 0, 0];
