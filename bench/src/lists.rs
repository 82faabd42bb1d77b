//! The check of a studio's lists and the look-up, up to the longest lists that pass: how the cost grows with their lengths.

use std::hint::black_box;

use wigneld_tests::calls;
use wigneld_tests::generate::{chain_groups, unit_types, wide_type, write_numbers};
use wigneld_tests::limits::{MOST_LISTED_SCRIPTS, NO_SCRIPT};

use crate::calls::{Implementation, IMPLEMENTATIONS};
use crate::instructions;
use crate::times::middle_times;

/// Scripts of the list, and as many entries.
const SIZES: [usize; 4] = [1024, 8192, 32_768, MOST_LISTED_SCRIPTS];

struct Studio {
    groups: Vec<u8>,
    types: Vec<u8>,
    scripts: Vec<u8>,
    amendments: Vec<u8>,
    /// What is looked up, and what is in force from there.
    index: u64,
    found: u64,
}

fn studio(types: Vec<u8>, size: usize, replaced: fn(u16) -> u16, found: usize) -> Studio {
    let entries: Vec<u16> = (0..size as u16).flat_map(|first| [first, replaced(first)]).collect();
    Studio {
        groups: chain_groups(1),
        types,
        scripts: write_numbers(&vec![0; size]),
        amendments: write_numbers(&entries),
        index: 0,
        found: found as u64,
    }
}

/// Each entry replaces the one before.
fn before(first: u16) -> u16 {
    first.checked_sub(1).unwrap_or(NO_SCRIPT)
}

struct Shape {
    name: &'static str,
    studio: fn(usize) -> Studio,
}

const SHAPES: [Shape; 3] = [
    Shape {
        name: "nothing replaced",
        studio: |size| studio(unit_types(1), size, |_| NO_SCRIPT, 0),
    },
    Shape { name: "one chain", studio: |size| studio(unit_types(1), size, before, size - 1) },
    Shape {
        name: "one chain, types of 63 records",
        studio: |size| studio(wide_type(63).write(), size, before, size - 1),
    },
];

/// One call. Not inlined and under its own name, so that an instruction count can be limited to it.
#[no_mangle]
#[inline(never)]
fn measured_in_force(who: Implementation, studio: &Studio) -> u64 {
    let Studio { groups, types, scripts, amendments, index, .. } = studio;
    match who {
        Implementation::Second => calls::in_force(groups, types, scripts, amendments, *index)
            .expect("lists that pass")
            .into(),
        #[cfg(feature = "engine")]
        Implementation::Engine => {
            wigneld_tests::engine::in_force(groups, types, scripts, amendments, *index)
        }
        #[cfg(not(feature = "engine"))]
        Implementation::Engine => panic!("built without the engine"),
    }
}

/// All shapes at all sizes, untimed. Gives how many calls were made of each implementation.
pub fn compare() -> usize {
    for shape in &SHAPES {
        for size in SIZES {
            let studio = (shape.studio)(size);
            for &who in IMPLEMENTATIONS {
                assert_eq!(measured_in_force(who, &studio), studio.found, "the end of the chain");
            }
        }
    }
    SHAPES.len() * SIZES.len()
}

fn heading(unit: &str) {
    let names: Vec<&str> = IMPLEMENTATIONS.iter().map(|who| who.name()).collect();
    println!(
        "| lists | scripts and entries | {} | {unit} of the last for each script |",
        names.join(" | ")
    );
    println!("|---|---:|{}---:|", "---:|".repeat(names.len()));
}

fn row(shape: &Shape, size: usize, figures: &[f64], digits: usize) {
    let columns: Vec<String> = figures.iter().map(|figure| format!("{figure:.0}")).collect();
    let last = figures.last().expect("an implementation") / size as f64;
    println!("| {} | {size} | {} | {last:.digits$} |", shape.name, columns.join(" | "));
}

/// Times in microseconds.
pub fn times() {
    println!();
    heading("microseconds");
    for shape in &SHAPES {
        for size in SIZES {
            let studio = (shape.studio)(size);
            let turns = IMPLEMENTATIONS.iter().map(|&who| {
                let own = &studio;
                Box::new(move || {
                    black_box(measured_in_force(who, black_box(own)));
                }) as Box<dyn FnMut()>
            });
            row(shape, size, &middle_times(turns.collect()), 3);
        }
    }
}

/// The word that makes this program do a single call: shape, size, implementation.
pub const ONCE: &str = "--once-in-force";

pub fn once(words: &[String]) {
    let [name, size, who] = words else { panic!("{ONCE} SHAPE SIZE IMPLEMENTATION") };
    let shape = SHAPES.iter().find(|own| own.name == name).expect("a shape");
    let who = IMPLEMENTATIONS.iter().find(|own| own.name() == who).expect("an implementation");
    println!("{}", measured_in_force(*who, &(shape.studio)(size.parse().expect("a size"))));
}

/// Instructions of one call.
pub fn table() {
    println!();
    heading("instructions");
    for shape in &SHAPES {
        for size in SIZES {
            let counts: Vec<f64> = IMPLEMENTATIONS
                .iter()
                .map(|&who| {
                    let words = [ONCE, shape.name, &size.to_string(), who.name()];
                    instructions::counted("measured_in_force", &words) as f64
                })
                .collect();
            row(shape, size, &counts, 1);
        }
    }
}
