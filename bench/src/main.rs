//! Check, run, step and sheet at several sizes, in one run: Markdown tables on the standard output
//! and a plot in the file named by the first argument (`performance.svg` without one), beside the runs of an earlier
//! measurement where a second argument names what it printed. Then what a step of a run costs (`--runs` counts its
//! instructions alone), and the check of a studio's lists, up to the longest; `--lists` measures these alone,
//! and `--lists-instructions` counts their instructions.
//! `--instructions` counts instructions instead, which no other load of the machine changes, and
//! `--answers` only compares what the implementations answer.

mod calls;
mod instructions;
mod lists;
mod plot;
mod runs;
mod shapes;
mod tables;
mod times;

use wigneld_tests::generate::with_large_stack;

const SIZES: [usize; 4] = [50, 300, 900, 8192];

fn main() {
    let words: Vec<String> = std::env::args().skip(1).collect();
    // Trees are walked by recursion.
    with_large_stack(move || match words.first().map(String::as_str) {
        Some("--answers") => times::compare(),
        Some("--runs") => runs::instructions(),
        Some("--lists") => lists::times(),
        Some("--lists-instructions") => lists::table(),
        Some("--instructions") => {
            instructions::table();
            runs::instructions();
            lists::table();
        }
        Some(instructions::ONCE) => instructions::once(&words[1..]),
        Some(lists::ONCE) => lists::once(&words[1..]),
        file => measure(file.unwrap_or("performance.svg"), words.get(1)),
    });
}

fn measure(file: &str, earlier: Option<&String>) {
    let earlier = earlier
        .map(|file| std::fs::read_to_string(file).expect("tables of an earlier measurement"));
    let rows = tables::rows();
    tables::times(&rows);
    tables::copies(&rows);
    runs::times();
    lists::times();
    let mut panels = tables::panels(&rows);
    panels.extend(earlier.map(|printed| tables::earlier_runs(&printed)));
    match std::fs::write(file, plot::svg(&panels)) {
        Ok(()) => eprintln!("plot written to {file}"),
        Err(error) => eprintln!("no plot: {file}: {error}"),
    }
}
