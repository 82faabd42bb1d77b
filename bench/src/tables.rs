//! The tables of a measurement, in Markdown, and the panels of its plot.

use crate::calls::{Call, Implementation, IMPLEMENTATIONS, MAIN};
use crate::plot::{Line, Panel};
use crate::shapes::{Shape, SHAPES};
use crate::times::{measure, Measured};
use crate::SIZES;

/// One shape at one size.
pub struct Row {
    shape: &'static Shape,
    size: usize,
    measured: Measured,
}

impl Row {
    fn time(&self, who: Implementation) -> Option<f64> {
        let at = IMPLEMENTATIONS.iter().position(|&own| own == who)?;
        Some(self.measured.times[at])
    }

    fn main_time(&self) -> f64 {
        self.time(MAIN).expect("an implementation that is built in")
    }
}

pub fn rows() -> Vec<Row> {
    let mut rows = Vec::new();
    // The first figures would otherwise be those of a processor that wakes up.
    measure(SHAPES[0].call, &(SHAPES[0].inputs)(SIZES[3]));
    for shape in &SHAPES {
        for size in SIZES {
            rows.push(Row { shape, size, measured: measure(shape.call, &(shape.inputs)(size)) });
        }
    }
    rows
}

fn shown(time: Option<f64>) -> String {
    time.map_or("–".into(), |time| format!("{time:.1}"))
}

/// Growth from the size before: of records and time.
fn growth(before: Option<&Row>, row: &Row) -> String {
    match before.filter(|before| before.size < row.size) {
        None => "– | –".into(),
        Some(before) => format!(
            "{:.1} | {:.1}",
            row.size as f64 / before.size as f64,
            row.main_time() / before.main_time()
        ),
    }
}

pub fn times(rows: &[Row]) {
    println!(
        "| call | shape | records | answer | second (µs) | engine (µs) | engine / second \
         | records × | time × |"
    );
    println!("|---|---|---:|---|---:|---:|---:|---:|---:|");
    for (index, row) in rows.iter().enumerate() {
        let second = row.time(Implementation::Second);
        let engine = row.time(Implementation::Engine);
        let ratio = match (second, engine) {
            (Some(second), Some(engine)) => format!("{:.2}", engine / second),
            _ => "–".into(),
        };
        println!(
            "| {} | {} | {} | {} | {} | {} | {ratio} | {} |",
            row.shape.call.name(),
            row.shape.name,
            row.size,
            row.measured.answer,
            shown(second),
            shown(engine),
            growth(index.checked_sub(1).map(|at| &rows[at]), row)
        );
    }
}

/// A step, alone or as one of a run, against a copy of its term.
pub fn copies(rows: &[Row]) {
    println!("\n| step of | shape | records | step (µs) | memcpy (µs) | step / memcpy |");
    println!("|---|---|---:|---:|---:|---:|");
    for row in rows {
        let Some(copy) = &row.measured.copy else { continue };
        let step = row.main_time() / copy.steps as f64;
        println!(
            "| a {} | {} | {} | {step:.2} | {:.3} | {:.0} |",
            row.shape.call.name(),
            row.shape.name,
            copy.records,
            copy.time,
            step / copy.time
        );
    }
}

/// A panel of the engine's runs in what an earlier measurement printed: the rows of `times`, which alone start with a run.
pub fn earlier_runs(printed: &str) -> Panel {
    let rows = printed.lines().filter_map(|line| {
        let cells: Vec<&str> = line.split('|').map(str::trim).collect();
        let [_, "run", shape, size, _, _, engine, ..] = cells[..] else { return None };
        Some((shape, size.parse().ok()?, engine.parse().ok()?))
    });
    let rows: Vec<(&str, f64, f64)> = rows.collect();
    let of = |(colour, shape): (usize, &Shape)| {
        let own = rows.iter().filter(|row| row.0 == shape.name);
        let points = own.map(|&(_, size, time)| (size, time)).collect();
        Line { name: format!("{}, engine", shape.name), colour, dashed: false, points }
    };
    let lines = SHAPES.iter().filter(|shape| shape.call == Call::Run).enumerate().map(of);
    Panel { title: "run, before".into(), lines: lines.collect() }
}

/// A panel for each call, a line for each shape and implementation.
pub fn panels(rows: &[Row]) -> Vec<Panel> {
    let of = |call: Call| {
        let mut lines = Vec::new();
        for (colour, shape) in SHAPES.iter().filter(|shape| shape.call == call).enumerate() {
            for &who in IMPLEMENTATIONS {
                let own = rows.iter().filter(|row| std::ptr::eq(row.shape, shape));
                let points = own.filter_map(|row| Some((row.size as f64, row.time(who)?)));
                lines.push(Line {
                    name: format!("{}, {}", shape.name, who.name()),
                    colour,
                    dashed: who == Implementation::Second,
                    points: points.collect(),
                });
            }
        }
        Panel { title: call.name().into(), lines }
    };
    [Call::Check, Call::Run, Call::Step, Call::Sheet].map(of).into()
}
