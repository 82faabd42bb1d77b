//! What a step of a run costs, beside the records of its redex, of its contractum and of the whole term.

use std::rc::Rc;

use wigneld_tests::cases::Inputs;
use wigneld_tests::limits::{MOST_SCRIPT_RECORDS, REPORT_BUDGET};
use wigneld_tests::script::{read_script, Term};
use wigneld_tests::steps::{is_value, step, End};
use wigneld_tests::types::read_tables;

use crate::calls::{Call, MAIN};
use crate::shapes::{Shape, SHAPES};
use crate::{instructions, times, SIZES};

/// The steps of a run, and records added up over them.
#[derive(Default)]
struct Walk {
    steps: usize,
    terms: usize,
    redexes: usize,
    contracta: usize,
}

/// The part of a term that its next step replaces. Evaluated are the operands under no binder, from left to right.
fn redex(term: &Rc<Term>) -> &Rc<Term> {
    let operands = term.operands().into_iter().filter(|&(_, binders)| binders == 0);
    let mut evaluated = operands.map(|(operand, _)| operand);
    evaluated.find(|operand| !is_value(operand)).map_or(term, redex)
}

fn walk(inputs: &Inputs) -> Walk {
    let tables = read_tables(&inputs.groups, &inputs.types).expect("tables that pass");
    let mut term = read_script(&tables, &inputs.script, &[]).expect("a script that passes");
    let mut own = Walk::default();
    while own.steps < REPORT_BUDGET as usize {
        let (end, next) = step(&tables, &term, MOST_SCRIPT_RECORDS);
        if end != End::Moved {
            break;
        }
        let (before, redex) = (term.size(), redex(&term).size());
        own.steps += 1;
        own.terms += before;
        own.redexes += redex;
        own.contracta += redex + next.size() - before;
        term = next;
    }
    own
}

/// What a run costs, what one of budget 0 does, which no step is a part of, and so what a step does. The records are means
/// over the steps.
fn table(unit: &str, cost: impl Fn(Call, &Shape, usize) -> f64) {
    println!(
        "\n| run | records | steps | term | redex | contractum | {unit} | with budget 0 | a step \
         | for each record of redex and contractum | for each of the term |"
    );
    println!("|---|{}", "---:|".repeat(10));
    for shape in SHAPES.iter().filter(|shape| shape.call == Call::Run) {
        for size in SIZES {
            let own = walk(&(shape.inputs)(size));
            let mean = |sum: usize| sum as f64 / own.steps as f64;
            let [term, redex, contractum] = [own.terms, own.redexes, own.contracta].map(mean);
            let [run, start] = [Call::Run, Call::Start].map(|call| cost(call, shape, size));
            let step = (run - start) / own.steps as f64;
            let (both, all) = (step / (redex + contractum), step / term);
            println!(
                "| {} | {size} | {} | {term:.0} | {redex:.1} | {contractum:.1} | {run:.0} \
                 | {start:.0} | {step:.0} | {both:.2} | {all:.2} |",
                shape.name, own.steps
            );
        }
    }
}

pub fn instructions() {
    table("instructions", |call, shape, size| {
        instructions::instructions(call, shape, size, MAIN) as f64
    });
}

pub fn times() {
    table("ns", |call, shape, size| 1e3 * times::alone(MAIN, call, &(shape.inputs)(size)));
}
