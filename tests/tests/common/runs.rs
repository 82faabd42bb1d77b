//! Runs in buffers of drawn lengths and by drawn budgets, and the values that they come to.
#![allow(dead_code)]

use super::*;
use wigneld_tests::generate::{Rng, World};
use wigneld_tests::steps::End;

/// A script over the tables of this world.
pub fn over(world: &World, script: &[u8]) -> Inputs {
    let World { groups, types, .. } = world.clone();
    Inputs { groups, types, script: script.to_vec() }
}

/// The last term of a run that ends 0, and the steps that it made, in buffers of any length.
pub fn value_of(rng: &mut Rng, inputs: &Inputs) -> Option<(Vec<u8>, u64)> {
    let budget = if rng.one_in(8) { rng.below(16) } else { 200 + rng.below(200) } as u64;
    let [first, scratch] = [(); 2].map(|_| REPORT_RUN_BYTES - SCRIPT_BYTES * rng.below(3000));
    let (report, first, _) = run_in(inputs, budget, first, scratch);
    let report = report.ok().filter(|report| report.end == End::Value)?;
    Some((first[..report.records as usize * SCRIPT_BYTES].to_vec(), report.steps))
}
