//! Instructions of one call, counted by callgrind: a run of this program under it for each figure.

use std::process::Command;

use crate::calls::{in_words, measured_call, Call, Implementation, Lent, CALLS, IMPLEMENTATIONS};
use crate::shapes::{Shape, SHAPES};
use crate::SIZES;

/// The word that makes this program do a single call: call, shape, size, implementation.
pub const ONCE: &str = "--once";

pub fn once(words: &[String]) {
    let [call, name, size, who] = words else { panic!("{ONCE} CALL SHAPE SIZE IMPLEMENTATION") };
    let call = *CALLS.iter().find(|own| own.name() == call).expect("a call");
    let shape = SHAPES.iter().find(|own| own.call == call.shaped() && own.name == name);
    let shape = shape.expect("one of the call's shapes");
    let who = IMPLEMENTATIONS.iter().find(|own| own.name() == who).expect("an implementation");
    let inputs = (shape.inputs)(size.parse().expect("a size"));
    let mut lent = Lent::new();
    let answer = measured_call(*who, call, &inputs, &mut lent);
    println!("{}", in_words(call, answer, &lent));
}

/// Callgrind counts each byte of a string instruction, so long copies are made by others.
const TUNABLES: &str =
    "glibc.cpu.x86_rep_movsb_threshold=100000000:glibc.cpu.x86_rep_stosb_threshold=100000000";

pub fn instructions(call: Call, shape: &Shape, size: usize, who: Implementation) -> u64 {
    let words = [ONCE, call.name(), shape.name, &size.to_string(), who.name()];
    counted("measured_call", &words)
}

/// What this program collects within a function of this name when it is given these words.
pub fn counted(within: &str, words: &[&str]) -> u64 {
    let own = std::env::current_exe().expect("this program's path");
    let ran = Command::new("valgrind")
        .args(["--tool=callgrind", "--callgrind-out-file=/dev/null"])
        .arg(format!("--toggle-collect={within}"))
        .env("GLIBC_TUNABLES", TUNABLES)
        .arg(own)
        .args(words)
        .output()
        .expect("valgrind on this machine");
    let said = String::from_utf8_lossy(&ran.stderr);
    assert!(ran.status.success(), "valgrind failed: {said}");
    let counted = said.lines().find_map(|line| line.split("Collected :").nth(1));
    counted.expect("callgrind says what it collected").trim().parse().expect("a number")
}

pub fn table() {
    println!(
        "| call | shape | records | second | engine | engine / second | engine, for each record that the size adds |"
    );
    println!("|---|---|---:|---:|---:|---:|---:|");
    for shape in &SHAPES {
        let mut before = None;
        for size in SIZES {
            let own = |&who| instructions(shape.call, shape, size, who);
            let counts: Vec<u64> = IMPLEMENTATIONS.iter().map(own).collect();
            let second = counts[0];
            let beside = counts.get(1).map_or("– | – | –".into(), |&engine| {
                let added = before.replace((engine, size)).map_or("–".into(), |(less, fewer)| {
                    format!("{:.0}", (engine as f64 - less as f64) / (size - fewer) as f64)
                });
                format!("{engine} | {:.2} | {added}", engine as f64 / second as f64)
            });
            println!("| {} | {} | {size} | {second} | {beside} |", shape.call.name(), shape.name);
        }
    }
}
