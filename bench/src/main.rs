//! Times the plain flow on full sets and, when the planner's archive is
//! linked, the planner's line call on the same sets; then the programs.

mod flow;
#[cfg(line_call)]
mod line_call;
mod programs;
mod sets;
mod times;

use sets::{full, Masks, Random, Set};
use std::path::Path;
use std::process::ExitCode;
use times::{micros, Times};

const SETS: usize = 1_000;

fn main() -> ExitCode {
    if std::env::args().len() > 1 {
        eprintln!("flow: takes no arguments; run it as bench/run does");
        return ExitCode::from(2);
    }
    println!("machine: {}", machine());
    println!("{SETS} random sets each, 64 tasks, 16 cores, frame 1,000,000; times per set");
    if cfg!(not(target_arch = "x86_64")) {
        println!("the planner is compiled for x86-64, and here its times would say nothing: the plain flow alone");
    } else if cfg!(not(line_call)) {
        println!("target/staticlib/libaurhennig.a is not there: the plain flow alone");
    }
    for (name, masks, seed) in [("nested", Masks::Nested, 1), ("arbitrary", Masks::Arbitrary, 2)] {
        if let Err(why) = measure(name, masks, seed) {
            eprintln!("flow: {name} masks: {why}");
            return ExitCode::from(1);
        }
    }
    if cfg!(not(target_arch = "x86_64")) {
        return ExitCode::SUCCESS;
    }
    if let Err(why) = programs::measure(Path::new("..")) {
        eprintln!("flow: {why}");
        return ExitCode::from(1);
    }
    ExitCode::SUCCESS
}

fn measure(name: &str, masks: Masks, seed: u64) -> Result<(), String> {
    let mut random = Random(0x9e37_79b9_7f4a_7c15 ^ seed);
    let sets: Vec<Set> = (0..SETS).map(|_| full(&mut random, masks)).collect();
    let (times, flows) = Times::of(&sets, flow::greatest);
    let fits =
        |(set, flow): (&Set, &u64)| set.tasks.iter().map(|task| task.budget).sum::<u64>() == *flow;
    let accepted: Vec<bool> = sets.iter().zip(&flows).map(fits).collect();
    let count = accepted.iter().filter(|&&accepted| accepted).count();
    println!("{name} masks: {count} accepted, {} overloaded", SETS - count);
    println!("  flow:      median {}, slowest {}", micros(times.median()), micros(times.slowest()));
    compare(&sets, &accepted, &times)
}

#[cfg(line_call)]
fn compare(sets: &[Set], accepted: &[bool], flow: &Times) -> Result<(), String> {
    let planner = line_call::times(sets, accepted)?;
    println!(
        "  line call: median {}, slowest {}",
        micros(planner.median()),
        micros(planner.slowest())
    );
    let ratio = planner.median().as_secs_f64() / flow.median().as_secs_f64();
    println!("  ratio of medians, line call to flow: {ratio:.2}");
    Ok(())
}

#[cfg(not(line_call))]
fn compare(_: &[Set], _: &[bool], _: &Times) -> Result<(), String> {
    Ok(())
}

/// The processor's name and how many the system sees.
fn machine() -> String {
    let text = std::fs::read_to_string("/proc/cpuinfo").unwrap_or_default();
    let names: Vec<&str> = text
        .lines()
        .filter_map(|line| line.strip_prefix("model name"))
        .map(|rest| rest.trim_start_matches([' ', '\t', ':']))
        .collect();
    match names.first() {
        Some(name) => format!("{name}, {} processors", names.len()),
        None => format!("unknown, {}", std::env::consts::ARCH),
    }
}
