//! Lines a second through the compiled programs, as `rt run` built them.

use crate::sets::{full, line, Masks, Random};
use std::fs::File;
use std::path::{Path, PathBuf};
use std::process::{Command, Stdio};
use std::time::{Duration, Instant};

const PLANS: usize = 5_000;
const WALKS: usize = 100;
const JOBS: usize = 4_096;

/// Prints both; a program that is not there gets a line that says what to do.
pub fn measure(root: &Path) -> Result<(), String> {
    let mut random = Random(0x9e37_79b9_7f4a_7c15);
    let plans: Vec<Vec<u8>> =
        (0..PLANS).map(|_| line(&full(&mut random, Masks::Arbitrary))).collect();
    if let Some(time) = run(root, "plan", &plans)? {
        let second = PLANS as f64 / time.as_secs_f64();
        println!("program plan: {second:.0} lines a second of full sets, arbitrary masks");
    }
    let walks = vec![walk_line(); WALKS];
    if let Some(time) = run(root, "calls", &walks)? {
        let each = time.as_secs_f64() * 1_000.0 / WALKS as f64;
        println!("program calls: {each:.2} ms a walk of {JOBS} jobs, its line read and written");
    }
    Ok(())
}

/// One unit a frame of 1,000,000 and 4,096 jobs of 1,000,000 units: the farthest finishes.
fn walk_line() -> Vec<u8> {
    let mut text = format!("03{:08x}{:08x}{:08x}", 1_000_000, 1, 0);
    text += &format!("{:04x}{JOBS:04x}{JOBS:04x}{JOBS:04x}", 4);
    text += &format!("{:08x}{:08x}{:08x}{:08x}", 0, 0, 0, 1);
    text += &format!("{:016x}", 0).repeat(JOBS);
    text += &format!("{:08x}", 1_000_000).repeat(JOBS);
    text.into_bytes()
}

/// The time of one run over the lines, from a file to nowhere.
fn run(root: &Path, program: &str, lines: &[Vec<u8>]) -> Result<Option<Duration>, String> {
    let path: PathBuf = root.join("target/bin").join(program);
    if !path.exists() {
        println!("program {program}: target/bin/{program} is not there; run `make {program}`");
        return Ok(None);
    }
    let input = std::env::temp_dir().join(format!("bench-{program}-{}", std::process::id()));
    let mut text = lines.join(&b'\n');
    text.push(b'\n');
    let say = |why: std::io::Error| format!("{}: {why}", input.display());
    std::fs::write(&input, text).map_err(say)?;
    let begin = Instant::now();
    let status = Command::new(&path)
        .stdin(File::open(&input).map_err(say)?)
        .stdout(Stdio::null())
        .status()
        .map_err(|why| format!("{}: {why}", path.display()))?;
    let time = begin.elapsed();
    std::fs::remove_file(&input).map_err(say)?;
    if !status.success() {
        return Err(format!("{} ended with {status}", path.display()));
    }
    Ok(Some(time))
}
