//! `judge`: judges lines of the planner and of the other calls (table check,
//! move count, walk), and writes random input lines for them.

use second::generate::{self, Kind};
use second::lines::{judge_all, Judge, Outcome, Unread};
use second::{answers, call_line};
use std::fs::File;
use std::io::{self, BufReader, BufWriter};
use std::process::ExitCode;

const USAGE: &str = "use: judge plan|calls INPUT OUTPUT, \
                     or: judge generate plan|check|moves|walk COUNT SEED";

/// Why the program ends with another number than 0.
enum Failure {
    Wrong(String),
    Use(String),
}

fn main() -> ExitCode {
    let arguments: Vec<_> = std::env::args_os().skip(1).collect();
    let mut words = Vec::new();
    for argument in &arguments {
        words.push(argument.to_string_lossy());
    }
    let words: Vec<&str> = words.iter().map(|word| word.as_ref()).collect();
    match run(&words) {
        Ok(()) => ExitCode::SUCCESS,
        Err(Failure::Wrong(why)) => {
            eprintln!("{why}");
            ExitCode::from(1)
        }
        Err(Failure::Use(what)) => {
            eprintln!("judge: {what}");
            ExitCode::from(2)
        }
    }
}

fn run(words: &[&str]) -> Result<(), Failure> {
    match words {
        ["generate", kind, count, seed] => write_lines(kind, count, seed),
        ["generate", ..] => Err(Failure::Use(USAGE.to_string())),
        [program, input, output] => match judge_of(program) {
            Some(judge) => judge_files(judge, input, output),
            None => Err(Failure::Use(format!("`{program}` is not a known word; {USAGE}"))),
        },
        _ => Err(Failure::Use(USAGE.to_string())),
    }
}

fn judge_of(program: &str) -> Option<Judge> {
    match program {
        "plan" => Some(answers::judge),
        "calls" => Some(|input, output| answers::same_line(&call_line::answer(input), output)),
        _ => None,
    }
}

fn judge_files(judge: Judge, input: &str, output: &str) -> Result<(), Failure> {
    let outcome = judge_all(open(input)?, open(output)?, judge).map_err(|unread| match unread {
        Unread::Input(error) => unreadable(input, &error),
        Unread::Output(error) => unreadable(output, &error),
    })?;
    match outcome {
        Outcome::AllRight(judged) => {
            println!("{judged} lines judged, 0 wrong");
            Ok(())
        }
        Outcome::Wrong(line, why) => Err(Failure::Wrong(format!("line {line}: {why}"))),
    }
}

fn open(path: &str) -> Result<BufReader<File>, Failure> {
    File::open(path).map(BufReader::new).map_err(|error| unreadable(path, &error))
}

fn unreadable(path: &str, error: &io::Error) -> Failure {
    Failure::Use(format!("cannot read {path} ({error}); name a file of lines"))
}

fn write_lines(kind: &str, count: &str, seed: &str) -> Result<(), Failure> {
    let Some(kind) = Kind::named(kind) else {
        return Err(Failure::Use(format!("`{kind}` is not one of plan, check, moves, walk")));
    };
    let count = number("COUNT", count)?;
    let seed = number("SEED", seed)?;
    let to = BufWriter::new(io::stdout().lock());
    match generate::write(kind, count, seed, to) {
        // A reader that has seen enough, such as `head`, is no fault.
        Err(error) if error.kind() == io::ErrorKind::BrokenPipe => Ok(()),
        Err(error) => Err(Failure::Use(format!("cannot write the lines ({error})"))),
        Ok(()) => Ok(()),
    }
}

fn number(name: &str, word: &str) -> Result<u64, Failure> {
    word.parse().map_err(|_| {
        Failure::Use(format!("{name} `{word}` is not a whole number from 0 to {}", u64::MAX))
    })
}
