//! The judge over generated lines: right answers pass, changed ones do not.

use crate::planner;
use second::accepted;
use second::answers::judge;
use second::call_line::{self, Call};
use second::generate::{self, Kind};
use second::jobs::{walk, Walked};
use second::lines::{judge_all, Outcome};
use second::random::Random;
use second::table::{to_words, Piece};
use second::walk_line::{self, Walk};
use std::collections::BTreeMap;

fn lines(kind: Kind, seed: u64, count: usize) -> Vec<Vec<u8>> {
    let mut random = Random::new(seed);
    (0..count).map(|_| generate::line(kind, &mut random)).collect()
}

/// How many of the answers have each number.
fn numbers(answers: impl Iterator<Item = Vec<u8>>) -> BTreeMap<String, usize> {
    let mut counts = BTreeMap::new();
    for answer in answers {
        *counts.entry(String::from_utf8_lossy(&answer[..2]).into_owned()).or_insert(0) += 1;
    }
    counts
}

#[test]
fn right_answers_pass_and_changed_digits_fail() {
    let mut random = Random::new(5);
    for input in lines(Kind::Plan, 21, 1_500) {
        let answer = planner::answer(&input);
        assert_eq!(judge(&input, &answer), Ok(()));
        let mut changed = answer.clone();
        let place = random.place(changed.len());
        changed[place] = random.pick(b"0123456789abcdefA");
        assert_eq!(
            judge(&input, &changed).is_ok(),
            changed == answer,
            "{}",
            changed.escape_ascii()
        );
    }
}

#[test]
fn every_answer_is_met() {
    let plan = numbers(lines(Kind::Plan, 22, 2_000).iter().map(|line| planner::answer(line)));
    let wanted = ["00", "01", "02", "03", "04", "05", "07", "0c", "0d"];
    assert_eq!(plan.keys().collect::<Vec<_>>(), wanted);
    assert!(plan["00"] > 500 && plan["07"] > 400, "{plan:?}");
    let calls = |call| {
        numbers(lines(Kind::Call(call), 22, 2_000).iter().map(|line| call_line::answer(line)))
    };
    let check = calls(Call::Check);
    assert_eq!(check.keys().collect::<Vec<_>>(), ["00", "01", "02", "08", "0c"]);
    let walk = calls(Call::Walk);
    let wanted = ["00", "01", "02", "08", "09", "0a", "0b", "0c"];
    assert_eq!(walk.keys().collect::<Vec<_>>(), wanted);
    println!("{plan:?}\n{check:?}\n{walk:?}");
}

/// Units counted instant by instant, as the finish is defined.
fn finish_by_steps(frame: u64, pieces: &[Piece], task: u64, begin: u64, units: u64) -> u64 {
    let has = |instant: u64| {
        let within = instant % frame;
        let covers = |piece: &Piece| piece.start <= within && within < piece.end();
        pieces.iter().any(|piece| piece.task == task && covers(piece))
    };
    let mut had = 0;
    let mut instant = begin;
    while had < units {
        had += u64::from(has(instant));
        instant += 1;
    }
    instant
}

#[test]
fn finishes_agree_with_counting_by_steps() {
    let mut random = Random::new(7);
    for input in lines(Kind::Plan, 23, 300) {
        let answer = planner::answer(&input);
        let Some(set) = second::set::read(&input).filter(|set| set.frame <= 12) else { continue };
        let Some(pieces) = accepted::read(&answer).filter(|pieces| !pieces.is_empty()) else {
            continue;
        };
        let task = random.pick(&pieces).task;
        let mut releases: Vec<u64> = (0..6).map(|_| random.below(60)).collect();
        releases.sort_unstable();
        let units: Vec<u64> = (0..6).map(|_| random.below(9)).collect();
        let mut clock = 0;
        let mut finishes = Vec::new();
        for (&release, &asked) in releases.iter().zip(&units) {
            clock = finish_by_steps(set.frame, &pieces, task, release.max(clock), asked);
            finishes.push(clock);
        }
        let walked = walk(set.frame, &pieces, task, (&releases, &units), 6);
        assert_eq!(walked, Walked::Finishes(finishes));
    }
}

#[test]
fn refused_walks_name_their_job() {
    let table = [Piece { core: 0, task: 3, start: 1, length: 2 }];
    let walk = |task, releases: &[u64], units: &[u64], room| {
        walk(5, &table, task, (releases, units), room)
    };
    assert_eq!(walk(3, &[1, 2], &[1], 9), Walked::BadList(0));
    assert_eq!(walk(3, &[0; 4_097], &[0; 4_097], 9), Walked::BadList(0));
    assert_eq!(walk(3, &[5, 4], &[1, 1], 0), Walked::BadList(1));
    assert_eq!(walk(3, &[0, 1_000_000_000_001], &[1, 1], 2), Walked::BadList(1));
    assert_eq!(walk(4, &[0, 0], &[0, 1_000_001], 2), Walked::BadList(1));
    assert_eq!(walk(4, &[0, 0, 0], &[0, 1, 1], 0), Walked::NoUnits(1));
    assert_eq!(walk(64, &[7, 9], &[0, 0], 2), Walked::Finishes(vec![7, 9]));
    assert_eq!(walk(3, &[7, 9], &[0, 0], 1), Walked::NoRoom);
    assert_eq!(walk(3, &[], &[], 0), Walked::Finishes(vec![]));
}

/// Every limit of a job list can be met by a line, and a longer line is refused.
#[test]
fn long_lines_up_to_the_limit() {
    let piece = |core| Piece { core, task: 0, start: 0, length: 1 };
    let answer = |jobs: usize, pieces: u64| {
        let words = to_words(&(0..pieces).map(piece).collect::<Vec<_>>());
        let (releases, units) = (vec![0; jobs], vec![0; jobs]);
        let walk = Walk { frame: 1, cores: 1, task: 0, room: jobs, words, releases, units };
        let line = walk_line::write(&walk);
        (line.len(), call_line::answer(&line))
    };
    let (_, accepted) = answer(4_096, 1);
    assert_eq!(accepted.len(), 2 + 16 * 4_096);
    assert_eq!(answer(4_097, 1), (98_402, b"0900000000".to_vec()));
    assert_eq!(answer(4_098, 19), (call_line::MOST_DIGITS, b"08".to_vec()));
    assert_eq!(answer(4_098, 20), (call_line::MOST_DIGITS + 32, b"0c".to_vec()));
}

#[test]
fn the_last_line_without_a_line_feed_counts_if_it_has_a_byte() {
    let outcome = |input: &[u8], output: &[u8]| match judge_all(input, output, judge) {
        Ok(Outcome::AllRight(judged)) => (judged, true),
        Ok(Outcome::Wrong(line, _)) => (line, false),
        Err(_) => unreachable!("a slice can be read"),
    };
    assert_eq!(outcome(b"", b""), (0, true));
    assert_eq!(outcome(b"\n", b"0c\n"), (1, true));
    assert_eq!(outcome(b"x\n0", b"0c\n0c\n"), (2, true));
    assert_eq!(outcome(b"x\n0", b"0c\n"), (2, false));
    assert_eq!(outcome(b"x\n", b"0c\n0c\n"), (2, false));
    assert_eq!(outcome(b"x\n", b"0c"), (1, false));
    assert_eq!(outcome(b"x\n0", b"0c\n01\n"), (2, false));
}
