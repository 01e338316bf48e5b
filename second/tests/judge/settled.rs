//! The settled examples of document 01.

use crate::planner;
use crate::written::{input, right, wrong};
use second::allocation::Allocation;
use second::answers::judge;
use second::call_line::{self, Call};
use second::jobs::{walk, Walked};
use second::table::{from_words, moves, Piece};
use second::{accepted, table_line, walk_line};

const P1_IN: &[u8] = b"000000060203000000040003000000030001000000050002";
const P1_OUT: &str = "000005\
    00000000000000000003\
    00010000000300000003\
    01020000000000000003\
    01000000000300000001\
    01020000000400000002";

fn p1_table() -> Vec<Piece> {
    let words = [0, 0, 0, 3, 0, 1, 3, 3, 1, 2, 0, 3, 1, 0, 3, 1, 1, 2, 4, 2];
    let pieces = from_words(&words).unwrap();
    assert_eq!(accepted::write(&pieces), P1_OUT.as_bytes());
    pieces
}

#[test]
fn p1_is_one_table_with_one_move() {
    assert_eq!(input(6, 2, &[(4, 3), (3, 1), (5, 2)]), P1_IN);
    right(P1_IN, P1_OUT);
    assert_eq!(moves(&p1_table()), 1);
}

#[test]
fn p2_is_overloaded_below_the_total() {
    let line = input(10, 2, &[(8, 1), (8, 1), (3, 2)]);
    assert_eq!(line, b"0000000a0203000000080001000000080001000000030002");
    right(&line, "0700000000000000030001");
}

#[test]
fn p3_takes_the_smaller_group() {
    right(&input(10, 2, &[(6, 1), (6, 1), (10, 2)]), "0700000000000000030001");
}

#[test]
fn p4_refuses_a_budget_above_the_frame() {
    right(&input(10, 2, &[(11, 3)]), "0500");
}

#[test]
fn p5_and_p6_stand_on_both_sides_of_full() {
    right(
        &input(10, 1, &[(5, 1), (5, 1)]),
        "00000200000000000000000005 00010000000500000005".replace(' ', "").as_str(),
    );
    right(&input(10, 1, &[(5, 1), (6, 1)]), "0700000000000000030001");
}

#[test]
fn p7_moves_task_0_out_of_the_way() {
    right(
        &input(10, 2, &[(5, 3), (10, 1)]),
        "00000200010000000000 00000a01000000000000000005".replace(' ', "").as_str(),
    );
}

#[test]
fn p8_has_no_pieces() {
    right(&input(10, 1, &[(0, 1)]), "000000");
}

#[test]
fn p9_and_p10_finish() {
    let table = p1_table();
    let one = walk(6, &table, 0, (&[1], &[4]), 1);
    assert_eq!(one, Walked::Finishes(vec![7]));
    let two = walk(6, &table, 0, (&[4, 13], &[6, 6]), 2);
    assert_eq!(two, Walked::Finishes(vec![14, 22]));
}

#[test]
fn p1_lines_of_the_other_calls() {
    let words = second::table::to_words(&p1_table());
    let answer = |call| call_line::answer(&table_line::write(call, 6, 2, &words));
    assert_eq!(answer(Call::Check), b"00");
    assert_eq!(answer(Call::Moves), b"0000000001");
    let walk = walk_line::Walk {
        frame: 6,
        cores: 2,
        task: 0,
        room: 2,
        words: words.clone(),
        releases: vec![4, 13],
        units: vec![6, 6],
    };
    let line = walk_line::write(&walk);
    assert_eq!(call_line::answer(&line), b"00000000000000000e0000000000000016");
}

#[test]
fn run_examples() {
    right(&input(0, 0, &[]), "01");
    right(&input(10, 2, &[(11, 3), (1, 0)]), "0401");
    right(&input(10, 2, &[]), "000000");
    let shared = input(3, 2, &[(2, 3), (2, 3), (2, 3)]);
    let answer = planner::answer(&shared);
    assert_eq!(judge(&shared, &answer), Ok(()));
    let pieces = accepted::read(&answer).unwrap();
    assert_eq!(Allocation::from_pieces(3, 2, &pieces).extra_assignments(), 1);
}

#[test]
fn shortcuts_are_wrong() {
    // Accepting P2 by its total, and P7 refused because core 0 was filled first.
    wrong(&input(10, 2, &[(8, 1), (8, 1), (3, 2)]), "000000");
    wrong(&input(10, 2, &[(5, 3), (10, 1)]), "0700000000000000030001");
    // A reached core that starts at 0, and a wrapped piece that is dropped.
    wrong(
        P1_IN,
        &P1_OUT.replace("01020000000000000003010000000003", "01000000000000000001010200000001"),
    );
    wrong(P1_IN, &P1_OUT.replace("000005", "000004").replace("01020000000000000003", ""));
    // Another group of greatest excess than the smallest.
    wrong(&input(10, 2, &[(6, 1), (6, 1), (10, 2)]), "0700000000000000070003");
}

/// Tables with the right budgets on allowed cores can still be wrong.
#[test]
fn other_tables_are_wrong() {
    let told = |input: &[u8], words: &[u64]| {
        let output = accepted::write(&from_words(words).unwrap());
        judge(input, &output).unwrap_err()
    };
    let both = input(4, 2, &[(4, 3), (4, 3)]);
    let crossed = [0, 0, 0, 2, 0, 1, 2, 2, 1, 1, 0, 2, 1, 0, 2, 2];
    assert_eq!(told(&both, &crossed), "the allocation has a loop");
    let one = input(10, 1, &[(5, 1), (2, 1)]);
    let late = [0, 0, 1, 5, 0, 1, 6, 2];
    assert!(told(&one, &late).starts_with("piece 0 is not where the allocation puts it"));
    let turned = [0, 1, 0, 2, 0, 0, 2, 5];
    assert!(told(&one, &turned).starts_with("piece 0 is not where the allocation puts it"));
    let split = [0, 0, 0, 2, 0, 0, 2, 3, 0, 1, 5, 2];
    assert!(told(&one, &split).starts_with("piece 0 is not where"));
    let outside = input(10, 2, &[(5, 1)]);
    assert_eq!(told(&outside, &[1, 0, 0, 5]), "task 0 runs on core 1 outside its mask");
    assert_eq!(told(&outside, &[0, 0, 0, 4]), "task 0 has 4 units, its budget is 5");
    assert_eq!(told(&outside, &[0, 1, 0, 5]), "task 1 has a piece but only 1 tasks are given");
}
