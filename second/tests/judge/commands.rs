//! The commands as a person meets them.

use std::path::PathBuf;
use std::process::{Command, Output};

fn judge(arguments: &[&str]) -> Output {
    Command::new(env!("CARGO_BIN_EXE_judge")).args(arguments).output().unwrap()
}

fn file(name: &str, bytes: &[u8]) -> PathBuf {
    let path = PathBuf::from(env!("CARGO_TARGET_TMPDIR")).join(name);
    std::fs::write(&path, bytes).unwrap();
    path
}

#[test]
fn wrong_arguments_get_one_line_and_2() {
    let cases: [&[&str]; 9] = [
        &[],
        &["plan"],
        &["plan", "/no/such/file", "/dev/null"],
        &["plan", "/dev/null", "/no/such/file"],
        &["plan", "/dev", "/dev/null"],
        &["plans", "/dev/null", "/dev/null"],
        &["generate", "plan", "many", "1"],
        &["generate", "plans", "1", "1"],
        &["generate", "plan", "1"],
    ];
    for arguments in cases {
        let output = judge(arguments);
        assert_eq!(output.status.code(), Some(2), "{arguments:?}");
        assert!(output.stdout.is_empty());
        let error = String::from_utf8(output.stderr).unwrap();
        assert_eq!(error.lines().count(), 1, "{error}");
        assert!(error.starts_with("judge: "), "{error}");
    }
}

#[test]
fn the_first_wrong_line_is_named() {
    let input = file("named.in", b"\n0000000a0200\n0000000a0200\n");
    let right = file("named.right", b"0c\n000000\n000000\n");
    let wrong = file("named.wrong", b"0c\n0c\n0c\n");
    let [input, right, wrong] = [&input, &right, &wrong].map(|path| path.to_str().unwrap());
    let output = judge(&["plan", input, right]);
    assert_eq!(output.status.code(), Some(0));
    assert_eq!(output.stdout, b"3 lines judged, 0 wrong\n");
    let output = judge(&["plan", input, wrong]);
    assert_eq!(output.status.code(), Some(1));
    assert_eq!(output.stderr, b"line 2: wanted an accepted answer, found `0c`\n");
}

#[test]
fn one_seed_gives_one_file() {
    for kind in ["plan", "check", "moves", "walk"] {
        let once = judge(&["generate", kind, "50", "3"]).stdout;
        let again = judge(&["generate", kind, "50", "3"]).stdout;
        assert_eq!(once, again);
        assert_eq!(once.iter().filter(|&&byte| byte == b'\n').count(), 50);
        assert_ne!(once, judge(&["generate", kind, "50", "4"]).stdout);
    }
}

#[test]
fn the_example_lines_are_right() {
    let folder = PathBuf::from(env!("CARGO_MANIFEST_DIR")).join("../examples/lines");
    let [input, output] = ["plan.in", "plan.out"].map(|name| folder.join(name));
    let output = judge(&["plan", input.to_str().unwrap(), output.to_str().unwrap()]);
    assert_eq!(output.status.code(), Some(0), "{output:?}");
}
