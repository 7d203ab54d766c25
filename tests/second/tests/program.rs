//! The program itself: its arguments, what it reads, and how it ends.

mod common;

use std::io::Write;
use std::process::{Command, Output, Stdio};

use common::rising;

/// Runs the program and writes the parts of its input one by one.
fn run(arguments: &[&str], input: &[&[u8]]) -> Output {
    let mut child = Command::new(env!("CARGO_BIN_EXE_second"))
        .args(arguments)
        .stdin(Stdio::piped())
        .stdout(Stdio::piped())
        .stderr(Stdio::piped())
        .spawn()
        .expect("the program starts");
    let mut stdin = child.stdin.take().expect("its input is a pipe");
    for part in input {
        // A program that has read enough may have ended already.
        let _ = stdin.write_all(part).and_then(|()| stdin.flush());
    }
    drop(stdin);
    child.wait_with_output().expect("the program ends")
}

#[test]
fn a_chart_may_come_in_pieces() {
    let chart = common::chart(&[4], &[0, 2, 1, 3], &rising(4));
    let output = run(&["list"], &[&chart[..5], &chart[5..6], &chart[6..]]);
    assert!(output.status.success());
    assert!(output.stdout.ends_with(b"settled yes\norder 1 0 2 3\n"));
}

#[test]
fn a_refused_chart_ends_well_too() {
    for (input, due) in [(8193, "refused 1\n"), (100_000, "refused 1\n")] {
        let output = run(&["list"], &[&vec![0x44; input]]);
        assert_eq!(String::from_utf8_lossy(&output.stdout), due);
        assert!(output.status.success());
    }
}

#[test]
fn play_prints_the_lines() {
    let output = run(&["play"], &[&[9; 40]]);
    assert_eq!(output.stdout, b"end\n");
    assert!(output.status.success());
}

#[test]
fn wrong_arguments_give_one_line_of_usage() {
    for arguments in [&[][..], &["lists"], &["list", "play"]] {
        let output = run(arguments, &[]);
        assert_eq!(output.status.code(), Some(2));
        assert!(output.stdout.is_empty());
        let text = String::from_utf8_lossy(&output.stderr).into_owned();
        assert!(text.starts_with("usage: second"), "{text}");
        assert_eq!(text.lines().count(), 1);
    }
}
