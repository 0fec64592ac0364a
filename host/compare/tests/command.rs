//! The command: its words, its lines and its status.

use std::process::{Command, Output};

fn compare(words: &[&str]) -> Output {
    let command = env!("CARGO_BIN_EXE_compare");
    Command::new(command).args(words).output().expect("the command starts")
}

#[test]
fn a_run_without_differences() {
    let output = compare(&["--calls", "60", "--seed", "2", "--first", "100", "--jobs", "1"]);
    assert_eq!(output.status.code(), Some(0));
    let text = String::from_utf8_lossy(&output.stdout);
    let lines: Vec<_> = text.lines().collect();
    assert!(lines[0].starts_with("compare: the judge is the "), "{text}");
    let last = lines[lines.len() - 1];
    assert!(last.starts_with("compare: 60 calls of seed 2, 0 differ, "), "{text}");
}

#[test]
fn wrong_words() {
    for words in [&["--calls"][..], &["--calls", "many"], &["--colour", "7"], &["7"]] {
        let output = compare(words);
        assert_eq!(output.status.code(), Some(2));
        assert!(String::from_utf8_lossy(&output.stderr).contains("usage: compare"));
    }
}
