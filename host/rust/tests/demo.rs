//! The demonstration finds everything right for every set and share count, and answers bad arguments with a sentence.

use std::process::{Command, Output};

fn demo(arguments: &[&str]) -> Output {
    Command::new(env!("CARGO_BIN_EXE_demo")).args(arguments).output().expect("the demonstration runs")
}

#[test]
fn every_set_and_share_count_is_right() {
    for set in ["44", "65", "87"] {
        for n in ["2", "3", "4", "5", "6", "7", "8"] {
            let output = demo(&[set, n]);
            let said = String::from_utf8(output.stdout).expect("it is text");
            assert!(output.status.success() && output.stderr.is_empty(), "{said}");
            assert_eq!(said.matches(": right").count(), 11, "{said}");
            assert!(!said.contains("WRONG"), "{said}");
        }
    }
}

#[test]
fn nothing_chosen_is_set_44_in_three_shares() {
    for arguments in [&[][..], &["44"]] {
        assert!(demo(arguments).stdout.starts_with(b"Parameter set 44, 3 shares"));
    }
}

#[test]
fn bad_arguments_get_a_sentence() {
    let bad: [&[&str]; 12] = [
        &["45"],
        &["44", "1"],
        &["44", "9"],
        &["forty-four"],
        &["44", "three"],
        &["44", "-3"],
        &["44", "99999999999"],
        &[""],
        &["44", "3", "1"],
        &["--help"],
        &["44", "-h"],
        &["87", "4294967298"],
    ];
    for arguments in bad {
        let output = demo(arguments);
        let said = String::from_utf8(output.stderr).expect("it is text");
        assert_eq!(output.status.code(), Some(2), "{arguments:?}: {said}");
        assert!(said.starts_with("demo: ") && said.contains("usage") && said.lines().count() == 1, "{said}");
        assert!(output.stdout.is_empty());
    }
}
