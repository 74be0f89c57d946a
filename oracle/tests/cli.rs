//! The program as it is run.

use std::fs;
use std::io::Write;
use std::os::unix::fs::PermissionsExt;
use std::path::PathBuf;
use std::process::{Command, Output, Stdio};

const ORACLE: &str = env!("CARGO_BIN_EXE_oracle");

fn oracle(args: &[&str], input: &str) -> Output {
    let mut child = Command::new(ORACLE)
        .args(args)
        .stdin(Stdio::piped())
        .stdout(Stdio::piped())
        .stderr(Stdio::piped())
        .spawn()
        .unwrap();
    child.stdin.take().unwrap().write_all(input.as_bytes()).unwrap();
    child.wait_with_output().unwrap()
}

fn stdout(o: &Output) -> String {
    String::from_utf8(o.stdout.clone()).unwrap()
}

/// A program that writes the original's transcript through `filter`.
fn wrapper(name: &str, filter: &str) -> PathBuf {
    let path = PathBuf::from(env!("CARGO_TARGET_TMPDIR")).join(name);
    fs::write(&path, format!("#!/bin/sh\n'{ORACLE}' transcript - {filter}\n")).unwrap();
    fs::set_permissions(&path, fs::Permissions::from_mode(0o755)).unwrap();
    path
}

#[test]
fn transcript_reads_standard_input_and_files() {
    let list = stdout(&oracle(&["generate", "4", "3", "20"], ""));
    let answers = oracle(&["transcript", "-"], &list);
    assert!(answers.status.success());
    let path = PathBuf::from(env!("CARGO_TARGET_TMPDIR")).join("three.calls");
    fs::write(&path, &list).unwrap();
    let again = oracle(&["transcript", path.to_str().unwrap()], "");
    assert_eq!(answers.stdout, again.stdout);
    let ends = stdout(&answers).lines().filter(|l| l.starts_with("end ")).count();
    assert_eq!(ends, list.lines().filter(|l| *l == "profile").count());
}

#[test]
fn wrong_use_is_told() {
    for args in [
        &[][..],
        &["transcript"],
        &["transcript", "no/such/list"],
        &["generate", "1", "1", "1", "nothing"],
        &["generate", "x", "1", "1"],
        &["compare", "no/such/program", "1", "1"],
    ] {
        let o = oracle(args, "");
        assert!(!o.status.success(), "{args:?}");
        assert!(o.stdout.is_empty() && !o.stderr.is_empty(), "{args:?}");
    }
}

#[test]
fn compare_agrees_with_itself() {
    let same = wrapper("same", "");
    let o = oracle(&["compare", same.to_str().unwrap(), "1", "6"], "");
    assert!(o.status.success());
    assert!(stdout(&o).starts_with("compare with the original: "));
}

#[test]
fn compare_finds_and_shrinks_a_difference() {
    let wrong = wrapper("wrong", "| sed 's/^turn ok/turn done/'");
    let o = oracle(&["compare", wrong.to_str().unwrap(), "5", "6"], "");
    assert!(!o.status.success());
    let list = stdout(&o);
    assert!(list.starts_with("# difference at line "), "{list}");
    assert!(list.contains("# the original: turn ok\n# the program:  turn done\n"));
    let calls = list
        .lines()
        .filter(|l| l.starts_with("turn ") || l.starts_with("connect "))
        .count();
    assert_eq!(calls, 2, "{list}");
    assert_eq!(list.lines().last().map(|l| l.starts_with("turn ")), Some(true));
}

#[test]
fn audit_reports_what_it_reached() {
    let o = oracle(&["audit", "3", "60", "40"], "");
    assert!(o.status.success());
    assert!(stdout(&o).starts_with("audit of the original: no violation in 60 lists, "));
}
