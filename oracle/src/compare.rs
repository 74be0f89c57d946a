//! `oracle compare`: generated lists through another program and through the
//! original, until a transcript differs or the time is over.

use std::io::Write;
use std::process::{Command, Stdio};
use std::thread;
use std::time::{Duration, Instant};

use crate::generate;
use crate::list::{Item, text};
use crate::profile::original;
use crate::progress::Progress;
use crate::shrink::shrink;
use crate::transcript::transcript;

/// What `program` writes when it reads `list`.
fn other(program: &str, list: &[u8]) -> Result<Vec<u8>, String> {
    let mut child = Command::new(program)
        .stdin(Stdio::piped())
        .stdout(Stdio::piped())
        .spawn()
        .map_err(|e| format!("{program}: {e}"))?;
    let mut input = child.stdin.take().expect("standard input is a pipe");
    let list = list.to_vec();
    // A program that ends early closes the pipe; its transcript tells.
    let feeder = thread::spawn(move || drop(input.write_all(&list)));
    let out = child.wait_with_output().map_err(|e| format!("{program}: {e}"))?;
    let _ = feeder.join();
    Ok(out.stdout)
}

fn calls_in(items: &[Item]) -> u64 {
    items
        .iter()
        .map(|i| match i {
            Item::Profile(_) => 0,
            Item::Call(_) => 1,
            Item::Raw(b) => (!b.starts_with(b"profile")) as u64,
        })
        .sum()
}

/// The first line that differs: its number, the original's, the other's.
fn first_difference(ours: &[u8], theirs: &[u8]) -> (usize, String, String) {
    let (a, b) = (String::from_utf8_lossy(ours), String::from_utf8_lossy(theirs));
    let (a, b): (Vec<&str>, Vec<&str>) = (a.lines().collect(), b.lines().collect());
    let n = a.iter().zip(&b).take_while(|(x, y)| x == y).count();
    let line = |v: &[&str]| v.get(n).map_or("(nothing)".to_string(), |s| s.to_string());
    (n + 1, line(&a), line(&b))
}

/// Lists of `kind`, or of all but `levels`, `classes`, `labels` and `frames`.
pub fn compare(program: &str, seconds: u64, seed: u64, kind: Option<&'static str>) -> Result<(), String> {
    let until = Instant::now() + Duration::from_secs(seconds);
    let mut progress = Progress::new();
    let (mut lists, mut calls, mut lines) = (0u64, 0u64, 0u64);
    while lists == 0 || Instant::now() < until {
        let kind = kind.unwrap_or_else(|| generate::kind_of(seed, lists, true));
        let length = [10, 40, 120, 300][(lists % 4) as usize];
        let items = generate::list(seed, lists, length, kind);
        let list = text(&items);
        let ours = transcript(&list);
        let theirs = other(program, &list)?;
        if ours.as_bytes() != theirs {
            progress.done();
            let mut failed = None;
            let small = shrink(items, &mut |items| {
                let list = text(items);
                match other(program, &list) {
                    Ok(theirs) => transcript(&list).as_bytes() != theirs,
                    Err(e) => {
                        failed = Some(e);
                        false
                    }
                }
            });
            if let Some(e) = failed {
                return Err(e);
            }
            let list = text(&small);
            let theirs = other(program, &list)?;
            let (line, want, got) = first_difference(transcript(&list).as_bytes(), &theirs);
            println!("# difference at line {line} of the transcript");
            println!("# {}: {want}", original());
            println!("# the program:  {got}");
            println!("# seed {seed}, list {lists}, {length} calls, {kind}, shrunk");
            print!("{}", String::from_utf8_lossy(&list));
            return Err(format!(
                "a transcript differs, after {lists} lists and {calls} calls alike"
            ));
        }
        lists += 1;
        calls += calls_in(&items);
        lines += ours.lines().count() as u64;
        progress.show(|| format!("compare: {lists} lists, {calls} calls alike"));
    }
    progress.done();
    println!(
        "compare with {}: {lists} lists, {calls} calls, {lines} lines of transcript alike (seed {seed})",
        original()
    );
    Ok(())
}
