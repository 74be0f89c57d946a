//! Runs the original Rust sender on call lists. See README.md.

use std::fs;
use std::io::{self, Read, Write};
use std::process::ExitCode;

mod active;
mod audit;
mod bench;
mod chan;
mod compare;
mod exp;
mod fec;
mod gear;
mod generate;
mod harness;
mod levels;
mod link;
mod list;
mod listening;
mod messages;
mod phy;
mod phy_mfsk;
mod profile;
mod profiles;
mod progress;
mod rng;
mod shrink;
#[cfg(feature = "port")]
mod speed;
#[cfg(test)]
mod tests;
mod transcript;

include!(concat!(env!("OUT_DIR"), "/level_mod.rs"));

const USAGE: &str = "usage:
  oracle transcript LIST                     the original's transcript of a call list (- for standard input)
  oracle generate SEED LISTS CALLS [KIND]    LISTS call lists of about CALLS calls each
  oracle audit [SEED LISTS CALLS [KIND]]     demand 3 and the sound record on generated lists
  oracle gear SEED COUNT                     COUNT decisions of the original's gear, as crates/gear_cases reads them
  oracle levels SEED COUNT                   the original's level_for under COUNT random sets of thresholds, as tests/levels.c reads it
  oracle bench                               nanoseconds of the original's on_ack in Goodput: the median, the quartiles
  oracle speed                               times of the original and of the port side by side (only with the feature port)
  oracle records SEED COUNT                  COUNT sound records that no list reaches, a call on each, through both (the feature port)
  oracle receive SEED COUNT                  receptions through the port's box and a second one, from COUNT sound records (the feature port)
  oracle compare PROGRAM SECONDS SEED [KIND] PROGRAM, which reads a list and writes its transcript, against the original";

fn read_list(name: &str) -> Result<Vec<u8>, String> {
    let mut text = Vec::new();
    if name == "-" {
        io::stdin()
            .read_to_end(&mut text)
            .map_err(|e| format!("standard input: {e}"))?;
    } else {
        text = fs::read(name).map_err(|e| format!("{name}: {e}"))?;
    }
    Ok(text)
}

fn put(bytes: &[u8]) -> Result<(), String> {
    let mut out = io::stdout().lock();
    out.write_all(bytes)
        .and_then(|()| out.flush())
        .map_err(|e| format!("standard output: {e}"))
}

fn number(word: &str) -> Result<u64, String> {
    list::read_whole(word.as_bytes()).ok_or_else(|| format!("no whole number: {word}"))
}

fn count(word: &str) -> Result<usize, String> {
    Ok(number(word)?.clamp(1, 1_000_000) as usize)
}

fn run(args: &[&str]) -> Result<(), String> {
    exp::check().map_err(|e| format!("exp is not document 01's E here: {e}"))?;
    match args {
        ["transcript", list] => put(transcript::transcript(&read_list(list)?).as_bytes()),
        ["generate", seed, lists, calls] => {
            put(&generate::generate(number(seed)?, number(lists)?, count(calls)?, None)?)
        }
        ["generate", seed, lists, calls, kind] => put(&generate::generate(
            number(seed)?,
            number(lists)?,
            count(calls)?,
            Some(kind),
        )?),
        ["gear", seed, replies] => put(&gear::gear(number(seed)?, number(replies)?.clamp(1, 1_000_000))),
        ["levels", seed, sets] => levels::levels(number(seed)?, number(sets)?, put),
        ["bench"] => {
            let [low, median, high] = bench::bench();
            put(format!("{median:.1} {low:.1} {high:.1}\n").as_bytes())
        }
        #[cfg(feature = "port")]
        ["speed"] => speed::speed(),
        #[cfg(feature = "port")]
        ["records", seed, count] => speed::records::records(number(seed)?, number(count)?),
        #[cfg(feature = "port")]
        ["receive", seed, count] => speed::receptions::receptions(number(seed)?, number(count)?),
        ["audit"] => audit::audit(1, 4000, 80, None),
        ["audit", seed, lists, calls] => audit::audit(number(seed)?, number(lists)?, count(calls)?, None),
        ["audit", seed, lists, calls, kind] => {
            let kind = generate::kind_named(kind)?;
            audit::audit(number(seed)?, number(lists)?, count(calls)?, Some(kind))
        }
        ["compare", program, seconds, seed] => compare::compare(program, number(seconds)?, number(seed)?, None),
        ["compare", program, seconds, seed, kind] => {
            let kind = generate::kind_named(kind)?;
            compare::compare(program, number(seconds)?, number(seed)?, Some(kind))
        }
        _ => Err(USAGE.to_string()),
    }
}

fn main() -> ExitCode {
    let args: Vec<String> = std::env::args().skip(1).collect();
    let args: Vec<&str> = args.iter().map(String::as_str).collect();
    match run(&args) {
        Ok(()) => ExitCode::SUCCESS,
        Err(e) => {
            eprintln!("{e}");
            ExitCode::FAILURE
        }
    }
}
