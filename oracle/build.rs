//! Takes the six files of the original as they are from ION_HF_SRC, or from a
//! checkout of ion-hf beside the repository, and writes the `mod` lines that
//! compile them.

use std::path::PathBuf;
use std::{env, fs, process};

const FILES: [&str; 6] = [
    "crates/ion/src/level.rs",
    "crates/ion/src/link/frame.rs",
    "crates/ion/src/link/report.rs",
    "crates/ion/src/link/station/config.rs",
    "crates/ion/src/link/station/gear.rs",
    "crates/ion/src/link/station/sender.rs",
];

/// Of station.rs and audio.rs, which are not compiled: what a test compares
/// our stand-ins with.
const PARTS: [(&str, &[&str]); 2] = [
    (
        "crates/ion/src/link/station.rs",
        &[
            "pub const TINY:",
            "pub const CONTROL:",
            "pub const WINDOW_BYTES:",
            "const TINY_ALL:",
            "fn wave_rank(",
            "fn top_level_in(",
            "fn mfsk_levels(",
            "pub fn air_code(",
            "pub fn user_bits(",
        ],
    ),
    ("crates/ion/src/link/audio.rs", &["pub const TD_EASE_DOPPLER_HZ:"]),
];

/// The item of `text` whose first line begins with `start`, made public.
fn item(text: &str, start: &str) -> Option<String> {
    let mut lines = text.lines().skip_while(|l| !l.starts_with(start));
    let first = lines.next()?;
    let mut item = format!("pub {}\n", start.strip_prefix("pub ").unwrap_or(start));
    item.insert_str(item.len() - 1, &first[start.len()..]);
    if first.ends_with('{') {
        for line in lines {
            item += line;
            item.push('\n');
            if line == "}" {
                break;
            }
        }
    }
    Some(item)
}

fn fail(why: String) -> ! {
    eprintln!("{why}");
    process::exit(1);
}

fn main() {
    println!("cargo:rerun-if-env-changed=ION_HF_SRC");
    println!("cargo:rerun-if-changed=build.rs");
    let here = PathBuf::from(env::var("CARGO_MANIFEST_DIR").unwrap());
    let out = PathBuf::from(env::var("OUT_DIR").unwrap());
    let root = match env::var("ION_HF_SRC") {
        Ok(v) if !v.is_empty() => PathBuf::from(v),
        _ => here.join("../../ion-hf"),
    };
    let read = |file: &str| {
        let from = root.join(file);
        println!("cargo:rerun-if-changed={}", from.display());
        fs::read(&from).unwrap_or_else(|e| {
            fail(format!(
                "The original's sources are not at hand: {}: {e}.\n\
                 Check out ion-hf (at 1eb7dca018) beside the repository, or let ION_HF_SRC name the folder\n\
                 that holds crates/ion/src.",
                from.display()
            ))
        })
    };
    for file in FILES {
        let from = root.join(file);
        let bytes = read(file);
        let name = from.file_name().unwrap().to_str().unwrap();
        let stem = name.strip_suffix(".rs").unwrap();
        let copy = out.join(name);
        let lines = format!(
            "#[allow(dead_code, unused_imports, clippy::all)]\n#[path = {:?}]\npub mod {stem};\n",
            copy.display().to_string()
        );
        if let Err(e) = fs::write(&copy, bytes).and_then(|()| fs::write(out.join(format!("{stem}_mod.rs")), lines)) {
            fail(format!("Cannot write {}: {e}", copy.display()));
        }
    }
    let mut parts = String::new();
    for (file, starts) in PARTS {
        let text = String::from_utf8_lossy(&read(file)).into_owned();
        for start in starts {
            parts +=
                &item(&text, start).unwrap_or_else(|| fail(format!("{file} has no line that begins with {start}")));
        }
    }
    if let Err(e) = fs::write(out.join("parts.rs"), parts) {
        fail(format!("Cannot write to {}: {e}", out.display()));
    }
    println!("cargo:rustc-env=ION_HF_SRC_USED={}", root.display());
}
