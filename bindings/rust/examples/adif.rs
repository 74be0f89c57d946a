//! A finished link as one ADIF record, through the safe wrapper: adif CALL START END ACKED, times in seconds since 1970 (docs/ADIF.md).

use std::io::Write;

fn main() {
    let args: Vec<String> = std::env::args().skip(1).collect();
    let [call, on, off, acked] = &args[..] else {
        eprintln!("usage: adif CALL START END ACKED");
        std::process::exit(2);
    };
    let number = |text: &str| text.parse::<u64>().expect("a whole number");
    let mut out = [0; vanitycrow::ADIF_BYTES];
    match vanitycrow::adif(call.as_bytes(), number(on), number(off), number(acked).try_into().expect("at most 2^32 - 1"), &mut out) {
        Ok(record) => {
            let mut stdout = std::io::stdout();
            stdout.write_all(record).and_then(|()| stdout.write_all(b"\n")).expect("standard output");
        }
        Err(refusal) => {
            eprintln!("refused by {}: {refusal:?}", refusal.number());
            std::process::exit(1);
        }
    }
}
