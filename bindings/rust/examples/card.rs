//! The usual profile as a card, through the safe wrapper (docs/CARD.md): card writes it in hexadecimal digits; card DIGITS reads such a card and writes the
//! card of the profile in it, and says where harq_stretch was on.

#[path = "link/usual.rs"]
mod usual;

use vanitycrow::{Profile, Refusal, CARD_BYTES};

fn bytes(digits: &str) -> Vec<u8> {
    let pair = |i| u8::from_str_radix(&digits[i..i + 2], 16).expect("pairs of hexadecimal digits");
    (0..digits.len()).step_by(2).map(pair).collect()
}

fn card() -> Result<[u8; CARD_BYTES], Refusal> {
    match std::env::args().nth(1) {
        Some(digits) => {
            let (profile, stretched) = Profile::from_card(&bytes(&digits))?;
            if stretched {
                eprintln!("harq_stretch, which is retired, was on: read with it off");
            }
            profile.to_card()
        }
        None => usual::usual().to_card(),
    }
}

fn main() {
    match card() {
        Ok(file) => println!("{}", file.iter().map(|b| format!("{b:02x}")).collect::<String>()),
        Err(refusal) => {
            eprintln!("refused by {}: {refusal:?}", refusal.number());
            std::process::exit(1);
        }
    }
}
