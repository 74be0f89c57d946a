//! The levels that a station under the usual profile can come to use, through the safe wrapper: levels LOW HIGH, reports of which q is
//! q - 24 dB, over a channel without echoes (docs/LEVELS.md). LEVEL:Q for each, Q the lowest report that gives it.

#[path = "link/usual.rs"]
mod usual;

fn main() {
    let reports: Vec<u8> = std::env::args().skip(1).filter_map(|word| word.parse().ok()).collect();
    let [low, high] = reports[..] else {
        eprintln!("usage: levels LOW HIGH");
        std::process::exit(2);
    };
    let class = vanitycrow::ChanClass { echo: false, doppler: false };
    match vanitycrow::levels(&usual::usual(), class, low, high) {
        Ok(listing) => {
            let words: Vec<String> = listing.entries().map(|(level, q)| format!("{level}:{q}")).collect();
            println!("{}", words.join(" "));
        }
        Err(refusal) => {
            eprintln!("refused by {}: {refusal:?}", refusal.number());
            std::process::exit(1);
        }
    }
}
