//! The layout of the C interface as this crate has it; tests/layout.c writes the header's.

fn main() {
    print!("{}", vanitycrow::raw::layout());
    println!("AREA_BYTES {}", vanitycrow::AREA_BYTES);
    println!("MAX_SLOTS {}", vanitycrow::MAX_SLOTS);
    println!("MAX_MESSAGES {}", vanitycrow::MAX_MESSAGES);
    println!("ADIF_BYTES {}", vanitycrow::ADIF_BYTES);
    println!("LAST_SECOND {}", vanitycrow::LAST_SECOND);
    println!("PLACES {}", vanitycrow::PLACES);
}
