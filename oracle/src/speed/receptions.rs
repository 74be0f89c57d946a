//! `oracle receive`: receptions through the port's box and through the second one (listening.rs), from any sound record. Answer, record, every place
//! of the window and every byte of the output are compared.

use vanitycrow::raw;

use crate::listening::{self, Listener, OFFSETS, REACH, Slotted};
use crate::rng::Rng;

/// Places lent past the box's own, and bytes of output past the least.
const PAST: usize = 5;

struct Port {
    record: raw::Receiver,
    window: Vec<u16>,
    out: Vec<u8>,
}

/// What is no byte: any place below 256.
fn empty(i: usize) -> u16 {
    (i % 256) as u16
}

impl Port {
    fn of(box_: &Listener, places: usize, out: usize) -> Self {
        let mut window: Vec<u16> = (0..places).map(empty).collect();
        for (&offset, &byte) in &box_.kept {
            let place = (offset - box_.first) as usize;
            if place < places {
                window[place] = 256 + byte as u16;
            }
        }
        for place in window.iter_mut().skip(REACH as usize) {
            *place = 40_000;
        }
        let out = (0..out).map(|i| (i * 7) as u8).collect();
        Self { record: raw::Receiver { first_missing: box_.first as u32 }, window, out }
    }

    fn receive(&mut self, number: u8, db: u8, frames: &[Slotted]) -> raw::Received {
        let bytes: Vec<u8> = frames.iter().flat_map(|f| f.1.clone()).collect();
        let sizes: Vec<u16> = frames.iter().map(|f| f.1.len() as u16).collect();
        let slots: Vec<u8> = frames.iter().map(|f| f.0).collect();
        // SAFETY: pointers and lengths are those of live vectors.
        unsafe {
            raw::vanitycrow_receive(
                &mut self.record,
                self.window.as_mut_ptr(),
                self.window.len(),
                number,
                db,
                bytes.as_ptr(),
                bytes.len(),
                sizes.as_ptr(),
                sizes.len(),
                slots.as_ptr(),
                slots.len(),
                self.out.as_mut_ptr(),
                self.out.len(),
            )
        }
    }
}

/// A refused call: its number, and nothing is changed.
fn refused(box_: &Listener, r: &mut Rng, tally: &mut [u64; 4]) -> Result<(), String> {
    let (mut places, mut out, mut number) = (REACH as usize + PAST, REACH as usize, r.below(4) as u8);
    let mut box_ = box_.clone();
    let (mut three, mut six, mut ten) = (false, false, false);
    match r.below(5) {
        0 => (places, three) = (r.pick(&[0, 1, REACH as usize - 1]), true),
        1 => {
            box_ = Listener { first: OFFSETS + 1 + r.below(3), ..Listener::default() };
            three = true;
        }
        2 => {
            box_.kept.insert(box_.first, 7);
            three = true;
        }
        3 if box_.first + REACH > OFFSETS => {
            box_.kept.insert(OFFSETS + r.below(box_.first + REACH - OFFSETS), 7);
            three = true;
        }
        _ => {}
    }
    if r.flag() || !three {
        (number, six) = (r.pick(&[4, 5, 255]), true);
    }
    if r.flag() {
        (out, ten) = (r.pick(&[0, REACH as usize - 1]), true);
    }
    let want = if three { 3 } else if six { 6 } else { 10 };
    debug_assert!(three || six || ten);
    let mut port = Port::of(&box_, places, out);
    let (first, window, before) = (port.record.first_missing, port.window.clone(), port.out.clone());
    let a = port.receive(number, 9, &listening::frames(r, box_.first));
    tally[3] += 1;
    let kept = port.record.first_missing == first && port.window == window && port.out == before;
    let nothing = a.payload == [0; 13] && a.handed == 0 && a.wrong == 0 && a.beyond == 0;
    (a.refusal == want && kept && nothing).then_some(()).ok_or(format!("refusal {} for {want}, or a refused call changed something", a.refusal))
}

/// Some receptions, one after the other.
fn run(r: &mut Rng, tally: &mut [u64; 4]) -> Result<(), String> {
    let mut box_ = listening::sound(r);
    if r.once_in(4) {
        return refused(&box_, r, tally);
    }
    let past = if r.flag() { PAST } else { 0 };
    let mut port = Port::of(&box_, REACH as usize + past, REACH as usize + past);
    for _ in 0..r.within(1, 6) {
        let frames = listening::frames(r, box_.first);
        let (number, db) = (r.below(4) as u8, r.below(256) as u8);
        let before = port.out.clone();
        let a = port.receive(number, db, &frames);
        let want = box_.receive(number, db, &frames);
        let n = want.handed.len();
        let same = a.refusal == 0 && a.payload[..] == want.payload && a.handed as usize == n && a.wrong == want.wrong && a.beyond == want.beyond;
        if !same || port.record.first_missing as u64 != box_.first {
            return Err(format!("answer {:?} {} {} {}, the second box's {want:?}", a.payload, a.handed, a.wrong, a.beyond));
        }
        if port.out[..n] != want.handed || port.out[n..] != before[n..] {
            return Err("other bytes were handed on".to_string());
        }
        for (i, &place) in port.window.iter().enumerate() {
            let kept = box_.kept.get(&(box_.first + i as u64)).filter(|_| i < REACH as usize);
            let right = match kept {
                Some(&byte) => place == 256 + byte as u16,
                None if i < REACH as usize => place < 256,
                None => place == 40_000,
            };
            if !right {
                return Err(format!("place {i} of the window is {place}"));
            }
        }
        tally[0] += frames.len() as u64 - (want.wrong + want.beyond) as u64;
        tally[1] += want.wrong as u64;
        tally[2] += want.beyond as u64;
    }
    Ok(())
}

pub fn receptions(seed: u64, count: u64) -> Result<(), String> {
    let mut tally = [0; 4];
    for index in 0..count {
        let r = &mut Rng::new(seed, index);
        run(r, &mut tally).map_err(|e| format!("seed {seed}, run {index}: {e}"))?;
    }
    let [taken, wrong, beyond, refused] = tally;
    if count >= 100 && tally.contains(&0) {
        return Err(format!("not every case came: {tally:?}"));
    }
    println!("{count} runs alike (seed {seed}): {taken} frames taken, {wrong} left out by 16, {beyond} by 17, {refused} calls refused");
    Ok(())
}
