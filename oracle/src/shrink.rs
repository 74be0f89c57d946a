//! Cuts a list down while it still shows what it showed.

use std::time::{Duration, Instant};

use crate::list::{Call, Item};
use crate::profile::Profile;

const TIME: Duration = Duration::from_secs(12);

/// `shows` is true of `items`, and of the result.
pub fn shrink(mut items: Vec<Item>, shows: &mut dyn FnMut(&[Item]) -> bool) -> Vec<Item> {
    let until = Instant::now() + TIME;
    // One profile with its calls, if that is enough.
    let starts: Vec<usize> = (0..items.len())
        .filter(|&i| matches!(items[i], Item::Profile(_)))
        .collect();
    if starts.len() > 1 {
        for (k, &from) in starts.iter().enumerate().rev() {
            let to = starts.get(k + 1).copied().unwrap_or(items.len());
            let part = items[from..to].to_vec();
            if shows(&part) {
                items = part;
                break;
            }
        }
    }
    // Calls, in ever smaller runs, again while that helps.
    loop {
        let before = items.len();
        let mut run = (items.len() / 2).max(1);
        loop {
            let mut i = 0;
            while i < items.len() {
                if Instant::now() > until {
                    return items;
                }
                let end = (i + run).min(items.len());
                if items[i..end].iter().all(|x| !matches!(x, Item::Profile(_))) {
                    let mut fewer = items[..i].to_vec();
                    fewer.extend_from_slice(&items[end..]);
                    if shows(&fewer) {
                        items = fewer;
                        continue;
                    }
                }
                i = end;
            }
            if run == 1 {
                break;
            }
            run /= 2;
        }
        if items.len() == before {
            break;
        }
    }
    // Lines of the profile, back to the usual ones.
    for i in 0..items.len() {
        let Item::Profile(p) = &items[i] else { continue };
        let mut p = p.clone();
        for line in 0..p.values.len() {
            if Instant::now() > until {
                return items;
            }
            let mut nearer = p.clone();
            nearer.values[line] = Profile::usual().values[line].clone();
            let mut other = items.clone();
            other[i] = Item::Profile(nearer.clone());
            if shows(&other) {
                items = other;
                p = nearer;
            }
        }
    }
    // Queued bytes.
    for i in 0..items.len() {
        loop {
            if Instant::now() > until {
                return items;
            }
            let Item::Call(Call::Queue(bytes, said)) = &items[i] else {
                break;
            };
            let n = bytes.len();
            let mut shorter = None;
            for less in [n / 2, n.saturating_sub(1)] {
                if less == n {
                    continue;
                }
                let mut other = items.clone();
                other[i] = Item::Call(Call::Queue(bytes[..less].to_vec(), *said));
                if shows(&other) {
                    shorter = Some(other);
                    break;
                }
            }
            match shorter {
                Some(other) => items = other,
                None => break,
            }
        }
    }
    items
}

#[cfg(test)]
mod tests {
    use super::*;

    #[test]
    fn keeps_only_what_is_needed() {
        let mut items = vec![Item::Profile(Profile::usual())];
        for n in 0..50 {
            items.push(Item::Call(Call::Piece(n)));
            items.push(Item::Call(Call::queue(vec![0; n as usize])));
        }
        let mut shows = |items: &[Item]| {
            items.iter().any(|i| matches!(i, Item::Call(Call::Piece(31))))
                && items
                    .iter()
                    .any(|i| matches!(i, Item::Call(Call::Queue(b, _)) if b.len() >= 7))
        };
        let small = shrink(items, &mut shows);
        assert_eq!(small.len(), 3);
        assert!(
            small
                .iter()
                .any(|i| matches!(i, Item::Call(Call::Queue(b, _)) if b.len() == 7))
        );
    }
}
