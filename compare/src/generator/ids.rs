//! Ids of the lines of a part, mostly such that their order in the file is not their order by number:
//! document 02, 2026-04.

use crate::job::LARGEST_ID;
use crate::random::Random;
use std::collections::BTreeSet;

const LARGEST: u16 = LARGEST_ID as u16;

/// Different ids, in file order.
pub fn ids(count: usize, random: &mut Random) -> Vec<u16> {
    let mut ids = rising(count as u16, random);
    if count > 1 {
        arrange(&mut ids, random);
    }
    ids
}

/// Ids from 1, neighbours from anywhere, neighbours about a power of ten, the first and the last ids, or
/// ids from anywhere.
fn rising(count: u16, random: &mut Random) -> Vec<u16> {
    let neighbours = |first| (first..first + count).collect();
    match random.below(6) {
        0 => neighbours(1),
        1 => neighbours(random.draw(1..=LARGEST - count + 1)),
        2 => neighbours(below_a_power_of_ten(count, random)),
        3 => {
            let last = LARGEST - count.div_ceil(2) + 1..=LARGEST;
            (1..=count / 2).chain(last).collect()
        }
        _ => scattered(usize::from(count), random),
    }
}

/// An id from which so many neighbours, if two or more, come to have one digit more.
fn below_a_power_of_ten(count: u16, random: &mut Random) -> u16 {
    let below = random.draw(1..=count.clamp(2, 10) - 1);
    random.pick(&[10, 100, 1_000]) - below
}

/// Ids of one to four digits, often with the first and the last of all.
fn scattered(count: usize, random: &mut Random) -> Vec<u16> {
    let mut ids = BTreeSet::new();
    while ids.len() < count {
        let most = random.pick(&[99, 999, LARGEST, LARGEST]);
        let any = random.draw(1..=most);
        ids.insert(random.pick(&[1, LARGEST, any, any, any, any]));
    }
    ids.into_iter().collect()
}

/// Leaves rising ids so, or makes them fall, exchanges two neighbours, takes the lowest to the end or the
/// highest to the front, or shuffles them.
fn arrange(ids: &mut [u16], random: &mut Random) {
    match random.below(10) {
        0 => {}
        1 | 2 => ids.reverse(),
        3 => {
            let last = ids.len() - 2;
            let any = random.draw(0..=last);
            let at = random.pick(&[0, last, any]);
            ids.swap(at, at + 1);
        }
        4 if random.one_in(2) => ids.rotate_left(1),
        4 => ids.rotate_right(1),
        _ => random.shuffle(ids),
    }
}

#[cfg(test)]
mod tests {
    use super::*;

    #[test]
    fn ids_are_different_and_allowed() {
        for count in [0, 1, 2, 3, 10, 64, 256, 260] {
            for seed in 0..100 {
                let ids = ids(count, &mut Random::of_seed(seed));
                let different: BTreeSet<u16> = ids.iter().copied().collect();
                assert_eq!((ids.len(), different.len()), (count, count));
                assert!(ids.iter().all(|id| (1..=LARGEST).contains(id)));
            }
        }
    }

    #[test]
    fn neighbours_of_both_lengths() {
        for count in 2..=260 {
            for seed in 0..20 {
                let first = below_a_power_of_ten(count, &mut Random::of_seed(seed));
                let digits = |id: u16| id.to_string().len();
                assert!(digits(first) < digits(first + count - 1));
            }
        }
    }
}
