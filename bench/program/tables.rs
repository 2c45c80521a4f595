//! Lookups of the table alone, without a filter in front.

use crate::numbers::{Numbers, Pair, Pairs, middle};
use std::collections::{BTreeMap, HashMap};
use std::hint::black_box;
use std::time::Instant;

/// Nanoseconds for a lookup of a held pair, and of an absent one.
pub struct Lookups {
    pub hash: [f64; 2],
    pub tree: [f64; 2],
    pub search: [f64; 2],
}

fn timed(rounds: usize, keys: &[Pair], look: impl Fn(&Pair) -> bool) -> f64 {
    let times: Vec<f64> = (0..rounds)
        .map(|_| {
            let begun = Instant::now();
            let n = black_box(keys).iter().filter(|it| look(it)).count();
            black_box(n);
            begun.elapsed().as_nanos() as f64 / keys.len() as f64
        })
        .collect();
    middle(&times)
}

pub fn measure(numbers: &mut Numbers, pairs: &Pairs, questions: usize, rounds: usize) -> Lookups {
    let (held, absent) = pairs.all.split_at(pairs.held);
    let mut sorted: Vec<(Pair, i16)> = held.iter().map(|it| (*it, it.0 as i16)).collect();
    sorted.sort_unstable();
    let hash: HashMap<Pair, i16> = sorted.iter().copied().collect();
    let tree: BTreeMap<Pair, i16> = sorted.iter().copied().collect();
    let asked = [held, absent].map(|from| -> Vec<Pair> {
        (0..questions)
            .map(|_| from[numbers.below(from.len())])
            .collect()
    });
    let each = |look: &dyn Fn(&[Pair]) -> f64| [look(&asked[0]), look(&asked[1])];
    Lookups {
        hash: each(&|keys| timed(rounds, keys, |it| hash.get(it).is_some())),
        tree: each(&|keys| timed(rounds, keys, |it| tree.get(it).is_some())),
        search: each(&|keys| {
            timed(rounds, keys, |it| {
                sorted.binary_search_by_key(it, |it| it.0).is_ok()
            })
        }),
    }
}
