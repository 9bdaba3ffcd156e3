//! The weighted add-on alone, in three ways: directly, as the library works it
//! out; by the share, as it did before request A.5, which ends where its
//! product fits 64 bits; and by halving down to zero, as document 01 words it.

use std::hint::black_box;
use std::time::Instant;

use super::{Timing, REPETITIONS};
use crate::generate::Random;
use crate::library::{addon_by_halving, addon_by_share, addon_directly};

/// All different, and too many for a processor to learn them by heart.
const SETS: usize = 1 << 14;

struct Set {
    add_on: u64,
    gross: u64,
    losses: u64,
}

/// The bits of a gross value and of an add-on: as eight trades of the books
/// above have them, where the product fits; and as much as a book can hold.
const SIZES: [(&str, u32, u32); 2] = [("ordinary", 23, 34), ("largest", 45, 60)];

/// What is lost where this much is gained.
type Losses = fn(u64, &mut Random) -> u64;

const KINDS: [(&str, Losses); 3] = [
    ("N = G", |_, _| 0),
    ("N = 0 < G", |gross, random| gross + below(gross, random)),
    ("neither", |gross, random| 1 + below(gross - 1, random)),
];

type Way = fn(u64, u64, u64) -> Option<u64>;

const WAYS: [Way; 3] = [addon_directly, addon_by_share, addon_by_halving];

const NOTES: &str = "\
The weighted add-on of a set, each in a call of its own: best times in ns, and
ratios in the middle of all repetitions.
";

pub fn run() {
    println!("{NOTES}");
    println!("| set | gross and add-on | directly, ns | by the share, ns | by halving, ns | share over directly | halving over directly | noise |");
    println!("|---|---|--:|--:|--:|--:|--:|---|");
    for (kind, losses) in KINDS {
        for (size, gross_bits, add_on_bits) in SIZES {
            let mut random = Random::new(7);
            let sets: Vec<Set> = (0..SETS)
                .map(|_| set(gross_bits, add_on_bits, losses, &mut random))
                .collect();
            for set in &sets {
                let fits = set.add_on.checked_mul(5 * set.gross).is_some();
                assert_eq!(fits, size == "ordinary");
                check(set);
            }
            measure(kind, size, &sets);
        }
    }
    for (add_on, gross) in [(u64::MAX, 1), (1, 0), (1, 1 << 59)] {
        for way in WAYS {
            assert_eq!(way(add_on, gross, 0), None);
        }
    }
    let refused = [Set {
        add_on: u64::MAX,
        gross: 0,
        losses: 0,
    }];
    measure("refused", "the call alone", &refused);
}

/// From 0 to one less than `limit`.
fn below(limit: u64, random: &mut Random) -> u64 {
    random.next() % limit
}

fn set(gross_bits: u32, add_on_bits: u32, losses: Losses, random: &mut Random) -> Set {
    let mut with_bits = |bits: u32| (1 << (bits - 1)) + below(1 << (bits - 1), random);
    let (gross, add_on) = (with_bits(gross_bits), with_bits(add_on_bits));
    Set {
        add_on,
        gross,
        losses: losses(gross, random),
    }
}

/// All three ways answer what a wide product gives.
fn check(set: &Set) {
    let net = set.gross.saturating_sub(set.losses);
    let product = u128::from(set.add_on) * u128::from(2 * set.gross + 3 * net);
    let weighted = product.div_ceil(u128::from(5 * set.gross));
    for way in WAYS {
        let answer = way(set.add_on, set.gross, set.losses);
        assert_eq!(answer.map(u128::from), Some(weighted));
    }
}

fn measure(kind: &str, size: &str, sets: &[Set]) {
    let [mut directly, mut by_share, mut by_halving] = [(); 3].map(|()| Timing::default());
    for _ in 0..REPETITIONS {
        // In turns, so that a change in the machine's pace meets all of them.
        directly.times.push(time(sets, addon_directly));
        by_share.times.push(time(sets, addon_by_share));
        by_halving.times.push(time(sets, addon_by_halving));
    }
    println!(
        "| {kind} | {size} | {:.1} | {:.1} | {:.1} | {:.1} | {:.1} | {:.0}%, {:.0}%, {:.0}% |",
        directly.best(),
        by_share.best(),
        by_halving.best(),
        by_share.ratio(&directly),
        by_halving.ratio(&directly),
        directly.noise(),
        by_share.noise(),
        by_halving.noise(),
    );
}

fn time(sets: &[Set], way: Way) -> f64 {
    let rounds = SETS / sets.len();
    let start = Instant::now();
    for _ in 0..rounds {
        for set in sets {
            black_box(way(set.add_on, set.gross, set.losses));
        }
    }
    start.elapsed().as_nanos() as f64 / SETS as f64
}
