//! The books of the benchmark, and the items that they are filled with.

use crate::generate::{correct_count, word, Random, LAST_QUALIFYING_GRADE, MOST_NAMES};
use crate::samples::SAMPLE_DATE;

/// Writes one item, with its members, of about the same words each time.
pub type Item = fn(&mut Vec<u32>, &mut Random);

/// Books, their items, and the words for each protection if there is any.
pub const BOOKS: [(&str, Item, Option<usize>); 9] = [
    ("assets", asset, None),
    ("netted derivatives", netted_set, None),
    ("netted, N = G", gains_alone, None),
    ("netted, N = 0", losses_outweigh, None),
    ("covered credit", covered_set, Some(64)),
    ("baskets", basket_set, None),
    ("financing", financing_set, None),
    ("off-balance", off_balance, None),
    ("mixed", mixed, Some(256)),
];

/// A book of as many items as fit into `size` words.
pub fn book(
    size: usize,
    words_per_protection: Option<usize>,
    item: Item,
    random: &mut Random,
) -> Vec<u32> {
    let protections = words_per_protection.map_or(0, |words| size / words);
    fill(head(protections.min(4_096)), size, item, random)
}

/// The head and protections that are all large enough for the covers that will name
/// them.
pub fn head(protections: usize) -> Vec<u32> {
    let mut words = vec![word(1, protections as u32), 1_000_000, SAMPLE_DATE];
    for _ in 0..protections {
        words.extend([word(3, 5 | 9 << 16), (1 << 27) - 1, 0, 65_535]);
    }
    words
}

/// Goes on with as many items, or members of the last set, as fit, up to the end.
pub fn fill(mut words: Vec<u32>, size: usize, item: Item, random: &mut Random) -> Vec<u32> {
    loop {
        let fitting = words.len();
        item(&mut words, random);
        if words.len() >= size {
            words.truncate(fitting);
            break;
        }
    }
    words.push(word(15, 0));
    correct_count(&mut words);
    words
}

pub fn asset(words: &mut Vec<u32>, random: &mut Random) {
    let fiduciary = u32::from(random.one_in(8));
    let (provision, deducted) = (random.below(1_000), random.below(1_000));
    let carrying = 2_000 + random.below(1 << 20);
    words.extend([word(2, fiduciary), carrying, provision, deducted]);
}

/// Writes the value of a trade.
type Value = fn(&mut Random) -> u32;

const GAINS_BELOW: u32 = 1 << 20;
const NEGATIVE: u32 = 1 << 27;

fn gain(random: &mut Random) -> u32 {
    1 + random.below(GAINS_BELOW)
}

fn value(random: &mut Random) -> u32 {
    gain(random) | (u32::from(random.one_in(2)) * NEGATIVE)
}

/// Gains and losses at random: in half of these sets N is 0, in hardly any G.
pub fn netted_set(words: &mut Vec<u32>, random: &mut Random) {
    netted(words, random, [value; 8]);
}

fn gains_alone(words: &mut Vec<u32>, random: &mut Random) {
    netted(words, random, [gain; 8]);
}

fn losses_outweigh(words: &mut Vec<u32>, random: &mut Random) {
    let mut values: [Value; 8] = [|random| NEGATIVE | (GAINS_BELOW + gain(random)); 8];
    values[0] = gain;
    netted(words, random, values);
}

/// A netted set of eight trades with these values.
fn netted(words: &mut Vec<u32>, random: &mut Random, values: [Value; 8]) {
    let cash = [random.below(1_000), random.below(1_000), 0];
    words.push(word(4, random.pick(&[1, 31])));
    words.extend(cash);
    for value in values {
        trade(words, random, value);
    }
}

fn trade(words: &mut Vec<u32>, random: &mut Random, value: Value) {
    let class = random.below(5);
    let resets = random.below(2);
    let days = random.below(4_000);
    let reset = match resets {
        0 => days,
        _ => random.below(days + 1),
    };
    words.push(word(5, class | 1 << 3 | resets << 11));
    words.extend([value(random), random.below(1 << 24), days, reset]);
}

/// A trade with a gain or a loss at random.
pub fn any_trade(words: &mut Vec<u32>, random: &mut Random) {
    trade(words, random, value);
}

pub fn covered_set(words: &mut Vec<u32>, random: &mut Random) {
    let protections = words[0] & 0x0FFF_FFFF;
    words.extend([word(4, 1), 0, 0, 0]);
    for _ in 0..4 {
        let marks = random.below(8) << 20;
        let (rank, days) = (random.below(10), random.below(4_000));
        words.push(word(6, 5 | rank << 16 | marks));
        words.extend([value(random), 1 << 16, 0, days, random.below(4_000)]);
        for _ in 0..random.below(3) {
            let amount = random.between(1, 1 << 10);
            words.extend([word(7, random.below(protections)), amount]);
        }
    }
}

/// A netted set of four baskets. Half of the grades qualify, so that both factors
/// come.
pub fn basket_set(words: &mut Vec<u32>, random: &mut Random) {
    words.extend([word(4, 1), 0, 0, 0]);
    for _ in 0..4 {
        let names = random.between(1, MOST_NAMES);
        let nth = random.between(1, names);
        words.push(word(11, nth | names << 6));
        words.extend([value(random), random.below(1 << 24)]);
        let grade = |_| LAST_QUALIFYING_GRADE - 4 + random.below(10);
        words.extend((0..names).map(grade));
    }
}

pub fn financing_set(words: &mut Vec<u32>, random: &mut Random) {
    words.push(word(8, random.below(2)));
    let mut days = 0;
    for _ in 0..8 {
        days += random.below(2);
        financing_trade(words, random, days);
    }
}

pub fn financing_trade(words: &mut Vec<u32>, random: &mut Random, days: u32) {
    let [securities, receivable] = [(); 2].map(|()| random.below(1 << 20));
    let [payable, lent, received] = [(); 3].map(|()| random.below(1 << 20));
    words.push(word(9, random.below(2)));
    words.extend([securities + receivable, securities, receivable]);
    words.extend([payable, lent, received, days]);
}

pub fn off_balance(words: &mut Vec<u32>, random: &mut Random) {
    let payload = random.below(11) | random.below(12) << 4;
    words.extend([word(10, payload), random.below(1 << 24)]);
}

/// All kinds of items in turn, as a bank's book has them.
fn mixed(words: &mut Vec<u32>, random: &mut Random) {
    for item in [
        asset,
        netted_set,
        off_balance,
        covered_set,
        financing_set,
        asset,
        basket_set,
    ] {
        item(words, random);
    }
}
