//! Dirty buffers, lent to one filing after another.

#[cfg(test)]
mod tests;

use crate::generate::{Amount, Random};
use crate::model::{Answer, Counted, Entry, Shown, ROWS};

const MOST_ROWS: usize = 40;
/// Somewhat more than the largest count of protections.
const MOST_ENTRIES: usize = 4_200;

/// How much of the buffers a filing is lent.
#[derive(Clone, Copy, Debug)]
pub struct Lengths {
    pub rows: usize,
    pub register: usize,
}

impl Lengths {
    /// Mostly enough for the book, sometimes short by one or more.
    pub fn choose(book: &[u32], random: &mut Random) -> Self {
        let rows = if random.one_in(50) {
            random.index(ROWS)
        } else {
            random.between(ROWS as u32, MOST_ROWS as u32) as usize
        };
        let head = book.first().map_or(0, |word| word & 0x0FFF_FFFF);
        let needed = (head as usize).min(MOST_ENTRIES);
        let register = match random.below(40) {
            0 => needed.saturating_sub(1),
            1 => random.index(needed + 1),
            2..=20 => needed,
            21..=36 => needed + random.index(5),
            _ => random.index(MOST_ENTRIES + 1).max(needed),
        };
        Lengths {
            rows,
            register: register.min(MOST_ENTRIES),
        }
    }
}

/// One side's buffers; what a book leaves in them meets the next book.
#[derive(Clone, PartialEq)]
pub struct Buffers {
    pub rows: Vec<i64>,
    pub register: Vec<Entry>,
}

impl Buffers {
    pub fn dirty(random: &mut Random) -> Self {
        let row = |_| random.next() as i64;
        let rows = (0..MOST_ROWS).map(row).collect();
        let entry = |_| Entry {
            entity: random.word(),
            rank: random.word(),
            days: random.word(),
            left: random.word(),
        };
        let register = (0..MOST_ENTRIES).map(entry).collect();
        Buffers { rows, register }
    }

    pub fn file(&mut self, book: &[u32], lengths: Lengths, filing: Filing) -> Answer {
        let rows = &mut self.rows[..lengths.rows];
        let register = &mut self.register[..lengths.register];
        filing(book, rows, register)
    }

    /// The first difference between two sides, in words.
    pub fn difference(&self, other: &Buffers) -> Option<String> {
        let differ = |a: &[i64], b: &[i64]| a.iter().zip(b).position(|(a, b)| a != b);
        if let Some(index) = differ(&self.rows, &other.rows) {
            let (ours, theirs) = (self.rows[index], other.rows[index]);
            return Some(format!("row {}: {ours} against {theirs}", index + 1));
        }
        if same_entries(&self.register, &other.register) {
            return None;
        }
        let mut entries = self.register.iter().zip(&other.register);
        let index = entries.position(|(ours, theirs)| ours != theirs)?;
        let (ours, theirs) = (self.register[index], other.register[index]);
        Some(format!("entry {index}: {ours:?} against {theirs:?}"))
    }
}

/// Whether two registers are the same. No branch hangs on any entry, so that
/// several are compared at once: much of a run goes into this.
pub fn same_entries(ours: &[Entry], theirs: &[Entry]) -> bool {
    let differing = |(ours, theirs): (&Entry, &Entry)| {
        (ours.entity ^ theirs.entity)
            | (ours.rank ^ theirs.rank)
            | (ours.days ^ theirs.days)
            | (ours.left ^ theirs.left)
    };
    let bits = ours.iter().zip(theirs).map(differing);
    ours.len() == theirs.len() && bits.fold(0, |all, bits| all | bits) == 0
}

pub type Filing = fn(&[u32], &mut [i64], &mut [Entry]) -> Answer;

/// The call that shows a set, by its ordinal.
pub type Showing = for<'a> fn(&'a [u32], usize, &mut [Entry]) -> Shown<'a>;

/// The call that counts the settings of a set, by its ordinal.
pub type Counting = fn(&[u32], usize, &mut [Entry]) -> Counted;

/// The number of an accepted book that has no set of the ordinal asked for, or none
/// of the kind that is due.
pub const NO_SUCH_SET: u32 = 15;

/// The numbers that a filing answers, in the order in which they are judged.
/// `NO_SUCH_SET` is of no filing.
pub const NUMBERS: [u32; 17] = [0, 1, 2, 3, 16, 4, 5, 6, 7, 8, 9, 10, 11, 12, 13, 17, 14];

/// How often each answer came: by number, and by verdict where accepted.
#[derive(Default)]
pub struct Counts {
    /// In the order of `NUMBERS`.
    numbers: [u64; NUMBERS.len()],
    verdicts: [u64; 3],
}

impl Counts {
    pub fn add(&mut self, answer: &Answer) {
        let number = NUMBERS.iter().position(|&number| number == answer.number);
        self.numbers[number.expect("a number of the table")] += 1;
        if answer.number == 0 {
            self.verdicts[answer.verdict as usize] += 1;
        }
    }

    pub fn print(&self) {
        println!("accepted {}", self.numbers[0]);
        for (verdict, count) in self.verdicts.iter().enumerate() {
            println!("  verdict {verdict}: {count}");
        }
        for (number, count) in NUMBERS.iter().zip(&self.numbers).skip(1) {
            println!("refused {number}: {count}");
        }
    }

    /// That every number and every verdict came.
    pub fn complete(&self) -> Result<(), String> {
        let never = |counts: &[u64]| counts.iter().position(|&count| count == 0);
        if let Some(index) = never(&self.numbers) {
            return Err(format!("number {} never came", NUMBERS[index]));
        }
        match never(&self.verdicts) {
            Some(verdict) => Err(format!("verdict {verdict} never came")),
            None => Ok(()),
        }
    }
}

/// How many pairs of filings were held against each other.
#[derive(Default)]
pub struct Pairs {
    accepted_marks: u64,
    refused_marks: u64,
    further_covers: u64,
    exact_corrections: u64,
    bounded_corrections: u64,
    netted_corrections: u64,
}

impl Pairs {
    /// A book and the same with more marks, which is accepted or refused alike.
    pub fn more_marks(&mut self, first: &Answer) {
        match first.number {
            0 => self.accepted_marks += 1,
            _ => self.refused_marks += 1,
        }
    }

    pub fn further_covers(&mut self) {
        self.further_covers += 1;
    }

    /// A book and the same with this amount corrected, which has an exact effect,
    /// only a ceiling, or neither.
    pub fn correction(&mut self, amount: Amount) {
        match (amount.effect(), amount.ceiling()) {
            (Some(_), _) => self.exact_corrections += 1,
            (None, Some(_)) => self.bounded_corrections += 1,
            (None, None) => self.netted_corrections += 1,
        }
    }

    pub fn print(&self) {
        let [accepted, refused] = [self.accepted_marks, self.refused_marks];
        println!("pairs with more marks: accepted {accepted}, refused {refused}");
        println!("pairs with further covers: {}", self.further_covers);
        let (exact, bounded) = (self.exact_corrections, self.bounded_corrections);
        let netted = self.netted_corrections;
        println!("pairs with one amount corrected: with an exact effect {exact}, with a ceiling alone {bounded}, netted values {netted}");
    }

    /// That pairs of each sort came.
    pub fn complete(&self) -> Result<(), String> {
        for (count, sort) in [
            (self.accepted_marks, "accepted pair with more marks"),
            (self.refused_marks, "refused pair with more marks"),
            (self.further_covers, "pair with further covers"),
            (self.exact_corrections, "correction with an exact effect"),
            (self.bounded_corrections, "correction with a ceiling alone"),
            (self.netted_corrections, "correction of a netted value"),
        ] {
            if count == 0 {
                return Err(format!("no {sort} came"));
            }
        }
        Ok(())
    }
}

/// A book as hexadecimal words, for the reader of a failure.
pub fn hexadecimal(book: &[u32]) -> String {
    const SHOWN: usize = 20_000;
    let mut text: Vec<String> = book
        .iter()
        .take(SHOWN)
        .map(|word| format!("0x{word:08X}"))
        .collect();
    if book.len() > SHOWN {
        text.push(format!("... of {} words", book.len()));
    }
    text.join(" ")
}
