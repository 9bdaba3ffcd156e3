//! The model against another implementation, on the same books and buffers, and
//! both against what must hold of every filing, on two desks, with further covers
//! and with one amount corrected. Sets of each book are shown by both as well, and
//! the settings of some are counted.

mod filed;
mod ordinals;
mod settings;
mod shows;
#[cfg(test)]
mod tests;

use crate::filing::{hexadecimal, Buffers, Counting, Counts, Filing, Lengths, Pairs, Showing};
use crate::generate::{self, corrections, further_covers, more_marks, Correction, Random};
use crate::model::Answer;
use crate::reached::Reached;
use crate::{laws, model};
use filed::Filed;
use settings::Settings;
use shows::Shows;

/// Books between two changes of the dirt in the buffers.
const SAME_DIRT: u64 = 64;

/// Another implementation, with the name that a failure gives it.
#[derive(Clone, Copy)]
pub struct Peer {
    pub name: &'static str,
    pub file: Filing,
    pub show: Showing,
    pub settings: Counting,
}

pub fn run(peer: Peer, books: u64, seed: u64) -> Result<(), String> {
    let mut random = Random::new(seed);
    let mut sides = Sides::new(peer, seed, &mut random);
    for count in 0..books {
        if count % SAME_DIRT == 0 {
            sides.soil(&mut random);
        }
        let filed = sides.book(&mut random);
        filed.map_err(|what| format!("book {count} of seed {seed}: {what}"))?;
    }
    println!("books {books}, seed {seed}: no difference");
    sides.counts.print();
    sides.pairs.print();
    sides.shows.print();
    sides.settings.print();
    sides.reached.print();
    sides.counts.complete()?;
    sides.pairs.complete()?;
    sides.reached.complete()
}

/// A book as it was filed, with the buffers as that left them; the second book of
/// each of its pairs is filed in these.
struct First {
    book: Vec<u32>,
    lengths: Lengths,
    answer: Answer,
    left: Buffers,
}

/// Each side keeps its own buffers, which start equal and must stay so.
struct Sides {
    peer: Peer,
    model_side: Buffers,
    peer_side: Buffers,
    counts: Counts,
    pairs: Pairs,
    shows: Shows,
    settings: Settings,
    reached: Reached,
}

impl Sides {
    fn new(peer: Peer, seed: u64, random: &mut Random) -> Self {
        let dirt = Buffers::dirty(random);
        Sides {
            peer,
            model_side: dirt.clone(),
            peer_side: dirt,
            counts: Counts::default(),
            pairs: Pairs::default(),
            shows: Shows::new(peer, seed),
            settings: Settings::new(peer, seed),
            reached: Reached::default(),
        }
    }

    fn soil(&mut self, random: &mut Random) {
        self.model_side = Buffers::dirty(random);
        self.peer_side = self.model_side.clone();
    }

    /// A book and the second books of its pairs. Further covers come last, as they
    /// alone change the register.
    fn book(&mut self, random: &mut Random) -> Result<(), String> {
        let book = generate::book(random);
        let lengths = Lengths::choose(&book, random);
        let before = self.model_side.clone();
        let answer = self.file(&book, lengths, &before)?;
        let filed = Filed::new(&book, lengths, &before.register);
        self.shows.book(&filed, &mut self.reached)?;
        self.settings.book(&filed, &mut self.reached)?;
        let first = First {
            book,
            lengths,
            answer,
            left: self.model_side.clone(),
        };
        self.second_desk(&first, random)?;
        if answer.number == 0 {
            for correction in corrections(&first.book, random) {
                self.correction(&first, &correction)?;
            }
            self.further_covers(&first, random)?;
        }
        Ok(())
    }

    fn file(&mut self, book: &[u32], lengths: Lengths, before: &Buffers) -> Result<Answer, String> {
        let ours = self.model_side.file(book, lengths, model::file);
        let theirs = self.peer_side.file(book, lengths, self.peer.file);
        self.counts.add(&ours);
        self.reached.add(book, &ours, lengths);
        let failed = if ours != theirs {
            Err("another answer".to_string())
        } else if let Some(difference) = self.model_side.difference(&self.peer_side) {
            Err(difference)
        } else {
            laws::filing(book, &ours, before, &self.model_side, lengths)
        };
        let name = self.peer.name;
        failed.map(|()| theirs).map_err(|what| {
            let words = hexadecimal(book);
            format!("{lengths:?}\n{words}\nmodel {ours:?}\n{name} {theirs:?}\nmodel against {name}: {what}")
        })
    }

    /// Files the second book of a pair in the buffers as the first left them. Only
    /// the rows are put back: the register is still the same, as long as no
    /// further covers were filed.
    fn file_second(&mut self, first: &First, book: &[u32]) -> Result<Answer, String> {
        for side in [&mut self.model_side, &mut self.peer_side] {
            side.rows.copy_from_slice(&first.left.rows);
        }
        self.file(book, first.lengths, &first.left)
    }

    /// The same book with more marks: refused alike, or accepted and no worse.
    fn second_desk(&mut self, first: &First, random: &mut Random) -> Result<(), String> {
        let book = more_marks(&first.book, random);
        let second = self.file_second(first, &book)?;
        self.pairs.more_marks(&first.answer);
        laws::two_desks(&first.answer, &first.left, &second, &self.model_side)
            .map_err(|what| format!("two desks, {what}; second desk\n{}", hexadecimal(&book)))
    }

    /// The same book with one amount corrected.
    fn correction(&mut self, first: &First, correction: &Correction) -> Result<(), String> {
        let second = self.file_second(first, &correction.book)?;
        let (amount, raised) = (correction.amount, correction.raised());
        let (left, side) = (&first.left, &self.model_side);
        let moved = side.rows[20] - left.rows[20];
        self.pairs.correction(amount);
        self.reached.correction(correction, moved);
        laws::correction(&first.answer, left, &second, side, amount, raised).map_err(|what| {
            let (record, before, after) = (correction.record, correction.before, correction.after);
            let change = format!("{amount:?} of record {record} from {before} to {after}");
            let words = hexadecimal(&correction.book);
            format!("{change}, {what}; corrected\n{words}")
        })
    }

    /// The same book with further covers, where any fits.
    fn further_covers(&mut self, first: &First, random: &mut Random) -> Result<(), String> {
        let Some(further) = further_covers(&first.book, &first.left.register, random) else {
            return Ok(());
        };
        let second = self.file_second(first, &further.book)?;
        self.pairs.further_covers();
        let (left, side) = (&first.left, &self.model_side);
        laws::further_covers(&first.answer, left, &second, side, &further.drawn).map_err(|what| {
            let words = hexadecimal(&further.book);
            format!("further covers, {what}; with them\n{words}")
        })
    }
}
