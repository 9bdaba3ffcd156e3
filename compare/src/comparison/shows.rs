//! Sets of each book as the model and another implementation show them, in equal
//! registers: against each other, and against the filing of that book.

#[cfg(test)]
mod tests;

use super::filed::Filed;
use super::ordinals::{self, LONG};
use super::Peer;
use crate::filing::{hexadecimal, same_entries, NO_SUCH_SET};
use crate::generate::{around_a_set, Random};
use crate::laws;
use crate::model::{self, Shown};
use crate::reached::Reached;

/// One in so many accepted books is changed around one of its sets and shown again.
const CHANGED: u32 = 3;

/// The calls of one run, and how many of them showed a set, were refused 15, and
/// were refused with their book.
pub struct Shows {
    peer: Peer,
    /// Of its own, so that what is shown does not change which books come.
    random: Random,
    sets: u64,
    no_sets: u64,
    refused: u64,
}

impl Shows {
    pub fn new(peer: Peer, seed: u64) -> Self {
        Shows {
            peer,
            random: Random::new(!seed),
            sets: 0,
            no_sets: 0,
            refused: 0,
        }
    }

    /// Shows sets of a filed book, and now and then of the same with a set doubled,
    /// lengthened or put off.
    pub fn book(&mut self, filed: &Filed, reached: &mut Reached) -> Result<(), String> {
        let book = filed.book;
        let mut answers = self.answers(filed, reached)?;
        answers.retain(|(_, shown)| shown.number == 0);
        if answers.is_empty() || book.len() > LONG || !self.random.one_in(CHANGED) {
            return Ok(());
        }
        let (_, set) = self.random.pick(&answers);
        let begin = set.begin(book).unwrap_or_default();
        let book = around_a_set(book, begin..begin + set.stretch.len(), &mut self.random);
        let again = self.answers(&filed.with(&book), reached);
        again.map(|_| ())
    }

    /// The answers for one book, by rising ordinals.
    fn answers<'a>(
        &mut self,
        filed: &Filed<'a>,
        reached: &mut Reached,
    ) -> Result<Vec<(usize, Shown<'a>)>, String> {
        let accepted = filed.answer.number == 0;
        let ordinals = match accepted {
            true => ordinals::of_accepted(filed.book, &mut self.random),
            false => ordinals::of_refused(&mut self.random),
        };
        let mut answers = Vec::new();
        for ordinal in ordinals {
            answers.push((ordinal, self.show(filed, ordinal)?));
        }
        if accepted {
            laws::sets(filed.book, &answers).map_err(|what| {
                let words = hexadecimal(filed.book);
                let told = |(ordinal, shown): &(usize, Shown)| {
                    (*ordinal, shown.begin(filed.book), shown.stretch.len())
                };
                let told: Vec<_> = answers.iter().map(told).collect();
                format!(
                    "{words}\nordinal, first word and length {told:?}\nsets of one book: {what}"
                )
            })?;
        }
        reached.sets(filed.book, &filed.before[..filed.lent], &answers);
        Ok(answers)
    }

    fn show<'a>(&mut self, filed: &Filed<'a>, ordinal: usize) -> Result<Shown<'a>, String> {
        let (book, lent) = (filed.book, filed.lent);
        let [mut our_side, mut their_side] = [(); 2].map(|()| filed.before.to_vec());
        let ours = model::show(book, ordinal, &mut our_side[..lent]);
        let theirs = (self.peer.show)(book, ordinal, &mut their_side[..lent]);
        match ours.number {
            0 => self.sets += 1,
            NO_SUCH_SET => self.no_sets += 1,
            _ => self.refused += 1,
        }
        let failed = if ours != theirs {
            Err("another answer".to_string())
        } else if !same_entries(&our_side, &their_side) {
            Err("another register".to_string())
        } else {
            laws::shown(book, &ours, &our_side, &filed.answer, &filed.after)
        };
        let name = self.peer.name;
        failed.map(|()| ours).map_err(|what| {
            let words = hexadecimal(book);
            let begins = [ours, theirs].map(|shown| shown.begin(book));
            format!("set {ordinal} in a register of {lent}\n{words}\nmodel {ours:?}\n{name} {theirs:?}\nfrom {begins:?} on\nmodel against {name}: {what}")
        })
    }

    pub fn print(&self) {
        let (sets, no_sets, refused) = (self.sets, self.no_sets, self.refused);
        println!("sets shown: {sets}, refused 15: {no_sets}, refused with their book: {refused}");
    }
}
