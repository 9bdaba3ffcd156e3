//! The settings of sets as the model and another implementation count them, in equal
//! registers: against each other, against the filing of the same book, and against
//! the same book with other marks.

#[cfg(test)]
mod tests;

use super::filed::Filed;
use super::{ordinals, Peer};
use crate::filing::{hexadecimal, same_entries, NO_SUCH_SET};
use crate::generate::{more_marks, on_an_edge, OnAnEdge, Random};
use crate::laws;
use crate::model::{self, set_to, Counted, Entry, SETTINGS};
use crate::reached::Reached;

/// Tells these choices from those of the books, by the same seed.
const STREAM: u64 = 12 << 32;

/// The model files a book once for each setting, so that of longer books only one in
/// so many is asked for any.
const LONG: usize = 2_000;
const LONG_ONES: u32 = 8;

/// Each accepted book is asked for one set with Tier 1 where its marks decide, and one
/// in so many for several sets as it is.
const AS_IT_IS: u32 = 4;

/// The calls of one run: how many of them counted settings, were refused 15, and were
/// refused with their book; and pairs of calls for books with other marks.
pub struct Settings {
    peer: Peer,
    /// Of its own, so that these calls do not change which books come.
    random: Random,
    counted: u64,
    no_sets: u64,
    refused: u64,
    pairs: u64,
}

/// What holds of an answer and of that for the same book with other marks.
type OtherMarks = fn(&Counted, &Counted) -> Result<(), String>;

impl Settings {
    pub fn new(peer: Peer, seed: u64) -> Self {
        Settings {
            peer,
            random: Random::new(seed ^ STREAM),
            counted: 0,
            no_sets: 0,
            refused: 0,
            pairs: 0,
        }
    }

    /// Counts settings of a filed book, and of the same with Tier 1 on an edge.
    pub fn book(&mut self, filed: &Filed, reached: &mut Reached) -> Result<(), String> {
        let book = filed.book;
        if filed.answer.number != 0 {
            let ordinals = ordinals::of_refused(&mut self.random);
            return self.each(filed, &ordinals, reached);
        }
        if book.len() > LONG && !self.random.one_in(LONG_ONES) {
            return Ok(());
        }
        if self.random.one_in(AS_IT_IS) {
            let ordinals = ordinals::of_accepted(book, &mut self.random);
            self.each(filed, &ordinals, reached)?;
        }
        match on_an_edge(book, &mut self.random) {
            Some(edge) => self.edge(&filed.with(&edge.book), &edge, reached),
            None => Ok(()),
        }
    }

    fn each(
        &mut self,
        filed: &Filed,
        ordinals: &[usize],
        reached: &mut Reached,
    ) -> Result<(), String> {
        for &ordinal in ordinals {
            self.settings(filed, ordinal, reached)?;
        }
        Ok(())
    }

    /// The settings of the set that a book was made for; then of the same set with more
    /// marks in the book, and with another setting filed for it.
    fn edge(
        &mut self,
        filed: &Filed,
        edge: &OnAnEdge,
        reached: &mut Reached,
    ) -> Result<(), String> {
        let ordinal = edge.ordinal;
        let first = self.settings(filed, ordinal, reached)?;
        let more = more_marks(&edge.book, &mut self.random);
        self.pair(filed, ordinal, &first, &more, laws::counted_with_more_marks)?;
        let mut other = edge.book.clone();
        let marks = self.random.below(SETTINGS as u32);
        other[edge.head] = set_to(other[edge.head], marks);
        let law = laws::counted_with_other_marks;
        self.pair(filed, ordinal, &first, &other, law)
    }

    /// What the peer answers and leaves in the register, all of it.
    fn theirs(&self, filed: &Filed, book: &[u32], ordinal: usize) -> (Counted, Vec<Entry>) {
        let mut register = filed.before.to_vec();
        let theirs = (self.peer.settings)(book, ordinal, &mut register[..filed.lent]);
        (theirs, register)
    }

    fn settings(
        &mut self,
        filed: &Filed,
        ordinal: usize,
        reached: &mut Reached,
    ) -> Result<Counted, String> {
        let (book, lent) = (filed.book, filed.lent);
        let mut our_side = filed.before.to_vec();
        let verdicts = model::verdicts(book, ordinal, &mut our_side[..lent]);
        let ours = model::counted(&verdicts);
        let (theirs, their_side) = self.theirs(filed, book, ordinal);
        match ours.number {
            0 => self.counted += 1,
            NO_SUCH_SET => self.no_sets += 1,
            _ => self.refused += 1,
        }
        reached.settings(book, ordinal, &filed.before[..lent], &verdicts);
        let failed = if ours != theirs {
            Err("another answer".to_string())
        } else if !same_entries(&our_side, &their_side) {
            Err("another register".to_string())
        } else {
            laws::counted(book, ordinal, &ours, &our_side, &filed.answer, &filed.after)
        };
        let name = self.peer.name;
        failed.map(|()| ours).map_err(|what| {
            let words = hexadecimal(book);
            format!("settings of set {ordinal} in a register of {lent}\n{words}\nmodel {ours:?}\n{name} {theirs:?}\nmodel against {name}: {what}")
        })
    }

    /// The peer alone, for a filed book with other marks, which do not change what is
    /// left in the register.
    fn pair(
        &mut self,
        filed: &Filed,
        ordinal: usize,
        first: &Counted,
        book: &[u32],
        law: OtherMarks,
    ) -> Result<(), String> {
        let (second, register) = self.theirs(filed, book, ordinal);
        self.pairs += 1;
        let held = match same_entries(&register, &filed.after) {
            true => law(first, &second),
            false => Err("another register".to_string()),
        };
        let name = self.peer.name;
        held.map_err(|what| {
            let [words, others] = [filed.book, book].map(hexadecimal);
            format!("settings of set {ordinal}\n{words}\n{first:?}\nand with other marks\n{others}\n{second:?}\n{name} with other marks: {what}")
        })
    }

    pub fn print(&self) {
        let (counted, no_sets, refused) = (self.counted, self.no_sets, self.refused);
        println!("settings counted: {counted}, refused 15: {no_sets}, refused with their book: {refused}, again with other marks: {}", self.pairs);
    }
}
