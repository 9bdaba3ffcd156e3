//! The same book with further covers: by protections that have something left,
//! of written credits that have room for it.

use super::{amounts, correct_count, word, Random};
use crate::model::{Entry, LONGEST_BOOK};

/// The words of a cover.
const COVER: usize = 2;

pub struct FurtherCovers {
    pub book: Vec<u32>,
    /// What the further covers take from each protection.
    pub drawn: Vec<u32>,
}

/// Of an accepted book and the register as its filing left it; none where no
/// cover fits.
pub fn further_covers(
    book: &[u32],
    register: &[Entry],
    random: &mut Random,
) -> Option<FurtherCovers> {
    let protections = (book[0] & 0x0FFF_FFFF) as usize;
    let left = &register[..protections];
    if left.iter().all(|entry| entry.left == 0) {
        return None;
    }
    // Now and then some credits get none, as long as any other does.
    let some = random.one_in(3).then_some(false);
    some.into_iter()
        .chain([true])
        .find_map(|every| Writer::written(book, left, every, random))
}

struct Writer<'a> {
    book: Vec<u32>,
    /// The protections with what is left of them for the covers still to come.
    left: Vec<Entry>,
    drawn: Vec<u32>,
    /// Words by which the book may still grow.
    room: usize,
    random: &'a mut Random,
}

impl Writer<'_> {
    fn written(
        book: &[u32],
        left: &[Entry],
        every: bool,
        random: &mut Random,
    ) -> Option<FurtherCovers> {
        let mut writer = Writer {
            book: Vec::with_capacity(book.len()),
            left: left.to_vec(),
            drawn: vec![0; left.len()],
            room: LONGEST_BOOK - book.len(),
            random,
        };
        let mut rest = book;
        while let [first, ..] = rest {
            let (record, mut behind) = rest.split_at(1 + amounts(*first));
            writer.book.extend_from_slice(record);
            if first >> 28 == 6 {
                let covers = length_of_covers(behind);
                let chosen = every || writer.random.one_in(2);
                writer.covers(record, &behind[..covers], chosen);
                behind = &behind[covers..];
            }
            rest = behind;
        }
        correct_count(&mut writer.book);
        let any = writer.book.len() > book.len();
        any.then_some(FurtherCovers {
            book: writer.book,
            drawn: writer.drawn,
        })
    }

    /// The covers of a credit, with further ones among them if it is chosen.
    fn covers(&mut self, credit: &[u32], covers: &[u32], chosen: bool) {
        let mut covers: Vec<[u32; COVER]> = covers.chunks(COVER).map(|c| [c[0], c[1]]).collect();
        let covered: u32 = covers.iter().map(|cover| cover[1]).sum();
        let mut open = credit[2] - credit[3] - covered;
        let times = if chosen {
            self.random.pick(&[1, 1, 1, 2, 3])
        } else {
            0
        };
        for _ in 0..times {
            let fitting: Vec<usize> = (0..self.left.len())
                .filter(|&place| fits(&self.left[place], credit))
                .collect();
            if fitting.is_empty() || open == 0 || self.room < COVER {
                break;
            }
            let place = self.random.pick(&fitting);
            let most = self.left[place].left.min(open);
            let any = self.random.between(1, most);
            let amount = self.random.pick(&[1, any, any, most]);
            self.left[place].left -= amount;
            self.drawn[place] += amount;
            open -= amount;
            self.room -= COVER;
            let among = self.random.index(covers.len() + 1);
            covers.insert(among, [word(7, place as u32), amount]);
        }
        self.book.extend(covers.concat());
    }
}

/// The words of the covers that begin here.
fn length_of_covers(words: &[u32]) -> usize {
    let covers = words.chunks(COVER).take_while(|cover| cover[0] >> 28 == 7);
    COVER * covers.count()
}

/// Whether a protection has anything left and may cover this written credit.
fn fits(entry: &Entry, credit: &[u32]) -> bool {
    let (entity, rank, days) = (credit[0] & 0xFFFF, credit[0] >> 16 & 0xF, credit[4]);
    entry.left > 0 && entry.entity == entity && entry.rank >= rank && entry.days >= days
}
