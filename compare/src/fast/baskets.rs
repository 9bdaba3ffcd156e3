//! Baskets. No grade is sorted: the n-th worst qualifies where fewer than n of
//! them do not.

use super::{check, signed, Fault, Outcome, SIGN};

const MOST_NAMES: usize = 32;
const LAST_QUALIFYING_GRADE: i32 = 9;
const LAST_GRADE: u32 = 31;

/// What is to be known of the grades of a basket.
struct Grades {
    /// The bits that any of them has.
    all: u32,
    /// How many do not qualify, if all are grades at all.
    not_qualifying: u32,
}

impl Grades {
    #[inline(always)]
    fn of(grades: impl Iterator<Item = u32>) -> Self {
        let none = Grades {
            all: 0,
            not_qualifying: 0,
        };
        grades.fold(none, |before, grade| Grades {
            all: before.all | grade,
            // Signed numbers are compared several at once. A word that would be
            // negative is of another kind, and its basket refused.
            not_qualifying: before.not_qualifying + u32::from(grade as i32 > LAST_QUALIFYING_GRADE),
        })
    }
}

/// The grades that begin at `place`, or none where the book ends before them.
#[inline(always)]
fn grades(book: &[u32], place: usize, names: usize) -> Option<Grades> {
    let behind = book.get(place..)?;
    // A count of rounds that is as good as random would cost a wrong guess each
    // time. So where the book goes on, as many words as there can be names are
    // looked at, and those behind the last grade count as 0.
    match behind.first_chunk::<MOST_NAMES>() {
        Some(words) if names <= MOST_NAMES => {
            let counted = |(index, &word): (i32, &u32)| {
                if index < names as i32 {
                    word
                } else {
                    0
                }
            };
            Some(Grades::of((0..).zip(words).map(counted)))
        }
        _ => behind
            .get(..names)
            .map(|words| Grades::of(words.iter().copied())),
    }
}

/// The names that a basket's word counts.
#[inline(always)]
pub fn names(word: u32) -> usize {
    (word >> 6 & 0x3F) as usize
}

/// The value of the basket at `place`, and its add-on in thousandths. In a call
/// of its own it leaves the loop over trades and credits as it was.
#[inline(never)]
pub fn basket(book: &[u32], place: usize, word: u32) -> Outcome<(i64, u64)> {
    let nth = word & 0x3F;
    let names = names(word);
    let Some(grades) = grades(book, place + 3, names) else {
        return Err(Fault { number: 6, place });
    };
    let [value, notional] = [book[place + 1], book[place + 2]];
    check((value | notional | grades.all) >> 28 == 0, 6, place)?;
    check(word & 0x0FFF_F000 == 0, 7, place)?;
    check(value != SIGN && (notional | grades.all) < SIGN, 8, place)?;
    let counts = nth != 0 && nth as usize <= names && names <= MOST_NAMES;
    // The last grade has all bits that a grade can have.
    check(counts && grades.all <= LAST_GRADE, 17, place)?;
    let factor = 50 + 50 * u64::from(grades.not_qualifying >= nth);
    Ok((signed(value), factor * u64::from(notional)))
}
