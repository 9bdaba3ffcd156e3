//! The boundary of the library and of the benchmark's archive, and the only
//! unsafe code of the package.

use std::slice;

use crate::model::{Answer, Counted, Entry, Shown, NO_VERDICT, VERDICTS};

extern "C" {
    fn leverage_file(
        book: *const u32,
        book_len: usize,
        rows: *mut i64,
        rows_len: usize,
        register: *mut Entry,
        register_len: usize,
    ) -> u64;
    fn leverage_show(
        book: *const u32,
        book_len: usize,
        ordinal: usize,
        register: *mut Entry,
        register_len: usize,
        stretch: *mut Stretch,
    ) -> u64;
    fn leverage_settings(
        book: *const u32,
        book_len: usize,
        ordinal: usize,
        register: *mut Entry,
        register_len: usize,
        counts: *mut u32,
    ) -> u64;
}

/// A part of the caller's book, as C has it.
#[repr(C)]
struct Stretch {
    words: *const u32,
    count: usize,
}

pub fn file(book: &[u32], rows: &mut [i64], register: &mut [Entry]) -> Answer {
    // SAFETY: each pointer comes with the length of its own slice, the slices
    // do not overlap, `Entry` has the layout of the C struct, and the library
    // keeps none of the pointers.
    let packed = unsafe {
        leverage_file(
            book.as_ptr(),
            book.len(),
            rows.as_mut_ptr(),
            rows.len(),
            register.as_mut_ptr(),
            register.len(),
        )
    };
    Answer {
        number: (packed & 0xFF) as u32,
        place: (packed >> 16) as usize,
        verdict: (packed >> 8 & 0xFF) as u32,
    }
}

/// What a stretch is before the call: no part of any book, so that it is told if
/// the library leaves it so.
static UNWRITTEN: [u32; 1] = [0];

/// In the place of the verdict the answer always says that there is none.
pub fn show<'a>(book: &'a [u32], ordinal: usize, register: &mut [Entry]) -> Shown<'a> {
    let mut stretch = Stretch {
        words: UNWRITTEN.as_ptr(),
        count: UNWRITTEN.len(),
    };
    // SAFETY: as above, and `Stretch` too has the layout of its C struct. It is a
    // static slice before the call and a part of the book after it, so that it can
    // be read for as long as the book.
    let (packed, stretch) = unsafe {
        let packed = leverage_show(
            book.as_ptr(),
            book.len(),
            ordinal,
            register.as_mut_ptr(),
            register.len(),
            &mut stretch,
        );
        (packed, slice::from_raw_parts(stretch.words, stretch.count))
    };
    assert_eq!(packed >> 8 & 0xFF, u64::from(NO_VERDICT));
    Shown {
        number: (packed & 0xFF) as u32,
        place: (packed >> 16) as usize,
        stretch,
    }
}

/// What counts are before the call: more than there are settings, so that it is told
/// if the library leaves one of them so.
const UNCOUNTED: u32 = u32::MAX;

/// As above, the answer has no verdict. The counts stand before one more number,
/// which is not lent.
pub fn settings(book: &[u32], ordinal: usize, register: &mut [Entry]) -> Counted {
    let mut numbers = [UNCOUNTED; VERDICTS + 1];
    // SAFETY: as above, and there is a number for each verdict.
    let packed = unsafe {
        leverage_settings(
            book.as_ptr(),
            book.len(),
            ordinal,
            register.as_mut_ptr(),
            register.len(),
            numbers.as_mut_ptr(),
        )
    };
    assert_eq!(packed >> 8 & 0xFF, u64::from(NO_VERDICT));
    let [counts @ .., behind] = numbers;
    assert_eq!(behind, UNCOUNTED);
    Counted {
        number: (packed & 0xFF) as u32,
        place: (packed >> 16) as usize,
        counts,
    }
}

/// The weighted add-on, worked out in three ways for the benchmark.
mod archive {
    extern "C" {
        pub fn addon_directly(add_on: u64, gross: u64, losses: u64) -> u64;
        pub fn addon_by_share(add_on: u64, gross: u64, losses: u64) -> u64;
        pub fn addon_by_halving(add_on: u64, gross: u64, losses: u64) -> u64;
    }
}

/// What the archive answers to numbers that it does not take.
const REFUSAL: u64 = u64::MAX;

fn answered(answer: u64) -> Option<u64> {
    (answer != REFUSAL).then_some(answer)
}

pub fn addon_directly(add_on: u64, gross: u64, losses: u64) -> Option<u64> {
    // SAFETY: the archive's functions take all numbers, and no pointer.
    answered(unsafe { archive::addon_directly(add_on, gross, losses) })
}

pub fn addon_by_share(add_on: u64, gross: u64, losses: u64) -> Option<u64> {
    // SAFETY: as above.
    answered(unsafe { archive::addon_by_share(add_on, gross, losses) })
}

pub fn addon_by_halving(add_on: u64, gross: u64, losses: u64) -> Option<u64> {
    // SAFETY: as above.
    answered(unsafe { archive::addon_by_halving(add_on, gross, losses) })
}
