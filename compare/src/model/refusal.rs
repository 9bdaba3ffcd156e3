//! Why and where a book is turned away.

/// The causes in the order in which they are judged: that of the paper's table,
/// with the date of request A.2, the basket of A.3 and the set of A.1 where these
/// put them.
#[derive(Clone, Copy, PartialEq, Eq, Debug)]
pub enum Cause {
    RowsTooShort = 1,
    BookTooLong = 2,
    NoHead = 3,
    DateFaulty = 16,
    RegisterTooShort = 4,
    KindNotAllowed = 5,
    AmountMissing = 6,
    PayloadFaulty = 7,
    AmountFaulty = 8,
    AmountsDisagree = 9,
    DaysFall = 10,
    NoSuchProtection = 11,
    ProtectionUnfit = 12,
    CoverTooLarge = 13,
    BasketFaulty = 17,
    EndFaulty = 14,
    /// Of no filing: of the calls that show a set or count its settings, behind all
    /// causes of the book.
    NoSuchSet = 15,
}

impl Cause {
    pub fn number(self) -> u32 {
        self as u32
    }

    /// `Ok` where the condition holds, otherwise this cause.
    pub fn unless(self, condition: bool) -> Result<(), Cause> {
        if condition {
            Ok(())
        } else {
            Err(self)
        }
    }

    /// This cause where no record is to blame.
    pub fn at_start(self) -> Refusal {
        Refusal {
            cause: self,
            place: 0,
        }
    }
}

/// A cause with the index of the faulty record's first word.
#[derive(Clone, Copy, PartialEq, Eq, Debug)]
pub struct Refusal {
    pub cause: Cause,
    pub place: usize,
}
