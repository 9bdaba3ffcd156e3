//! Baskets, most of them with grades on either side of what qualifies.

use super::super::{LAST_GRADE, LAST_QUALIFYING_GRADE, MOST_NAMES};
use super::Writer;

/// The last grade that qualifies, and the first that does not.
const GOOD: u32 = LAST_QUALIFYING_GRADE;
const BAD: u32 = LAST_QUALIFYING_GRADE + 1;

/// Grades to choose from: these two, those beside them, and the ends of what
/// grades can be.
const CLOSE: [&[u32]; 4] = [
    &[GOOD, BAD],
    &[GOOD - 1, GOOD, BAD, BAD + 1],
    &[0, GOOD, BAD, LAST_GRADE],
    &[0, LAST_GRADE],
];

impl Writer<'_> {
    pub(super) fn basket(&mut self) {
        let names = match self.random.below(6) {
            0 => 1,
            1 => MOST_NAMES,
            2 => self.random.between(1, MOST_NAMES),
            _ => self.random.between(2, 5),
        };
        let nth = match self.random.below(3) {
            0 => 1,
            1 => names,
            _ => self.random.between(1, names),
        };
        let mut amounts = vec![self.signed_size(), self.size()];
        amounts.extend(self.grades(names));
        self.record(11, nth | names << 6, &amounts);
    }

    fn grades(&mut self, names: u32) -> Vec<u32> {
        let any = self.random.one_in(4);
        let close = self.random.pick(&CLOSE);
        let grade = |_| {
            if any {
                self.random.below(LAST_GRADE + 1)
            } else {
                self.random.pick(close)
            }
        };
        (0..names).map(grade).collect()
    }
}
