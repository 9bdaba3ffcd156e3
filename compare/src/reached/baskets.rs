//! Baskets of accepted books, and which of their grades decides.

use super::{Feature, Reached, Record};
use crate::generate::{LAST_GRADE, LAST_QUALIFYING_GRADE, MOST_NAMES};

const PATTERNS: [&str; 6] = [
    "basket with n = 1 of several names",
    "basket with n = m of several names",
    "basket with equal grades at the n-th place",
    // What programs would take that read the grades otherwise.
    "basket whose factor changes if equal grades count once",
    "basket whose factor changes with the n-th best grade",
    "basket whose factor changes with the n-th grade as written",
];

pub fn list() -> Vec<Feature> {
    let mut list: Vec<Feature> = PATTERNS.iter().map(|&name| (name, [0; 3])).collect();
    list.extend((1..=MOST_NAMES).map(|names| ("names of a basket", [names, 0, 0])));
    list.extend((1..=MOST_NAMES).map(|nth| ("n of a basket", [nth, 0, 0])));
    let grades = [
        0,
        LAST_QUALIFYING_GRADE,
        LAST_QUALIFYING_GRADE + 1,
        LAST_GRADE,
    ];
    list.extend(grades.map(|grade| ("n-th worst grade", [grade, 0, 0])));
    list.extend([4, 5, 6, 7, 11].map(|kind| ("record before a basket", [kind, 0, 0])));
    for netting in 0..2 {
        list.extend([0, 1].map(|exempt| ("basket in a set, netted, exempt", [netting, exempt, 0])));
    }
    list
}

impl Reached {
    pub(super) fn baskets(&mut self, records: &[Record]) {
        let mut set = [0; 3];
        for pair in records.windows(2) {
            let (before, record) = (&pair[0], &pair[1]);
            if before.kind == 4 {
                set = [before.field(0, 1), before.field(5, 1), 0];
            }
            if record.kind == 11 {
                self.came("record before a basket", [before.kind, 0, 0]);
                self.came("basket in a set, netted, exempt", set);
                self.basket(record);
            }
        }
    }

    fn basket(&mut self, basket: &Record) {
        let grades = &basket.amounts[2..];
        let (nth, names) = (basket.field(0, 6) as usize, grades.len());
        self.came("names of a basket", [names as u32, 0, 0]);
        self.came("n of a basket", [nth as u32, 0, 0]);
        let several = names > 1;
        self.pattern(several && nth == 1, "basket with n = 1 of several names");
        self.pattern(
            several && nth == names,
            "basket with n = m of several names",
        );

        let mut worst = grades.to_vec();
        worst.sort_unstable_by(|one, other| other.cmp(one));
        let decides = worst[nth - 1];
        let before = nth > 1 && worst[nth - 2] == decides;
        let equal = before || worst.get(nth) == Some(&decides);
        self.pattern(equal, "basket with equal grades at the n-th place");
        // Without a notional no factor shows.
        if basket.amounts[1] > 0 {
            self.came("n-th worst grade", [decides, 0, 0]);
            self.grades_read_otherwise(nth, grades, &worst);
        }
    }

    fn grades_read_otherwise(&mut self, nth: usize, grades: &[u32], worst: &[u32]) {
        let mut once = worst.to_vec();
        once.dedup();
        let qualifies = |grade: &u32| *grade <= LAST_QUALIFYING_GRADE;
        let changes = |grade: Option<&u32>| {
            grade.is_some_and(|grade| qualifies(grade) != qualifies(&worst[nth - 1]))
        };
        self.pattern(
            changes(once.get(nth - 1)),
            "basket whose factor changes if equal grades count once",
        );
        self.pattern(
            changes(worst.iter().nth_back(nth - 1)),
            "basket whose factor changes with the n-th best grade",
        );
        self.pattern(
            changes(grades.get(nth - 1)),
            "basket whose factor changes with the n-th grade as written",
        );
    }
}
