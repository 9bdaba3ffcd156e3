//! The ways in which written credits are covered.

use super::{Feature, Reached, Record};

const PATTERNS: [&str; 14] = [
    "no cover",
    "one cover",
    "several covers",
    "two protections for one credit",
    "one protection twice for one credit",
    "one protection for two credits",
    "protection used up",
    "credit covered whole",
    "cover of equal rank",
    "cover of a more junior rank",
    "cover of equal days",
    "cover of longer days",
    "cover by the last protection",
    "covered and uncovered credits in one set",
];

pub fn list() -> Vec<Feature> {
    let mut list: Vec<Feature> = PATTERNS.iter().map(|&name| (name, [0; 3])).collect();
    for netting in 0..2 {
        list.extend([0, 1].map(|exempt| ("cover in a set, netted, exempt", [netting, exempt, 0])));
    }
    list
}

/// The covers of the written credit at this index.
pub fn covers_of<'a, 'b>(records: &'b [Record<'a>], index: usize) -> Vec<&'b Record<'a>> {
    let behind = records[index + 1..].iter();
    behind.take_while(|next| next.kind == 7).collect()
}

impl Reached {
    pub(super) fn covers(&mut self, records: &[Record]) {
        let protections: Vec<&Record> = records.iter().filter(|r| r.kind == 3).collect();
        let available = |record: &&Record| record.amounts[0] - record.amounts[1];
        let mut left: Vec<u32> = protections.iter().map(available).collect();
        let mut used = vec![0; left.len()];
        let mut set = None;
        let mut in_set = [false; 2];
        for (index, record) in records.iter().enumerate() {
            match record.kind {
                4 => {
                    set = Some(record);
                    in_set = [false; 2];
                }
                6 => {
                    let covers = covers_of(records, index);
                    in_set[usize::from(covers.is_empty())] = true;
                    let both = in_set == [true; 2];
                    self.pattern(both, "covered and uncovered credits in one set");
                    if let (Some(set), false) = (set, covers.is_empty()) {
                        let marks = [set.field(0, 1), set.field(5, 1), 0];
                        self.came("cover in a set, netted, exempt", marks);
                    }
                    self.credit(record, &covers, &protections);
                    for cover in &covers {
                        left[cover.payload as usize] -= cover.amounts[0];
                    }
                    let mut named: Vec<usize> = covers.iter().map(|c| c.payload as usize).collect();
                    named.sort_unstable();
                    named.dedup();
                    for place in named {
                        self.pattern(used[place] > 0, "one protection for two credits");
                        self.pattern(left[place] == 0, "protection used up");
                        used[place] += 1;
                    }
                }
                _ => {}
            }
        }
    }

    fn credit(&mut self, credit: &Record, covers: &[&Record], protections: &[&Record]) {
        self.pattern(covers.is_empty(), "no cover");
        self.pattern(covers.len() == 1, "one cover");
        self.pattern(covers.len() > 1, "several covers");
        let pairs = || covers.iter().zip(covers.iter().skip(1));
        let two = pairs().any(|(one, next)| one.payload != next.payload);
        self.pattern(two, "two protections for one credit");
        let twice = pairs().any(|(one, next)| one.payload == next.payload);
        self.pattern(twice, "one protection twice for one credit");
        let sum: u32 = covers.iter().map(|cover| cover.amounts[0]).sum();
        let whole = sum > 0 && sum == credit.amounts[1] - credit.amounts[2];
        self.pattern(whole, "credit covered whole");
        for cover in covers {
            let place = cover.payload as usize;
            let protection = protections[place];
            let ranks = [protection, credit].map(|record| record.field(16, 4));
            let days = [protection.amounts[2], credit.amounts[3]];
            self.pattern(ranks[0] == ranks[1], "cover of equal rank");
            self.pattern(ranks[0] > ranks[1], "cover of a more junior rank");
            self.pattern(days[0] == days[1], "cover of equal days");
            self.pattern(days[0] > days[1], "cover of longer days");
            let last = place > 0 && place + 1 == protections.len();
            self.pattern(last, "cover by the last protection");
        }
    }
}
